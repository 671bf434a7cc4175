//! The shape check in plain Rust, with no proofs: the measure that the proved check is held to.
//!
//! It was written from the rules alone and shares no code with the proved one, so that a
//! difference between the two answers points at a mistake in one of them.
//!
//! A table is sound if each node's children lie one behind the other right after it, the last one
//! ending where the node itself ends; if each child is of a kind that its place takes; if each
//! word is in the range of its kind; and if no node is nested more than 64 deep. The first node
//! in order that breaks a rule is reported. A child that does not fit is a fault of its parent.

/// A node of a table. The layout is the one that the proved library takes.
#[repr(C)]
#[derive(Clone, Copy, Debug, PartialEq, Eq)]
pub struct Node {
    pub kind: u8,
    /// how many nodes this one and all those below it are
    pub size: u16,
    pub word: u64,
}

#[derive(Clone, Copy, Debug, PartialEq, Eq)]
pub enum Fault {
    /// no nodes, or more than `MAX_NODES`
    Length,
    /// the kind, the size, the children or the length of a list
    Layout(usize),
    Word(usize),
    Depth(usize),
}

pub const MAX_NODES: usize = 1024;
pub const MAX_DEPTH: u8 = 64;

/// What one place among a node's children takes: a node of certain kinds and, if it is a list,
/// with a certain word.
#[derive(Clone, Copy)]
struct Place {
    /// bit k stands for kind k
    kinds: u64,
    /// the word of the list, 0 for any node
    list: u64,
}

const fn kinds(low: u8, high: u8) -> Place {
    Place {
        kinds: (1 << (high + 1)) - (1 << low),
        list: 0,
    }
}

const fn list(word: u64) -> Place {
    Place {
        kinds: 1 << LIST,
        list: word,
    }
}

impl Place {
    #[inline]
    fn takes(self, node: &Node) -> bool {
        let kind_fits = node.kind < 64 && self.kinds >> node.kind & 1 == 1;
        kind_fits && (self.list == 0 || self.list == node.word)
    }
}

/// The words that a kind may carry.
#[derive(Clone, Copy)]
struct Words {
    low: u64,
    high: u64,
    /// the bits that count
    mask: u64,
}

const fn words(low: u64, high: u64) -> Words {
    Words {
        low,
        high,
        mask: u64::MAX,
    }
}

/// The bits of finite floats: without their sign, all those up to the largest.
const FINITE: Words = Words {
    low: 0,
    high: f64::MAX.to_bits(),
    mask: !(1 << 63),
};

impl Words {
    #[inline]
    fn contain(self, word: u64) -> bool {
        (self.low..=self.high).contains(&(word & self.mask))
    }
}

const PROGRAM: u8 = 1;
const LIST: u8 = 2;

const NAME: Place = kinds(48, 48);
const EXPR: Place = kinds(19, 48);
const INSTRUCTION: Place = kinds(13, 48);
const TARGET: Place = kinds(47, 48);
const INITIALIZER: Place = kinds(8, 9);
const BODY: Place = kinds(10, 10);
const MAIN: Place = kinds(11, 12);
const CLASSES: Place = list(1);
const FIELDS: Place = list(2);
const METHODS: Place = list(3);
const PARAMS: Place = list(4);
const VARS: Place = list(5);
const INSTRUCTIONS: Place = list(6);
const EXPRESSIONS: Place = list(7);

#[derive(Clone, Copy)]
struct Row {
    children: &'static [Place],
    words: Words,
}

/// The row of a kind. What a list holds depends on its word: see `LISTS`.
const fn row(kind: u8) -> Row {
    let children: &[Place] = match kind {
        1 => &[CLASSES, MAIN],
        3 => &[NAME, NAME, FIELDS, METHODS],
        4 | 7 => &[NAME, NAME, INITIALIZER],
        5 => &[NAME, NAME, PARAMS, BODY],
        6 => &[NAME, NAME],
        8 | 17 | 33 | 34 => &[EXPR],
        10 | 11 => &[VARS, INSTRUCTIONS],
        13 | 14 => &[EXPRESSIONS],
        15 => &[EXPR, INSTRUCTIONS, INSTRUCTIONS],
        18 => &[EXPR, INSTRUCTIONS],
        19 => &[TARGET, EXPR],
        20..=32 => &[EXPR, EXPR],
        37 => &[NAME, EXPR],
        38 | 47 => &[EXPR, NAME],
        39 => &[EXPR, NAME, EXPRESSIONS],
        40 => &[NAME],
        _ => &[],
    };
    let words = match kind {
        2 => words(1, 7),
        4 | 45 => words(0, 1),
        42 => words(0, (1 << 31) - 1),
        43 => FINITE,
        44 => words(0, 0xffff),
        48 => words(1, 0xffff),
        _ => words(0, 0),
    };
    Row { children, words }
}

/// The rows of all kinds by number, and empty ones up to a power of two.
static ROWS: [Row; 64] = {
    let mut rows = [row(0); 64];
    let mut kind = 1;
    while kind <= 48 {
        rows[kind as usize] = row(kind);
        kind += 1;
    }
    rows
};

#[inline]
fn row_of(node: &Node) -> &'static Row {
    &ROWS[usize::from(node.kind & 63)]
}

/// What the list with each word holds, and how many at most. No sound table has a list 0.
static LISTS: [(Place, usize); 8] = [
    (kinds(0, 0), 0),
    (kinds(3, 3), 31),
    (kinds(4, 4), 16),
    (kinds(5, 5), 16),
    (kinds(6, 6), 8),
    (kinds(7, 7), 24),
    (INSTRUCTION, 64),
    (EXPR, 16),
];

/// The end of the part of the child at `at`, if it fits its place and ends by `end`.
#[inline]
fn child_end(nodes: &[Node], place: Place, at: usize, end: usize) -> Option<usize> {
    if at >= end {
        return None;
    }
    let child = &nodes[at];
    let child_end = at + usize::from(child.size);
    (place.takes(child) && child.size > 0 && child_end <= end).then_some(child_end)
}

/// Whether the children of the node at `at` fill its part, which ends at `end`. Notes the depth
/// of each child.
#[inline]
fn children_fit(nodes: &[Node], at: usize, end: usize, depths: &mut [u8; MAX_NODES]) -> bool {
    let node = &nodes[at];
    let child_depth = depths[at] + 1;
    let mut next = at + 1;
    if node.kind == LIST {
        let (element, most) = LISTS[(node.word & 7) as usize];
        let mut count = 0;
        while next < end {
            match child_end(nodes, element, next, end) {
                Some(after) if count < most => {
                    depths[next] = child_depth;
                    next = after;
                }
                _ => return false,
            }
            count += 1;
        }
    } else {
        for &place in row_of(node).children {
            match child_end(nodes, place, next, end) {
                Some(after) => {
                    depths[next] = child_depth;
                    next = after;
                }
                None => return false,
            }
        }
    }
    next == end
}

/// Checks a whole table in time linear in its length: each node is looked at once as a child,
/// and once for its own children and its word.
pub fn check_shape(nodes: &[Node]) -> Result<(), Fault> {
    if nodes.is_empty() || nodes.len() > MAX_NODES {
        return Err(Fault::Length);
    }
    if nodes[0].kind != PROGRAM || usize::from(nodes[0].size) != nodes.len() {
        return Err(Fault::Layout(0));
    }
    // Every node but the first passed as a child before its turn comes: its kind is known, its
    // part lies inside its parent's, and its depth is noted. The first has depth 1.
    let mut depths = [1; MAX_NODES];
    for (at, node) in nodes.iter().enumerate() {
        let end = at + usize::from(node.size);
        if !children_fit(nodes, at, end, &mut depths) {
            return Err(Fault::Layout(at));
        }
        if !row_of(node).words.contain(node.word) {
            return Err(Fault::Word(at));
        }
        if depths[at] > MAX_DEPTH {
            return Err(Fault::Depth(at));
        }
    }
    Ok(())
}
