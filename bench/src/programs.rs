//! Deca programs as node tables, made up from a starting number: the same number gives the same programs.
//!
//! A program has classes that extend one another, with fields, methods, locals, instructions and
//! expressions, and mostly a main block. Only its shape is meant to be right: types mostly fit, to
//! make the expressions like those of real programs, but nothing depends on it. `program` writes
//! one with an exact number of nodes, and `damage` breaks one.

use crate::plain::{MAX_DEPTH, Node};

/// A small generator of numbers (splitmix64).
pub struct Rng(pub u64);

impl Rng {
    pub fn next(&mut self) -> u64 {
        self.0 = self.0.wrapping_add(0x9e37_79b9_7f4a_7c15);
        let mut x = self.0;
        x = (x ^ (x >> 30)).wrapping_mul(0xbf58_476d_1ce4_e5b9);
        x = (x ^ (x >> 27)).wrapping_mul(0x94d0_49bb_1331_11eb);
        x ^ (x >> 31)
    }

    pub fn below(&mut self, n: usize) -> usize {
        (self.next() % n as u64) as usize
    }

    fn one_in(&mut self, n: usize) -> bool {
        self.below(n) == 0
    }

    fn pick<T: Copy>(&mut self, from: &[T]) -> T {
        from[self.below(from.len())]
    }
}

/// The number of each kind of node.
mod kind {
    pub const PROGRAM: u8 = 1;
    pub const LIST: u8 = 2;
    pub const DECL_CLASS: u8 = 3;
    pub const DECL_FIELD: u8 = 4;
    pub const DECL_METHOD: u8 = 5;
    pub const DECL_PARAM: u8 = 6;
    pub const DECL_VAR: u8 = 7;
    pub const INITIALIZATION: u8 = 8;
    pub const NO_INITIALIZATION: u8 = 9;
    pub const METHOD_BODY: u8 = 10;
    pub const MAIN: u8 = 11;
    pub const EMPTY_MAIN: u8 = 12;
    pub const PRINT: u8 = 13;
    pub const PRINTLN: u8 = 14;
    pub const IF_THEN_ELSE: u8 = 15;
    pub const NO_OPERATION: u8 = 16;
    pub const RETURN: u8 = 17;
    pub const WHILE: u8 = 18;
    pub const ASSIGN: u8 = 19;
    pub const DIVIDE: u8 = 20;
    pub const MINUS: u8 = 21;
    pub const MODULO: u8 = 22;
    pub const MULTIPLY: u8 = 23;
    pub const PLUS: u8 = 24;
    pub const AND: u8 = 25;
    pub const OR: u8 = 26;
    pub const EQUALS: u8 = 27;
    pub const NOT_EQUALS: u8 = 28;
    pub const GREATER: u8 = 29;
    pub const GREATER_OR_EQUALS: u8 = 30;
    pub const LOWER: u8 = 31;
    pub const LOWER_OR_EQUALS: u8 = 32;
    pub const UNARY_MINUS: u8 = 33;
    pub const NOT: u8 = 34;
    pub const READ_INT: u8 = 35;
    pub const READ_FLOAT: u8 = 36;
    pub const CAST: u8 = 37;
    pub const INSTANCE_OF: u8 = 38;
    pub const METHOD_CALL: u8 = 39;
    pub const NEW: u8 = 40;
    pub const THIS: u8 = 41;
    pub const INT_LITERAL: u8 = 42;
    pub const FLOAT_LITERAL: u8 = 43;
    pub const STRING_LITERAL: u8 = 44;
    pub const BOOLEAN_LITERAL: u8 = 45;
    pub const NULL_LITERAL: u8 = 46;
    pub const SELECTION: u8 = 47;
    pub const IDENTIFIER: u8 = 48;
}
use kind::*;

/// The words of the lists.
const CLASSES: u64 = 1;
const FIELDS: u64 = 2;
const METHODS: u64 = 3;
const PARAMS: u64 = 4;
const VARS: u64 = 5;
const INSTRUCTIONS: u64 = 6;
const EXPRESSIONS: u64 = 7;

/// The most elements that the list with each word holds.
const MOST: [usize; 8] = [0, 31, 16, 16, 8, 24, 64, 16];

const VOID: u64 = 1;
const OBJECT: u64 = 5;
const FIRST_SYMBOL: u64 = 100;

#[derive(Clone, Copy, PartialEq)]
enum Type {
    Boolean,
    Float,
    Int,
    /// by its place among the classes
    Class(usize),
}

#[derive(Clone)]
struct Method {
    name: u64,
    params: Vec<Type>,
    result: Option<Type>,
}

struct Class {
    name: u64,
    parent: Option<usize>,
    fields: Vec<(u64, Type)>,
    methods: Vec<Method>,
}

/// Writes a program down, node by node.
struct Author<'a> {
    rng: &'a mut Rng,
    nodes: Vec<Node>,
    classes: Vec<Class>,
    /// the class around the node at hand, none in the main block
    this: Option<usize>,
    /// the variables, parameters and fields that can be named
    scope: Vec<(u64, Type)>,
    last_symbol: u64,
}

/// A program of exactly `size` nodes, at least 32.
pub fn program(rng: &mut Rng, size: usize) -> Vec<Node> {
    let mut author = Author {
        rng,
        nodes: Vec::with_capacity(size),
        classes: Vec::new(),
        this: None,
        scope: Vec::new(),
        last_symbol: FIRST_SYMBOL,
    };
    author.program(size);
    author.nodes
}

impl Author<'_> {
    fn leaf(&mut self, kind: u8, word: u64) {
        self.nodes.push(Node {
            kind,
            size: 1,
            word,
        });
    }

    /// A node of a kind, with the children that `below` writes.
    fn node(&mut self, kind: u8, word: u64, below: impl FnOnce(&mut Self)) {
        let at = self.nodes.len();
        self.leaf(kind, word);
        below(self);
        self.nodes[at].size = (self.nodes.len() - at) as u16;
    }

    fn plain(&mut self, kind: u8, below: impl FnOnce(&mut Self)) {
        self.node(kind, 0, below);
    }

    fn list(&mut self, word: u64, below: impl FnOnce(&mut Self)) {
        self.node(LIST, word, below);
    }

    fn name(&mut self, symbol: u64) {
        self.leaf(IDENTIFIER, symbol);
    }

    fn new_symbol(&mut self) -> u64 {
        self.last_symbol += 1;
        self.last_symbol
    }

    // Types and names

    fn symbol_of(&self, of: Type) -> u64 {
        match of {
            Type::Boolean => 2,
            Type::Float => 3,
            Type::Int => 4,
            Type::Class(class) => self.classes[class].name,
        }
    }

    fn some_type(&mut self) -> Type {
        match self.rng.below(8) {
            0..3 => Type::Int,
            3..5 => Type::Float,
            5 => Type::Boolean,
            _ if self.classes.is_empty() => Type::Int,
            _ => Type::Class(self.rng.below(self.classes.len())),
        }
    }

    /// A class with its super-classes, the nearest first.
    fn line(&self, class: usize) -> Vec<usize> {
        std::iter::successors(Some(class), |&c| self.classes[c].parent).collect()
    }

    /// Some name in view of this type.
    fn name_of(&mut self, of: Type) -> Option<u64> {
        let found: Vec<u64> = self
            .scope
            .iter()
            .filter(|v| v.1 == of)
            .map(|v| v.0)
            .collect();
        if found.is_empty() {
            None
        } else {
            Some(self.rng.pick(&found))
        }
    }

    // Declarations

    fn program(&mut self, size: usize) {
        self.plain(PROGRAM, |a| {
            let with_main = !a.rng.one_in(8);
            a.list(CLASSES, |a| {
                if with_main {
                    a.classes_within(size * 3 / 4);
                } else {
                    // the last class has 12 nodes around its instructions, and EmptyMain follows
                    a.classes_within(size - 14);
                    let left = size - a.nodes.len() - 13;
                    a.last_class(left);
                }
            });
            if with_main {
                a.scope.clear();
                a.plain(MAIN, |a| {
                    a.main_vars(size - 1);
                    let left = size - a.nodes.len() - 1;
                    a.list(INSTRUCTIONS, |a| a.instructions_of(left));
                });
            } else {
                a.leaf(EMPTY_MAIN, 0);
            }
        });
    }

    /// Classes, up to 30, as long as the table stays within this many nodes.
    fn classes_within(&mut self, limit: usize) {
        for _ in 0..30 {
            let mark = self.nodes.len();
            self.class();
            if self.nodes.len() > limit {
                self.nodes.truncate(mark);
                self.classes.pop();
                return;
            }
        }
    }

    fn open_class(&mut self) -> (u64, u64) {
        let parent = match self.classes.len() {
            0 => None,
            _ if self.rng.one_in(4) => None,
            n => Some(self.rng.below(n)),
        };
        let name = self.new_symbol();
        let class = self.classes.len();
        self.classes.push(Class {
            name,
            parent,
            fields: Vec::new(),
            methods: Vec::new(),
        });
        self.this = Some(class);
        self.scope = Vec::new();
        for c in self.line(class) {
            self.scope.extend_from_slice(&self.classes[c].fields);
        }
        (name, parent.map_or(OBJECT, |p| self.classes[p].name))
    }

    fn class(&mut self) {
        let (name, parent) = self.open_class();
        let (fields, methods) = (self.rng.below(5), self.rng.below(4));
        self.plain(DECL_CLASS, |a| {
            a.name(name);
            a.name(parent);
            a.list(FIELDS, |a| (0..fields).for_each(|_| a.field()));
            a.list(METHODS, |a| (0..methods).for_each(|_| a.method()));
        });
        self.this = None;
    }

    /// A class with one method whose instructions are this many nodes.
    fn last_class(&mut self, left: usize) {
        let (name, parent) = self.open_class();
        let method = self.new_symbol();
        self.plain(DECL_CLASS, |a| {
            a.name(name);
            a.name(parent);
            a.list(FIELDS, |_| {});
            a.list(METHODS, |a| {
                a.plain(DECL_METHOD, |a| {
                    a.name(VOID);
                    a.name(method);
                    a.list(PARAMS, |_| {});
                    a.plain(METHOD_BODY, |a| {
                        a.list(VARS, |_| {});
                        a.list(INSTRUCTIONS, |a| a.instructions_of(left));
                    });
                });
            });
        });
        self.this = None;
    }

    fn initializer(&mut self, of: Type) {
        if self.rng.one_in(3) {
            self.leaf(NO_INITIALIZATION, 0);
        } else {
            self.plain(INITIALIZATION, |a| a.expr(of, 2));
        }
    }

    fn field(&mut self) {
        let (of, name) = (self.some_type(), self.new_symbol());
        let protected = u64::from(self.rng.one_in(3));
        self.node(DECL_FIELD, protected, |a| {
            a.name(a.symbol_of(of));
            a.name(name);
            a.initializer(of);
        });
        self.scope.push((name, of));
        if protected == 0 {
            self.classes.last_mut().unwrap().fields.push((name, of));
        }
    }

    fn vars(&mut self, count: usize) {
        self.list(VARS, |a| {
            for _ in 0..count {
                let (of, name) = (a.some_type(), a.new_symbol());
                a.plain(DECL_VAR, |a| {
                    a.name(a.symbol_of(of));
                    a.name(name);
                    a.initializer(of);
                });
                a.scope.push((name, of));
            }
        });
    }

    /// Three variables, or none if the table would then be more than `limit` nodes.
    fn main_vars(&mut self, limit: usize) {
        let mark = self.nodes.len();
        self.vars(3);
        if self.nodes.len() > limit {
            self.nodes.truncate(mark);
            self.scope.clear();
            self.vars(0);
        }
    }

    fn method(&mut self) {
        let name = self.new_symbol();
        let result = if self.rng.one_in(3) {
            None
        } else {
            Some(self.some_type())
        };
        let params: Vec<Type> = (0..self.rng.below(4)).map(|_| self.some_type()).collect();
        let outside = self.scope.len();
        self.plain(DECL_METHOD, |a| {
            a.name(result.map_or(VOID, |r| a.symbol_of(r)));
            a.name(name);
            a.list(PARAMS, |a| {
                for &of in &params {
                    let param = a.new_symbol();
                    a.plain(DECL_PARAM, |a| {
                        a.name(a.symbol_of(of));
                        a.name(param);
                    });
                    a.scope.push((param, of));
                }
            });
            a.plain(METHOD_BODY, |a| {
                let vars = a.rng.below(3);
                a.vars(vars);
                a.list(INSTRUCTIONS, |a| {
                    (0..1 + a.rng.below(4)).for_each(|_| a.instruction(2));
                    if let Some(of) = result {
                        a.plain(RETURN, |a| a.expr(of, 3));
                    }
                });
            });
        });
        self.scope.truncate(outside);
        self.classes.last_mut().unwrap().methods.push(Method {
            name,
            params,
            result,
        });
    }

    // Instructions

    /// Instructions of this many nodes in all, at most 64 of them.
    fn instructions_of(&mut self, size: usize) {
        // a Println of sixteen texts, the largest instruction that is always at hand
        const FILL: usize = 18;
        let end = self.nodes.len() + size;
        for slots in (0..MOST[INSTRUCTIONS as usize]).rev() {
            let mark = self.nodes.len();
            if mark == end {
                return;
            }
            self.instruction(3);
            let now = self.nodes.len();
            if now > end || end - now > slots * FILL {
                self.nodes.truncate(mark);
                match end - mark {
                    1 => self.leaf(NO_OPERATION, 0),
                    left => self.plain(PRINTLN, |a| a.texts(left.min(FILL) - 2)),
                }
            }
        }
    }

    fn texts(&mut self, count: usize) {
        self.list(EXPRESSIONS, |a| {
            for _ in 0..count {
                let text = a.rng.next() & 0xffff;
                a.leaf(STRING_LITERAL, text);
            }
        });
    }

    fn instructions(&mut self, depth: usize) {
        self.list(INSTRUCTIONS, |a| {
            (0..a.rng.below(4)).for_each(|_| a.instruction(depth))
        });
    }

    /// One instruction; `depth` bounds how many loops and branches stand in one another.
    fn instruction(&mut self, depth: usize) {
        let choice = if depth == 0 {
            2 + self.rng.below(8)
        } else {
            self.rng.below(10)
        };
        match choice {
            0 => self.plain(WHILE, |a| {
                a.expr(Type::Boolean, 2);
                a.instructions(depth - 1);
            }),
            1 => self.plain(IF_THEN_ELSE, |a| {
                a.expr(Type::Boolean, 3);
                a.instructions(depth - 1);
                a.instructions(depth - 1);
            }),
            2 => self.leaf(NO_OPERATION, 0),
            3 => self.print(PRINT),
            4 => self.print(PRINTLN),
            5 => {
                let of = self.some_type();
                self.expr(of, 2);
            }
            _ => {
                let of = self.some_type();
                self.assign(of, 4);
            }
        }
    }

    fn print(&mut self, kind: u8) {
        self.plain(kind, |a| {
            a.list(EXPRESSIONS, |a| {
                for _ in 0..1 + a.rng.below(3) {
                    match a.rng.below(3) {
                        0 => a.leaf(STRING_LITERAL, 7),
                        1 => a.expr(Type::Int, 2),
                        _ => a.expr(Type::Float, 2),
                    }
                }
            });
        });
    }

    // Expressions; `depth` bounds how many operators stand in one another

    fn expr(&mut self, of: Type, depth: usize) {
        if depth == 0 || self.rng.one_in(3) {
            return self.simple(of);
        }
        let below = depth - 1;
        match self.rng.below(8) {
            0 => return self.assign(of, below),
            1 if self.call(of, below) => return,
            2 if self.select(of) => return,
            _ => {}
        }
        match of {
            Type::Int => match self.rng.below(8) {
                0 => self.cast(of, Type::Float, below),
                1 => self.plain(UNARY_MINUS, |a| a.expr(of, below)),
                2 => self.leaf(READ_INT, 0),
                3 => self.two(MODULO, of, below),
                _ => self.arithmetic(of, below),
            },
            Type::Float => match self.rng.below(8) {
                0 => self.cast(of, Type::Int, below),
                1 => self.plain(UNARY_MINUS, |a| a.expr(of, below)),
                2 => self.leaf(READ_FLOAT, 0),
                _ => self.arithmetic(of, below),
            },
            Type::Boolean => self.condition(below),
            Type::Class(_) => match self.rng.below(3) {
                0 => self.cast(of, of, below),
                _ => self.simple(of),
            },
        }
    }

    fn two(&mut self, kind: u8, of: Type, depth: usize) {
        self.plain(kind, |a| {
            a.expr(of, depth);
            a.expr(of, depth);
        });
    }

    fn arithmetic(&mut self, of: Type, depth: usize) {
        let kind = self.rng.pick(&[PLUS, MINUS, MULTIPLY, DIVIDE]);
        self.two(kind, of, depth);
    }

    fn condition(&mut self, depth: usize) {
        let of = self.some_type();
        match self.rng.below(8) {
            0 => self.two(AND, Type::Boolean, depth),
            1 => self.two(OR, Type::Boolean, depth),
            2 => self.plain(NOT, |a| a.expr(Type::Boolean, depth)),
            3 => {
                let kind = self.rng.pick(&[EQUALS, NOT_EQUALS]);
                self.two(kind, of, depth);
            }
            4 if !self.classes.is_empty() => {
                let class = Type::Class(self.rng.below(self.classes.len()));
                self.plain(INSTANCE_OF, |a| {
                    a.expr(class, depth);
                    a.name(a.symbol_of(class));
                });
            }
            _ => {
                let kind = self
                    .rng
                    .pick(&[GREATER, GREATER_OR_EQUALS, LOWER, LOWER_OR_EQUALS]);
                let of = self.rng.pick(&[Type::Int, Type::Float]);
                self.two(kind, of, depth);
            }
        }
    }

    /// A variable, a literal, this or a new record.
    fn simple(&mut self, of: Type) {
        if !self.rng.one_in(3)
            && let Some(name) = self.name_of(of)
        {
            return self.name(name);
        }
        let word = self.rng.next();
        match of {
            Type::Int => self.leaf(INT_LITERAL, word % 10_000),
            Type::Float => self.leaf(FLOAT_LITERAL, ((word % 10_000) as f64 / 8.0).to_bits()),
            Type::Boolean => self.leaf(BOOLEAN_LITERAL, word & 1),
            Type::Class(class) => match word % 3 {
                0 => self.leaf(NULL_LITERAL, 0),
                1 if self.this.is_some_and(|c| self.line(c).contains(&class)) => self.leaf(THIS, 0),
                _ => self.plain(NEW, |a| a.name(a.symbol_of(of))),
            },
        }
    }

    fn cast(&mut self, to: Type, from: Type, depth: usize) {
        self.plain(CAST, |a| {
            a.name(a.symbol_of(to));
            a.expr(from, depth);
        });
    }

    /// An assignment to a variable or a field, or a simple expression where there is none.
    fn assign(&mut self, of: Type, depth: usize) {
        let variable = self.name_of(of);
        let mark = self.nodes.len();
        self.plain(ASSIGN, |a| {
            match variable {
                Some(name) if !a.rng.one_in(4) => a.name(name),
                _ if a.select(of) => {}
                Some(name) => a.name(name),
                None => return,
            }
            a.expr(of, depth);
        });
        if self.nodes.len() == mark + 1 {
            self.nodes.truncate(mark);
            self.simple(of);
        }
    }

    /// A field of a record, if some class in view has one of this type.
    fn select(&mut self, of: Type) -> bool {
        let mut found = Vec::new();
        for (place, class) in self.classes.iter().enumerate() {
            found.extend(
                class
                    .fields
                    .iter()
                    .filter(|f| f.1 == of)
                    .map(|f| (place, f.0)),
            );
        }
        if found.is_empty() {
            return false;
        }
        let (class, field) = self.rng.pick(&found);
        self.plain(SELECTION, |a| {
            a.simple(Type::Class(class));
            a.name(field);
        });
        true
    }

    /// A call of a method, if some class in view has one with this result.
    fn call(&mut self, of: Type, depth: usize) -> bool {
        let mut found = Vec::new();
        for (place, class) in self.classes.iter().enumerate() {
            let fitting = class.methods.iter().filter(|m| m.result == Some(of));
            found.extend(fitting.map(|m| (place, m.clone())));
        }
        if found.is_empty() {
            return false;
        }
        let (class, method) = found.swap_remove(self.rng.below(found.len()));
        self.plain(METHOD_CALL, |a| {
            a.simple(Type::Class(class));
            a.name(method.name);
            a.list(EXPRESSIONS, |a| {
                method.params.iter().for_each(|&p| a.expr(p, depth.min(1)))
            });
        });
        true
    }
}

// Damage

/// Words at and around the limits of all the rules.
const EDGE_WORDS: [u64; 18] = [
    0,
    1,
    2,
    3,
    6,
    7,
    8,
    0xffff,
    0x1_0000,
    0x7fff_ffff,
    0x8000_0000,
    1 << 32,
    0x7fef_ffff_ffff_ffff,
    0x7ff0_0000_0000_0000,
    0x7ff0_0000_0000_0001,
    0xffef_ffff_ffff_ffff,
    0xfff0_0000_0000_0000,
    u64::MAX,
];

/// The end of a node's part, held inside the table.
fn end_of(nodes: &[Node], at: usize) -> usize {
    (at + usize::from(nodes[at].size).max(1)).min(nodes.len())
}

fn contains(nodes: &[Node], at: usize, place: usize) -> bool {
    at <= place && place < at + usize::from(nodes[at].size)
}

fn depth_of(nodes: &[Node], place: usize) -> usize {
    (0..=place).filter(|&at| contains(nodes, at, place)).count()
}

/// Puts `part` in place of the positions `from..to`, and corrects the sizes of the nodes around.
fn replace(nodes: &mut Vec<Node>, from: usize, to: usize, part: &[Node]) {
    for at in 0..from {
        if contains(nodes, at, from) {
            let size = (usize::from(nodes[at].size) + part.len()).saturating_sub(to - from);
            nodes[at].size = size.min(0xffff) as u16;
        }
    }
    nodes.splice(from..to, part.iter().copied());
}

/// A place whose node `fits`, or any place if there is none.
fn place(rng: &mut Rng, nodes: &[Node], fits: impl Fn(&Node) -> bool) -> usize {
    let found: Vec<usize> = (0..nodes.len()).filter(|&at| fits(&nodes[at])).collect();
    if found.is_empty() {
        rng.below(nodes.len())
    } else {
        rng.pick(&found)
    }
}

/// Breaks a table in one way out of many. Now and then the result is still accepted.
pub fn damage(rng: &mut Rng, nodes: &mut Vec<Node>) {
    if nodes.is_empty() {
        return;
    }
    let at = rng.below(nodes.len());
    let end = end_of(nodes, at);
    match rng.below(14) {
        0 => {
            nodes[at].kind = if rng.one_in(8) {
                rng.next() as u8
            } else {
                rng.below(52) as u8
            }
        }
        1 => {
            let size = nodes[at].size;
            let near = [
                size.wrapping_add(1),
                size.wrapping_sub(1),
                0,
                1,
                0xffff,
                rng.next() as u16,
            ];
            nodes[at].size = rng.pick(&near);
        }
        2 => nodes[at].word = rng.pick(&EDGE_WORDS),
        3 => {
            // a word where a rule has a range
            let at = place(rng, nodes, |n| matches!(n.kind, 2 | 4 | 42..=45 | 48));
            nodes[at].word = rng.pick(&EDGE_WORDS);
        }
        4 => replace(nodes, at, end, &[]), // a missing child
        5 => {
            // an extra child
            let part = nodes[at..end].to_vec();
            replace(nodes, at, at, &part);
        }
        6 => fill_list(rng, nodes),
        7 => {
            // another list word
            let at = place(rng, nodes, |n| n.kind == LIST);
            nodes[at].word = rng.below(9) as u64;
        }
        8 => {
            // the last child of a node ends one too soon or too late
            let at = place(rng, nodes, |n| n.size > 1);
            let end = end_of(nodes, at);
            let last = (at + 1..end).find(|&c| end_of(nodes, c) == end);
            if let Some(last) = last {
                let size = nodes[last].size;
                let sizes = [size.wrapping_add(1), size.wrapping_sub(1)];
                nodes[last].size = rng.pick(&sizes);
            }
        }
        9 => nest(rng, nodes),
        10 => {
            // a table cut short, its root corrected or not
            nodes.truncate(at);
            if let Some(root) = nodes.first_mut()
                && rng.one_in(2)
            {
                root.size = at as u16;
            }
        }
        11 => {
            // a table with more behind it, its root corrected or not
            let part = nodes[at..end].to_vec();
            nodes.extend_from_slice(&part);
            if rng.one_in(2) {
                nodes[0].size = nodes.len() as u16;
            }
        }
        12 => {
            // two neighbours change places
            if end < nodes.len() {
                let after = end_of(nodes, end);
                nodes[at..after].rotate_left(end - at);
            }
        }
        _ => {
            // another part of the table in its place
            let other = rng.below(nodes.len());
            let part = nodes[other..end_of(nodes, other)].to_vec();
            replace(nodes, at, end, &part);
        }
    }
}

/// Copies the first element of a list until the list is just full, or one too long.
fn fill_list(rng: &mut Rng, nodes: &mut Vec<Node>) {
    let at = place(rng, nodes, |n| n.kind == LIST && n.size > 1);
    let end = end_of(nodes, at);
    let first = at + 1;
    if nodes[at].kind != LIST || first >= end {
        return;
    }
    let mut count = 0;
    let mut next = first;
    while next < end {
        next = end_of(nodes, next);
        count += 1;
    }
    let part = nodes[first..end_of(nodes, first)].to_vec();
    let most = MOST[(nodes[at].word & 7) as usize] + rng.below(2);
    for _ in count..most {
        replace(nodes, first, first, &part);
    }
}

/// Puts operators around an expression until it lies about as deep as a node may.
fn nest(rng: &mut Rng, nodes: &mut Vec<Node>) {
    let at = place(rng, nodes, |n| matches!(n.kind, 42..=46));
    let goal = usize::from(MAX_DEPTH) - 2 + rng.below(5);
    let depth = depth_of(nodes, at);
    for _ in depth..goal {
        let size = (end_of(nodes, at) - at + 1) as u16;
        replace(
            nodes,
            at,
            at,
            &[Node {
                kind: NOT,
                size,
                word: 0,
            }],
        );
    }
}
