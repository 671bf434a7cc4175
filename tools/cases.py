#!/usr/bin/env python3
"""Writes the systematic cases of the shape check: cases.py JOB OUT

JOB gets the batches as `node` and `shape` commands, OUT the answer to each. The answer is stated
here, with the case, and not computed by a check: each case is a small sound batch with at most one
thing changed on purpose, and the node that the refusal has to name is at hand.
"""

import sys

# The rules --------------------------------------------------------------------------------------

# the places of children: which kinds they take, from the first to the last
NAME, EXPR, TARGET, INITIALIZER, BODY, MAIN = (48, 48), (19, 48), (47, 48), (8, 9), (10, 10), (11, 12)
# or the list with a word
L1, L2, L3, L4, L5, L6, L7 = range(1, 8)

OPERATORS = ("Divide Minus Modulo Multiply Plus And Or Equals NotEquals Greater GreaterOrEquals"
             " Lower LowerOrEquals").split()

# number: name and places of the children
ROWS = {
    1: ("Program", [L1, MAIN]),
    3: ("DeclClass", [NAME, NAME, L2, L3]),
    4: ("DeclField", [NAME, NAME, INITIALIZER]),
    5: ("DeclMethod", [NAME, NAME, L4, BODY]),
    6: ("DeclParam", [NAME, NAME]),
    7: ("DeclVar", [NAME, NAME, INITIALIZER]),
    8: ("Initialization", [EXPR]),
    9: ("NoInitialization", []),
    10: ("MethodBody", [L5, L6]),
    11: ("Main", [L5, L6]),
    12: ("EmptyMain", []),
    13: ("Print", [L7]),
    14: ("Println", [L7]),
    15: ("IfThenElse", [EXPR, L6, L6]),
    16: ("NoOperation", []),
    17: ("Return", [EXPR]),
    18: ("While", [EXPR, L6]),
    19: ("Assign", [TARGET, EXPR]),
    **{20 + i: (name, [EXPR, EXPR]) for i, name in enumerate(OPERATORS)},
    33: ("UnaryMinus", [EXPR]),
    34: ("Not", [EXPR]),
    35: ("ReadInt", []),
    36: ("ReadFloat", []),
    37: ("Cast", [NAME, EXPR]),
    38: ("InstanceOf", [EXPR, NAME]),
    39: ("MethodCall", [EXPR, NAME, L7]),
    40: ("New", [NAME]),
    41: ("This", []),
    42: ("IntLiteral", []),
    43: ("FloatLiteral", []),
    44: ("StringLiteral", []),
    45: ("BooleanLiteral", []),
    46: ("NullLiteral", []),
    47: ("Selection", [EXPR, NAME]),
    48: ("Identifier", []),
}

# list word: the kinds of its elements, and how many at most
LISTS = {
    L1: ((3, 3), 31),
    L2: ((4, 4), 16),
    L3: ((5, 5), 16),
    L4: ((6, 6), 8),
    L5: ((7, 7), 24),
    L6: ((13, 48), 64),
    L7: ((19, 48), 16),
}

# the kinds whose word is not just 0: words that are allowed, and words that are not
MAX = 2**64 - 1
FLOAT_SIGN = 1 << 63
WORDS = {
    4: ([0, 1], [2, 2**32, MAX]),
    42: ([0, 1, 2**31 - 1], [2**31, 2**32, MAX]),
    43: (
        [0, FLOAT_SIGN, 1, 0x7FE0 << 48, 0x7FEF_FFFF_FFFF_FFFF, 0xFFEF_FFFF_FFFF_FFFF],
        [0x7FF0 << 48, 0x7FF0_0000_0000_0001, 0x7FF8 << 48, 0xFFF0 << 48, 0xFFF8 << 48, MAX],
    ),
    44: ([0, 1, 65535], [65536, 2**32, MAX]),
    45: ([0, 1], [2, 2**32, MAX]),
    48: ([1, 65535], [0, 65536, 2**32, 2**32 + 1, MAX]),
}

# Trees ------------------------------------------------------------------------------------------


class Node:
    """A node with its children. `size`, if given, is written down in place of the true one."""

    def __init__(self, kind, *children, word=None):
        self.kind = kind
        self.children = list(children)
        self.word = word if word is not None else 300 if kind == 48 else 0
        self.size = None

    def count(self):
        return 1 + sum(child.count() for child in self.children)

    def preorder(self):
        yield self
        for child in self.children:
            yield from child.preorder()


def listing(word, *elements):
    return Node(2, *elements, word=word)


def smallest(kind):
    """The smallest sound node of a kind, or a single one if there is no such kind."""
    _, places = ROWS.get(kind, ("", []))
    return Node(kind, *map(child_for, places))


def child_for(place):
    """The smallest child for a place."""
    if isinstance(place, int):
        return listing(place)
    # a place for an expression has the same child as one for a name
    return smallest(48 if place in (EXPR, TARGET) else place[1])


def program(classes=(), main=None):
    return Node(1, listing(L1, *classes), main or Node(12))


def main_with(*instructions):
    return program(main=Node(11, listing(L5), listing(L6, *instructions)))


def class_with(fields=None, methods=None):
    return program([Node(3, Node(48), Node(48), fields or listing(L2), methods or listing(L3))])


def method_with(params=None, body=None):
    method = Node(5, Node(48), Node(48), params or listing(L4), body or smallest(10))
    return class_with(methods=listing(L3, method))


def batch_around(node):
    """The smallest batch in which a node of this kind, or a list with this word, can stand."""
    variable = lambda initializer: Node(7, Node(48), Node(48), initializer)
    with_variables = lambda variables: program(main=Node(11, variables, listing(L6)))
    if node.kind == 2:
        return {
            L1: lambda: Node(1, node, Node(12)),
            L2: lambda: class_with(fields=node),
            L3: lambda: class_with(methods=node),
            L4: lambda: method_with(params=node),
            L5: lambda: with_variables(node),
            L6: lambda: program(main=Node(11, listing(L5), node)),
            L7: lambda: main_with(Node(13, node)),
        }[node.word]()
    return {
        1: lambda: node,
        3: lambda: program([node]),
        4: lambda: class_with(fields=listing(L2, node)),
        5: lambda: class_with(methods=listing(L3, node)),
        6: lambda: method_with(params=listing(L4, node)),
        7: lambda: with_variables(listing(L5, node)),
        8: lambda: with_variables(listing(L5, variable(node))),
        9: lambda: with_variables(listing(L5, variable(node))),
        10: lambda: method_with(body=node),
        11: lambda: program(main=node),
        12: lambda: program(main=node),
    }.get(node.kind, lambda: main_with(node))()


def parent_of(root, node):
    return next(n for n in root.preorder() if node in n.children)


# Cases ------------------------------------------------------------------------------------------

jobs, answers = [], []


def case(title, nodes, answer):
    jobs.append(f"# {title}")
    for node in nodes:
        size = node.count() if node.size is None else node.size
        jobs.append(f"node {node.kind} {size} {node.word}")
    jobs.append("shape")
    answers.append(f"shape: {answer}")


def accepted(title, root):
    case(title, root.preorder(), "ok")


def refused(title, root, number, node):
    nodes = list(root.preorder())
    case(title, nodes, f"refused {number} at {nodes.index(node)}")


def alone(title, node, number=None):
    """A case about one node in the smallest batch: accepted, or refused at that node."""
    root = batch_around(node)
    if number is None:
        accepted(title, root)
    else:
        refused(title, root, number, node)


def around_range(low, high):
    """The kinds just inside a range, and those just outside."""
    return sorted({low, high}), [low - 1, high + 1]


def child_cases(name, build, places):
    """Each child of a node in turn replaced by others. `build` makes the node from its children."""
    for i, place in enumerate(places):
        def with_child(child):
            children = [child_for(p) for p in places]
            children[i] = child
            return build(children)

        if isinstance(place, int):
            for word in sorted({0, place - 1, place + 1, 8}):
                alone(f"{name}: child {i} is a List with word {word}", with_child(listing(word)), 2)
            for kind in (1, 3):
                child = Node(kind, word=place)
                alone(f"{name}: child {i} has kind {kind} and word {place}", with_child(child), 2)
        else:
            inside, outside = around_range(*place)
            for kind in inside:
                alone(f"{name}: child {i} has kind {kind}", with_child(smallest(kind)))
            for kind in outside:
                alone(f"{name}: child {i} has kind {kind}", with_child(smallest(kind)), 2)


def size_cases(name, make):
    """The last child ends at the wrong place, or does not fit. `make` gives a sound node."""
    for title, size in [
        ("is empty", lambda n: 0),
        ("ends one short", lambda n: n - 1),
        ("ends one late", lambda n: n + 1),
    ]:
        node = make()
        last = node.children[-1]
        if title == "ends one short" and last.count() == 1:
            continue  # it would be empty
        last.size = size(last.count())
        blamed = node
        if title == "ends one short" and node.kind == 2 and node.word == L7:
            # what is left over is an expression, so one more element: the list is sound, and its
            # element misses a child
            blamed = last
        refused(f"{name}: the last child {title}", batch_around(node), 2, blamed)


def kind_cases():
    for kind, (name, places) in sorted(ROWS.items()):
        build = lambda children: Node(kind, *children)
        alone(f"{name}: smallest batch", smallest(kind))
        if places:
            child_cases(name, build, places)
            size_cases(name, lambda: smallest(kind))
            for i in range(len(places)):
                children = [child_for(p) for p in places]
                del children[i]
                alone(f"{name}: child {i} is missing", build(children), 2)
        extra = child_for(places[-1]) if places else Node(48)
        alone(f"{name}: one child too many", build([*map(child_for, places), extra]), 2)
        if kind not in WORDS:
            for word in (1, MAX):
                node = smallest(kind)
                node.word = word
                alone(f"{name}: word {word}", node, 3)
        if kind != 1:
            # what a node claims beyond its parent is its parent's fault
            node = smallest(kind)
            root = batch_around(node)
            node.size = root.count()
            refused(f"{name}: larger than its parent", root, 2, parent_of(root, node))


def list_cases():
    for word, ((low, high), most) in LISTS.items():
        name = f"List {word}"
        elements = lambda n: [smallest(low) for _ in range(n)]
        alone(f"{name}: empty", listing(word))
        alone(f"{name}: {most} elements", listing(word, *elements(most)))
        alone(f"{name}: {most + 1} elements", listing(word, *elements(most + 1)), 2)
        inside, outside = around_range(low, high)
        for kind in inside:
            alone(f"{name}: an element of kind {kind}", listing(word, smallest(kind)))
            alone(f"{name}: a last element of kind {kind}", listing(word, *elements(1), smallest(kind)))
        for kind in outside:
            alone(f"{name}: an element of kind {kind}", listing(word, smallest(kind)), 2)
            alone(f"{name}: a last element of kind {kind}", listing(word, *elements(1), smallest(kind)), 2)
        size_cases(name, lambda: listing(word, *elements(2)))
        # a list whose word is none of the seven is its parent's fault
        for wrong in (0, 8, word + 8, word + 2**32, MAX):
            node = listing(word)
            root = batch_around(node)
            node.word = wrong
            refused(f"{name}: its word is {wrong} instead", root, 2, parent_of(root, node))


def word_cases():
    for kind, (right, wrong) in WORDS.items():
        name = ROWS[kind][0]
        for word, number in [*((w, None) for w in right), *((w, 3) for w in wrong)]:
            node = smallest(kind)
            node.word = word
            alone(f"{name}: word {word}", node, number)


def large_size_cases():
    # a position and such a size add up to a number of more than 16 bits
    for size in (1023, 1024, 32768, 65530, 65534, 65535):
        node = Node(42)
        node.size = size
        alone(f"Not: a child of size {size}", Node(34, node), 2)
        node = Node(42)
        node.size = size
        root = main_with(Node(16), node, Node(16))
        refused(f"an instruction of size {size}", root, 2, parent_of(root, node))


def unknown_kind_cases():
    # numbers that have the low bits of a kind that would fit
    for kind in (0, 49, 50, 63, 64, 48 + 64, 48 + 128, 255):
        alone(f"Not: a child of kind {kind}", Node(34, Node(kind, word=300)), 2)
        node = Node(kind, word=300)
        root = main_with(node)
        refused(f"an instruction of kind {kind}", root, 2, parent_of(root, node))


def root_cases():
    case("no nodes", [], "refused 1")
    for kind in (0, 2, 3, 11, 12, 48, 49, 255):
        root = program()
        root.kind = kind
        refused(f"the first node has kind {kind}", root, 2, root)
    for kind in sorted(ROWS)[1:]:
        root = smallest(kind)
        refused(f"{ROWS[kind][0]}: a sound node in place of the Program", root, 2, root)
    for word in LISTS:
        root = listing(word)
        refused(f"List {word}: in place of the Program", root, 2, root)
    for size in (0, 1, 2, 4, 65535):
        root = program()
        root.size = size
        refused(f"3 nodes, and the first says {size}", root, 2, root)
    alone("a Program alone", Node(1), 2)
    case("an EmptyMain behind the end", [*program().preorder(), Node(12)], "refused 2 at 0")


def long_main(count):
    """A sound batch with this many nodes: five of them around Println instructions."""
    left = count - 5
    instructions = []
    while left > 0:
        size = min(left, 18)
        texts = [Node(44, word=i) for i in range(size - 2)]
        instructions.append(Node(14, listing(L7, *texts)) if size > 1 else Node(16))
        left -= size
    return main_with(*instructions)


def length_cases():
    accepted("1,024 nodes", long_main(1024))
    root = long_main(1024)
    last = list(root.preorder())[-1]
    last.word = 65536
    refused("1,024 nodes, and the last has a wrong word", root, 3, last)
    case("1,025 nodes", long_main(1025).preorder(), "refused 1")


def chain(kind, length, end):
    """So many nodes of an operator in one another, and a node within. The outermost is answered."""
    for _ in range(length):
        end = Node(kind, end) if kind in (33, 34) else Node(kind, Node(48), end)
    return end


def depth_cases():
    # Instructions of a main block have depth 4.
    for kind in (19, 24, 34):
        name = ROWS[kind][0]
        accepted(f"depth 64 by {name}", main_with(chain(kind, 60, Node(42))))
        deep = Node(42)
        root = main_with(chain(kind, 61, deep))
        # the left operand of the innermost of two comes first
        first = deep if kind == 34 else parent_of(root, deep).children[0]
        refused(f"depth 65 by {name}", root, 4, first)

    # A While in a While is two deeper.
    def loops(count, inner):
        for _ in range(count):
            inner = Node(18, Node(45), listing(L6, inner))
        return inner

    accepted("depth 64 by While", main_with(loops(30, Node(16))))
    deep = Node(45)
    refused("depth 65 by While", main_with(loops(30, Node(17, deep))), 4, deep)

    accepted("depth 64 twice", main_with(chain(34, 60, Node(42)), chain(34, 60, Node(42))))
    deep = Node(42)
    root = main_with(chain(34, 60, Node(42)), Node(16), chain(34, 61, deep))
    refused("depth 64, then depth 65", root, 4, deep)

    deep = Node(42, word=2**31)
    refused("a wrong word at depth 65", main_with(chain(34, 61, deep)), 3, deep)
    deep = Node(42, Node(48))
    refused("a literal with a child at depth 65", main_with(chain(34, 61, deep)), 2, deep)
    deep = Node(42)
    root = main_with(chain(34, 61, deep), Node(16, word=1))
    refused("depth 65, then a wrong word", root, 4, deep)
    wrong = Node(16, word=1)
    root = main_with(wrong, chain(34, 61, Node(42)))
    refused("a wrong word, then depth 65", root, 3, wrong)
    deep = Node(34, Node(34, Node(42)))
    refused("depth 65, 66 and 67", main_with(chain(34, 61, deep)), 4, deep)


def order_cases():
    wrong = Node(34, Node(42), word=1)
    refused("two wrong words, one in the other", main_with(Node(16), Node(34, wrong)), 3, wrong)
    both = Node(34, word=1)
    refused("a missing child and a wrong word", main_with(both), 2, both)
    # the fault of a later child is its parent's, and so comes before a fault inside an earlier one
    outer = Node(18, Node(34, Node(42, word=MAX)), listing(L5))
    refused("a wrong word below the first child, a wrong second child", main_with(outer), 2, outer)
    inner = Node(42, word=MAX)
    outer = Node(18, Node(34, inner), listing(L6, Node(12)))
    refused("a wrong word, then a list with a wrong element", main_with(outer), 3, inner)
    first = Node(42, Node(48))
    refused("a literal with a child, twice", main_with(first, Node(42, Node(48))), 2, first)
    many = listing(L7, *(Node(42, word=MAX) for _ in range(17)))
    refused("a list too long with wrong words", main_with(Node(13, many)), 2, many)
    outer = Node(24, Node(42), Node(42), word=1)
    refused("wrong words in a parent and its child", main_with(outer), 3, outer)


def main():
    if len(sys.argv) != 3:
        sys.exit("usage: cases.py JOB OUT")
    kind_cases()
    list_cases()
    word_cases()
    large_size_cases()
    unknown_kind_cases()
    root_cases()
    length_cases()
    depth_cases()
    order_cases()
    for path, lines in zip(sys.argv[1:], (jobs, answers)):
        with open(path, "w") as file:
            file.writelines(line + "\n" for line in lines)


main()
