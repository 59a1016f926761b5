#!/usr/bin/env python3
"""Test vectors for reading program files (document 01, numbers 1 to 5, and
document 02, request (v): zero bytes are types 0 to 3 and nothing else).

    vectors.py OUT       write OUT/rules.bin and OUT/rules.txt
    vectors.py --list    print "index name expected", one line per case

rules.bin holds one record per case: four length bytes, low byte first, then the
file's bytes.  rules.txt holds one line per case: 0 for a readable file, else the
number from 1 to 5.  The index of a case, from 1, is its line in rules.txt.

Nothing here reads a file.  Every expectation stands in its case, or follows
from a list of admitted kinds, counts or numbers that stands beside the family.
F1 to F22 are the readings in docs/DECISIONS.md.
"""

import os
import sys

# ---------------------------------------------------------------------------
# Building files from lists of records


def word(number):
    return number.to_bytes(2, "little")


def section(records, count=None):
    """One section: its count (the right one unless given), then its records."""
    written = len(records) if count is None else count
    return word(written) + b"".join(word(n) for record in records for n in record)


def base():
    """Types 0 to 3: int, bool, string, void."""
    return [(0, 0, 0, 0), (1, 0, 0, 0), (2, 0, 0, 0), (3, 0, 0, 0)]


def sections(types=None, params=(), fields=(), structs=(), builtins=(), nodes=()):
    """The six lists of records in file order; `params` is the type list."""
    types = base() if types is None else list(types)
    return [types, [(entry,) for entry in params], list(fields), list(structs),
            list(builtins), list(nodes)]


def program(**parts):
    return b"".join(section(records) for records in sections(**parts))


def node(kind, *children, x=0, t=0, count=None):
    """A tree as the list of its records, parent first."""
    records = [(kind, x, t, len(children) if count is None else count)]
    for child in children:
        records += child
    return records


def changed(tree, x=None, t=None):
    """The tree with x or t of its root replaced."""
    kind, old_x, old_t, count = tree[0]
    return [(kind, old_x if x is None else x, old_t if t is None else t, count)] + tree[1:]


def struct_type(name):
    return (4, name, 0, 0)


def array_type(element):
    return (5, element, 0, 0)


def function_type(result, first, count):
    return (6, result, first, count)


def nullable_type(inner):
    return (7, inner, 0, 0)


# ---------------------------------------------------------------------------
# Cases


class Cases:
    def __init__(self):
        self.items = []
        self.names = set()
        self.told = {}

    def add(self, expected, name, data):
        """Families overlap: a file that already stands is left out, but never told otherwise."""
        assert expected in (0, 1, 2, 3, 4, 5), name
        assert name not in self.names, "two cases named " + name
        self.names.add(name)
        if data in self.told:
            assert self.told[data] == expected, "told otherwise before: " + name
            return
        self.told[data] = expected
        self.items.append((name, expected, data))

    def good(self, name, data):
        self.add(0, name, data)

    def bad(self, number, name, data):
        self.add(number, name, data)

    def sides(self, number, right, name, data):
        """Readable where `right` is true, else refused under `number`."""
        self.add(0 if right else number, name, data)


# ---------------------------------------------------------------------------
# The types most node files use, one of each kind and functions of 0, 1, 2

INT, BOOL, STRING, VOID = 0, 1, 2, 3
RECORD, ARRAY, NOARGS, NULLABLE, ONEARG, TWOARGS = 4, 5, 6, 7, 8, 9
PAST = 10  # the first number that is no type

TYPES = base() + [
    struct_type(7),
    array_type(INT),
    function_type(VOID, 0, 0),
    nullable_type(RECORD),
    function_type(INT, 0, 1),
    function_type(VOID, 1, 2),
]
PARAMS = [INT, INT, BOOL]


def with_nodes(nodes):
    return program(types=TYPES, params=PARAMS, nodes=nodes)


# Small trees

NULL = node(10, t=NULLABLE)
TRUE = node(11)
FALSE = node(12)
NUMBER = node(13, x=9)
TEXT = node(14, x=3)
NAME = node(15, x=2)
PARAMETER = node(3, x=3)
BLOCK = node(39)
ABSENT = node(40)
RETURN = node(33)
VAR = node(31, NUMBER, x=6)
ASSIGN = node(30, NAME, NUMBER)
FIELD_VALUE = node(22, NUMBER, x=5)
GLOBAL = node(1, TRUE, x=5)
FUNCTION = node(2, BLOCK, x=8, t=NOARGS)


def elements(*children):
    return node(16, *children, t=ARRAY)


def record(*children):
    return node(21, *children, t=RECORD)


def initial(expression):
    """A global; its initializer is at depth 2."""
    return node(1, expression, x=5)


def body(*statements):
    """A function without parameters; its statements are at depth 3."""
    return node(2, node(39, *statements), x=8, t=NOARGS)


def returned(expression):
    """A function that returns an expression, which is at depth 4."""
    return body(node(32, expression))


# One right tree for each kind of node

SAMPLE = {
    1: GLOBAL,
    2: FUNCTION,
    3: PARAMETER,
    10: NULL,
    11: TRUE,
    12: FALSE,
    13: NUMBER,
    14: TEXT,
    15: NAME,
    16: elements(),
    17: node(17, NUMBER, t=ARRAY),
    18: node(18, NUMBER, NUMBER, x=4, t=ARRAY),
    19: node(19, NAME, NUMBER),
    20: node(20, NAME),
    21: record(),
    22: FIELD_VALUE,
    23: node(23, NAME, x=5),
    24: node(24, NAME),
    25: node(25, NUMBER, x=0),
    26: node(26, NUMBER, NUMBER, x=1),
    30: ASSIGN,
    31: VAR,
    32: node(32, NUMBER),
    33: RETURN,
    34: node(34, NAME),
    35: node(35, TRUE, BLOCK, BLOCK),
    36: node(36, NAME, BLOCK, BLOCK, x=6, t=RECORD),
    37: node(37, ABSENT, ABSENT, BLOCK),
    38: node(38, TRUE, BLOCK),
    39: BLOCK,
    40: ABSENT,
}

# The lists of document 01

DECLARATIONS = [1, 2]
EXPRESSIONS = [10, 11, 12, 13, 14, 15, 16, 17, 18, 19, 20, 21, 23, 24, 25, 26]
CONSTANTS = [10, 11, 12, 13, 14, 15, 16, 21]
TARGETS = [15, 19, 23]
STATEMENTS = [30, 31, 32, 33, 34, 35, 36, 37, 38]
UNKNOWN = [0, 4, 9, 27, 29, 41, 99, 65535]


def placed(tree):
    """Declarations in which a tree of its root's kind stands rightly."""
    kind = tree[0][0]
    if kind in (1, 2):
        return tree
    if kind == 3:
        return node(2, tree, BLOCK, x=8, t=ONEARG)
    if kind == 22:
        return returned(record(tree))
    if kind == 39:
        return body(node(38, TRUE, tree))
    if kind == 40:
        return body(node(37, tree, ABSENT, BLOCK))
    if kind in STATEMENTS:
        return body(tree)
    return returned(tree)


# A function with every kind in it except 1; no node below it is a 1 or a 2

RICH = node(
    2,
    node(3, x=1),
    node(3, x=2),
    node(
        39,
        node(31, elements(NUMBER, NAME), x=10),
        node(31, node(17, NUMBER, t=ARRAY), x=11),
        node(31, node(18, NUMBER, node(26, NAME, NUMBER, x=2), x=20, t=ARRAY), x=12),
        node(31, record(node(22, NULL, x=1), node(22, TEXT, x=2)), x=13),
        node(30, node(19, NAME, NUMBER), node(25, NUMBER, x=0)),
        node(30, node(23, NAME, x=1), node(20, NAME)),
        node(34, NAME, TRUE, FALSE),
        node(35, FALSE, node(39, node(32, node(24, NAME, NUMBER))), BLOCK),
        node(36, NAME, node(39, RETURN), BLOCK, x=6, t=ARRAY),
        node(37, VAR, TRUE, ASSIGN, node(39, ASSIGN)),
        node(37, ABSENT, ABSENT, BLOCK),
        node(38, TRUE, BLOCK),
        RETURN,
    ),
    x=8,
    t=TWOARGS,
)


# ---------------------------------------------------------------------------
# 1 and 2: length, counts, leftover bytes

# A readable file with something in each section: 84 bytes
SMALL = sections(
    types=base() + [function_type(INT, 0, 1)],
    params=[INT],
    fields=[(1, INT)],
    structs=[(7, 0, 1)],
    builtins=[(2, 4)],
    nodes=GLOBAL,
)
SMALL_FILE = b"".join(section(records) for records in SMALL)
SIXTY = program(nodes=[(1, 5, 0, 1), (11, 0, 0, 0)])
TYPES_ONLY = program()

SECTION_NAMES = ["types", "type list", "fields", "structs", "built-ins", "nodes"]
MOST = [512, 1024, 1024, 256, 128, 4096]


def before(index):
    """The small file's bytes before the count of a section."""
    return b"".join(section(records) for records in SMALL[:index])


def after(index):
    """The small file's bytes after the records of a section."""
    return b"".join(section(records) for records in SMALL[index + 1:])


def documented(c):
    """What document 01 shows itself, with (v) for zero bytes and one."""
    assert len(SIXTY) == 60
    c.good("document 01: the 60-byte file", SIXTY)
    c.good("document 01: types 0 to 3 and nothing else", TYPES_ONLY)
    c.good("document 02, (v): zero bytes", b"")
    c.bad(1, "document 02, (v): one byte", b"\4")
    c.bad(2, "document 01: types 513, nothing more", word(513))
    c.bad(3, "document 01: type 0 of kind 1", program(types=[(1, 0, 0, 0)] + base()[1:]))
    c.bad(4, "document 01: field of type 3", program(fields=[(0, 3)], structs=[(0, 0, 1)]))
    c.bad(5, "document 01: kind 99", program(nodes=[(99, 0, 0, 0)]))


def nearly_empty(c):
    """Zero bytes alone mean types 0 to 3 without holding them: every one byte, counts of
    types with no byte or one behind, and the 44 bytes cut or with a byte more are refused."""
    for value in range(256):
        c.bad(1, "a single byte %d" % value, bytes([value]))
    for count in (0, 1, 3, 4, 5, 44, 255, 256, 511, 512):
        c.bad(1, "two bytes, a count of %d types" % count, word(count))
        c.bad(1, "three bytes, a count of %d types and a byte" % count, word(count) + b"\0")
    for count in (513, 514, 1024, 65535):
        c.bad(2, "two bytes, a count of %d types" % count, word(count))
        c.bad(2, "three bytes, a count of %d types and a byte" % count, word(count) + b"\0")
    assert len(TYPES_ONLY) == 44
    for size in range(1, 44):
        c.bad(1, "types 0 to 3: first %d bytes" % size, TYPES_ONLY[:size])
    c.good("types 0 to 3: all 44 bytes", TYPES_ONLY)
    c.bad(1, "types 0 to 3: 45 bytes", TYPES_ONLY + b"\4")


def length(c):
    for size in (1, 2, 3, 10, 11):
        c.bad(1, "bytes 0, %d of them" % size, bytes(size))
    c.bad(3, "F1: six zero counts", bytes(12))
    c.bad(1, "six zero counts and 1 byte", bytes(13))
    c.bad(1, "six zero counts and 2 bytes", bytes(14))
    c.bad(1, "45,069 bytes 0", bytes(45069))
    c.bad(1, "one byte 255", b"\xff")
    for size in (2, 3, 12):
        c.bad(2, "bytes 255, %d of them" % size, b"\xff" * size)
    c.bad(2, "high byte first, types 0 to 3", b"".join(
        n.to_bytes(2, "big") for n in [4] + [n for row in base() for n in row] + [0] * 5))

    assert len(SMALL_FILE) == 84
    c.good("the small file", SMALL_FILE)
    for size in range(1, 84):
        c.bad(1, "the small file's first %d bytes" % size, SMALL_FILE[:size])
    for size in (58, 59):
        c.bad(1, "the 60-byte file's first %d bytes" % size, SIXTY[:size])

    for name, data in (("small file", SMALL_FILE), ("60-byte file", SIXTY),
                       ("types only", TYPES_ONLY)):
        c.bad(1, name + " and a zero byte", data + b"\0")
        c.bad(1, name + " and a byte 255", data + b"\xff")
        c.bad(1, name + " and 2 zero bytes", data + bytes(2))
        c.bad(1, name + " and 2 bytes 255", data + b"\xff\xff")
        c.bad(1, name + " and 8 bytes", data + bytes(8))
        c.bad(1, name + " twice", data + data)
    c.bad(1, "a node more than the count says", SIXTY + word(11) + bytes(6))


def counts(c):
    for index, name in enumerate(SECTION_NAMES):
        head, tail, records, most = before(index), after(index), SMALL[index], MOST[index]
        over = word(most + 1)
        c.bad(2, name + ": one over the most, nothing more", head + over)
        c.bad(2, name + ": one over the most, one byte more", head + over + b"\0")
        c.bad(2, name + ": one over the most, the small file's records",
              head + section(records, most + 1) + tail)
        c.bad(2, name + ": count 65,535, nothing more", head + word(65535))
        c.bad(1, name + ": half of a count that is one over the most", head + over[:1])
        c.bad(1, name + ": half of a count 65,535", head + b"\xff")
        c.bad(1, name + ": count at its most, nothing more", head + word(most))
        c.bad(1, name + ": count at its most, the small file's records",
              head + section(records, most) + tail)
        c.bad(1, name + ": a record missing at the end",
              head + section(records, len(records) + 1))

    # The low byte of the count alone would be right.
    for index, wrong, number in ((0, 261, 1), (1, 257, 1), (2, 257, 1),
                                 (3, 257, 2), (4, 257, 2), (5, 258, 1)):
        c.bad(number, "%s: count 256 too large" % SECTION_NAMES[index],
              before(index) + section(SMALL[index], wrong) + after(index))

    c.bad(1, "nodes: count 1 before two records", before(5) + section(GLOBAL, 1))
    c.bad(1, "nodes: count 0 before two records", before(5) + section(GLOBAL, 0))


def long_list(total, last=INT):
    """Types 4 to 10, functions that use up a type list of 1,024 or 1,025 entries."""
    sizes = [10, 198, 198, 198, 198, 198, total - 1000]
    types, taken = base(), 0
    for size in sizes:
        types.append(function_type(VOID, taken, size))
        taken += size
    return program(types=types, params=[INT] * (total - 1) + [last])


def counts_with_records(c):
    """Each count at its most, and one more, with all of the records."""

    def types(n, last=struct_type(1)):
        return program(types=base() + [struct_type(i) for i in range(n - 5)] + [last])

    def fields(n, last=INT):
        return program(fields=[(i, INT) for i in range(n - 1)] + [(0, last)],
                       structs=[(0, 0, n)])

    def structs(n, last=(1, 0, 0)):
        return program(structs=[(i, 0, 0) for i in range(n - 1)] + [last])

    def builtins(n, last=NOARGS):
        return program(types=TYPES, params=PARAMS,
                       builtins=[(i, NOARGS) for i in range(n - 1)] + [(0, last)])

    def nodes(n, last=NUMBER):
        return with_nodes(initial(elements(*[NUMBER] * (n - 3), last)))

    for name, build, most in (("types", types, 512), ("type list", long_list, 1024),
                              ("fields", fields, 1024), ("structs", structs, 256),
                              ("built-ins", builtins, 128), ("nodes", nodes, 4096)):
        full = build(most)
        c.good("%s: %d of them" % (name, most), full)
        c.bad(1, "%s: %d of them, last byte of the file missing" % (name, most), full[:-1])
        c.bad(1, "%s: %d of them, 1 byte over" % (name, most), full + b"\0")
        c.bad(2, "%s: %d of them" % (name, most + 1), build(most + 1))

    c.bad(3, "types: 512 of them, the last of kind 8", types(512, (8, 0, 0, 0)))
    c.bad(3, "types: 512 of them, the last an array of itself", types(512, array_type(511)))
    c.good("types: 512 of them, the last an array of the one before", types(512, array_type(510)))
    c.bad(3, "type list: 1,024 entries, the last void", long_list(1024, VOID))
    c.bad(3, "type list: 1,024 entries, the last its own function", long_list(1024, 10))
    c.good("type list: 1,024 entries, the last a lower function", long_list(1024, 4))
    c.bad(4, "fields: 1,024 of them, the last void", fields(1024, VOID))
    c.bad(4, "structs: 256 of them, the last with a field", structs(256, (0, 0, 1)))
    c.bad(4, "structs: 256 of them, the last with first 1", structs(256, (0, 1, 0)))
    c.bad(4, "built-ins: 128 of them, the last an int", builtins(128, INT))
    c.bad(5, "nodes: 4,096 of them, the last of kind 99", nodes(4096, node(99)))


# ---------------------------------------------------------------------------
# 3: types and list


def first_types(c):
    for n in range(4):
        c.bad(3, "F1: %d types and a global" % n, program(types=base()[:n], nodes=GLOBAL))
        c.bad(3, "F1: %d types and nothing else" % n, program(types=base()[:n]))
    for number in range(4):
        for kind in (0, 1, 2, 3, 4, 5, 6, 7, 8, 256 + number, 65535):
            if kind != number:
                types = base()
                types[number] = (kind, 0, 0, 0)
                c.bad(3, "type %d of kind %d" % (number, kind), program(types=types))
        for place, operand in ((1, "a"), (2, "b"), (3, "c")):
            for value in (1, 65535):
                types = base()
                broken = [number, 0, 0, 0]
                broken[place] = value
                types[number] = tuple(broken)
                c.bad(3, "type %d with %s %d" % (number, operand, value), program(types=types))
    a, b, d, e = base()
    c.bad(3, "types 0 and 1 swapped", program(types=[b, a, d, e]))
    c.bad(3, "types 2 and 3 swapped", program(types=[a, b, e, d]))
    c.bad(3, "a struct before types 0 to 3", program(types=[struct_type(0), a, b, d, e]))
    c.bad(3, "type 3 missing, a struct in its place", program(types=[a, b, d, struct_type(0)]))


def with_types(*later, params=()):
    return program(types=base() + list(later), params=params)


def later_types(c):
    for kind in (0, 1, 2, 3, 8, 9, 10, 255, 256, 260, 261, 262, 263, 32772, 65535):
        c.bad(3, "type 4 of kind %d" % kind, with_types((kind, 0, 0, 0)))
    for kind in (0, 1, 2, 3, 8):
        c.bad(3, "type 5 of kind %d" % kind, with_types(struct_type(0), (kind, 0, 0, 0)))
        c.bad(3, "type 4 of kind %d, a struct after it" % kind,
              with_types((kind, 0, 0, 0), struct_type(0)))

    for name in (0, 1, 4, 256, 65535):
        c.good("struct type named %d" % name, with_types(struct_type(name)))
    c.good("equal types: two of one struct", with_types(struct_type(1), struct_type(1)))
    c.good("equal types: two int arrays", with_types(array_type(INT), array_type(INT)))
    c.good("equal types: two functions of int", with_types(
        function_type(VOID, 0, 1), function_type(VOID, 1, 1), params=[INT, INT]))
    c.good("equal types: two string nullables", with_types(
        nullable_type(STRING), nullable_type(STRING)))

    # Operands that a kind does not name
    for value in (1, 4, 256, 65535):
        c.bad(3, "struct type with b %d" % value, with_types((4, 0, value, 0)))
        c.bad(3, "struct type with c %d" % value, with_types((4, 0, 0, value)))
        c.bad(3, "array type with b %d" % value, with_types((5, 0, value, 0)))
        c.bad(3, "array type with c %d" % value, with_types((5, 0, 0, value)))
        c.bad(3, "nullable type with b %d" % value, with_types((7, 2, value, 0)))
        c.bad(3, "nullable type with c %d" % value, with_types((7, 2, 0, value)))


# Types 4 to 7: one of each later kind.  A probe stands at 8, a struct at 9, 10 is past all.
FOUR_KINDS = [struct_type(7), array_type(INT), function_type(VOID, 0, 0), nullable_type(4)]
AROUND = [0, 1, 2, 3, 4, 5, 6, 7, 8, 9, 10, 256, 260, 65535]


def references(c):
    def probe(kind_eight, params=()):
        return with_types(*FOUR_KINDS, kind_eight, struct_type(1), params=params)

    for number in AROUND:
        c.sides(3, number in [0, 1, 2, 4, 5, 6, 7],
                "type 8 an array of %d" % number, probe(array_type(number)))
        c.sides(3, number in [0, 1, 2, 3, 4, 5, 6, 7],
                "type 8 a function to %d" % number, probe(function_type(number, 0, 0)))
        c.sides(3, number in [2, 4, 5, 6],
                "type 8 a nullable of %d" % number, probe(nullable_type(number)))
        c.sides(3, number in [0, 1, 2, 4, 5, 6, 7],
                "type 8 a function of %d" % number,
                probe(function_type(VOID, 0, 1), params=[number]))
        c.sides(3, number in [0, 1, 2, 4, 5, 6, 7],
                "type 8 a function of int, %d, bool" % number,
                probe(function_type(VOID, 0, 3), params=[INT, number, BOOL]))

    c.bad(3, "type 4 an array of itself", with_types(array_type(4)))
    c.bad(3, "type 4 a function to itself", with_types(function_type(4, 0, 0)))
    c.bad(3, "type 4 a nullable of itself", with_types(nullable_type(4)))
    c.bad(3, "F15: type 4 a function of itself", with_types(function_type(VOID, 0, 1), params=[4]))
    c.bad(3, "type 4 an array of a higher struct", with_types(array_type(5), struct_type(0)))
    c.bad(3, "type 4 a nullable of a higher struct", with_types(nullable_type(5), struct_type(0)))
    c.bad(3, "type 4 a function to a higher struct",
          with_types(function_type(5, 0, 0), struct_type(0)))
    c.bad(3, "F15: type 4 a function of a higher struct",
          with_types(function_type(VOID, 0, 1), struct_type(0), params=[5]))
    c.bad(3, "types 4 and 5 arrays of each other", with_types(array_type(5), array_type(4)))
    c.good("the last type an array of the one before",
           with_types(struct_type(0), array_type(4)))
    c.bad(3, "the last type an array of the number after",
          with_types(struct_type(0), array_type(6)))
    c.bad(3, "nullable of a nullable string", with_types(nullable_type(2), nullable_type(4)))
    c.bad(3, "array of void, used by nothing", with_types(array_type(VOID), struct_type(0)))


def type_list(c):
    one, two = function_type(VOID, 0, 1), function_type(VOID, 1, 1)
    c.good("F21: a function of nothing", with_types(function_type(VOID, 0, 0)))
    c.good("a function of one", with_types(one, params=[INT]))
    c.good("two functions of one", with_types(one, two, params=[INT, BOOL]))
    c.good("functions of 2, 0, 3", with_types(
        function_type(INT, 0, 2), function_type(INT, 2, 0), function_type(INT, 2, 3),
        params=[0, 1, 2, 0, 1]))
    c.good("functions with other types between them", with_types(
        one, struct_type(0), function_type(VOID, 1, 1), array_type(5), params=[INT, 5]))
    c.bad(3, "F15: an entry right for the later function only", with_types(
        one, struct_type(0), function_type(VOID, 1, 1), array_type(5), params=[5, INT]))
    c.good("a function of a function of its own sort",
           with_types(one, two, params=[INT, 4]))

    # b is the running total, also where c is 0 (F3)
    c.bad(3, "F3: first function of nothing with b 1", with_types(function_type(VOID, 1, 0)))
    c.bad(3, "F3: first function of nothing with b 65,535",
          with_types(function_type(VOID, 65535, 0)))
    c.good("F3: a function of nothing after 1 with b 1",
           with_types(one, function_type(VOID, 1, 0), params=[INT]))
    c.bad(3, "F3: a function of nothing after 1 with b 0",
          with_types(one, function_type(VOID, 0, 0), params=[INT]))
    c.bad(3, "F3: a function of nothing after 1 with b 2",
          with_types(one, function_type(VOID, 2, 0), params=[INT]))
    c.good("F3: a function of nothing before 1 with b 0",
           with_types(function_type(VOID, 0, 0), one, params=[INT]))
    c.bad(3, "F3: a function of nothing before 1 with b 1",
          with_types(function_type(VOID, 1, 0), one, params=[INT]))
    c.bad(3, "first function with b 1, list long enough",
          with_types(two, params=[INT, INT]))
    c.bad(3, "first function with b 1, list of 1", with_types(two, params=[INT]))
    c.bad(3, "two functions share an entry", with_types(one, one, params=[INT]))
    c.bad(3, "two functions share an entry, list of 2", with_types(one, one, params=[INT, INT]))
    c.bad(3, "a gap between two functions",
          with_types(one, function_type(VOID, 2, 1), params=[INT, INT, INT]))
    c.bad(3, "two functions take the list in the other order",
          with_types(two, one, params=[INT, INT]))
    c.bad(3, "overlap by one", with_types(
        function_type(VOID, 0, 2), function_type(VOID, 1, 1), params=[INT, INT]))
    c.bad(3, "b with its high byte set", with_types(
        one, function_type(VOID, 257, 1), params=[INT, INT]))

    # Used up, not overused
    c.bad(3, "list of 1 and no function", with_types(params=[INT]))
    c.bad(3, "list of 1 and no function but an array", with_types(array_type(INT), params=[INT]))
    c.bad(3, "list of 1 and a function of nothing",
          with_types(function_type(VOID, 0, 0), params=[INT]))
    c.bad(3, "list of 2 and a function of 1", with_types(one, params=[INT, INT]))
    c.bad(3, "list of 3 and two functions of 1", with_types(one, two, params=[INT, INT, INT]))
    c.bad(3, "list of 0 and a function of 1", with_types(one))
    c.bad(3, "list of 1 and a function of 2", with_types(function_type(VOID, 0, 2), params=[INT]))
    c.bad(3, "list of 1 and two functions of 1", with_types(one, two, params=[INT]))
    c.bad(3, "list of 1 and a function of 257",
          with_types(function_type(VOID, 0, 257), params=[INT]))
    c.bad(3, "list of 1 and a function of 65,535",
          with_types(function_type(VOID, 0, 65535), params=[INT]))
    c.bad(3, "list of 0 and a function of 65,535", with_types(function_type(VOID, 0, 65535)))
    c.bad(3, "functions of 1, 65,535 and 1: 65,537 of a list of 1", with_types(
        one, function_type(VOID, 1, 65535), one, params=[INT]))
    c.bad(3, "functions of 1 and 65,535: 65,536 of a list of 1", with_types(
        one, function_type(VOID, 1, 65535), params=[INT]))
    c.bad(3, "b 65,535 and a function of 1", with_types(
        function_type(VOID, 65535, 1), params=[INT]))

    # Entries
    c.bad(3, "F14: void the only entry", with_types(one, params=[VOID]))
    c.bad(3, "F14: void the last entry of two functions", with_types(one, two, params=[INT, VOID]))
    c.bad(3, "F14: void the first entry of two functions", with_types(one, two, params=[VOID, INT]))
    c.bad(3, "void entry that no function takes", with_types(params=[VOID]))


def chain(kind, count, bottom=INT, first=4):
    """Types `first` on, each of one operand, each referring to the one before."""
    return [(kind, bottom if i == 0 else first + i - 1, 0, 0) for i in range(count)]


def parts(c):
    # n nested arrays of int have n + 1 parts; n functions to void, to each other, too.
    c.good("200 parts: 199 nested arrays", with_types(*chain(5, 199)))
    c.bad(3, "201 parts: 200 nested arrays", with_types(*chain(5, 200)))
    c.good("200 parts: nested arrays of a struct",
           with_types(struct_type(0), *chain(5, 199, bottom=4, first=5)))
    c.bad(3, "201 parts: nested arrays of a struct",
          with_types(struct_type(0), *chain(5, 200, bottom=4, first=5)))
    c.good("200 parts: functions to functions", with_types(*chain(6, 199, bottom=VOID)))
    c.bad(3, "F4: 201 parts: functions to functions", with_types(*chain(6, 200, bottom=VOID)))
    c.good("200 parts: nullable of 198 nested arrays",
           with_types(*chain(5, 198), nullable_type(201)))
    c.bad(3, "201 parts: nullable of 199 nested arrays",
          with_types(*chain(5, 199), nullable_type(202)))
    c.good("200 parts: arrays of a nullable string",
           with_types(nullable_type(STRING), *chain(5, 198, bottom=4, first=5)))
    c.bad(3, "201 parts: arrays of a nullable string",
          with_types(nullable_type(STRING), *chain(5, 199, bottom=4, first=5)))

    # A function of n ints has n + 2 parts, whether to void or to int.
    for count, number in ((197, 0), (198, 0), (199, 3), (200, 3), (201, 3)):
        c.add(number, "F4: a function of %d ints to void" % count,
              with_types(function_type(VOID, 0, count), params=[INT] * count))
        c.add(number, "a function of %d ints to int" % count,
              with_types(function_type(INT, 0, count), params=[INT] * count))
    c.good("200 parts: a function of 198 structs, each with 300 fields", program(
        types=base() + [struct_type(7), function_type(VOID, 0, 198)], params=[4] * 198,
        fields=[(i, INT) for i in range(300)], structs=[(7, 0, 300)]))
    c.good("200 parts: an array of a function of 197 ints",
           with_types(function_type(VOID, 0, 197), array_type(4), params=[INT] * 197))
    c.bad(3, "201 parts: an array of a function of 198 ints",
          with_types(function_type(VOID, 0, 198), array_type(4), params=[INT] * 198))
    c.bad(3, "201 parts: a nullable of a function of 198 ints",
          with_types(function_type(VOID, 0, 198), nullable_type(4), params=[INT] * 198))

    # What is mentioned twice counts twice (F5).
    # Type 101 is 98 nested arrays: 99 parts.
    c.good("F5: 199 parts: (T) -> T, T of 99", with_types(
        *chain(5, 98), function_type(101, 0, 1), params=[101]))
    c.good("F5: 200 parts: (T, int) -> T, T of 99", with_types(
        *chain(5, 98), function_type(101, 0, 2), params=[101, INT]))
    c.bad(3, "F5: 201 parts: (T, int, int) -> T, T of 99", with_types(
        *chain(5, 98), function_type(101, 0, 3), params=[101, INT, INT]))
    c.bad(3, "F5: 201 parts: (T) -> T, T of 100", with_types(
        *chain(5, 99), function_type(102, 0, 1), params=[102]))
    c.good("F5: 200 parts: (T, T) -> void, T of 99", with_types(
        *chain(5, 98), function_type(VOID, 0, 2), params=[101, 101]))
    c.bad(3, "F5: 201 parts: (T, T) -> (T of 2), T of 99", with_types(
        *chain(5, 98), function_type(4, 0, 2), params=[101, 101]))
    c.good("F5: 200 parts: a function of 99 int arrays to void", with_types(
        array_type(INT), function_type(VOID, 0, 99), params=[4] * 99))
    c.bad(3, "F5: 201 parts: a function of 99 int arrays and an int to void", with_types(
        array_type(INT), function_type(VOID, 0, 100), params=[4] * 99 + [INT]))
    c.good("F5: 200 parts: the return type is the large one",
           with_types(*chain(5, 197), function_type(200, 0, 1), params=[INT]))
    c.bad(3, "F5: 201 parts: the return type is the large one",
          with_types(*chain(5, 198), function_type(201, 0, 1), params=[INT]))

    # (T) -> T again and again: 3, 7, 15, 31, 63, 127, then 255 parts
    def doubled(count):
        below = [INT] + [4 + i for i in range(count - 1)]
        return with_types(*[function_type(t, i, 1) for i, t in enumerate(below)], params=below)

    c.good("F5: 127 parts by six doublings", doubled(6))
    c.bad(3, "F5: 255 parts by seven doublings", doubled(7))
    c.bad(3, "F5: seventeen doublings", doubled(17))
    c.bad(3, "F5: 508 doublings", doubled(508))

    # Every type is measured (F5), and no count wraps round.
    c.bad(3, "F5: 201 parts in the middle, small types after it",
          with_types(*chain(5, 200), struct_type(0), array_type(204)))
    c.bad(3, "F5: 201 parts twice", with_types(*chain(5, 200), array_type(202)))
    c.bad(3, "201 parts, used by a built-in", program(
        types=base() + [function_type(VOID, 0, 199)], params=[INT] * 199, builtins=[(0, 4)]))
    c.good("200 parts, used by a built-in", program(
        types=base() + [function_type(VOID, 0, 198)], params=[INT] * 198, builtins=[(0, 4)]))
    # Type 4 + k is k + 1 nested arrays: k + 2 parts; type 202 has 200.
    c.bad(3, "256 parts: a T of 200 to a T of 55", with_types(
        *chain(5, 199), function_type(57, 0, 1), params=[202]))
    c.bad(3, "257 parts: a T of 200 to a T of 56", with_types(
        *chain(5, 199), function_type(58, 0, 1), params=[202]))
    c.bad(3, "65,537 parts: 327 times a T of 200 to a T of 136", with_types(
        *chain(5, 199), function_type(138, 0, 327), params=[202] * 327))
    c.good("many types of 200 parts", with_types(
        *chain(5, 198), *[array_type(201)] * 100))


# ---------------------------------------------------------------------------
# 4: fields, structs, built-ins


def fields(c):
    def one(number):
        return program(types=TYPES, params=PARAMS, fields=[(0, number)], structs=[(7, 0, 1)])

    def second(number):
        return program(types=TYPES, params=PARAMS, fields=[(0, INT), (1, number), (2, INT)],
                       structs=[(7, 0, 2), (8, 2, 1)])

    for number in (0, 1, 2, 3, 4, 5, 6, 7, 8, 9, 10, 11, 256, 65535):
        right = number in [0, 1, 2, 4, 5, 6, 7, 8, 9]
        c.sides(4, right, "field of type %d" % number, one(number))
        c.sides(4, right, "second field of type %d" % number, second(number))
    for name in (0, 1, 256, 65535):
        c.good("field named %d" % name, program(fields=[(name, INT)], structs=[(0, 0, 1)]))
    c.good("fields of one name in one struct",
           program(fields=[(1, INT), (1, BOOL)], structs=[(0, 0, 2)]))
    c.good("a field of its own struct's type",
           program(types=TYPES, params=PARAMS, fields=[(0, RECORD)], structs=[(7, 0, 1)]))
    c.bad(4, "field of the first number that is no type, types 0 to 3",
          program(fields=[(0, 4)], structs=[(0, 0, 1)]))
    c.bad(4, "void field, last of three",
          program(fields=[(0, INT), (1, INT), (2, VOID)], structs=[(0, 0, 3)]))
    c.bad(4, "void field, first of three",
          program(fields=[(0, VOID), (1, INT), (2, INT)], structs=[(0, 0, 3)]))


def structs(c):
    def file(count, *records):
        return program(fields=[(i, INT) for i in range(count)], structs=records)

    c.good("F21: a struct without fields", file(0, (7, 0, 0)))
    c.good("a struct of one field", file(1, (7, 0, 1)))
    c.good("structs of 2, 0, 3 fields", file(5, (7, 0, 2), (8, 2, 0), (9, 2, 3)))
    c.good("structs of one name", file(2, (7, 0, 1), (7, 1, 1)))
    c.good("structs named 0 and 65,535", file(2, (0, 0, 1), (65535, 1, 1)))

    # The first field is the running total, also where the count is 0 (F3).
    c.bad(4, "F3: a struct without fields, first 1", file(0, (7, 1, 0)))
    c.bad(4, "F3: a struct without fields, first 65,535", file(0, (7, 65535, 0)))
    c.good("F3: a struct without fields after 1, first 1", file(1, (7, 0, 1), (8, 1, 0)))
    c.bad(4, "F3: a struct without fields after 1, first 0", file(1, (7, 0, 1), (8, 0, 0)))
    c.bad(4, "F3: a struct without fields after 1, first 2", file(1, (7, 0, 1), (8, 2, 0)))
    c.good("F3: a struct without fields before 1, first 0", file(1, (7, 0, 0), (8, 0, 1)))
    c.bad(4, "F3: a struct without fields before 1, first 1", file(1, (7, 1, 0), (8, 0, 1)))
    c.bad(4, "first struct with first 1, fields enough", file(2, (7, 1, 1)))
    c.bad(4, "first struct with first 1, one field", file(1, (7, 1, 1)))
    c.bad(4, "two structs share a field", file(1, (7, 0, 1), (8, 0, 1)))
    c.bad(4, "two structs share a field of two", file(2, (7, 0, 1), (8, 0, 1)))
    c.bad(4, "a gap between two structs", file(3, (7, 0, 1), (8, 2, 1)))
    c.bad(4, "two structs take the fields in the other order", file(2, (7, 1, 1), (8, 0, 1)))
    c.bad(4, "structs overlap by one", file(2, (7, 0, 2), (8, 1, 1)))
    c.bad(4, "first with its high byte set", file(2, (7, 0, 1), (8, 257, 1)))

    # Used up, not overused
    c.bad(4, "1 field and no struct", file(1))
    c.bad(4, "1 field and a struct without fields", file(1, (7, 0, 0)))
    c.bad(4, "2 fields and a struct of 1", file(2, (7, 0, 1)))
    c.bad(4, "3 fields and two structs of 1", file(3, (7, 0, 1), (8, 1, 1)))
    c.bad(4, "no fields and a struct of 1", file(0, (7, 0, 1)))
    c.bad(4, "1 field and a struct of 2", file(1, (7, 0, 2)))
    c.bad(4, "1 field and two structs of 1", file(1, (7, 0, 1), (8, 1, 1)))
    c.bad(4, "1 field and a struct of 257", file(1, (7, 0, 257)))
    c.bad(4, "1 field and a struct of 65,535", file(1, (7, 0, 65535)))
    c.bad(4, "no fields and a struct of 65,535", file(0, (7, 0, 65535)))
    c.bad(4, "structs of 1, 65,535 and 1: 65,537 of 1 field",
          file(1, (7, 0, 1), (8, 1, 65535), (9, 0, 1)))
    c.bad(4, "structs of 1 and 65,535: 65,536 of 1 field", file(1, (7, 0, 1), (8, 1, 65535)))
    c.bad(4, "structs of 1 and 65,535: 65,536 of no field", file(0, (7, 0, 1), (8, 1, 65535)))
    c.bad(4, "first 65,535 and a struct of 1", file(1, (7, 65535, 1)))


def builtins(c):
    def file(*records):
        return program(types=TYPES, params=PARAMS, builtins=records)

    for number in (0, 1, 2, 3, 4, 5, 6, 7, 8, 9, 10, 11, 262, 65535):
        right = number in [6, 8, 9]
        c.sides(4, right, "built-in of type %d" % number, file((0, number)))
        c.sides(4, right, "last built-in of type %d" % number, file((0, 6), (1, 8), (2, number)))
    for name in (0, 1, 256, 65535):
        c.good("built-in named %d" % name, file((name, NOARGS)))
    c.good("built-ins of one name", file((1, NOARGS), (1, ONEARG)))
    c.bad(4, "built-in of a type, types 0 to 3 only", program(builtins=[(0, 3)]))
    c.bad(4, "built-in past the types, types 0 to 3 only", program(builtins=[(0, 4)]))
    c.good("F12: built-in to an undeclared struct", program(
        types=base() + [struct_type(9), function_type(4, 0, 0)], builtins=[(0, 5)]))
    c.good("F17: an undeclared struct in types, field, null", program(
        types=base() + [struct_type(9), nullable_type(4)], fields=[(0, 4)],
        structs=[(1, 0, 1)], nodes=initial(node(10, t=5))))


# ---------------------------------------------------------------------------
# The order of 1 to 5


def order(c):
    broken_types = base() + [(8, 0, 0, 0)]
    void_field = dict(fields=[(0, VOID)], structs=[(7, 0, 1)])
    wrong_struct = dict(structs=[(7, 1, 0)])
    wrong_builtin = dict(builtins=[(0, INT)])
    kind_99 = dict(nodes=[(99, 0, 0, 0)])
    too_deep = dict(nodes=initial(tower(lambda e: node(16, e, t=4), NUMBER, 99)))

    three = (
        ("three types", dict(types=base()[:3])),
        ("type 0 of kind 1", dict(types=[(1, 0, 0, 0)] + base()[1:])),
        ("a list of 1 not used", dict(params=[INT])),
        ("an array of void", dict(types=base() + [array_type(VOID)])),
        ("201 parts", dict(types=base() + [function_type(VOID, 0, 199)], params=[INT] * 199)),
    )
    four = (
        ("a void field", void_field),
        ("a field out of range", dict(fields=[(0, 600)], structs=[(7, 0, 1)])),
        ("a struct's wrong first", wrong_struct),
        ("a built-in int", wrong_builtin),
        ("a built-in out of range", dict(builtins=[(0, 600)])),
    )
    for name3, fault3 in three:
        for name4, fault4 in four:
            c.bad(3, "order: %s, and %s" % (name3, name4), program(**fault3, **fault4))
        c.bad(3, "order: %s, and kind 99" % name3, program(**fault3, **kind_99))
        c.bad(1, "order: %s, and a byte over" % name3, program(**fault3) + b"\0")
        c.bad(1, "order: %s, and the last byte missing" % name3, program(**fault3)[:-1])
    for name4, fault4 in four:
        c.bad(4, "order: %s, and kind 99" % name4, program(**fault4, **kind_99))
        c.bad(4, "order: %s, and a tree past the end" % name4,
              program(**fault4, nodes=[(1, 5, 0, 1)]))
        c.bad(1, "order: %s, and a byte over" % name4, program(**fault4) + b"\0")
        c.bad(1, "order: %s, and the last byte missing" % name4, program(**fault4)[:-1])
    c.bad(3, "order: faults of 3, 4 and 5 together",
          program(types=broken_types, **void_field, **wrong_builtin, **kind_99))
    c.bad(4, "order: all faults of 4, and kind 99",
          program(fields=[(0, VOID)], structs=[(7, 1, 0)], **wrong_builtin, **kind_99))
    c.bad(3, "order: an array of void, and depth 101",
          program(types=base() + [array_type(INT), array_type(VOID)], **too_deep))
    c.bad(4, "order: a void field, and depth 101",
          program(types=base() + [array_type(INT)], **void_field, **too_deep))
    c.bad(5, "order: depth 101 alone",
          program(types=base() + [array_type(INT)], **too_deep))
    c.bad(1, "order: kind 99, and a byte over", program(**kind_99) + b"\0")
    c.bad(1, "order: kind 99, and the last byte missing", program(**kind_99)[:-1])

    # A fault of 3 or 4 and, in a later section, a count over its most or a cut (F16)
    broken = [section(records) for records in sections(
        types=[(1, 0, 0, 0)] + base()[1:], params=[VOID], fields=[(0, VOID)],
        structs=[(7, 1, 0)], builtins=[(0, VOID)])]
    for index in range(1, 6):
        head, name = b"".join(broken[:index]), SECTION_NAMES[index]
        c.bad(2, "order: broken records, then %s over the most" % name,
              head + word(MOST[index] + 1))
        c.bad(1, "order: broken records, then no count of %s" % name, head)
        c.bad(1, "order: broken records, then half a count of %s" % name, head + b"\xff")
        c.bad(1, "order: broken records, then %s cut" % name, head + word(MOST[index]) + bytes(3))
    # Faults of 1 and 2 in two sections: the earlier section decides.
    c.bad(2, "order: types over the most, then type list over the most", word(513) + word(1025))
    c.bad(2, "order: type list over the most, nodes missing", section(base()) + word(1025))
    c.bad(1, "order: types cut where a count over the most might stand",
          section(base(), 5) + word(1025))
    c.bad(2, "order: built-ins over the most, and bytes over",
          section(base()) + word(0) * 3 + word(129) + bytes(600))
    c.bad(2, "order: nodes over the most, after all else empty",
          section(base()) + word(0) * 4 + word(4097))
    c.bad(1, "order: nodes at the most, after all else empty",
          section(base()) + word(0) * 4 + word(4096))


# ---------------------------------------------------------------------------
# 5: kinds and roles

# For each child position: the kinds that may stand there, and the declarations around it.
# The kinds admitted go into one readable file, a declaration each; every other kind has a file.
ROLES = [
    ("outermost", DECLARATIONS, lambda k: k),
    ("outermost, after a function", DECLARATIONS, lambda k: FUNCTION + k),

    ("initializer of 1", CONSTANTS, lambda k: initial(k)),
    ("element of 16 in a global", CONSTANTS, lambda k: initial(elements(NUMBER, k))),
    ("child of 21 in a global", [22], lambda k: initial(record(k))),
    ("value of 22 in a global", CONSTANTS, lambda k: initial(record(node(22, k, x=5)))),
    ("value of 22 deep in a global", CONSTANTS, lambda k: initial(
        elements(TRUE, record(FIELD_VALUE, node(22, elements(record(node(22, k, x=1))), x=2))))),

    ("parameter of 2", [3], lambda k: node(2, k, BLOCK, x=8, t=ONEARG)),
    ("second parameter of 2", [3], lambda k: node(2, PARAMETER, k, BLOCK, x=8, t=TWOARGS)),
    ("block of 2", [39], lambda k: node(2, k, x=8, t=NOARGS)),

    ("element of 16", EXPRESSIONS, lambda k: returned(elements(NUMBER, k))),
    ("length of 17", EXPRESSIONS, lambda k: returned(node(17, k, t=ARRAY))),
    ("length of 18", EXPRESSIONS, lambda k: returned(node(18, k, NUMBER, x=4, t=ARRAY))),
    ("value of 18", EXPRESSIONS, lambda k: returned(node(18, NUMBER, k, x=4, t=ARRAY))),
    ("array of 19", EXPRESSIONS, lambda k: returned(node(19, k, NUMBER))),
    ("index of 19", EXPRESSIONS, lambda k: returned(node(19, NAME, k))),
    ("array of 20", EXPRESSIONS, lambda k: returned(node(20, k))),
    ("child of 21", [22], lambda k: returned(record(FIELD_VALUE, k))),
    ("value of 22", EXPRESSIONS, lambda k: returned(record(node(22, k, x=5)))),
    ("record of 23", EXPRESSIONS, lambda k: returned(node(23, k, x=5))),
    ("callee of 24", EXPRESSIONS, lambda k: returned(node(24, k))),
    ("argument of 24", EXPRESSIONS, lambda k: returned(node(24, NAME, NUMBER, k))),
    ("child of 25", EXPRESSIONS, lambda k: returned(node(25, k, x=1))),
    ("left of 26", EXPRESSIONS, lambda k: returned(node(26, k, NUMBER, x=1))),
    ("right of 26", EXPRESSIONS, lambda k: returned(node(26, NUMBER, k, x=1))),

    ("target of 30", TARGETS, lambda k: body(node(30, k, NUMBER))),
    ("value of 30", EXPRESSIONS, lambda k: body(node(30, NAME, k))),
    ("child of 31", EXPRESSIONS, lambda k: body(node(31, k, x=6))),
    ("child of 32", EXPRESSIONS, lambda k: body(node(32, k))),
    ("callee of 34", EXPRESSIONS, lambda k: body(node(34, k))),
    ("argument of 34", EXPRESSIONS, lambda k: body(node(34, NAME, NUMBER, k))),
    ("condition of 35", EXPRESSIONS, lambda k: body(node(35, k, BLOCK, BLOCK))),
    ("first block of 35", [39], lambda k: body(node(35, TRUE, k, BLOCK))),
    ("second block of 35", [39], lambda k: body(node(35, TRUE, BLOCK, k))),
    ("expression of 36", EXPRESSIONS, lambda k: body(node(36, k, BLOCK, BLOCK, x=6, t=RECORD))),
    ("first block of 36", [39], lambda k: body(node(36, NAME, k, BLOCK, x=6, t=RECORD))),
    ("second block of 36", [39], lambda k: body(node(36, NAME, BLOCK, k, x=6, t=RECORD))),
    ("var of 37", [31], lambda k: body(node(37, VAR, k, ABSENT, ABSENT, BLOCK))),
    ("condition of 37", EXPRESSIONS + [40], lambda k: body(node(37, k, ABSENT, BLOCK))),
    ("step of 37", STATEMENTS + [40], lambda k: body(node(37, TRUE, k, BLOCK))),
    ("block of 37", [39], lambda k: body(node(37, ABSENT, ABSENT, k))),
    ("condition of 38", EXPRESSIONS, lambda k: body(node(38, k, BLOCK))),
    ("block of 38", [39], lambda k: body(node(38, TRUE, k))),
    ("statement of 39", STATEMENTS, lambda k: body(ASSIGN, k, RETURN)),
]

# Roles in which every unknown kind is tried too
UNKNOWN_IN = ["outermost", "initializer of 1", "child of 21", "element of 16",
              "condition of 37", "step of 37", "statement of 39"]


def roles(c):
    assert len(SAMPLE) == 31
    for name, admitted, around in ROLES:
        c.good("%s: %s" % (name, ", ".join(str(kind) for kind in admitted)),
               with_nodes([row for kind in admitted for row in around(SAMPLE[kind])]))
        for kind, tree in SAMPLE.items():
            if kind not in admitted:
                c.bad(5, "%s: %d" % (name, kind), with_nodes(around(tree)))
    for name, _, around in ROLES:
        if name in UNKNOWN_IN:
            for kind in UNKNOWN:
                c.bad(5, "%s: unknown kind %d" % (name, kind), with_nodes(around(node(kind))))

    # A kind's low byte is not the kind.
    for kind in (257, 258):
        c.bad(5, "outermost: kind %d" % kind, with_nodes([(kind,) + SAMPLE[kind - 256][0][1:]]
                                                         + SAMPLE[kind - 256][1:]))
    for kind in (266, 267, 269, 271):
        c.bad(5, "initializer of 1: kind %d" % kind,
              with_nodes(initial([(kind,) + SAMPLE[kind - 256][0][1:]])))
    c.bad(5, "statement of 39: kind 289", with_nodes(body(node(289))))
    c.bad(5, "block of 2: kind 295", with_nodes(node(2, node(295), x=8, t=NOARGS)))


# ---------------------------------------------------------------------------
# 5: child counts

# The kind, what stands around its children, children to take the first n of, the right n
CHILDREN = [
    ("1", lambda k: node(1, *k, x=5), [TRUE] * 3, [1]),
    ("3", lambda k: placed(node(3, *k, x=3)), [NUMBER] * 2, [0]),
    ("3 with parameters below", lambda k: placed(node(3, *k, x=3)), [PARAMETER] * 2, [0]),
    ("10", lambda k: returned(node(10, *k, t=NULLABLE)), [NUMBER] * 2, [0]),
    ("11", lambda k: returned(node(11, *k)), [NUMBER] * 2, [0]),
    ("12", lambda k: returned(node(12, *k)), [NUMBER] * 2, [0]),
    ("13", lambda k: returned(node(13, *k, x=9)), [NUMBER] * 2, [0]),
    ("14", lambda k: returned(node(14, *k, x=9)), [NUMBER] * 2, [0]),
    ("15", lambda k: returned(node(15, *k, x=9)), [NUMBER] * 2, [0]),
    ("10 in a global", lambda k: initial(node(10, *k, t=NULLABLE)), [NUMBER], [0]),
    ("11 in a global", lambda k: initial(node(11, *k)), [NUMBER], [0]),
    ("12 in a global", lambda k: initial(node(12, *k)), [NUMBER], [0]),
    ("13 in a global", lambda k: initial(node(13, *k, x=9)), [NUMBER], [0]),
    ("14 in a global", lambda k: initial(node(14, *k, x=9)), [NUMBER], [0]),
    ("15 in a global", lambda k: initial(node(15, *k, x=9)), [NUMBER], [0]),
    ("16", lambda k: returned(elements(*k)), [NUMBER] * 4, [0, 1, 2, 3, 4]),
    ("16 in a global", lambda k: initial(elements(*k)), [NUMBER] * 4, [0, 1, 2, 3, 4]),
    ("17", lambda k: returned(node(17, *k, t=ARRAY)), [NUMBER] * 3, [1]),
    ("18", lambda k: returned(node(18, *k, x=4, t=ARRAY)), [NUMBER] * 4, [2]),
    ("19", lambda k: returned(node(19, *k)), [NAME] * 4, [2]),
    ("20", lambda k: returned(node(20, *k)), [NAME] * 3, [1]),
    ("21", lambda k: returned(record(*k)), [FIELD_VALUE] * 4, [0, 1, 2, 3, 4]),
    ("21 in a global", lambda k: initial(record(*k)), [FIELD_VALUE] * 4, [0, 1, 2, 3, 4]),
    ("22", lambda k: returned(record(node(22, *k, x=5))), [NUMBER] * 3, [1]),
    ("22 in a global", lambda k: initial(record(node(22, *k, x=5))), [NUMBER] * 3, [1]),
    ("23", lambda k: returned(node(23, *k, x=5)), [NAME] * 3, [1]),
    ("F19: 24", lambda k: returned(node(24, *k)), [NAME] * 4, [1, 2, 3, 4]),
    ("25", lambda k: returned(node(25, *k, x=2)), [NUMBER] * 3, [1]),
    ("26", lambda k: returned(node(26, *k, x=0)), [NUMBER] * 4, [2]),
    ("30", lambda k: body(node(30, *k)), [NAME] * 4, [2]),
    ("31", lambda k: body(node(31, *k, x=6)), [NUMBER] * 3, [1]),
    ("32", lambda k: body(node(32, *k)), [NUMBER] * 3, [1]),
    ("33", lambda k: body(node(33, *k)), [NUMBER] * 2, [0]),
    ("F19: 34", lambda k: body(node(34, *k)), [NAME] * 4, [1, 2, 3, 4]),
    ("35", lambda k: body(node(35, *k)), [TRUE, BLOCK, BLOCK, BLOCK, BLOCK], [3]),
    ("36", lambda k: body(node(36, *k, x=6, t=RECORD)), [NAME, BLOCK, BLOCK, BLOCK, BLOCK], [3]),
    ("37", lambda k: body(node(37, *k)), [ABSENT, ABSENT, BLOCK, BLOCK, BLOCK], [3]),
    ("38", lambda k: body(node(38, *k)), [TRUE, BLOCK, BLOCK, BLOCK], [2]),
    ("39", lambda k: node(2, node(39, *k), x=8, t=NOARGS), [ASSIGN] * 4, [0, 1, 2, 3, 4]),
    ("39 within", lambda k: body(node(38, TRUE, node(39, *k))), [ASSIGN] * 4, [0, 1, 2, 3, 4]),
    ("40 as condition", lambda k: body(node(37, node(40, *k), ABSENT, BLOCK)),
     [NUMBER] * 2, [0]),
    ("40 as step", lambda k: body(node(37, ABSENT, node(40, *k), BLOCK)), [RETURN] * 2, [0]),
]


def child_counts(c):
    for name, around, supply, right in CHILDREN:
        for count in range(len(supply) + 1):
            c.sides(5, count in right, "children of %s: %d" % (name, count),
                    with_nodes(around(supply[:count])))

    c.good("16 with 300 elements", with_nodes(initial(elements(*[NUMBER] * 300))))
    c.good("24 with 60 arguments", with_nodes(returned(node(24, *[NAME] * 61))))
    c.good("39 with 60 statements", with_nodes(body(*[ASSIGN] * 60)))
    c.good("21 with 60 field initializers of one name",
           with_nodes(returned(record(*[FIELD_VALUE] * 60))))
    c.bad(5, "35 without condition", with_nodes(body(node(35, BLOCK, BLOCK))))
    c.bad(5, "36 without expression", with_nodes(body(node(36, BLOCK, BLOCK, x=6, t=RECORD))))
    c.bad(5, "38 without condition", with_nodes(body(node(38, BLOCK))))
    c.bad(5, "38 with the block first", with_nodes(body(node(38, BLOCK, TRUE))))
    c.bad(5, "35 with the condition last", with_nodes(body(node(35, BLOCK, BLOCK, TRUE))))
    c.bad(5, "35 with two conditions", with_nodes(body(node(35, TRUE, TRUE, BLOCK, BLOCK))))
    c.bad(5, "30 with the target last", with_nodes(body(node(30, NUMBER, NAME))))
    c.good("30 of an element of a call's field", with_nodes(body(
        node(30, node(19, node(23, node(24, NAME), x=1), NUMBER), NAME))))
    c.good("35: an else with an if in its block", with_nodes(body(
        node(35, TRUE, BLOCK, node(39, SAMPLE[35])))))


def function_parameters(c):
    for name, t, wanted in (("none", NOARGS, 0), ("one", ONEARG, 1), ("two", TWOARGS, 2)):
        for given in range(5):
            c.sides(5, given == wanted, "F10: t of %s, %d parameters" % (name, given),
                    with_nodes(node(2, *[PARAMETER] * given, BLOCK, x=8, t=t)))
            c.bad(5, "t of %s, %d parameters, no block" % (name, given),
                  with_nodes(node(2, *[PARAMETER] * given, x=8, t=t)))
        c.bad(5, "t of %s, two blocks" % name,
              with_nodes(node(2, *[PARAMETER] * wanted, BLOCK, BLOCK, x=8, t=t)))
    c.bad(5, "the block before the parameter", with_nodes(node(2, BLOCK, PARAMETER, x=8, t=ONEARG)))
    c.bad(5, "the block between the parameters",
          with_nodes(node(2, PARAMETER, BLOCK, PARAMETER, x=8, t=TWOARGS)))
    c.bad(5, "a parameter after the block", with_nodes(node(2, BLOCK, PARAMETER, x=8, t=NOARGS)))

    types, params = base() + [function_type(VOID, 0, 198)], [INT] * 198
    for given in (197, 198, 199):
        c.sides(5, given == 198, "F10: t of 198, %d parameters" % given, program(
            types=types, params=params,
            nodes=node(2, *[PARAMETER] * given, BLOCK, x=8, t=4)))
    c.good("parameters of one name", with_nodes(
        node(2, PARAMETER, PARAMETER, BLOCK, x=8, t=TWOARGS)))


def for_statements(c):
    truth, absent = TRUE, ABSENT
    for name, number, children in (
            ("F7: no vars, all absent", 0, [absent, absent, BLOCK]),
            ("condition only", 0, [truth, absent, BLOCK]),
            ("step only", 0, [absent, ASSIGN, BLOCK]),
            ("condition and step", 0, [truth, ASSIGN, BLOCK]),
            ("one var", 0, [VAR, absent, absent, BLOCK]),
            ("one var, condition and step", 0, [VAR, truth, ASSIGN, BLOCK]),
            ("two vars", 0, [VAR, VAR, absent, absent, BLOCK]),
            ("five vars", 0, [VAR] * 5 + [truth, ASSIGN, BLOCK]),
            ("F8: a var as step", 0, [absent, VAR, BLOCK]),
            ("F8: a var as step after a var", 0, [VAR, truth, VAR, BLOCK]),
            ("F8: a for as step", 0, [absent, SAMPLE[37], BLOCK]),
            ("a block with statements", 0, [absent, absent, node(39, ASSIGN, RETURN)]),
            ("nothing", 5, []),
            ("a block alone", 5, [BLOCK]),
            ("absent alone", 5, [absent]),
            ("condition and block", 5, [truth, BLOCK]),
            ("absent and block", 5, [absent, BLOCK]),
            ("var and block", 5, [VAR, BLOCK]),
            ("no block", 5, [absent, absent]),
            ("three absent", 5, [absent, absent, absent]),
            ("var, then block as the third", 5, [VAR, absent, BLOCK]),
            ("two vars and a block", 5, [VAR, VAR, BLOCK]),
            ("three vars and a block", 5, [VAR, VAR, VAR, BLOCK]),
            ("absent for a var", 5, [absent, absent, absent, BLOCK]),
            ("an expression for a var", 5, [truth, truth, absent, BLOCK]),
            ("an assignment for a var", 5, [ASSIGN, truth, ASSIGN, BLOCK]),
            ("two steps", 5, [truth, ASSIGN, ASSIGN, BLOCK]),
            ("two steps after a var", 5, [VAR, truth, ASSIGN, ASSIGN, BLOCK]),
            ("two conditions after a var", 5, [VAR, truth, truth, absent, BLOCK]),
            ("a var after the condition", 5, [truth, VAR, absent, BLOCK]),
            ("a statement as condition", 5, [ASSIGN, absent, BLOCK]),
            ("an expression as step", 5, [truth, truth, BLOCK]),
            ("F8: a block as step", 5, [truth, BLOCK, BLOCK]),
            ("two blocks", 5, [absent, absent, BLOCK, BLOCK]),
            ("the block first", 5, [BLOCK, absent, absent]),
            ("a statement as block", 5, [absent, absent, ASSIGN])):
        c.add(number, "for: " + name, with_nodes(body(node(37, *children))))


# ---------------------------------------------------------------------------
# 5: operands

X_UNUSED = [10, 11, 12, 16, 17, 19, 20, 21, 24, 30, 32, 33, 34, 35, 37, 38, 39, 40]
X_FREE = [1, 2, 3, 13, 14, 15, 18, 22, 23, 31, 36]
T_UNUSED = [1, 3, 11, 12, 13, 14, 15, 19, 20, 22, 23, 24, 25, 26,
            30, 31, 32, 33, 34, 35, 37, 38, 39, 40]
# For each kind that names t, the types of TYPES that it may be
T_USED = {
    2: [NOARGS, ONEARG, TWOARGS],
    10: [NULLABLE],
    16: [ARRAY],
    17: [ARRAY],
    18: [ARRAY],
    21: [RECORD],
    36: [STRING, RECORD, ARRAY, NOARGS, ONEARG, TWOARGS],
}
T_TRIED = [0, 1, 2, 3, 4, 5, 6, 7, 8, 9, PAST, 65535]


def operands(c):
    for kind in X_UNUSED:
        for x in (1, 65535):
            c.bad(5, "F2: x %d at %d" % (x, kind), with_nodes(placed(changed(SAMPLE[kind], x=x))))
    for kind in X_FREE:
        for x in (0, 256, 65535):
            c.good("x %d at %d" % (x, kind), with_nodes(placed(changed(SAMPLE[kind], x=x))))
    for kind in T_UNUSED:
        for t in (1, 65535):
            c.bad(5, "F2: t %d at %d" % (t, kind), with_nodes(placed(changed(SAMPLE[kind], t=t))))
    for kind, name, t in ((23, "field", RECORD), (24, "call", NOARGS), (19, "index", ARRAY),
                          (22, "field initializer", RECORD), (31, "var", NULLABLE)):
        c.bad(5, "F2: t %d at a %s" % (t, name), with_nodes(placed(changed(SAMPLE[kind], t=t))))
    c.bad(5, "F2: x 1 at a function's block",
          with_nodes(node(2, node(39, x=1), x=8, t=NOARGS)))
    c.bad(5, "F2: t 1 at a function's block",
          with_nodes(node(2, node(39, t=1), x=8, t=NOARGS)))
    c.bad(5, "F2: x 1 at an absent step",
          with_nodes(body(node(37, ABSENT, node(40, x=1), BLOCK))))
    c.bad(5, "F2: t 1 at an absent step",
          with_nodes(body(node(37, ABSENT, node(40, t=1), BLOCK))))
    c.bad(5, "F2: the 60-byte file with x 1 at its true",
          program(nodes=[(1, 5, 0, 1), (11, 1, 0, 0)]))
    c.bad(5, "F2: the 60-byte file with t 1 at its true",
          program(nodes=[(1, 5, 0, 1), (11, 0, 1, 0)]))
    c.bad(5, "F2: the 60-byte file with t 1 at its global",
          program(nodes=[(1, 5, 1, 1), (11, 0, 0, 0)]))

    for x in (0, 1, 2, 3, 4, 15, 255, 256, 65535):
        c.sides(5, x in [0, 1, 2], "F9: unary operator %d" % x,
                with_nodes(returned(node(25, NUMBER, x=x))))
    for x in list(range(18)) + [31, 32, 255, 256, 257, 65535]:
        c.sides(5, x in [0, 1, 2, 3, 4, 5, 6, 7, 8, 9, 10, 11, 12, 13, 14, 15],
                "F9: binary operator %d" % x, with_nodes(returned(node(26, NUMBER, NUMBER, x=x))))


def type_operands(c):
    def with_t(kind, t):
        if kind == 2:
            given = {ONEARG: 1, TWOARGS: 2}.get(t, 0)
            return node(2, *[PARAMETER] * given, BLOCK, x=8, t=t)
        return changed(SAMPLE[kind], t=t)

    for kind, admitted in T_USED.items():
        for t in T_TRIED:
            c.sides(5, t in admitted, "t %d at %d" % (t, kind), with_nodes(placed(with_t(kind, t))))
        t = admitted[0]
        c.bad(5, "t %d at %d, its high byte set" % (t, kind),
              with_nodes(placed(changed(with_t(kind, t), t=t + 256))))
    for kind in (10, 16, 21):
        for t in T_TRIED:
            c.sides(5, t in T_USED[kind], "t %d at %d in a global" % (t, kind),
                    with_nodes(initial(with_t(kind, t))))
    # Types 0 to 3 alone: the first number past them
    c.bad(5, "t past types 0 to 3 at 10", program(nodes=initial(node(10, t=4))))
    c.bad(5, "t past types 0 to 3 at 16", program(nodes=initial(node(16, t=4))))
    c.bad(5, "t past types 0 to 3 at 21", program(nodes=initial(node(21, t=4))))
    c.bad(5, "t past types 0 to 3 at 2", program(nodes=node(2, BLOCK, t=4)))
    # Other types of the right kind
    more = base() + [nullable_type(STRING), struct_type(1), array_type(5), nullable_type(6),
                     array_type(4), function_type(4, 0, 0), nullable_type(9), array_type(9)]
    for name, tree in (("null of a string", node(10, t=4)),
                       ("null of an array of structs", node(10, t=7)),
                       ("null of a function", node(10, t=10)),
                       ("array literal of structs", node(16, t=6)),
                       ("array literal of nullables", node(16, t=8)),
                       ("array literal of functions", node(16, t=11)),
                       ("literal of an undeclared struct", node(21, t=5))):
        c.good("F17: " + name, program(types=more, nodes=initial(tree)))


# ---------------------------------------------------------------------------
# 5: the tree as a whole


def whole_tree(c):
    c.good("no nodes", with_nodes([]))
    c.good("the rich function", with_nodes(RICH))
    c.good("the rich function twice", with_nodes(RICH + RICH))
    c.good("global, function, global", with_nodes(GLOBAL + FUNCTION + GLOBAL))
    c.good("declarations of one name", with_nodes(initial(TRUE) + initial(FALSE)))
    c.good("a call in a function after a global", with_nodes(GLOBAL + returned(SAMPLE[24])))
    c.bad(5, "a call in a global after a function", with_nodes(FUNCTION + initial(SAMPLE[24])))
    c.bad(5, "a call in the second of three globals",
          with_nodes(GLOBAL + initial(SAMPLE[24]) + GLOBAL))
    c.bad(5, "the second of two functions broken", with_nodes(FUNCTION + body(NUMBER)))
    c.bad(5, "the first of two functions broken", with_nodes(body(NUMBER) + FUNCTION))
    c.good("elements after nested elements", with_nodes(initial(
        elements(elements(elements(NUMBER), NUMBER), NUMBER))))
    c.bad(5, "a call after nested elements in a global", with_nodes(initial(
        elements(elements(elements(NUMBER), NUMBER), SAMPLE[24]))))
    c.bad(5, "a 22 after nested elements", with_nodes(returned(
        elements(elements(record(FIELD_VALUE)), FIELD_VALUE))))
    c.bad(5, "an expression after nested 22s", with_nodes(returned(
        record(node(22, record(FIELD_VALUE), x=1), NUMBER))))

    # The 60-byte file with other child counts
    for first, second in ((0, 0), (2, 0), (3, 0), (65535, 0), (1, 1), (0, 1), (1, 65535), (257, 0)):
        c.bad(5, "60-byte file with child counts %d and %d" % (first, second),
              program(nodes=[(1, 5, 0, first), (11, 0, 0, second)]))
    c.bad(5, "a global alone, child count 1", program(nodes=[(1, 5, 0, 1)]))
    c.bad(5, "a global alone, child count 0", program(nodes=[(1, 5, 0, 0)]))
    c.bad(5, "a global alone, child count 65,535", program(nodes=[(1, 5, 0, 65535)]))
    c.bad(5, "a true left over", program(nodes=GLOBAL + TRUE))
    c.bad(5, "an absent left over", program(nodes=GLOBAL + ABSENT))
    c.bad(5, "a global cut after a whole one", program(nodes=GLOBAL + GLOBAL[:1]))
    c.bad(5, "a global takes the next declaration as a child",
          program(nodes=[(1, 5, 0, 2)] + TRUE + GLOBAL))
    c.bad(5, "a block takes the next declaration as a statement",
          with_nodes(node(2, node(39, count=1), x=8, t=NOARGS) + GLOBAL))
    c.bad(5, "65,535 elements said, one there",
          with_nodes(initial(node(16, NUMBER, t=ARRAY, count=65535))))
    c.bad(5, "65,536 children due in all, none there", with_nodes(initial(
        node(16, node(16, t=ARRAY, count=2), t=ARRAY, count=65535))))
    c.bad(5, "65,537 children due in all, one there", with_nodes(initial(
        node(16, node(16, NUMBER, t=ARRAY, count=3), t=ARRAY, count=65535))))
    c.bad(5, "24 with 65,535 children said", with_nodes(returned(node(24, NAME, count=65535))))
    c.bad(5, "37 with 65,535 children said",
          with_nodes(body(node(37, ABSENT, ABSENT, BLOCK, count=65535))))
    c.bad(5, "39 with 65,535 children said",
          with_nodes(node(2, node(39, RETURN, count=65535), x=8, t=NOARGS)))
    c.bad(5, "2 with 65,535 children said",
          with_nodes([(2, 8, NOARGS, 65535)] + BLOCK))
    c.bad(5, "2 with 0 children said", with_nodes([(2, 8, NOARGS, 0)]))

    # The rich function is one declaration, of 70 nodes.  Its proper beginnings run past the end;
    # a child count one higher does too; one lower leaves a node over that is no declaration.
    assert len(RICH) == 70
    for size in range(1, len(RICH), 2):
        c.bad(5, "the rich function's first %d nodes" % size, with_nodes(RICH[:size]))
    for place, (kind, x, t, count) in enumerate(RICH):
        for other in (count - 1, count + 1):
            if count > 0:
                nodes = RICH[:place] + [(kind, x, t, other)] + RICH[place + 1:]
                c.bad(5, "the rich function, node %d of kind %d with %d children for %d"
                      % (place, kind, other, count), with_nodes(nodes))
    for size in (1, 2, 3, 10, len(RICH) - 1):
        c.bad(5, "the rich function's last %d nodes" % size, with_nodes(RICH[-size:]))


# ---------------------------------------------------------------------------
# 5: depth


def tower(around, leaf, levels):
    """`levels` times something around a leaf."""
    tree = leaf
    for _ in range(levels):
        tree = around(tree)
    return tree


# Kinds that stand around one expression, one level each
EXPRESSION_LEVELS = [
    ("last elements of 16", lambda e: elements(NUMBER, e)),
    ("lengths of 17", lambda e: node(17, e, t=ARRAY)),
    ("lengths of 18", lambda e: node(18, e, NUMBER, x=4, t=ARRAY)),
    ("values of 18", lambda e: node(18, NUMBER, e, x=4, t=ARRAY)),
    ("arrays of 19", lambda e: node(19, e, NUMBER)),
    ("indexes of 19", lambda e: node(19, NAME, e)),
    ("arrays of 20", lambda e: node(20, e)),
    ("records of 23", lambda e: node(23, e, x=5)),
    ("callees of 24", lambda e: node(24, e, NUMBER)),
    ("arguments of 24", lambda e: node(24, NAME, e)),
    ("children of 25", lambda e: node(25, e, x=0)),
    ("left of 26", lambda e: node(26, e, NUMBER, x=1)),
    ("right of 26", lambda e: node(26, NUMBER, e, x=1)),
]

# Statements around one block, two levels each: the statement and the block
STATEMENT_LEVELS = [
    ("first blocks of 35", lambda b: node(39, node(35, TRUE, b, BLOCK))),
    ("second blocks of 35", lambda b: node(39, node(35, TRUE, BLOCK, b))),
    ("first blocks of 36", lambda b: node(39, node(36, NAME, b, BLOCK, x=6, t=RECORD))),
    ("second blocks of 36", lambda b: node(39, node(36, NAME, BLOCK, b, x=6, t=RECORD))),
    ("blocks of 37", lambda b: node(39, node(37, ABSENT, ABSENT, b))),
    ("blocks of 38", lambda b: node(39, node(38, TRUE, b))),
]


def fields_down(levels, leaf):
    """Struct literals in each other: a 21 and a 22 for each level, then the leaf."""
    return tower(lambda e: record(node(22, e, x=5)), leaf, levels)


def depth(c):
    # A global's initializer is at depth 2, a returned expression at 4.
    for levels, number in ((97, 0), (98, 0), (99, 5), (100, 5)):
        c.add(number, "global of 16s, deepest at %d" % (levels + 2),
              with_nodes(initial(tower(elements, NUMBER, levels))))
    c.good("global of 16s, the deepest empty, at 100", with_nodes(
        initial(tower(elements, elements(), 98))))
    for name, around in EXPRESSION_LEVELS:
        c.good("depth 100: " + name, with_nodes(returned(tower(around, NAME, 96))))
        c.bad(5, "depth 101: " + name, with_nodes(returned(tower(around, NAME, 97))))

    # n levels of 21 and 22 at depth 2 put their leaf at 2 + 2n; a 16 above adds 1.
    c.good("depth 100: a leaf below 49 field initializers", with_nodes(
        initial(fields_down(49, NUMBER))))
    c.bad(5, "depth 101: a leaf below a 16 and 49 field initializers", with_nodes(
        initial(elements(fields_down(49, NUMBER)))))
    c.good("depth 99: a leaf below a 16 and 48 field initializers", with_nodes(
        initial(elements(fields_down(48, NUMBER)))))
    c.good("depth 100: a leaf below two 16s and 48 field initializers", with_nodes(
        initial(elements(elements(fields_down(48, NUMBER))))))
    c.bad(5, "depth 102: a leaf below 50 field initializers", with_nodes(
        initial(fields_down(50, NUMBER))))
    c.good("depth 100: an empty 21 below 49 field initializers", with_nodes(
        initial(fields_down(49, record()))))
    c.bad(5, "depth 101: an empty 21 below a 16 and 49 field initializers", with_nodes(
        initial(elements(fields_down(49, record())))))
    # In a function the returned expression is at 4.
    c.good("depth 100: a leaf below 48 field initializers in a function", with_nodes(
        returned(fields_down(48, NAME))))
    c.bad(5, "depth 101: a leaf below 48 field initializers and a 25 in a function", with_nodes(
        returned(node(25, fields_down(48, NAME), x=0))))

    # A function's block is at 2; n statements with their blocks put the last block at 2 + 2n.
    for name, around in STATEMENT_LEVELS:
        c.good("depth 100: " + name, with_nodes(
            node(2, tower(around, BLOCK, 49), x=8, t=NOARGS)))
        c.bad(5, "depth 101: %s, then a return" % name, with_nodes(
            node(2, tower(around, node(39, RETURN), 49), x=8, t=NOARGS)))
        c.bad(5, "depth 102: " + name, with_nodes(
            node(2, tower(around, BLOCK, 50), x=8, t=NOARGS)))
    c.good("depth 99: blocks of 38, then a return", with_nodes(
        node(2, tower(STATEMENT_LEVELS[5][1], node(39, RETURN), 48), x=8, t=NOARGS)))
    c.good("depth 100: blocks of 38, then a returned name", with_nodes(
        node(2, tower(STATEMENT_LEVELS[5][1], node(39, node(32, NAME)), 48), x=8, t=NOARGS)))

    # Steps of 37: one level each.  The first for is at 3, the last one's children one below it.
    def steps(levels):
        return body(tower(lambda s: node(37, ABSENT, s, BLOCK), SAMPLE[37], levels))

    c.good("depth 100: 37s as steps of each other, the last with 40, 40, 39", with_nodes(steps(96)))
    c.bad(5, "F20: depth 101: 37s as steps of each other, the last with 40, 40, 39",
          with_nodes(steps(97)))
    # A while as the last step shifts its block by one against the blocks above.
    c.good("depth 100: 37s as steps, a 38 at 99", with_nodes(
        body(tower(lambda s: node(37, ABSENT, s, BLOCK), SAMPLE[38], 96))))
    c.bad(5, "depth 101: 37s as steps, a 38 at 100", with_nodes(
        body(tower(lambda s: node(37, ABSENT, s, BLOCK), SAMPLE[38], 97))))
    c.good("depth 100: 37s as steps, a return at 100", with_nodes(
        body(tower(lambda s: node(37, ABSENT, s, BLOCK), RETURN, 97))))
    c.bad(5, "depth 101: 37s as steps, a return at 101", with_nodes(
        body(tower(lambda s: node(37, ABSENT, s, BLOCK), RETURN, 98))))
    c.good("depth 100: deep var of a 37", with_nodes(
        body(node(37, node(31, tower(lambda e: node(25, e, x=0), NAME, 95), x=1),
                  ABSENT, ABSENT, BLOCK))))
    c.bad(5, "depth 101: deep var of a 37", with_nodes(
        body(node(37, node(31, tower(lambda e: node(25, e, x=0), NAME, 96), x=1),
                  ABSENT, ABSENT, BLOCK))))
    c.good("depth 100: deep target", with_nodes(
        body(node(30, tower(lambda e: node(23, e, x=1), NAME, 96), NUMBER))))
    c.bad(5, "depth 101: deep target", with_nodes(
        body(node(30, tower(lambda e: node(23, e, x=1), NAME, 97), NUMBER))))

    # Depth is of the place, not of the file.
    deepest, too_deep = initial(tower(elements, NUMBER, 98)), initial(tower(elements, NUMBER, 99))
    c.good("depth 100 in three declarations", with_nodes(deepest * 3))
    c.good("depth 1: 300 globals", with_nodes(GLOBAL * 300))
    c.bad(5, "depth 101 in the first of two", with_nodes(too_deep + GLOBAL))
    c.bad(5, "depth 101 in the last of two", with_nodes(GLOBAL + too_deep))
    c.bad(5, "depth 101 after depth 100", with_nodes(deepest + too_deep))
    c.bad(5, "depth 101 in the last of three elements", with_nodes(
        initial(elements(NUMBER, elements(NUMBER), tower(elements, NUMBER, 98)))))
    c.good("depth 100 in the last of three elements", with_nodes(
        initial(elements(NUMBER, elements(NUMBER), tower(elements, NUMBER, 97)))))
    c.bad(5, "depth 101 in the first of three elements", with_nodes(
        initial(elements(tower(elements, NUMBER, 98), NUMBER, NUMBER))))
    c.good("depth 100 at each of 40 elements", with_nodes(
        initial(tower(elements, elements(*[NUMBER] * 40), 97))))
    c.bad(5, "depth 1,000", with_nodes(initial(tower(elements, NUMBER, 998))))
    c.bad(5, "depth 4,096", with_nodes(initial(tower(elements, NUMBER, 4094))))
    c.bad(5, "depth 257", with_nodes(initial(tower(elements, NUMBER, 255))))


# ---------------------------------------------------------------------------
# Readable files whose typing fails, and the pan programs


def readable_programs(c):
    # Q 4, Q? 5, ()->int 6, string[] 7, ()->void 8
    types = base() + [struct_type(9), nullable_type(4), function_type(INT, 0, 0),
                      array_type(STRING), function_type(VOID, 0, 0)]
    to_int, to_void = 6, 8

    def function(t, *statements):
        return node(2, node(39, *statements), x=1, t=t)

    one, y, f = node(13, x=1), node(15, x=99), node(15, x=1)
    for name, nodes in (
            ("7: var x=1; var x=2;", function(
                to_void, node(31, one, x=5), node(31, node(13, x=2), x=5))),
            ("8: return y;", function(to_int, node(32, y))),
            ("9: Q null", initial(node(10, t=5))),
            ("10: if(1)", function(to_void, node(35, one, BLOCK, BLOCK))),
            ("11: return true; for int", function(to_int, node(32, TRUE))),
            ("12: f(1)", function(to_int, node(32, node(24, f, one)))),
            ("13: return 1; in void", function(to_void, node(32, one))),
            ("14: body { }", function(to_void)),
            ("15: f = f;", function(to_void, node(30, f, f))),
            ("16: new string[3]", function(
                to_void, node(31, node(17, node(13, x=3), t=7), x=5)))):
        c.good("readable, " + name, program(types=types, nodes=nodes))

    # A 0, B 1, C 2; A 4, B 5, C 6, A? 7, A[] 8, B[] 9, (A)->B 10, (B)->A 11, ()->void 12
    pan_types = base() + [struct_type(0), struct_type(1), struct_type(2), nullable_type(4),
                          array_type(4), array_type(5), function_type(5, 0, 1),
                          function_type(4, 1, 1), function_type(VOID, 2, 0)]
    pan = dict(types=pan_types, params=[4, 5],
               fields=[(0, INT), (1, INT), (0, INT), (1, INT), (2, INT), (0, INT), (2, INT)],
               structs=[(0, 0, 2), (1, 2, 3), (2, 5, 2)])
    stop = node(39, RETURN)
    c.good("pan: types alone", program(**pan))
    for name, block in (("{return;}", stop), ("{ }", BLOCK),
                        ("if, both arms returning", node(39, node(35, TRUE, stop, stop))),
                        ("if, one arm returning", node(39, node(35, TRUE, stop, BLOCK)))):
        c.good("pan: body " + name, program(**pan, nodes=node(2, block, x=1, t=12)))


# ---------------------------------------------------------------------------
# The largest file: all six counts at their most, 200 parts, depth 100


def largest_sections(deep_levels=98, extra_nodes=0):
    # Types 0 to 9 as TYPES (3 list entries), 10 to 208 arrays of 2 to 200 parts,
    # 209 to 213 functions of 198 ints, 214 one of 31, then to 511 structs, nullables, functions.
    types, params = list(TYPES), list(PARAMS)
    types += chain(5, 199, first=10)
    for size in (198, 198, 198, 198, 198, 31):
        types.append(function_type(VOID, len(params), size))
        params += [INT] * size
    while len(types) < 512:
        types += [struct_type(len(types)), nullable_type(len(types)),
                  function_type(206, len(params), 0)]
    assert len(types) == 512 and len(params) == 1024

    fields = [(i % 4, 4 + i % 505) for i in range(1024)]
    structs = [(i, 4 * i, 4) for i in range(256)]
    builtins = [(i, (6, 8, 9, 209, 214)[i % 5]) for i in range(128)]
    nodes = RICH + initial(tower(elements, NUMBER, deep_levels))
    nodes += node(2, tower(STATEMENT_LEVELS[5][1], BLOCK, 49), x=8, t=NOARGS)
    nodes += GLOBAL * 100
    nodes += initial(elements(*[NUMBER] * (4096 + extra_nodes - 2 - len(nodes))))
    assert len(nodes) == 4096 + extra_nodes
    return [types, [(entry,) for entry in params], fields, structs, builtins, nodes]


def largest(c):
    def pack(records):
        return b"".join(section(part) for part in records)

    def last_replaced(index, replacement):
        records = largest_sections()
        records[index][-1] = replacement
        return pack(records)

    full = pack(largest_sections())
    assert len(full) == 45068
    c.good("largest file", full)
    c.bad(1, "largest file and 1 byte", full + b"\0")
    c.bad(1, "largest file without its last byte", full[:-1])
    c.bad(2, "largest file with a node more", pack(largest_sections(extra_nodes=1)))
    c.bad(5, "largest file, depth 101", pack(largest_sections(deep_levels=99)))
    c.bad(3, "largest file, last type a 201st part", last_replaced(0, array_type(208)))
    c.bad(4, "largest file, last struct with 5 fields", last_replaced(3, (255, 1020, 5)))
    c.bad(5, "largest file, last node with a child", last_replaced(5, (13, 9, 0, 1)))


# ---------------------------------------------------------------------------


def all_cases():
    c = Cases()
    for family in (documented, length, counts, counts_with_records,
                   first_types, later_types, references, type_list, parts,
                   fields, structs, builtins, order,
                   roles, child_counts, function_parameters, for_statements,
                   operands, type_operands, whole_tree, depth,
                   readable_programs, largest, nearly_empty):
        family(c)
    return c.items


def write(items, folder):
    os.makedirs(folder, exist_ok=True)
    with open(os.path.join(folder, "rules.bin"), "wb") as packed:
        for _, _, data in items:
            packed.write(len(data).to_bytes(4, "little") + data)
    with open(os.path.join(folder, "rules.txt"), "w", newline="\n") as answers:
        for _, expected, _ in items:
            answers.write("%d\n" % expected)


def main(arguments):
    if len(arguments) != 1:
        sys.exit("usage: vectors.py OUT | vectors.py --list")
    items = all_cases()
    if arguments[0] == "--list":
        for index, (name, expected, _) in enumerate(items, 1):
            print(index, name, expected)
    else:
        write(items, arguments[0])


if __name__ == "__main__":
    main(sys.argv[1:])
