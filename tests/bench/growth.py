#!/usr/bin/env python3
"""Writes packed files of 64, 512 and 4,096 nodes into a folder, to see how the time of a check grows: `names`, 128 built-ins and then globals, each
the value of the one before; `scopes`, one function whose block is all vars, each the value of the one before; `structs`, 256 structs of
four fields, literals of them and their fields; `deep`, a comparison of two function types of 200 parts in comparisons down to depth 100; `full`, the largest file of the stored corpus.
Files of one literal, of 4, 40 and 1,024 fields: `declared`, in the declared order; `turned`, in the opposite one; `falling`, in the declared order, of
fields whose names are numbered downwards."""
import sys


def words(*numbers):
    return b"".join(n.to_bytes(2, "little") for n in numbers)


def section(records):
    return words(len(records)) + b"".join(words(*r) for r in records)


def file(types, fields, structs, built_ins, nodes):
    return b"".join(section(s) for s in (types, [], fields, structs, built_ins, nodes))


BASE = [(k, 0, 0, 0) for k in range(4)] + [(6, 3, 0, 0)]


def value(i, first):
    return (15, first + i - 1, 0, 0) if i else (13, 7, 0, 0)


def names(count):
    nodes = []
    for i in range(count // 2):
        nodes += [(1, 2000 + i, 0, 1), value(i, 2000)]
    return file(BASE, [], [], [(1000 + i, 4) for i in range(128)], nodes)


def function(statements):
    nodes = [(2, 1, 4, 1), (39, 0, 0, len(statements) + 1)]
    for statement in statements:
        nodes += statement
    return nodes + [(33, 0, 0, 0)]


def scopes(count):
    return file(BASE, [], [], [], function([[(31, 100 + i, 0, 1), value(i, 100)] for i in range((count - 3) // 2)]))


def structs(count):
    types = BASE + [(4, 300 + i, 0, 0) for i in range(256)]
    fields = [(4000 + i, 0) for i in range(1024)]
    records = [(300 + i, 4 * i, 4) for i in range(256)]
    statements, i = [], 0
    while sum(map(len, statements)) + 13 + 3 <= count:
        s = i % 256
        literal = [(31, 100 + i, 0, 1), (21, 0, 5 + s, 4)]
        for j in (2, 0, 3, 1):
            literal += [(22, 4000 + 4 * s + j, 0, 1), (13, j, 0, 0)]
        statements += [literal, [(31, 5000 + i, 0, 1), (23, 4000 + 4 * s + 3, 0, 1), (15, 100 + i, 0, 0)]]
        i += 1
    return file(types, fields, records, [], function(statements))


def literal(fields, named):
    """A global that is a literal with these names, of a struct with these fields."""
    types = [(k, 0, 0, 0) for k in range(4)] + [(4, 300, 0, 0)]
    nodes = [(1, 1, 0, 1), (21, 0, 4, len(named))]
    for x in named:
        nodes += [(22, x, 0, 1), (13, 7, 0, 0)]
    return file(types, [(x, 0) for x in fields], [(300, 0, len(fields))], [], nodes)


def literals():
    for count in (4, 40, 1024):
        names = range(4000, 4000 + count)
        yield f"declared_{count}", literal(names, names)
        yield f"turned_{count}", literal(names, names[::-1])
        yield f"falling_{count}", literal(names[::-1], names[::-1])


def deep():
    """A function of 200 parts, () -> () -> .. -> void, that returns what it gives, and one that returns it compared with itself, in comparisons with
    true down to depth 100."""
    types = [(k, 0, 0, 0) for k in range(4)] + [(6, k - 1, 0, 0) for k in range(4, 203)] + [(6, 1, 0, 0)]
    first = [(2, 1, 202, 1), (39, 0, 0, 1), (32, 0, 0, 1), (24, 0, 0, 1), (15, 1, 0, 0)]
    second = [(2, 2, 203, 1), (39, 0, 0, 1), (32, 0, 0, 1)] + [(26, 10, 0, 2)] * 96 + [(15, 1, 0, 0)] * 2 + [(11, 0, 0, 0)] * 95
    return file(types, [], [], [], first + second)


def unlike():
    """As deep, with two functions that give structs of equal fields at last: each type is below the other, and they are not equal."""
    types = [(k, 0, 0, 0) for k in range(4)] + [(4, 300, 0, 0), (4, 301, 0, 0)]
    types += [(6, k - 1 if k > 6 else 4, 0, 0) for k in range(6, 205)] + [(6, k - 1 if k > 205 else 5, 0, 0) for k in range(205, 404)] + [(6, 1, 0, 0)]
    nodes = []
    for name, t in ((1, 204), (2, 403)):
        nodes += [(2, name, t, 1), (39, 0, 0, 1), (32, 0, 0, 1), (24, 0, 0, 1), (15, name, 0, 0)]
    nodes += [(2, 3, 404, 1), (39, 0, 0, 1), (32, 0, 0, 1)] + [(26, 10, 0, 2)] * 96 + [(15, 1, 0, 0), (15, 2, 0, 0)] + [(11, 0, 0, 0)] * 95
    return file(types, [(4000, 0), (4000, 0)], [(300, 0, 1), (301, 1, 1)], [], nodes)


def full():
    packed, at, largest = open("tests/vectors/check.bin", "rb").read(), 0, b""
    while at + 4 <= len(packed):
        length = int.from_bytes(packed[at:at + 4], "little")
        largest = max(largest, packed[at + 4:at + 4 + length], key=len)
        at += 4 + length
    return largest


if __name__ == "__main__":
    for make in (names, scopes, structs):
        for count in (64, 512, 4096):
            made = make(count)
            open(f"{sys.argv[1]}/{make.__name__}_{count}", "wb").write(len(made).to_bytes(4, "little") + made)
    for name, made in (("deep_100", deep()), ("unlike_100", unlike()), ("full_4096", full()), *literals()):
        open(f"{sys.argv[1]}/{name}", "wb").write(len(made).to_bytes(4, "little") + made)
