#!/usr/bin/env python3
"""Writes tests/vectors/buffers.bin and buffers.txt: small files of tests/vectors/check.bin, the first few of each number, and
zero bytes, the 44 bytes that they mean and one byte, with the peer's answers from check.txt, and what documents 01 and 02, (ii), (v) and (xi), say
of the buffers under each number. Under 12 there are more files, struct literals that are refused for their names, and a line that tells from where
on work is as before: it holds two numbers for each name bound and, since names are compared without marks, no more."""
import os
import struct

ROOT = os.path.join(os.path.dirname(os.path.abspath(__file__)), "..", "..")
SIZES = (4, 1, 2, 3, 2, 4)
MOST_NODES = 60
FIRST, LONGEST = 2, 4  # of each number the first files; of the accepted ones those with most nodes
EARLIER = 1449  # the files from here on, about field names, are chosen under 12 alone
FOUR_TYPES = b"\4\0" + b"".join(bytes([kind]) + bytes(7) for kind in range(4)) + bytes(10)
ALWAYS = (b"", FOUR_TYPES, b"\4")  # chosen in any case


def vectors():
    packed = open(os.path.join(ROOT, "tests/vectors/check.bin"), "rb").read()
    answers = open(os.path.join(ROOT, "tests/vectors/check.txt")).read().split("--\n")
    at = 0
    for lines in answers[:-1]:
        length = int.from_bytes(packed[at:at + 4], "little")
        yield packed[at + 4:at + 4 + length], tuple(map(int, lines.split("\n")[0].split()))
        at += 4 + length


def sections(file):
    """The records of each section of a readable file."""
    at, found = 0, []
    for size in SIZES:
        count = int.from_bytes(file[at:at + 2], "little")
        end = at + 2 + 2 * size * count
        found.append(list(struct.iter_unpack(f"<{size}H", file[at + 2:end])))
        at = end
    return found


def nodes(file, number):
    """How many nodes a readable file has; none of another counts, and zero bytes have none."""
    return 0 if 1 <= number <= 5 or not file else len(sections(file)[5])


def past(tree, at):
    """The first node after the tree at a node."""
    left = 1
    while left > 0:
        left += tree[at][3] - 1
        at += 1
    return at


def bound(file, place):
    """How many functions and globals are bound where a node in a global's value is refused; where it is in the first function's body, with nothing but
    vars before its statement and no node before it that binds a name for a while or opens a block, how many parameters and vars too; else None."""
    tree = sections(file)[5]
    starts = [0]
    while past(tree, starts[-1]) < len(tree):
        starts.append(past(tree, starts[-1]))
    start = max(at for at in starts if at <= place)
    functions, others = ([at for at in starts if tree[at][0] == kind] for kind in (2, 1))
    if start in others:
        return len(functions), others.index(start)
    if start != functions[0] or any(kind == 18 or 35 <= kind <= 38 for kind, *_ in tree[start:place]):
        return None
    parameters = tree[start][3] - 1
    at, variables = start + parameters + 2, 0
    while past(tree, at) <= place:
        if tree[at][0] != 31:
            return None
        at, variables = past(tree, at), variables + 1
    return len(functions), len(others), parameters, variables


def names_compared(file, place):
    """Whether a refused node is a struct literal with as many names as its struct has fields."""
    types, _, _, structs, _, tree = sections(file)
    kind, _, t, children = tree[place]
    return kind == 21 and any(name == types[t][1] and fields == children for name, _, fields in structs)


def literals(some):
    """Struct literals that are refused for their names: in a global, and in a body with parameters and vars, one for each count of names bound."""
    found = {}
    for file, count, answer in some:
        names = bound(file, answer[2]) if names_compared(file, answer[2]) else None
        if names and all(names[2:]):
            found.setdefault((len(names), sum(names)), (file, count, answer))
    return [found[key] for key in sorted(found)]


def lines(file, count, answer):
    number = answer[0]
    short = "6 0 0, rows as before, work as before"
    if 1 <= number <= 5:
        changes = "rows as before, work as before"
    else:
        rows = "written" if number == 0 else "65535"
        changes = f"every row {rows}, rows past them as before, work past as many as before"
    out = ["%d %d %d" % answer, "longer buffers: " + changes]
    if number == 12:
        out.append("work as before from %d on" % (2 * sum(bound(file, answer[2]))))
    out += [name + ": same answer, same rows" for name in ("zeroed buffers", "buffers of ones", "used buffers")]
    if count > 0:
        out += ["short rows: " + short, "short work: " + short]
    for limits in ("0 parts", "201 parts", "depth 0", "depth 101"):
        out += 2 * [limits + ": 25 0 0, rows as before, work as before"]  # in longer buffers and in none
    return out + ["--"]


def chosen():
    by_number = {}
    for i, (file, answer) in enumerate(vectors()):
        count = nodes(file, answer[0])
        if count <= MOST_NODES and len(file) <= 4000 and (i < EARLIER or answer[0] == 12):
            by_number.setdefault(answer[0], []).append((file, count, answer))
    for number in sorted(by_number):
        some = [s for s in by_number[number] if s[1] > 0 or number <= 5]
        taken = some[:FIRST]
        if number == 0:
            taken += sorted(some[FIRST:], key=lambda s: -s[1])[:LONGEST]
        if number == 12:
            taken += [s for s in literals(some) if s not in taken]
        asked = {s[0]: s for s in some if s[0] in ALWAYS}
        yield from taken + [s for s in asked.values() if s not in taken]


if __name__ == "__main__":
    packed, text = b"", []
    files = list(chosen())
    assert {file for file, _, _ in files}.issuperset(ALWAYS)
    for file, count, answer in files:
        packed += len(file).to_bytes(4, "little") + file
        text += lines(file, count, answer)
    folder = os.path.join(ROOT, "tests", "vectors")
    open(os.path.join(folder, "buffers.bin"), "wb").write(packed)
    open(os.path.join(folder, "buffers.txt"), "w").write("\n".join(text) + "\n")
