#!/usr/bin/env python3
"""Writes the files that run.sh times into a folder: `largest`, the largest readable file of the vectors of reading, and `worst`,
a subtype question whose two function types have 200 parts, 198 of them structs of 512 fields whose types have 199 parts, equal
under other numbers."""
import sys


def words(*numbers):
    return b"".join(n.to_bytes(2, "little") for n in numbers)


def section(records):
    return words(len(records)) + b"".join(words(*r) for r in records)


def largest():
    packed = open("crates/read_vectors/stdin", "rb").read()
    found, at = b"", 0
    for answer in open("crates/read_vectors/stdout").read().split():
        length = int.from_bytes(packed[at:at + 4], "little")
        file = packed[at + 4:at + 4 + length]
        at += 4 + length
        if answer == "0" and len(file) > len(found):
            found = file
    return found


def worst():
    types = [(k, 0, 0, 0) for k in range(4)] + [(4, 1, 0, 0), (4, 2, 0, 0)]
    tops = []
    for _ in range(2):
        types.append((5, 0, 0, 0))
        for _ in range(197):
            types.append((5, len(types) - 1, 0, 0))
        tops.append(len(types) - 1)
    types += [(6, 4, 0, 198), (6, 5, 198, 198)]
    listed = [(5,)] * 198 + [(4,)] * 198
    fields = [(i, top) for top in tops for i in range(512)]
    structs = [(1, 0, 512), (2, 512, 512)]
    return b"".join(section(s) for s in (types, listed, fields, structs, [], [])), len(types) - 2


if __name__ == "__main__":
    folder = sys.argv[1]
    open(folder + "/largest", "wb").write(largest())
    file, first = worst()
    open(folder + "/worst", "wb").write(file)
    print(first, first + 1)
