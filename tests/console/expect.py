#!/usr/bin/env python3
"""Writes tests/console/expected.txt, the files of tests/console that are no examples, and what crates/oat_console is run on. What the console is to
print of a file comes from its bytes, read here by document 01's table, and from the answer and the rows of the peer (tests/peer, `cargo build --release
--offline`), never from the console. The tallies are counted and the pages printed here, and must be those of the peer.

    tests/console/expect.py            write the files
    tests/console/expect.py --check    say which stored files differ from what would be written
"""
import collections
import glob
import os
import struct
import subprocess
import sys

ROOT = os.path.join(os.path.dirname(os.path.abspath(__file__)), "..", "..")
PEER = os.path.join(ROOT, "tests", "peer", "target", "release", "oat_peer")
SIZES = (4, 1, 2, 3, 2, 4)
BASE = [(kind, 0, 0, 0) for kind in range(4)]
EXPRESSIONS = {*range(10, 22), *range(23, 27)}
MEANING = {
    1: "length wrong", 2: "count over its most", 3: "types or type list broken", 4: "fields, structs or built-ins broken",
    5: "node tree broken", 7: "name bound twice", 8: "name or field unknown", 9: "undeclared struct in a type", 10: "wrong sort of type",
    11: "not a subtype", 12: "arguments or fields don't match", 13: "void against value", 14: "return mark wrong",
    15: "function assigned", 16: "element without default", 17: "type not in file", 25: "a limit out of its range",
}

# files that are no examples, by their six sections
FILES = {
    # int[] is 4 and 5, int[]? is 6 and 7; globals of types 5, 7 and 4, and a function of type 8 without expressions
    "equal_holders": (BASE + [(5, 0, 0, 0), (5, 0, 0, 0), (7, 4, 0, 0), (7, 5, 0, 0), (6, 3, 0, 0)], [], [], [], [], [
        (1, 1, 0, 1), (16, 0, 5, 1), (13, 7, 0, 0), (1, 2, 0, 1), (10, 0, 7, 0), (1, 3, 0, 1), (16, 0, 4, 0),
        (2, 4, 8, 1), (39, 0, 0, 1), (33, 0, 0, 0)]),
    "no_expressions": (BASE + [(6, 3, 0, 0)], [], [], [], [], [(2, 9, 4, 1), (39, 0, 0, 1), (33, 0, 0, 0)]),
    "void_field": (BASE, [], [(1, 3)], [(2, 0, 1)], [], []),
    "kind_99": (BASE, [], [], [], [], [(99, 0, 0, 0)]),
}

USAGE = [f"error: {line}" for line in (
    "usage: oat check FILE", "       oat page FILE", "       oat subtype FILE A B", "       oat tally FILE",
    "and, last, --parts N (1 to 200), --depth N (1 to 100)")]

# subtype questions on examples, with limits: yes and no, pairs, types that are not there, refused files, limits that are out of range
QUESTIONS = [
    ("pan_b_below_a", 5, 4), ("pan_a_not_below_b", 4, 5), ("pan_c_not_below_a", 5, 4), ("null_tested", 4, 5), ("null_not_a_pan", 5, 4),
    ("arrays_invariant", 7, 6), ("parameters_turn_round", 7, 6), ("pairs_compared", 8, 7), ("new_pan", 2, 2), ("new_pan", 0, 1), ("new_pan", 4, 0),
    ("one_global", 0, 99999), ("var_twice", 0, 0), ("cut_short", 0, 0), ("nested_calls", 4, 4, 5, 6), ("nested_calls", 4, 4, 4, 6), ("nested_calls", 4, 4, 0, 100),
]
# checks, pages and tallies under limits: the least that let a file pass, one part and one level fewer, and limits out of their range
LIMITED = [("nested_calls", 5, 6), ("nested_calls", 4, 6), ("nested_calls", 5, 5), ("nested_calls", 0, 100), ("nested_calls", 200, 101), ("new_pan", 1, 1), ("cut_short", 201, 1)]


def wrong(problem):
    return [f"error: oat: {problem}", *USAGE]


# commands whose words are wrong or whose file cannot be read, with what they print
OTHERS = [
    ("oat", wrong("no verb")),
    ("oat tell pan_levels.oat", wrong("unknown verb: tell")),
    ("oat tallying pan_levels.oat", wrong("unknown verb: tallying")),
    ("oat '' pan_levels.oat", wrong("unknown verb: ")),
    ("oat tally_of_everything pan_levels.oat", wrong("unknown verb: tally_of_everything")),
    ("oat help", wrong("unknown verb: help")),
    ("oat check", wrong("no FILE")),
    ("oat page", wrong("no FILE")),
    ("oat tally", wrong("no FILE")),
    ("oat subtype", wrong("subtype takes FILE, A and B")),
    ("oat subtype pan_levels.oat 4", wrong("subtype takes FILE, A and B")),
    ("oat subtype pan_levels.oat four 4", wrong("no number: four")),
    ("oat subtype pan_levels.oat 4 4x", wrong("no number: 4x")),
    ("oat subtype pan_levels.oat 4 -4", wrong("no number: -4")),
    ("oat subtype pan_levels.oat 4 ''", wrong("no number: ")),
    ("oat subtype pan_levels.oat 4 4 4", wrong("unknown word: 4")),
    ("oat tally pan_levels.oat one_global.oat", wrong("unknown word: one_global.oat")),
    ("oat page pan_levels.oat --width 80", wrong("unknown word: --width")),
    ("oat check pan_levels.oat --parts 5 --depth", wrong("no number after --depth")),
    ("oat check pan_levels.oat --parts five", wrong("no number after --parts")),
    ("oat page missing.oat", ["error: missing.oat: No such file or directory"]),
    ("oat tally folder", ["error: folder: Is a directory"]),
    ("oat check $long", ["error: FILE: File name too long"]),
    ("oat check pan_levels.oat > /dev/full", ["error: standard output: No space left on device"]),
    ("oat page pan_levels.oat > /dev/full", ["error: standard output: No space left on device"]),
    ("oat tally pan_levels.oat > /dev/full", ["error: standard output: No space left on device"]),
    ("oat subtype pan_levels.oat 0 0 > /dev/full", ["error: standard output: No space left on device"]),
    ("../not_built/oat page pan_levels.oat", ["error: oat: not built yet: run 'tools/build.sh oat_console' in the repository"]),
]


def packed(sections):
    return b"".join(struct.pack("<H", len(s)) + b"".join(struct.pack(f"<{len(r)}H", *r) for r in s) for s in sections)


def unpacked(data):
    """The six sections of a readable file; zero bytes have types 0 to 3 and nothing else."""
    if not data:
        return [BASE, [], [], [], [], []]
    numbers = struct.unpack(f"<{len(data) // 2}H", data)
    sections, at = [], 0
    for size in SIZES:
        end = at + 1 + numbers[at] * size
        sections.append([numbers[i:i + size] for i in range(at + 1, end, size)])
        at = end
    return sections


def written_out(types, entries, t):
    """A type as document 01 writes it out."""
    kind, a, b, c = types[t]
    if kind < 4:
        return (kind,)
    if kind == 4:
        return (kind, a)
    parts = [a] + [e for e, in entries[b:b + c]] if kind == 6 else [a]
    return (kind, c, *(written_out(types, entries, p) for p in parts))


def in_words(types, t):
    kind, a, _, c = types[t]
    return ("int", "bool", "string", "void", f"struct {a}", f"array of type {a}",
            f"function of {plural(c, 'parameter')} to type {a}", f"nullable of type {a}")[kind]


def plural(n, word):
    return f"{n} {word}" if n == 1 else f"{n} {word}s"


def tallies(sections, rows):
    """How many expressions there are by type, under the lowest number of an equal one, and by the node of each outermost tree."""
    types, entries, nodes = sections[0], sections[1], sections[5]
    written = [written_out(types, entries, t) for t in range(len(types))]
    by_type, by_declaration, missing = collections.Counter(), {}, 0
    for node, (kind, _, _, children) in enumerate(nodes):
        if missing == 0:
            missing, tree = 1, node
            by_declaration[tree] = 0
        missing += children - 1
        if kind in EXPRESSIONS:
            by_type[written.index(written[rows[node]])] += 1
            by_declaration[tree] += 1
    return by_type, by_declaration


def tally_lines(sections, rows, peers):
    """The tallies of an accepted file in words."""
    types, nodes = sections[0], sections[5]
    by_type, by_declaration = tallies(sections, [row[0] for row in rows])
    counted = [["types", *(str(by_type[t]) for t in range(len(types)))], ["declarations", *map(str, by_declaration.values())]]
    if [line.split() for line in peers] != counted:
        sys.exit(f"the peer counts {peers}, not {counted}")
    yield f"accepted: {plural(sum(by_declaration.values()), 'expression')}"
    if by_type:
        yield "by type"
    for t, count in sorted(by_type.items()):
        yield f"  type {t}, {in_words(types, t)}: {count}"
    if by_declaration:
        yield "by declaration"
    for node, count in by_declaration.items():
        yield f"  node {node}, {'global' if nodes[node][0] == 1 else 'function'} {nodes[node][1]}: {count}"


def page_lines(sections, rows, peers):
    """The page of an accepted file, column by column."""
    nodes = sections[5]
    numbers = [(i, nodes[i][0], *row) for i, row in enumerate(rows)]
    lines = [" ".join(str(n).rjust(width) for n, width in zip(line, (4, 2, 5, 5))) for line in numbers]
    lines.append(f"pages {len(nodes) // 50} rows {len(nodes) % 50}")
    if peers != lines:
        sys.exit(f"the peer prints {peers}, not {lines}")
    return lines


def peer(data, *words):
    """The lines that the peer prints of a file."""
    out = subprocess.run([PEER, *map(str, words)], input=data, stdout=subprocess.PIPE, check=True).stdout.decode()
    return out.splitlines()


def refusal(number, step=0, place=0):
    where = f" (step {step}, place {place})" if 7 <= number <= 16 else ""
    return [f"refused: {number}, {MEANING[number]}{where}"]


def answer(verb, data, limits=(200, 100)):
    """What the console prints of a file."""
    head, *rows, pairs, _ = peer(struct.pack("<3I", len(data), *limits) + data, "limitbatch")[2:]
    number, step, place = map(int, head.split())
    if number != 0:
        return refusal(number, step, place)
    if verb == "check":
        return [f"accepted: {plural(step, 'step')}, {plural(int(pairs.split()[1]), 'pair')} of types compared"]
    lines = {"page": page_lines, "tally": tally_lines}[verb]
    return list(lines(unpacked(data), [tuple(map(int, row.split()[1:])) for row in rows], peer(data, verb, *limits)[1:]))


def question(data, a, b, limits=(200, 100)):
    """What the console prints of a subtype question."""
    said, pairs = peer(data, "sub", a, b, *limits)[0].split()
    if said not in ("yes", "no"):
        return refusal(int(said))
    return [f"{said}: type {a} is {'not ' if said == 'no' else ''}below type {b}, {plural(int(pairs), 'pair')} of types compared"]


def words(limits):
    return "".join(f" --{name} {n}" for name, n in zip(("parts", "depth"), limits))


def cases(files):
    """Each command with what it prints."""
    for verb in ("check", "page", "tally"):
        for name, data in files.items():
            yield f"oat {verb} {name}.oat", answer(verb, data)
        for name, *limits in LIMITED:
            yield f"oat {verb} {name}.oat{words(limits)}", answer(verb, files[name], limits)
        yield f"oat {verb} too_long.oat", answer(verb, bytes(45069))
        yield rf"printf '\1\2' | oat {verb} /dev/stdin", answer(verb, b"\1\2")
        yield f"two_parts pan_levels.oat | oat {verb} /dev/stdin", answer(verb, files["pan_levels"])
    for name, a, b, *limits in QUESTIONS:
        yield f"oat subtype {name}.oat {a} {b}{words(limits)}", question(files[name], a, b, limits or (200, 100))
    yield "oat check nested_calls.oat --depth 6", answer("check", files["nested_calls"], (200, 6))
    yield "oat check nested_calls.oat --depth 5 --parts 5 --depth 06", answer("check", files["nested_calls"], (5, 6))
    yield "oat check nested_calls.oat --parts 99999999999999999999", answer("check", files["nested_calls"], (65536, 100))
    yield "oat subtype one_global.oat 99999999999999999999 0", question(files["one_global"], 65536, 0)
    yield "../linked/oat page one_global.oat", answer("page", files["one_global"])
    yield from OTHERS


def files():
    """The bytes of each example and of the files that are none."""
    found = {name: packed(sections) for name, sections in FILES.items()}
    for path in glob.glob(os.path.join(ROOT, "examples", "*.oat")):
        with open(path, "rb") as file:
            found[os.path.basename(path)[:-4]] = file.read()
    return dict(sorted(found.items()))


def stored(found):
    """What is to stand in each stored file."""
    for name in FILES:
        yield f"tests/console/{name}.oat", found[name]
    yield "tests/console/expected.txt", text(line for command, lines in cases(found) for line in [f"$ {command}", *lines])
    yield "crates/oat_console/data/pan_levels.oat", found["pan_levels"]
    yield "crates/oat_console/stdout", text(answer("page", found["pan_levels"]))


def text(lines):
    return "".join(line + "\n" for line in lines).encode()


def main():
    for name, data in stored(files()):
        path = os.path.join(ROOT, name)
        if sys.argv[1:] != ["--check"]:
            with open(path, "wb") as file:
                file.write(data)
        elif not os.path.exists(path) or open(path, "rb").read() != data:
            sys.exit(f"{name} differs")


main()
