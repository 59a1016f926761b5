#!/usr/bin/env python3
"""Writes crates/typing_rules/proofs/Cases.antt: small files of the peer's stored vectors as programs of the definitions, each with a theorem
that antt computes: the program is that of a file, and the answer and rows are the peer's. Files are chosen so that together they have
every node kind and operator in an accepted program, whiles with either mark by their condition and by whether they are a for's step, uses of
each kind of local binder by how many binders of the name they have around them, and every number from 7 to 16 at every kind of place and group
of steps that a small file of the vectors has, 14 with and without while(true), 7 at a var by what it stands in.

Writes crates/tallies/proofs/Cases.antt: the accepted programs of that choice, and some of the peer's cases of tallies by hand, each with a
theorem that antt computes: the program is that of a file, the check accepts it, both tallies of its rows are the peer's, and the count of its
expressions is that of its node kinds, counted here. The former are cited from the first file, the others are written out. Cases by hand are chosen among the accepted ones of at most 20 nodes and 16 types, so that together they have
everything that one of these has of the following: equal types under two numbers that are both in rows, or of which the lowest is in no row, by
the kind of type and by what differs in the two records; a declaration without expressions between others; globals and functions in turn, from
three turns on; nodes of kinds 3, 22 and 40; no declaration.

    tests/rules/cases.py            write both files
    tests/rules/cases.py ALL FROM TO    write every file of at most ALL nodes from number FROM up to TO to the first instead, to try a definition
    tests/rules/cases.py tallies ALL FROM TO    the same of the accepted files of the peer's tallies, each once, to the second
"""
import os
import re
import struct
import sys
import textwrap

ROOT = os.path.join(os.path.dirname(os.path.abspath(__file__)), "..", "..")
SIZES = (4, 1, 2, 3, 2, 4)
DECLARED = {1: "globals", 2: "functions"}
TYPES = {4: "structs", 5: "arrays", 6: "functions", 7: "nullables"}
PARTS = {5: "elements", 6: "results", 7: "what they refer to"}
SYNTAX = (
    "truth, falsity, integer, text, null, literal, name, array_literal, default_array, array_with, index, length_of, struct_literal, field, call, "
    "unary, binary, none, also, no_init, init, name_target, index_target, field_target, no_var, next_var, no_condition, condition, assign, var, "
    "return_value, return_void, call_stmt, if_else, if_null, for, while, no_step, step, block, empty, then, global, function")
HEADER = """-- Small programs with the answers of the independent peer, computed: every rule is gone through, every number from 7 to 16 appears at
-- each kind of place, and rows are written out. One theorem for each: the program is that of a file, and the definition of the check
-- answers as the peer did (`tests/rules/cases.py` writes this file). Assumes nothing.
use mathlib.Core.Path.{◌≡◌, refl}
use mathlib.Core.List.{List, [], ◌∷◌}
use Prim.Native.Nat.{ℕ}
use Rattle.oat.specs.Tables.{TypeRecord, FieldRecord, StructRecord, BuiltInRecord, NodeRecord, file_of}
use Rattle.oat.specs.Syntax.{""" + SYNTAX + """}
use Rattle.oat.specs.ProgramFile.{widest, Program, IsFile}
use Rattle.typing_rules.specs.Check.{check_of}
use Rattle.typing_rules.proofs.LawsComputed.{computed, is_file, is-file}

abbrev pub ty : ℕ → ℕ → ℕ → ℕ → TypeRecord
ty k a b c = record { kind = k; a = a; b = b; c = c }

abbrev pub fd : ℕ → ℕ → FieldRecord
fd a b = record { name = a; type = b }

abbrev pub st : ℕ → ℕ → ℕ → StructRecord
st a b c = record { name = a; first = b; count = c }

abbrev pub bi : ℕ → ℕ → BuiltInRecord
bi a b = record { name = a; type = b }

abbrev pub nd : ℕ → ℕ → ℕ → ℕ → NodeRecord
nd k x t c = record { kind = k; x = x; t = t; children = c }

-- the program is that of a file, and the check answers number, step, place and pairs, with these rows
pub record Answers (p : Program) (number step place pairs : ℕ) (rows : List ℕ) : Type 0 where
  pub file : IsFile widest (file_of p.tables) p
  pub answer : check_of p ≡ record { number = number; step = step; place = place; pairs = pairs; rows = rows }
"""
TALLIES_HEADER = """-- Small programs with the tallies of the independent peer, computed: the accepted programs of typing_rules' Cases, and the peer's cases by
-- hand on equal types, on declarations and on nodes that are no expressions. One theorem for each: the program is that of a file, the
-- definition of the check accepts it, and the definitions of the tallies give the peer's numbers (`tests/rules/cases.py` writes this file).
-- Assumes nothing.
use mathlib.Core.Path.{◌≡◌, refl}
use mathlib.Core.List.{List, [], ◌∷◌}
use Prim.Native.Nat.{ℕ}
use Rattle.oat.specs.Basics.{sum_below, tabulate}
use Rattle.oat.specs.Tables.{file_of}
use Rattle.oat.specs.Syntax.{""" + SYNTAX + """}
use Rattle.oat.specs.Nodes.{is_expression_kind, is_expression}
use Rattle.oat.specs.ProgramFile.{widest, Program, IsFile}
use Rattle.type_index.specs.Index.{first_below}
use Rattle.typing_rules.specs.Check.{check_of}
use Rattle.typing_rules.proofs.LawsComputed.{computed, is_file, is-file}
use Rattle.typing_rules.proofs.Cases.{ty, fd, st, bi, nd%s}
use Rattle.tallies.specs.Tallies.{count_below, expression_count, by_type, by_declaration}

-- the program is that of a file, the check accepts it after these steps, and these are the tallies of the rows as the check leaves them, and
-- the count of expressions
pub record Tallies (p : Program) (steps : ℕ) (types declarations : List ℕ) (expressions : ℕ) : Type 0 where
  pub file : IsFile widest (file_of p.tables) p
  pub number : (check_of p).number ≡ 0
  pub step : (check_of p).step ≡ steps
  pub place : (check_of p).place ≡ 0
  pub by-type : by_type p.tables (check_of p).rows ≡ types
  pub by-declaration : by_declaration p.tables 0 p.declarations ≡ declarations
  pub count : expression_count p.tables ≡ expressions

-- to unfold this is to unfold all that a theorem computes with
tallied : Program → List ℕ
unfolding computed is_file by_type by_declaration count_below sum_below tabulate first_below is_expression is_expression_kind
tallied p = by_type p.tables (check_of p).rows
"""


def stored(name, numbers):
    """The packed files of the vectors of this name with the lines of their answers; a file's length is the first of so many numbers before it."""
    folder = os.path.join(ROOT, "tests", "vectors")
    packed = open(os.path.join(folder, name + ".bin"), "rb").read()
    answers = open(os.path.join(folder, name + ".txt")).read().split("--\n")
    at = 0
    for answer in answers:
        if at == len(packed):
            return
        length = struct.unpack_from("<I", packed, at)[0]
        at += 4 * numbers
        yield packed[at:at + length], answer.split("\n")[:-1]
        at += length


def sections(file):
    numbers = struct.unpack("<%dH" % (len(file) // 2), file)
    at, found = 0, []
    for size in SIZES:
        count = numbers[at]
        found.append([numbers[at + 1 + i * size:at + 1 + (i + 1) * size] for i in range(count)])
        at += 1 + count * size
    return found


def listed(items):
    return "(" + "".join(item + " ∷ " for item in items) + "[])"


def wrapped(text, indent):
    """The text in lines of at most 130 columns, each further one indented; no record and no row is broken."""
    bound = re.sub(r"\b(ty|fd|st|bi|nd)((?: \d+)+)", lambda m: m.group().replace(" ", "\0"), text).replace(" ∷ ", " ∷\0")
    lines = textwrap.wrap(bound, 130, subsequent_indent=" " * indent, break_long_words=False, break_on_hyphens=False)
    return "\n".join(lines).replace("\0", " ")


def folded(items, last):
    """Items as nested constructors around the last one."""
    for item in reversed(items):
        last = "(%s %s)" % (item, last)
    return last


class Trees:
    """The node section as terms of specs/Syntax; `at` is the next node."""

    def __init__(self, nodes):
        self.nodes, self.at, self.steps = nodes, 0, set()

    def take(self):
        self.at += 1
        return self.nodes[self.at - 1]

    def expressions(self, count):
        return folded(["also " + self.expression() for _ in range(count)], "none")

    def named(self, count, constructor, last):
        """Field initializers or vars: a node with a name over an expression."""
        return folded(["%s %d %s" % (constructor, self.take()[1], self.expression()) for _ in range(count)], last)

    def expression(self):
        kind, x, t, count = self.take()
        if kind == 10:
            return "(null %d)" % t
        if kind in (11, 12):
            return "(literal %s)" % ("truth" if kind == 11 else "falsity")
        if kind in (13, 14):
            return "(literal (%s %d))" % ("integer" if kind == 13 else "text", x)
        if kind == 15:
            return "(name %d)" % x
        if kind == 16:
            return "(array_literal %d %s)" % (t, self.expressions(count))
        if kind == 21:
            return "(struct_literal %d %s)" % (t, self.named(count, "init", "no_init"))
        first = self.expression()
        if kind == 17:
            return "(default_array %d %s)" % (t, first)
        if kind == 18:
            return "(array_with %d %d %s %s)" % (t, x, first, self.expression())
        if kind == 19:
            return "(index %s %s)" % (first, self.expression())
        if kind == 20:
            return "(length_of %s)" % first
        if kind == 23:
            return "(field %d %s)" % (x, first)
        if kind == 24:
            return "(call %s %s)" % (first, self.expressions(count - 1))
        if kind == 25:
            return "(unary %d %s)" % (x, first)
        return "(binary %d %s %s)" % (x, first, self.expression())

    def target(self):
        kind, x, _, _ = self.take()
        if kind == 15:
            return "(name_target %d)" % x
        if kind == 19:
            return "(index_target %s %s)" % (self.expression(), self.expression())
        return "(field_target %d %s)" % (x, self.expression())

    def step(self):
        self.steps.add(self.at)
        return self.statement()

    def absent(self, constructor, otherwise, read):
        if self.nodes[self.at][0] == 40:
            self.at += 1
            return otherwise
        return "(%s %s)" % (constructor, read())

    def statement(self):
        kind, x, t, count = self.take()
        if kind == 30:
            return "(assign %s %s)" % (self.target(), self.expression())
        if kind == 31:
            return "(var %d %s)" % (x, self.expression())
        if kind == 32:
            return "(return_value %s)" % self.expression()
        if kind == 33:
            return "return_void"
        if kind == 34:
            return "(call_stmt %s %s)" % (self.expression(), self.expressions(count - 1))
        if kind == 35:
            return "(if_else %s %s %s)" % (self.expression(), self.block(), self.block())
        if kind == 36:
            return "(if_null %d %d %s %s %s)" % (x, t, self.expression(), self.block(), self.block())
        if kind == 37:
            parts = (self.named(count - 3, "next_var", "no_var"), self.absent("condition", "no_condition", self.expression),
                     self.absent("step", "no_step", self.step), self.block())
            return "(for %s %s %s %s)" % parts
        return "(while %s %s)" % (self.expression(), self.block())

    def block(self):
        count = self.take()[3]
        return "(block %s)" % folded(["then " + self.statement() for _ in range(count)], "empty")

    def declarations(self):
        """The terms, and the kind of each declaration."""
        terms, kinds = [], []
        while self.at < len(self.nodes):
            kind, x, t, count = self.take()
            kinds.append(kind)
            if kind == 1:
                terms.append("global %d %s" % (x, self.expression()))
            else:
                parameters = listed([str(self.take()[1]) for _ in range(count - 1)])
                terms.append("function %d %d %s %s" % (x, t, parameters, self.block()))
        return terms, kinds


def parent_of(nodes, place):
    """The node whose child the place is."""
    left = []
    for n, node in enumerate(nodes):
        while left and left[-1][1] == 0:
            left.pop()
        if n == place:
            return left[-1][0]
        if left:
            left[-1][1] -= 1
        left.append([n, node[3]])


def function_of(nodes, place):
    return max(n for n in range(place + 1) if nodes[n][0] in (1, 2))


class File:
    """A file as a program of the definitions."""

    def __init__(self, file):
        self.length = len(file)
        self.sections = sections(file)
        types, entries, fields, structs, given, nodes = self.sections
        trees = Trees(nodes)
        terms, self.kinds = trees.declarations()
        self.steps = trees.steps
        records = (("types", "ty %d %d %d %d", types), ("list", "%d", entries), ("fields", "fd %d %d", fields), ("structs", "st %d %d %d", structs),
                   ("built_ins", "bi %d %d", given), ("nodes", "nd %d %d %d %d", nodes))
        tables = ["%s = %s;" % (name, listed(form % r for r in section)) for name, form, section in records]
        self.program = "record {\n  tables = record {\n%s\n  };\n%s\n}" % (
            "\n".join(wrapped("    " + line, 8) for line in tables), wrapped("  declarations = %s;" % listed(terms), 6))

    def written(self, name):
        """The program, under its name."""
        return "\nunfoldable pub program_%s : Program\nprogram_%s = %s\n" % (name, name, self.program)

    def theorem(self, name, stated, unfolded, proof):
        """What is stated of the program, with the definitions that its proof unfolds."""
        return "\n%s\nunfolding program_%s %s\n%s = %s\n" % (wrapped("pub %s : %s" % (name, stated), 4), name, unfolded, name, proof)


class Case(File):
    """A file with the answer and the rows of its check; `tally` is the same file with the lines of its tallies."""

    def __init__(self, file, lines, tally):
        super().__init__(file)
        assert tally[0] == file
        self.tally = tally
        self.number, self.step, self.place = map(int, lines[0].split())
        self.pairs = int(lines[-1].split()[1])
        rows = [word for line in lines[1:-1] for word in line.split()[1:]]
        self.rows = rows if self.number == 0 else ["65535"] * (2 * len(self.sections[5]))

    def group(self):
        """The group of the refusing step, from 0, struct names."""
        structs, given = len(self.sections[3]), len(self.sections[4])
        functions, left = self.kinds.count(2), self.step
        for group, count in enumerate((structs, given, functions, self.kinds.count(1), structs, functions)):
            if left < count:
                return group
            left -= count
        return 6

    def whiles(self):
        """Each while: its condition is the node `true`, it is a for's step, its row's result."""
        nodes = self.sections[5]
        return {(nodes[n + 1][0] == 11, n in self.steps, self.rows[2 * n]) for n, node in enumerate(nodes) if node[0] == 38}

    def binders(self):
        """Each use of a local: its binder's kind, and how many nodes of its function that bind the name are used, three or more being alike."""
        nodes = self.sections[5]
        uses = [(n, int(self.rows[2 * n + 1])) for n, node in enumerate(nodes) if node[0] == 15]
        local = [(function_of(nodes, n), nodes[n][1], b) for n, b in uses if b < len(nodes) and nodes[b][0] in (3, 18, 31, 36)]
        return {(nodes[b][0], min(3, len({c for g, y, c in local if (g, y) == (f, x)}))) for f, x, b in local}

    def features(self):
        nodes = self.sections[5]
        if self.number == 0:
            kinds = {(k, x if k in (25, 26) else 0) for k, x, _, _ in nodes}
            return kinds | {(38,) + w for w in self.whiles()} | {(15,) + b for b in self.binders()}
        group = self.group()
        endless = self.number == 14 and any(w[0] for w in self.whiles())
        kind = nodes[self.place][0] if group in (2, 3, 5) else -1
        around = (nodes[parent_of(nodes, self.place)][0], self.place in self.steps) if (self.number, kind) == (7, 31) else None
        return {(self.number, group, kind, endless, around, self.pairs > 0)}

    def text(self, name):
        stated = "Answers program_%s %d %d %d %d %s" % (name, self.number, self.step, self.place, self.pairs, listed(self.rows))
        return self.written(name) + self.theorem(name, stated, "computed is_file", "record { file = is-file widest program_%s refl; answer = refl }" % name)


def front(line, count, painted):
    """The first numbers of a buffer, so many; the others are as they were painted."""
    numbers = line.split()[1:]
    assert set(numbers[count:]) <= {painted}
    return numbers[:count]


class Tally(File):
    """An accepted file with its tallies."""

    def __init__(self, file, lines):
        super().__init__(file)
        self.step = lines[0].split()[1]
        self.by_type = front(lines[1], len(self.sections[0]), "7777")
        self.by_declaration = front(lines[2], len(self.kinds), "8888")
        self.expressions = sum(10 <= node[0] <= 21 or 23 <= node[0] <= 26 for node in self.sections[5])
        self.types = self.written_out()

    def parameters(self, t):
        kind, _, first, count = self.sections[0][t]
        return [n for n, in self.sections[1][first:first + count]] if kind == 6 else []

    def written_out(self):
        """Each type in full: its kind, a struct's name, and the types that it refers to, in full."""
        full = []
        for t, (kind, a, _, _) in enumerate(self.sections[0]):
            part = full[a] if kind > 4 else a
            full.append((kind, part, [full[n] for n in self.parameters(t)]))
        return full

    def lowest(self, t):
        return self.types.index(self.types[t])

    def told(self):
        """The types' numbers in those rows that the nodes tell without a check: a node of kind 10, 16, 17, 18 or 21 has the number, and the
        name of a function or a built-in has that of its declaration where no other node of the file binds the name."""
        given, nodes = self.sections[4:]
        declared = {x: t for x, t in given + [node[1:3] for node in nodes if node[0] == 2]}
        bound = {node[1] for node in nodes if node[0] in (1, 3, 18, 31, 36)}
        named = [declared[x] for kind, x, _, _ in nodes if kind == 15 and x in declared and x not in bound]
        return named + [t for kind, _, t, _ in nodes if kind in (10, 16, 17, 18, 21)]

    def equal_types(self):
        """Each type of a told row that has a lower number too, in words: its kind, what differs in the two records, and whether the lowest
        number stands in a row; in none only where all rows of the type are told."""
        told, found = self.told(), set()
        for t in told:
            u = self.lowest(t)
            rows = [n for n in told if self.lowest(n) == u]
            if t == u or u not in rows and len(rows) < int(self.by_type[u]):
                continue
            kind, a, _, _ = self.sections[0][t]
            parts = [PARTS[kind]] if a != self.sections[0][u][1] else []
            parts += ["parameters"] if self.parameters(t) != self.parameters(u) else []
            through = " through " + " and ".join(parts) if parts else ""
            found.add("equal %s%s, %s" % (TYPES[kind], through, "both in rows" if u in rows else "the lowest number in no row"))
        return found

    def features(self):
        """What the file has of what the choice is by, in words."""
        counts = [count != "0" for count in self.by_declaration]
        order = [DECLARED[kind] for n, kind in enumerate(self.kinds) if n == 0 or kind != self.kinds[n - 1]]
        found = {"nodes of kind %d" % node[0] for node in self.sections[5] if node[0] in (3, 22, 40)} | self.equal_types()
        if any(not c and any(counts[:n]) and any(counts[n:]) for n, c in enumerate(counts)):
            found.add("a declaration without expressions between others")
        if len(order) > 2:
            found.add(", ".join(order))
        if not counts:
            found.add("no declaration")
        return found

    def shown(self):
        """The features as a comment."""
        words = "; ".join(sorted(self.features()))
        return "\n" + textwrap.fill(words, 138, initial_indent="-- ", subsequent_indent="-- ")

    def text(self, name):
        stated = "Tallies program_%s %s %s %s %d" % (name, self.step, listed(self.by_type), listed(self.by_declaration), self.expressions)
        parts = ["file = is-file widest program_%s refl" % name]
        parts += [part + " = refl" for part in ("number", "step", "place", "by-type", "by-declaration", "count")]
        return self.theorem(name, stated, "tallied", "record { %s }" % "; ".join(parts))


def covering(files):
    """Files that together have every feature of all, for their length the richest first."""
    picked, open_features = [], set()
    for file in files:
        open_features |= file.features()
    while open_features:
        best = max(files, key=lambda f: len(f.features() & open_features) / (f.length + 60))
        picked.append(best)
        open_features -= best.features()
    return picked


def chosen(cases):
    """Accepted programs that have every feature, and the shortest refusal of each feature."""
    picked = covering([c for c in cases if c.number == 0])
    seen = set()
    for case in sorted((c for c in cases if c.number != 0), key=lambda c: c.length):
        if case.features() - seen:
            seen |= case.features()
            picked.append(case)
    return sorted(picked, key=lambda c: (c.number, c.step, c.place, c.length))


def named(cases):
    """Each case with its name, as accepted_1 or refused_7_2."""
    counts = {}
    for case in cases:
        counts[case.number] = counts.get(case.number, 0) + 1
        kind = "accepted" if case.number == 0 else "refused_%d" % case.number
        yield "%s_%d" % (kind, counts[case.number]), case


def accepted(tallies, most):
    """The accepted files of at most so many nodes, each once; zero bytes are left out."""
    first = {}
    for file, lines in tallies:
        if file and lines[0].startswith("0 ") and len(sections(file)[5]) <= most:
            first.setdefault(file, lines)
    return [Tally(file, lines) for file, lines in first.items()]


def by_hand(tallies):
    """The chosen small files, in their order."""
    small = [tally for tally in accepted(tallies, 20) if len(tally.sections[0]) <= 16]
    picked = covering(small)
    return [tally for tally in small if tally in picked]


def write(crate, header, texts):
    """Writes a file of cases; of the names of Syntax it brings in those that it uses."""
    text = "".join(texts)
    used = set(re.findall(r"\b\w+\b(?! =)", re.sub(r"--.*", "", text)))
    brought = ", ".join(name for name in SYNTAX.split(", ") if name in used)
    with open(os.path.join(ROOT, "crates", crate, "proofs", "Cases.antt"), "w") as out:
        out.write(header.replace(SYNTAX, brought) + text)


def main():
    checks, tallies = list(stored("check", 1)), list(stored("tallies", 5))
    asked = [int(word) for word in sys.argv[1:] if word != "tallies"]
    if "tallies" in sys.argv:
        tried = list(enumerate(accepted(tallies, asked[0])))[asked[1]:asked[2]]
        write("tallies", TALLIES_HEADER % "", (tally.written("tried_%d" % n) + tally.text("tried_%d" % n) for n, tally in tried))
        return
    hand = len(tallies) - len(checks)  # the files of the checks follow those by hand
    # zero bytes are left out: their program is that of the 44 bytes, which are among the files
    typed = ((f, lines, tally) for (f, lines), tally in zip(checks, tallies[hand:]) if f and not 1 <= int(lines[0].split()[0]) <= 6)
    most = asked[0] if asked else 90
    cases = [Case(*three) for three in typed if len(sections(three[0])[5]) <= most]
    if asked:
        write("typing_rules", HEADER, (case.text(name) for name, case in named(cases[asked[1]:asked[2]])))
        return
    picked = list(named(chosen([case for case in cases if len(case.sections[0]) <= 80])))
    write("typing_rules", HEADER, (case.text(name) for name, case in picked))
    cited = [(name, Tally(*case.tally)) for name, case in picked if case.number == 0]
    own = [("by_hand_%d" % n, tally) for n, tally in enumerate(by_hand(tallies[:hand]), 1)]
    texts = [tally.text(name) for name, tally in cited] + [tally.shown() + tally.written(name) + tally.text(name) for name, tally in own]
    write("tallies", TALLIES_HEADER % "".join(", program_" + name for name, _ in cited), texts)


if __name__ == "__main__":
    main()
