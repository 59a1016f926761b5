#!/usr/bin/env python3
"""Writes examples/NAME.oat and examples/NAME.txt for each example below. The bytes are laid out here by hand from document 01's table of sections; the
answer in the text is the peer's (tests/peer, `cargo build --release --offline`), never the proved checker's.

    tests/examples/make.py            write the files
    tests/examples/make.py --check    say which stored files differ from what would be written
"""
import os
import subprocess
import sys
import textwrap

ROOT = os.path.join(os.path.dirname(os.path.abspath(__file__)), "..", "..")
PEER = os.path.join(ROOT, "tests", "peer", "target", "release", "oat_peer")
MEANING = {
    0: "accepted", 1: "length wrong", 2: "count over its most", 3: "types or type list broken", 4: "fields, structs or built-ins broken",
    5: "node tree broken", 7: "name bound twice", 8: "name or field unknown", 9: "undeclared struct in a type", 10: "wrong sort of type",
    11: "not a subtype", 12: "arguments or fields don't match", 13: "void against value", 14: "return mark wrong",
    15: "function assigned", 16: "element without default",
}
BINARY = "* + - << >> >>> < <= > >= == != & | [&] [|]".split()
INT, BOOL, STRING, VOID = 0, 1, 2, 3


def words(*numbers):
    return b"".join(n.to_bytes(2, "little") for n in numbers)


def section(records):
    return words(len(records)) + b"".join(words(*r) for r in records)


class Node:
    """A node with its subtrees; `word` says what it is in the text."""

    def __init__(self, kind, word, *children, x=0, t=0):
        self.kind, self.word, self.children, self.x, self.t = kind, word, children, x, t

    def records(self):
        yield self.kind, self.x, self.t, len(self.children)
        for child in self.children:
            yield from child.records()

    def lines(self, depth=0):
        yield "  " * depth + self.word
        for child in self.children:
            yield from child.lines(depth + 1)


class Example:
    """A program: types are numbered as they are first asked for, names as they first occur."""

    def __init__(self):
        self.types = [(k, 0, 0, 0) for k in range(4)]
        self.shown = ["int", "bool", "string", "void"]
        self.list, self.fields, self.structs, self.built_ins, self.trees = [], [], [], [], []
        self.names = {}

    # types

    def _type(self, record, shown):
        self.types.append(record)
        self.shown.append(shown)
        return len(self.types) - 1

    def _named(self, shown, record):
        return self.shown.index(shown) if shown in self.shown else self._type(record(), shown)

    def again(self, t):
        """The type t under one more number."""
        return self._type(self.types[t], self.shown[t])

    def struct(self, name):
        return self._named(name, lambda: (4, self.name(name), 0, 0))

    def array(self, element):
        return self._named(self.shown[element] + "[]", lambda: (5, element, 0, 0))

    def nullable(self, inside):
        return self._named(self.shown[inside] + "?", lambda: (7, inside, 0, 0))

    def function_type(self, result, *parameters):
        def record():
            self.list += [(p,) for p in parameters]
            return 6, result, len(self.list) - len(parameters), len(parameters)
        return self._named("(%s) -> %s" % (", ".join(self.shown[p] for p in parameters), self.shown[result]), record)

    # declarations

    def name(self, spelled):
        return self.names.setdefault(spelled, len(self.names) + 1)

    def declare(self, name, *fields):
        """A struct with its fields, as pairs of type and name."""
        self.structs.append((self.name(name), len(self.fields), len(fields)))
        self.fields += [(self.name(f), t) for t, f in fields]

    def built_in(self, name, t):
        self.built_ins.append((self.name(name), t))

    def glob(self, name, value):
        self.trees.append(Node(1, "global " + name, value, x=self.name(name)))

    def function(self, name, result, parameters, *body):
        """A function with parameters as pairs of type and name."""
        t = self.function_type(result, *(p for p, _ in parameters))
        nodes = [Node(3, "parameter " + p, x=self.name(p)) for _, p in parameters]
        self.trees.append(Node(2, f"function {name}, of type {t}", *nodes, self.block(*body), x=self.name(name), t=t))

    # expressions

    def null(self, inside):
        return Node(10, "null", t=self.nullable(inside))

    def true(self):
        return Node(11, "true")

    def integer(self, n):
        return Node(13, f"integer {n}", x=n)

    def id(self, name):
        return Node(15, "name " + name, x=self.name(name))

    def listed(self, t, *elements):
        return Node(16, f"array literal, of type {t}", *elements, t=t)

    def default(self, element, length):
        t = self.array(element)
        return Node(17, f"default array, of type {t}", length, t=t)

    def filled(self, element, name, length, value):
        t = self.array(element)
        return Node(18, f"array with index name {name}, of type {t}", length, value, x=self.name(name), t=t)

    def index(self, array, at):
        return Node(19, "index", array, at)

    def length(self, array):
        return Node(20, "length", array)

    def new(self, struct, *inits):
        """A struct literal, with pairs of field and value."""
        t = self.struct(struct)
        return Node(21, f"struct literal, of type {t}", *(Node(22, "field initializer " + f, v, x=self.name(f)) for f, v in inits), t=t)

    def field(self, record, name):
        return Node(23, "field " + name, record, x=self.name(name))

    def call(self, *parts):
        return Node(24, "call", *parts)

    def minus(self, value):
        return Node(25, "unary -", value)

    def binary(self, operator, a, b):
        return Node(26, "binary " + operator, a, b, x=BINARY.index(operator))

    # statements

    def assign(self, left, value):
        return Node(30, "assignment", left, value)

    def var(self, name, value):
        return Node(31, "var " + name, value, x=self.name(name))

    def give(self, value):
        return Node(32, "return with value", value)

    def leave(self):
        return Node(33, "return")

    def do(self, *parts):
        return Node(34, "call statement", *parts)

    def when(self, condition, then, otherwise=None):
        return Node(35, "if", condition, then, otherwise or self.block())

    def when_some(self, t, name, value, then, otherwise=None):
        return Node(36, f"if? {name}, of type {t}", value, then, otherwise or self.block(), x=self.name(name), t=t)

    def loop(self, variables, condition, step, body):
        return Node(37, "for", *variables, condition, step, body)

    def during(self, condition, body):
        return Node(38, "while", condition, body)

    def block(self, *statements):
        return Node(39, "block", *statements)

    # the file

    def nodes(self):
        return [r for tree in self.trees for r in tree.records()]

    def bytes(self):
        return b"".join(section(s) for s in (self.types, self.list, self.fields, self.structs, self.built_ins, self.nodes()))

    def groups(self):
        """What each step is about."""
        functions = [t.word.split(",")[0] for t in self.trees if t.kind == 2]
        structs = [next(n for n, i in self.names.items() if i == s[0]) for s in self.structs]
        built_ins = [next(n for n, i in self.names.items() if i == b[0]) for b in self.built_ins]
        return ([f"struct name {s}" for s in structs] + [f"built-in {b}" for b in built_ins] + [f"heading of {f}" for f in functions]
                + [t.word for t in self.trees if t.kind == 1] + [f"fields of {s}" for s in structs] + [f"body of {f}" for f in functions])


def pans(*names):
    """The pans that are asked for, declared."""
    e = Example()
    for name in names:
        e.struct(name)
    for name in names:
        e.declare(name, *((INT, f) for f in {"A": ["p", "dry"], "B": ["p", "dry", "wet"], "C": ["p", "wet"]}[name]))
    return e


def passes(result, given, *structs):
    """`result f(given g) { return g; }` among pans."""
    e = pans(*structs)
    e.function("f", result(e), [(given(e), "g")], e.give(e.id("g")))
    return e


A, B, C = (lambda e, n=n: e.struct(n) for n in "ABC")
PANS = {"A": "struct A { int p; int dry }", "B": "struct B { int p; int dry; int wet }", "C": "struct C { int p; int wet }"}


def pan_source(structs, line):
    return "\n".join([PANS[s] for s in structs] + [line])


# each example: its name, its source, what it shows, its program
EXAMPLES = []


def example(name, source, shows):
    def add(make):
        EXAMPLES.append((name, textwrap.dedent(source).strip("\n"), " ".join(shows.split()), make()))
        return make
    return add


@example("pan_b_below_a", pan_source("AB", "A f(B g) { return g; }"), """
    The fields of A, name and type each, begin those of B, so a B may stand where an A is due.""")
def _():
    return passes(A, B, "A", "B")


@example("pan_a_not_below_b", pan_source("AB", "B f(A g) { return g; }"), """
    A lacks the field wet, so an A may not stand where a B is due.""")
def _():
    return passes(B, A, "A", "B")


@example("pan_c_not_below_a", pan_source("AC", "A f(C g) { return g; }"), """
    C has as many fields as A, of the same types, but its second is not named dry: fields are compared with their names.""")
def _():
    return passes(A, C, "A", "C")


@example("arrays_invariant", pan_source("AB", "A[] f(B[] g) { return g; }"), """
    B is below A, yet B[] is not below A[]: an A could be put into it.""")
def _():
    return passes(lambda e: e.array(A(e)), lambda e: e.array(B(e)), "A", "B")


@example("parameters_turn_round", pan_source("AB", "(B) -> A f((A) -> B g) { return g; }"), """
    A function that takes every A takes every B, and the B that it returns is an A: (A) -> B is below (B) -> A.""")
def _():
    return passes(lambda e: e.function_type(A(e), B(e)), lambda e: e.function_type(B(e), A(e)), "A", "B")


@example("parameters_not_covariant", pan_source("AB", "(A) -> B f((B) -> A g) { return g; }"), """
    A function that takes a B may not be called with an A: (B) -> A is not below (A) -> B.""")
def _():
    return passes(lambda e: e.function_type(B(e), A(e)), lambda e: e.function_type(A(e), B(e)), "A", "B")


@example("pan_levels", """
    struct A { int p; int dry }
    global floor = 3;
    int sum(A[] pans) {
      var total = 0;
      for (var i = 0; i < length(pans); i = i + 1) {
        if (floor < pans[i].p) { total = total + pans[i].p; } else { drain(i); }
      }
      return total;
    }
    """, """
    A program with a struct, a global, a loop and the built-in drain of type (int) -> void. The rows name the binder of each name: the var,
    the parameter or the global by its node, the built-in by 40,000 and its number.""")
def _():
    e = pans("A")
    e.built_in("drain", e.function_type(VOID, INT))
    e.glob("floor", e.integer(3))
    level = e.field(e.index(e.id("pans"), e.id("i")), "p")
    e.function(
        "sum", INT, [(e.array(A(e)), "pans")],
        e.var("total", e.integer(0)),
        e.loop([e.var("i", e.integer(0))], e.binary("<", e.id("i"), e.length(e.id("pans"))),
               e.assign(e.id("i"), e.binary("+", e.id("i"), e.integer(1))),
               e.block(e.when(e.binary("<", e.id("floor"), level),
                              e.block(e.assign(e.id("total"), e.binary("+", e.id("total"), level))),
                              e.block(e.do(e.id("drain"), e.id("i")))))),
        e.give(e.id("total")))
    return e


@example("page_and_two_rows", """
    struct A { int p; int dry }
    global pans = new A[]{
      new A{ p = 1; dry = 0 }, new A{ p = 2; dry = 0 }, new A{ p = 3; dry = 0 },
      new A{ p = 4; dry = 1 }, new A{ p = 5; dry = 1 }, new A{ p = 6; dry = 1 },
      new A{ p = 7; dry = 0 }, new A{ p = 8; dry = 0 }, new A{ p = 9; dry = 1 } };
    int count() { return length(pans); }
    """, """
    Of its 52 nodes 50 fill a page and two are left: `oat page` prints 52 rows of 19 columns, with nothing between the pages, and ends with the line
    `pages 1 rows 2`.""")
def _():
    e = pans("A")
    array = e.array(A(e))
    e.glob("pans", e.listed(array, *(e.new("A", ("p", e.integer(p)), ("dry", e.integer(int(p in (4, 5, 6, 9))))) for p in range(1, 10))))
    e.function("count", INT, [], e.give(e.length(e.id("pans"))))
    return e


@example("nested_calls", """
    int least(int a, int b) {
      if (a < b) { return a; } else { return b; }
    }
    int lowest(int a, int b, int c) { return least(a, least(b, c)); }
    """, """
    The type of lowest has 5 parts, and c stands on level 6, in a call in a call in a return in a block in a function: the least limits that
    let this file pass are 5 parts and depth 6. Under them, and under larger ones, it has this answer and these rows; under 4 parts it
    is refused under 3, and under depth 5 under 5.""")
def _():
    e = Example()
    a, b, c = (e.id(n) for n in "abc")
    e.function("least", INT, [(INT, "a"), (INT, "b")], e.when(e.binary("<", a, b), e.block(e.give(a)), e.block(e.give(b))))
    least = e.id("least")
    e.function("lowest", INT, [(INT, "a"), (INT, "b"), (INT, "c")], e.give(e.call(least, a, e.call(least, b, c))))
    return e


@example("for_variable_gone", """
    int f() {
      for (var i = 0; i < 3; i = i + 1) { }
      return i;
    }
    """, """
    The variables of a for are bound in the for alone, so i is unknown after it.""")
def _():
    e = Example()
    e.function(
        "f", INT, [],
        e.loop([e.var("i", e.integer(0))], e.binary("<", e.id("i"), e.integer(3)),
               e.assign(e.id("i"), e.binary("+", e.id("i"), e.integer(1))), e.block()),
        e.give(e.id("i")))
    return e


@example("same_name_inner", """
    int stir(int i) {
      var turns = 0;
      for (var i = 0; i < 3; i = i + 1) {
        for (var i = 0; i < 4; i = i + 1) { turns = turns + i; }
        while (turns < i) { var i = true; }
        turns = turns + i;
      }
      return turns + i;
    }
    """, """
    An inner block may bind a name again. In the inner for i means node 18, in the outer one node 6, behind both the parameter, and the var of the
    while's block hides the outer for's i there alone: each name's row has its nearest binder.""")
def _():
    e = Example()
    i, turns = e.id("i"), e.id("turns")

    def count(most, body):
        return e.loop([e.var("i", e.integer(0))], e.binary("<", i, e.integer(most)), e.assign(i, e.binary("+", i, e.integer(1))), body)
    more = e.assign(turns, e.binary("+", turns, i))
    e.function(
        "stir", INT, [(INT, "i")],
        e.var("turns", e.integer(0)),
        count(3, e.block(count(4, e.block(more)), e.during(e.binary("<", turns, i), e.block(e.var("i", e.true()))), more)),
        e.give(e.binary("+", turns, i)))
    return e


@example("same_name_own_block", """
    void stir(int i) {
      while (i < 3) { var i = 1; }
      var i = 2;
      return;
    }
    """, """
    Parameters and the block of the body are one block, so the second var is refused. The first stands in a block of its own, and passes.""")
def _():
    e = Example()
    e.function(
        "stir", VOID, [(INT, "i")],
        e.during(e.binary("<", e.id("i"), e.integer(3)), e.block(e.var("i", e.integer(1)))),
        e.var("i", e.integer(2)), e.leave())
    return e


@example("step_binds_variable", """
    void stir() {
      for (var i = 0; i < 3; var i = 1) { var i = true; }
      return;
    }
    """, """
    The variables of a for and its step are one block, so the step's var is refused, at itself. The block of the for stands inside and may bind
    i again.""")
def _():
    e = Example()
    e.function(
        "stir", VOID, [],
        e.loop([e.var("i", e.integer(0))], e.binary("<", e.id("i"), e.integer(3)), e.var("i", e.integer(1)), e.block(e.var("i", e.true()))),
        e.leave())
    return e


@example("index_name_again", """
    int[][] rows(int i) {
      return new int[][i]{ i -> new int[i]{ i -> i } };
    }
    """, """
    An index name may hide any local, another index name too; it is bound in the value alone. So the first length is the parameter, the second
    the outer index name, and the innermost value the inner one.""")
def _():
    e = Example()
    i = e.id("i")
    row = e.filled(INT, "i", i, i)
    e.function("rows", e.array(e.array(INT)), [(INT, "i")], e.give(e.filled(e.array(INT), "i", i, row)))
    return e


@example("struct_twice", """
    struct A { int p; int dry }
    struct A { int p }
    """, """
    A struct name is declared once. The place is the number of the later struct, not a node.""")
def _():
    e = pans("A")
    e.declare("A", (INT, "p"))
    return e


@example("var_twice", """
    void f() {
      var x = 1;
      var x = 2;
      return;
    }
    """, """
    A var may hide a global, a function, a built-in or a local of an outer block, but its own block must not have bound the name.""")
def _():
    e = Example()
    e.function("f", VOID, [], e.var("x", e.integer(1)), e.var("x", e.integer(2)), e.leave())
    return e


@example("undeclared_struct", "global q = Q null;", """
    The type of a null is well-formed only if its struct is declared.""")
def _():
    e = Example()
    e.glob("q", e.null(e.struct("Q")))
    return e


@example("null_not_a_pan", pan_source("A", "A f(A? g) { return g; }"), """
    A is below A?, but A? is not below A: a value that may be null does not stand where a pan is due.""")
def _():
    return passes(A, lambda e: e.nullable(A(e)), "A")


@example("null_has_no_field", pan_source("A", "int f(A? g) { return g.p; }"), """
    A nullable struct has no fields, whatever its struct has.""")
def _():
    e = pans("A")
    e.function("f", INT, [(e.nullable(A(e)), "g")], e.give(e.field(e.id("g"), "p")))
    return e


@example("null_tested", pan_source("A", """int f(A? g) {
  if?(A pan = g) { return pan.p; } else { return 0; }
}"""), """
    After the test of an if? the name pan is bound with the type A, in the first block alone.""")
def _():
    e = pans("A")
    e.function("f", INT, [(e.nullable(A(e)), "g")],
               e.when_some(A(e), "pan", e.id("g"), e.block(e.give(e.field(e.id("pan"), "p"))), e.block(e.give(e.integer(0)))))
    return e


@example("one_arm_returns", """
    int f(bool b) {
      if (b) { return 1; }
    }
    """, """
    A body must return. An if returns where both its blocks do; here the second is empty and may go on. The place is the function.""")
def _():
    e = Example()
    e.function("f", INT, [(BOOL, "b")], e.when(e.id("b"), e.block(e.give(e.integer(1)))))
    return e


@example("both_arms_return", """
    int f(bool b) {
      if (b) { return 1; } else { return 2; }
    }
    """, """
    Both blocks of the if return, so the if, the body's block and the function have the mark 1.""")
def _():
    e = Example()
    e.function("f", INT, [(BOOL, "b")], e.when(e.id("b"), e.block(e.give(e.integer(1))), e.block(e.give(e.integer(2)))))
    return e


@example("after_return", """
    int f() {
      return 1;
      return 2;
    }
    """, """
    A statement that returns must be the last of its block. The place is that statement, not the one after it.""")
def _():
    e = Example()
    e.function("f", INT, [], e.give(e.integer(1)), e.give(e.integer(2)))
    return e


@example("endless", """
    void tend(int floor) {
      close();
      while (true) {
        if (level() < floor) { open(); } else { close(); }
        wait(5);
      }
    }
    """, """
    The main loop of a pan, with the built-ins level of type () -> int, open and close of type () -> void and wait of type (int) -> void. A while
    whose condition is the node true never ends. As the last statement of its block it has the mark 1, so the body's block and the function have
    the mark 1 too, and no return is due behind the loop.""")
def _():
    e = Example()
    e.built_in("level", e.function_type(INT))
    e.built_in("open", e.function_type(VOID))
    e.built_in("close", e.function_type(VOID))
    e.built_in("wait", e.function_type(VOID, INT))
    dry = e.binary("<", e.call(e.id("level")), e.id("floor"))
    e.function(
        "tend", VOID, [(INT, "floor")],
        e.do(e.id("close")),
        e.during(e.true(), e.block(e.when(dry, e.block(e.do(e.id("open"))), e.block(e.do(e.id("close")))), e.do(e.id("wait"), e.integer(5)))))
    return e


@example("endless_not_last", """
    void tend(bool night) {
      if (night) { while (true) { } } else { return; }
      return;
    }
    """, """
    Both blocks of the if return, the first because its last statement is a while that never ends. So the if returns, and nothing may stand behind
    it. The place is the if. As long as every while could go on, this program was accepted; without its last return it passes now.""")
def _():
    e = Example()
    arms = e.when(e.id("night"), e.block(e.during(e.true(), e.block())), e.block(e.leave()))
    e.function("tend", VOID, [(BOOL, "night")], arms, e.leave())
    return e


@example("value_in_void", """
    void f() {
      return 1;
    }
    """, """
    A function that returns void returns no value.""")
def _():
    e = Example()
    e.function("f", VOID, [], e.give(e.integer(1)))
    return e


@example("too_many_arguments", """
    int f() { return 1; }
    int g() { return f(1); }
    """, """
    f takes no arguments. Function names are known in all bodies.""")
def _():
    e = Example()
    e.function("f", INT, [], e.give(e.integer(1)))
    e.function("g", INT, [], e.give(e.call(e.id("f"), e.integer(1))))
    return e


@example("field_left_out", pan_source("A", "global pan = new A{ p = 1 };"), """
    A struct literal names every field of its struct once, in any order.""")
def _():
    e = pans("A")
    e.glob("pan", e.new("A", ("p", e.integer(1))))
    return e


@example("field_named_twice", pan_source("A", "global pan = new A{ p = 1; p = 2 };"), """
    As many names as fields, and yet p is named twice and dry not at all.""")
def _():
    e = pans("A")
    e.glob("pan", e.new("A", ("p", e.integer(1)), ("p", e.integer(2))))
    return e


@example("fields_in_any_order", pan_source("B", "global pan = new B{ wet = 3; p = 1; dry = 2 };"), """
    Each field once, in another order than the struct has them.""")
def _():
    e = pans("B")
    e.glob("pan", e.new("B", ("wet", e.integer(3)), ("p", e.integer(1)), ("dry", e.integer(2))))
    return e


@example("integer_condition", """
    void f() {
      if (1) { }
      return;
    }
    """, """
    The condition of an if is a bool. The place is the if, whose rule asks for it.""")
def _():
    e = Example()
    e.function("f", VOID, [], e.when(e.integer(1), e.block()), e.leave())
    return e


@example("function_assigned", """
    void f() {
      f = f;
      return;
    }
    """, """
    The name of a function, where no local hides it, cannot be assigned.""")
def _():
    e = Example()
    e.function("f", VOID, [], e.assign(e.id("f"), e.id("f")), e.leave())
    return e


@example("strings_without_default", """
    string[] f() {
      return new string[3];
    }
    """, """
    Only int, bool and nullable elements have a default value.""")
def _():
    e = Example()
    e.function("f", e.array(STRING), [], e.give(e.default(STRING, e.integer(3))))
    return e


@example("equal_types", """
    global marks = new int[]{ 1, 2 };
    int[] stir(int[] given) {
      var own = new int[]{ given[0] };
      return own;
    }
    """, """
    The type int[] stands twice in the file, as 4 and as 5. A tally of the expressions by type adds them together under 4: four have type int[], the
    two literals and the names given and own, and four have type int, the three integers and given[0]; 5 has none. By declaration marks has three
    and stir five. Each tally adds up to the eight expressions of the file.""")
def _():
    e = Example()
    ints = e.array(INT)
    others = e.again(ints)
    e.glob("marks", e.listed(ints, e.integer(1), e.integer(2)))
    e.function("stir", ints, [(others, "given")], e.var("own", e.listed(others, e.index(e.id("given"), e.integer(0)))), e.give(e.id("own")))
    return e


@example("pairs_compared", pan_source("AB", "(B, B) -> A? f((A, A) -> B g) { return g; }"), """
    The return asks whether (A, A) -> B is below (B, B) -> A?. That compares five pairs of types: the two functions, B with A for each
    parameter, which turn round and come first, B with A?, and then B with A.""")
def _():
    return passes(lambda e: e.function_type(e.nullable(A(e)), B(e), B(e)), lambda e: e.function_type(B(e), A(e), A(e)), "A", "B")


@example("pairs_up_to_a_break", pan_source("AB", """int pour(A pan, int turns) { return turns; }
int f(B pan, A? other) {
  var turns = pour(pan, 3);
  return pour(other, turns);
}"""), """
    The first return compares one pair, the first call two. In the second call A? is not below A, so that pair is the last: the argument
    turns is typed, but compared with nothing.""")
def _():
    e = pans("A", "B")
    e.function("pour", INT, [(A(e), "pan"), (INT, "turns")], e.give(e.id("turns")))
    e.function("f", INT, [(B(e), "pan"), (e.nullable(A(e)), "other")],
               e.var("turns", e.call(e.id("pour"), e.id("pan"), e.integer(3))), e.give(e.call(e.id("pour"), e.id("other"), e.id("turns"))))
    return e


def mixing(parameters):
    """The built-in mix, of a function type with this many int parameters, and nothing else."""
    e = Example()
    e.built_in("mix", e.function_type(INT, *[INT] * parameters))
    return e


@example("parts_200", "", """
    No declaration, and the built-in mix, whose type has 198 parameters: with what it returns and itself it has 200 parts, the most that a type may
    have.""")
def _():
    return mixing(198)


@example("parts_201", "", """
    The file of parts_200 with one parameter more: its type has 201 parts, one over the most.""")
def _():
    return mixing(199)


def turned(times):
    """`int f() { return 1; }` with this many signs before the 1."""
    e = Example()
    value = e.integer(1)
    for _ in range(times):
        value = e.minus(value)
    e.function("f", INT, [], e.give(value))
    return e


@example("depth_100", "int f() { return " + "-" * 96 + "1; }", """
    The function stands at depth 1, its block at 2, the return at 3, and below it are 96 signs: the 1 stands at depth 100, the deepest that a node may
    stand.""")
def _():
    return turned(96)


@example("depth_101", "int f() { return " + "-" * 97 + "1; }", """
    The file of depth_100 with one sign more: the 1 stands at depth 101, one too deep.""")
def _():
    return turned(97)


def answer_of(file):
    return subprocess.run([PEER, "check"], input=file, stdout=subprocess.PIPE, check=True).stdout.decode()


def pairs_of(file):
    """The answer's fourth number, which the check does not print."""
    packed = len(file).to_bytes(4, "little") + file
    lines = subprocess.run([PEER, "batch"], input=packed, stdout=subprocess.PIPE, check=True).stdout.decode().splitlines()
    return int(lines[-2].split()[1])


def told(e, answer):
    """The answer's line in words."""
    number, step, place = map(int, answer.split("\n")[0].split())
    if number == 0:
        steps = f"{step} step" + "s" * (step != 1)
        return f"Accepted: {steps}. Then a line for each node: its number, its result (a type's number or a mark) and its binder, 65535 for none."
    if number < 6:
        return f"{number}, {MEANING[number]}."
    where = e.groups()[step]
    at = f"struct {place}" if where.startswith(("struct name", "fields")) else f"node {place}"
    return f"{number}, {MEANING[number]}, in step {step}, the {where}, at {at}."


def text(source, shows, e, answer, pairs):
    names = ", ".join(f"{n} {i}" for n, i in e.names.items())
    types = ", ".join(f"{i} {s}" for i, s in enumerate(e.shown) if i > 3)
    lines = ([source, ""] if source else []) + [*textwrap.wrap(shows, 120), ""]
    lines += textwrap.wrap(f"Names: {names}.", 120)
    if types:
        lines += textwrap.wrap(f"Types after int, bool, string and void: {types}.", 120)
    nodes = [line for tree in e.trees for line in tree.lines()]
    if nodes:
        lines += ["Nodes:"] + [f"    {i} {line}" for i, line in enumerate(nodes)]
    lines += ["", "Answer:"] + ["    " + line for line in answer.splitlines()]
    return "\n".join(lines + textwrap.wrap(told(e, answer), 120) + [f"Pairs of types compared: {pairs}."]) + "\n"


def files():
    for name, source, shows, e in EXAMPLES:
        file = e.bytes()
        yield name + ".oat", file
        yield name + ".txt", text(source, shows, e, answer_of(file), pairs_of(file)).encode()


if __name__ == "__main__":
    different = 0
    for name, content in files():
        path = os.path.join(ROOT, "examples", name)
        if sys.argv[1:] == ["--check"]:
            if not os.path.exists(path) or open(path, "rb").read() != content:
                print("examples/" + name, "is not what make.py writes")
                different += 1
        else:
            open(path, "wb").write(content)
    sys.exit(different > 0)
