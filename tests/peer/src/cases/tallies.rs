//! Cases of document 02's request (iv): an accepted file's expressions by type and
//! by declaration, both tallies told by hand, and refusals that change neither.

use super::rows::every_kind;
use super::{DRY, F, G, H, I, P, X, Y, Z, function_of};
use crate::Limits;
use crate::program::*;

/// A file under limits with its answer where both buffers are long enough. `exact`
/// has how many types and declarations it has, or lengths for a file that cannot
/// be read. An accepted file has both tallies, a refused one none.
pub struct TallyCase {
    pub name: &'static str,
    pub file: Vec<u8>,
    pub limits: Limits,
    pub answer: [u16; 3],
    pub exact: [usize; 2],
    pub tallies: Option<[Vec<u16>; 2]>,
}

impl TallyCase {
    /// The lengths of the two buffers: exact, longer, one short by type, by
    /// declaration and in both, and none.
    pub fn lengths(&self) -> Vec<[usize; 2]> {
        let [types, declarations] = self.exact;
        let (fewer, less) = (types.checked_sub(1), declarations.checked_sub(1));
        let short = [
            fewer.map(|types| [types, declarations]),
            less.map(|declarations| [types, declarations]),
            fewer.zip(less).map(|(types, declarations)| [types, declarations]),
            Some([0, 0]),
        ];
        let mut all = vec![self.exact, [types + 2, declarations + 1]];
        for lengths in short.into_iter().flatten() {
            if !all.contains(&lengths) {
                all.push(lengths);
            }
        }
        all
    }
}

pub fn tallies() -> Vec<TallyCase> {
    let mut cases = Vec::new();
    constants(&mut cases);
    expressions(&mut cases);
    operators(&mut cases);
    all_kinds(&mut cases);
    declarations_themselves(&mut cases);
    statements(&mut cases);
    loops(&mut cases);
    left_sides(&mut cases);
    callees(&mut cases);
    doubled(&mut cases);
    doubled_parts(&mut cases);
    doubled_functions(&mut cases);
    doubled_structs(&mut cases);
    numbers_of_rows(&mut cases);
    other_kinds(&mut cases);
    other_functions(&mut cases);
    other_structs(&mut cases);
    nulls(&mut cases);
    mixed_declarations(&mut cases);
    without_expressions(&mut cases);
    without_declarations(&mut cases);
    zero_bytes(&mut cases);
    refused_unread(&mut cases);
    refused_by_typing(&mut cases);
    refused_by_limits(&mut cases);
    many_types(&mut cases);
    many_nodes(&mut cases);
    deepest(&mut cases);
    cases
}

type Cases = Vec<TallyCase>;

/// Counts under some numbers of types; every other number has 0.
type Counts<'a> = &'a [(u16, u16)];

fn accepted(
    limits: Limits,
    name: &'static str,
    p: &Program,
    steps: u16,
    some: Counts,
    by_declaration: &[u16],
) -> TallyCase {
    let mut by_type = vec![0; p.types.len()];
    for &(t, count) in some {
        by_type[t as usize] = count;
    }
    let exact = [by_type.len(), by_declaration.len()];
    let tallies = Some([by_type, by_declaration.to_vec()]);
    TallyCase { name, file: p.bytes(), limits, answer: [0, steps, 0], exact, tallies }
}

fn put(cases: &mut Cases, name: &'static str, p: Program, steps: u16, some: Counts, by_declaration: &[u16]) {
    cases.push(accepted(Limits::WIDEST, name, &p, steps, some, by_declaration));
}

/// The usual types: A is declared with an int p and a bool dry.
const A: u16 = 4;
const A_NULL: u16 = 5;
const INTS: u16 = 6;
const TO_VOID: u16 = 7;
const INT_TO_INT: u16 = 8;
const STRING_NULL: u16 = 9;
const INT_BOOL_TO_VOID: u16 = 10;
const TO_INT: u16 = 11;
const BOOLS: u16 = 12;
const INTSS: u16 = 13;
const TO_TO_INT: u16 = 14;

fn usual() -> Program {
    let mut p = table(&[
        Struct(1),
        Nullable(A),
        Array(INT),
        Function(VOID, &[]),
        Function(INT, &[INT]),
        Nullable(STRING),
        Function(VOID, &[INT, BOOL]),
        Function(INT, &[]),
        Array(BOOL),
        Array(INTS),
        Function(TO_INT, &[]),
    ]);
    p.declare(1, &[[P, INT], [DRY, BOOL]]);
    p
}

/// A type that refers to numbers.
enum Type {
    Struct(u16),
    Array(u16),
    Nullable(u16),
    Function(u16, &'static [u16]),
}
use Type::*;

/// Types from number 4 on.
fn table(types: &[Type]) -> Program {
    let mut p = Program::new();
    for t in types {
        match *t {
            Struct(x) => p.struct_type(x),
            Array(element) => p.array(element),
            Nullable(inside) => p.nullable(inside),
            Function(result, parameters) => p.function(result, parameters),
        };
    }
    p
}

/// A literal of A: one expression of A, one of int, one of bool.
fn an_a() -> Tree {
    record(A, vec![(P, int(1)), (DRY, tru())])
}

/// An array literal without elements.
fn none(t: u16) -> Tree {
    list(t, vec![])
}

/// A global of the usual types: struct name, global, fields are the steps.
fn constant(cases: &mut Cases, name: &'static str, value: Tree, some: Counts, count: u16) {
    put(cases, name, usual().with([global(G, value)]), 3, some, &[count]);
}

/// `void f()` of the usual types: struct name, heading, fields, body are the
/// steps. A return stands behind the statements.
fn body(cases: &mut Cases, name: &'static str, statements: Vec<Tree>, some: Counts, count: u16) {
    put(cases, name, usual().with([void(F, TO_VOID, statements)]), 4, some, &[count]);
}

/// A function without parameters that ends with a return.
fn void(x: u16, t: u16, statements: Vec<Tree>) -> Tree {
    func(x, t, &[], [statements, vec![done()]].concat())
}

/// Vars of ints: one expression each.
fn ints(count: u16) -> Vec<Tree> {
    (0..count).map(|k| var(100 + k, int(k))).collect()
}

/// Kinds 10 to 16 and 21, in globals.
fn constants(cases: &mut Cases) {
    constant(cases, "null", null(A_NULL), &[(A_NULL, 1)], 1);
    constant(cases, "true", tru(), &[(BOOL, 1)], 1);
    constant(cases, "false", fls(), &[(BOOL, 1)], 1);
    constant(cases, "an integer", int(7), &[(INT, 1)], 1);
    constant(cases, "a string", text(7), &[(STRING, 1)], 1);
    let named = usual().with([global(G, int(1)), global(H, name(G))]);
    put(cases, "a name", named, 4, &[(INT, 2)], &[1, 1]);
    constant(cases, "an array literal without elements", none(INTS), &[(INTS, 1)], 1);
    let three = list(INTS, vec![int(1), int(2), int(3)]);
    constant(cases, "an array literal of three", three, &[(INT, 3), (INTS, 1)], 4);
    let nested = list(INTSS, vec![list(INTS, vec![int(1)]), none(INTS)]);
    constant(cases, "an array literal of array literals", nested, &[(INT, 1), (INTS, 2), (INTSS, 1)], 4);
    let counts = [(INT, 1), (BOOL, 1), (A, 1)];
    constant(cases, "a struct literal: 22 is no expression, its value is one", an_a(), &counts, 3);
}

/// Kinds 17 to 20, 23 and 24, in bodies.
fn expressions(cases: &mut Cases) {
    body(cases, "a default array", vec![var(X, blank(INTS, int(3)))], &[(INT, 1), (INTS, 1)], 2);
    let filled = fill(BOOLS, I, int(3), binary(6, name(I), int(1)));
    body(cases, "an array with initializer", vec![var(X, filled)], &[(INT, 3), (BOOL, 1), (BOOLS, 1)], 5);
    let element = index(blank(BOOLS, int(1)), int(0));
    body(cases, "an index", vec![var(X, element)], &[(INT, 2), (BOOL, 1), (BOOLS, 1)], 4);
    body(cases, "a length", vec![var(X, length(none(BOOLS)))], &[(INT, 1), (BOOLS, 1)], 2);
    body(cases, "a field", vec![var(X, field(an_a(), DRY))], &[(INT, 1), (BOOL, 2), (A, 1)], 4);
    let called = usual().with([
        func(G, INT_TO_INT, &[X], vec![ret(name(X))]),
        void(F, TO_VOID, vec![var(Z, call(name(G), vec![int(1)]))]),
    ]);
    put(cases, "a call", called, 6, &[(INT, 3), (INT_TO_INT, 1)], &[1, 3]);
}

/// Kinds 25 and 26.
fn operators(cases: &mut Cases) {
    body(cases, "a minus", vec![var(X, unary(0, int(1)))], &[(INT, 2)], 2);
    body(cases, "a not", vec![var(X, unary(1, tru()))], &[(BOOL, 2)], 2);
    body(cases, "a bitwise not", vec![var(X, unary(2, unary(2, int(1))))], &[(INT, 3)], 3);
    body(cases, "a sum", vec![var(X, binary(1, int(1), int(2)))], &[(INT, 3)], 3);
    body(cases, "a comparison of ints is a bool", vec![var(X, binary(9, int(1), int(2)))], &[(INT, 2), (BOOL, 1)], 3);
    let operand = |x| match x {
        10 | 11 => text(1),
        12 | 13 => tru(),
        _ => int(1),
    };
    let every = (0..16).map(|x| var(100 + x, binary(x, operand(x), operand(x)))).collect();
    body(cases, "every binary operator", every, &[(INT, 32), (BOOL, 12), (STRING, 4)], 48);
}

/// The program of the cases about rows, which has every kind of node.
fn all_kinds(cases: &mut Cases) {
    let of_base = [(INT, 19), (BOOL, 5), (STRING, 1)];
    let of_pans = [(super::A, 5), (super::B, 1), (super::A_NULL, 2), (super::A_NULLS, 5)];
    let others = [(super::INTS, 5), (super::INT_BOOL_TO_VOID, 1), (super::A_TO_INTS, 1)];
    let some = [&of_base[..], &of_pans, &others].concat();
    put(cases, "every kind of node", every_kind(), 14, &some, &[6, 1, 1, 37, 0]);
}

/// Kinds 1, 2, 3, 33 and 39 are no expressions.
fn declarations_themselves(cases: &mut Cases) {
    body(cases, "nothing but a return", vec![], &[], 0);
    let parameters = usual().with([func(F, INT_BOOL_TO_VOID, &[X, Z], vec![done()])]);
    put(cases, "parameters are no expressions", parameters, 4, &[], &[0]);
    let read = usual().with([func(F, INT_BOOL_TO_VOID, &[X, Z], vec![var(I, name(Z)), done()])]);
    put(cases, "of two parameters one is read", read, 4, &[(BOOL, 1)], &[1]);
    let three = usual().with([global(G, tru()), global(H, tru()), global(I, tru())]);
    put(cases, "globals themselves are no expressions", three, 5, &[(BOOL, 3)], &[1, 1, 1]);
}

/// Kinds 31, 32, 35 and 36 are no expressions.
fn statements(cases: &mut Cases) {
    body(cases, "two vars", ints(2), &[(INT, 2)], 2);
    let returned = usual().with([func(F, TO_INT, &[], vec![ret(int(1))])]);
    put(cases, "a return with value", returned, 4, &[(INT, 1)], &[1]);
    let test = when(tru(), vec![var(X, int(1))], vec![var(X, text(1))]);
    body(cases, "an if", vec![test], &[(INT, 1), (BOOL, 1), (STRING, 1)], 3);
    let both = vec![when(fls(), vec![done()], vec![done()])];
    let arms = usual().with([func(F, TO_VOID, &[], both)]);
    put(cases, "an if whose arms return", arms, 4, &[(BOOL, 1)], &[1]);
    let tested = when_null(X, A, null(A_NULL), vec![set(name(X), an_a())], vec![]);
    body(cases, "an if?", vec![tested], &[(INT, 1), (BOOL, 1), (A, 2), (A_NULL, 1)], 5);
    let tested = when_null(X, STRING, null(STRING_NULL), vec![var(Z, name(X))], vec![var(Z, int(1))]);
    body(cases, "an if? on a string", vec![tested], &[(INT, 1), (STRING, 1), (STRING_NULL, 1)], 3);
    let inner = vec![var(X, text(1)), var(Z, name(X))];
    let hidden = vec![var(X, int(1)), when(tru(), inner, vec![]), var(Z, name(X))];
    body(cases, "a name that is hidden for a while", hidden, &[(INT, 2), (BOOL, 1), (STRING, 2)], 5);
}

/// Kinds 37, 38 and 40 are no expressions.
fn loops(cases: &mut Cases) {
    body(cases, "a for without parts", vec![repeat(vec![], absent(), absent(), vec![])], &[], 0);
    body(cases, "a for with a condition alone", vec![repeat(vec![], tru(), absent(), vec![])], &[(BOOL, 1)], 1);
    let step = repeat(vec![], absent(), var(X, int(1)), vec![]);
    body(cases, "a for with a step alone", vec![step], &[(INT, 1)], 1);
    let vars = repeat(vec![var(X, int(1)), var(Z, text(1))], absent(), absent(), vec![]);
    body(cases, "a for with variables alone", vec![vars], &[(INT, 1), (STRING, 1)], 2);
    let inside = repeat(vec![], absent(), absent(), vec![var(X, int(1)), done()]);
    body(cases, "a for with a block alone", vec![inside], &[(INT, 1)], 1);
    let next = set(name(I), binary(1, name(I), int(1)));
    let whole = repeat(vec![var(I, int(0)), var(Z, int(9))], binary(6, name(I), name(Z)), next, vec![]);
    body(cases, "a for with all parts", vec![whole], &[(INT, 8), (BOOL, 1)], 9);
    let nested = during(fls(), vec![during(tru(), vec![var(X, int(1))])]);
    body(cases, "a while in a while", vec![nested], &[(INT, 1), (BOOL, 2)], 3);
    let endless = usual().with([func(F, TO_VOID, &[], vec![during(tru(), vec![])])]);
    put(cases, "a loop that never ends", endless, 4, &[(BOOL, 1)], &[1]);
}

/// Kind 30 is no expression, its left side is one.
fn left_sides(cases: &mut Cases) {
    let of_name = vec![var(X, int(1)), set(name(X), int(2))];
    body(cases, "a name is assigned", of_name, &[(INT, 3)], 3);
    let of_element = vec![var(X, blank(INTS, int(1))), set(index(name(X), int(0)), int(5))];
    body(cases, "an element is assigned", of_element, &[(INT, 4), (INTS, 2)], 6);
    let of_field = vec![set(field(an_a(), P), int(2))];
    body(cases, "a field is assigned", of_field, &[(INT, 3), (BOOL, 1), (A, 1)], 5);
    let deep = vec![set(index(index(none(INTSS), int(0)), int(0)), int(5))];
    body(cases, "an element of an element is assigned", deep, &[(INT, 4), (INTS, 1), (INTSS, 1)], 6);
}

/// Callees are expressions; kind 34 is none, so nothing is of type void.
fn callees(cases: &mut Cases) {
    body(cases, "a call statement has no type, its callee has one", vec![run(name(F), vec![])], &[(TO_VOID, 1)], 1);
    let mut p = usual();
    p.builtins.push([H, INT_BOOL_TO_VOID]);
    let twice = vec![run(name(H), vec![int(1), tru()]), run(name(H), vec![int(2), fls()])];
    let counts = [(INT, 2), (BOOL, 2), (INT_BOOL_TO_VOID, 2)];
    put(cases, "call statements of a built-in", p.with([void(F, TO_VOID, twice)]), 5, &counts, &[6]);
    let chain = usual().with([
        func(F, TO_INT, &[], vec![ret(int(1))]),
        func(G, TO_TO_INT, &[], vec![ret(name(F))]),
        void(H, TO_VOID, vec![var(X, call(call(name(G), vec![]), vec![]))]),
    ]);
    put(cases, "a callee that is a call", chain, 8, &[(INT, 2), (TO_INT, 2), (TO_TO_INT, 1)], &[1, 1, 3]);
    let held = usual().with([global(G, name(F)), void(F, TO_VOID, vec![])]);
    put(cases, "a function's name as a value", held, 5, &[(TO_VOID, 1)], &[1, 0]);
    let mut p = usual();
    p.builtins.push([H, TO_INT]);
    put(cases, "a built-in's name as a value", p.with([global(G, name(H))]), 4, &[(TO_INT, 1)], &[1]);
    let inside = vec![var(X, none(INTS)), run(name(F), vec![]), set(index(name(X), call(name(G), vec![])), int(1))];
    let both = usual().with([void(F, TO_VOID, inside), func(G, TO_INT, &[], vec![ret(int(0))])]);
    let counts = [(INT, 4), (INTS, 2), (TO_VOID, 1), (TO_INT, 1)];
    put(cases, "a call inside a left side", both, 6, &counts, &[7, 1]);
}

/// int[] and others under several numbers.
fn doubled(cases: &mut Cases) {
    let two = || table(&[Array(INT), Array(INT)]);
    let both = two().with([global(G, none(4)), global(H, none(5))]);
    put(cases, "int[] twice, both numbers used", both, 2, &[(4, 2)], &[1, 1]);
    put(cases, "int[] twice, the higher used", two().with([global(G, none(5))]), 1, &[(4, 1)], &[1]);
    put(cases, "int[] twice, the lower used", two().with([global(G, none(4))]), 1, &[(4, 1)], &[1]);
    let three = || table(&[Array(INT), Array(INT), Array(INT)]);
    let later = three().with([global(G, none(5)), global(H, none(6))]);
    put(cases, "int[] three times, the lowest in no row", later, 2, &[(4, 2)], &[1, 1]);
    let all = three().with([global(G, none(6)), global(H, none(5)), global(I, none(4))]);
    put(cases, "int[] three times, all numbers used", all, 3, &[(4, 3)], &[1, 1, 1]);
    let last = three().with([global(G, list(6, vec![int(1), int(2)]))]);
    put(cases, "int[] three times, the last used", last, 1, &[(INT, 2), (4, 1)], &[3]);
    let five = table(&[Array(INT), Array(INT), Array(INT), Array(INT), Array(INT)]);
    put(cases, "int[] five times, the last used", five.with([global(G, none(8))]), 1, &[(4, 1)], &[1]);
    let turns = table(&[Array(INT), Array(BOOL), Array(INT), Array(BOOL), Array(INT)]).with([
        global(G, list(8, vec![int(1)])),
        global(H, none(7)),
        global(I, none(6)),
        global(X, list(5, vec![tru()])),
    ]);
    put(cases, "int[] and bool[] in turn", turns, 4, &[(INT, 1), (BOOL, 1), (4, 2), (5, 2)], &[2, 1, 1, 2]);
    let strings = table(&[Nullable(STRING), Nullable(STRING)]).with([global(G, null(5))]);
    put(cases, "string? twice, the higher used", strings, 1, &[(4, 1)], &[1]);
    let made = vec![var(X, blank(5, int(1))), var(Z, fill(5, I, int(1), name(I))), var(F, name(X)), var(G, name(Z))];
    let p = table(&[Array(INT), Array(INT), Function(VOID, &[])]).with([void(F, 6, made)]);
    put(cases, "every array of the higher number", p, 2, &[(INT, 3), (4, 4)], &[7]);
}

/// Types are equal where their parts are.
fn doubled_parts(cases: &mut Cases) {
    let arrays = table(&[Array(INT), Array(INT), Array(4), Array(5)]);
    let both = arrays.with([global(G, list(7, vec![none(4)])), global(H, list(6, vec![none(5)]))]);
    put(cases, "arrays of a doubled type", both, 2, &[(4, 2), (6, 2)], &[2, 2]);
    let deep = table(&[Array(INT), Array(INT), Array(4), Array(5), Array(6), Array(7)]);
    put(cases, "arrays of arrays of a doubled type", deep.with([global(G, none(9))]), 1, &[(8, 1)], &[1]);
    let nullables = table(&[Array(INT), Array(INT), Nullable(4), Nullable(5)]);
    let three = nullables.with([global(G, null(7)), global(H, null(6)), global(I, null(7))]);
    put(cases, "nullables of a doubled type", three, 3, &[(6, 3)], &[1, 1, 1]);
    let both = table(&[Nullable(STRING), Nullable(STRING), Array(5), Array(4), Nullable(7), Nullable(6)]);
    let lists = both.with([global(G, null(8)), global(H, null(9)), global(I, list(7, vec![null(5), text(1)]))]);
    let counts = [(STRING, 1), (4, 1), (6, 1), (8, 2)];
    put(cases, "nullables of arrays of nullables", lists, 3, &counts, &[1, 1, 3]);
    let crossed = table(&[Array(INT), Array(4), Array(INT), Array(6)]);
    let crossed = crossed.with([global(G, list(7, vec![list(6, vec![int(1)])]))]);
    put(cases, "each array behind its element", crossed, 1, &[(INT, 1), (4, 1), (5, 1)], &[3]);
}

fn doubled_functions(cases: &mut Cases) {
    let twice = table(&[Function(VOID, &[]), Function(VOID, &[])]);
    let held = [global(H, name(F)), global(I, name(G))];
    let twice = twice.with([void(F, 4, vec![]), void(G, 5, vec![])]).with(held);
    put(cases, "()->void twice", twice, 6, &[(4, 2)], &[0, 0, 1, 1]);
    let takes = table(&[Array(INT), Array(INT), Function(VOID, &[4]), Function(VOID, &[5])]).with([
        func(F, 6, &[X], vec![done()]),
        func(G, 7, &[X], vec![done()]),
        func(H, 7, &[X], vec![run(name(F), vec![name(X)]), run(name(G), vec![name(X)]), done()]),
    ]);
    put(cases, "functions that take a doubled type", takes, 6, &[(4, 2), (6, 2)], &[0, 0, 4]);
    let gives = table(&[Array(INT), Array(INT), Function(5, &[]), Function(4, &[])]).with([
        func(F, 6, &[], vec![ret(none(4))]),
        func(G, 7, &[], vec![ret(call(name(F), vec![]))]),
        func(H, 7, &[], vec![ret(call(name(G), vec![]))]),
    ]);
    put(cases, "functions that give a doubled type", gives, 6, &[(4, 3), (6, 2)], &[1, 2, 2]);
    let deep = [Function(INT, &[INT]), Function(INT, &[INT]), Function(4, &[5]), Function(5, &[4])];
    let deep = table(&deep).with([
        func(F, 4, &[X], vec![ret(name(X))]),
        func(G, 7, &[X], vec![ret(name(X))]),
        func(H, 6, &[X], vec![ret(call(name(G), vec![name(X)]))]),
    ]);
    put(cases, "functions of doubled functions", deep, 6, &[(INT, 1), (4, 3), (6, 1)], &[1, 1, 3]);
    let nullable = table(&[Function(INT, &[INT]), Function(INT, &[INT]), Nullable(5), Nullable(4)]);
    put(cases, "nullables of doubled functions", nullable.with([global(G, null(7))]), 1, &[(6, 1)], &[1]);
    let last = [Array(INT), Array(INT), Function(VOID, &[BOOL, STRING, 4]), Function(VOID, &[BOOL, STRING, 5])];
    let mut last = table(&last);
    last.builtins.push([50, 7]);
    let held = last.with([global(G, name(50))]);
    put(cases, "functions whose third parameter is doubled", held, 2, &[(6, 1)], &[1]);
}

/// Struct types are equal by name, whatever is declared.
fn doubled_structs(cases: &mut Cases) {
    let mut twice = table(&[Struct(1), Struct(1)]);
    twice.declare(1, &[[P, INT]]);
    let both = twice.with([global(G, record(5, vec![(P, int(1))])), global(H, record(4, vec![(P, int(1))]))]);
    put(cases, "A twice", both, 4, &[(INT, 2), (4, 2)], &[2, 2]);
    let types = [Struct(1), Struct(1), Struct(1), Nullable(5), Nullable(6), Array(7), Array(8)];
    let mut three = table(&types);
    three.declare(1, &[[P, INT]]);
    let value = list(10, vec![null(8), record(6, vec![(P, int(1))])]);
    let counts = [(INT, 1), (4, 1), (7, 1), (9, 1)];
    put(cases, "A three times, A? and A?[] twice", three.with([global(G, value)]), 3, &counts, &[4]);
    let undeclared = [Struct(9), Struct(9), Array(4), Array(5), Array(INT), Array(INT), Nullable(5)];
    let undeclared = table(&undeclared).with([global(G, none(9))]);
    put(cases, "an undeclared struct twice, in no row", undeclared, 1, &[(8, 1)], &[1]);
    let mut around = table(&[Struct(9), Struct(1), Struct(9), Struct(1), Struct(2)]);
    around.declare(2, &[]);
    around.declare(1, &[]);
    let around = around.with([global(G, record(7, vec![])), global(H, record(8, vec![]))]);
    put(cases, "A twice between undeclared structs", around, 6, &[(5, 1), (8, 1)], &[1, 1]);
}

/// Rows have the numbers of records, which need not be the lowest.
fn numbers_of_rows(cases: &mut Cases) {
    let p = table(&[Array(INT), Array(INT), Array(5), Function(VOID, &[])]);
    let p = p.with([void(F, 7, vec![var(X, index(none(6), int(0)))])]);
    put(cases, "an element's type is doubled", p, 2, &[(INT, 1), (4, 1), (6, 1)], &[3]);
    let mut p = table(&[Array(INT), Array(INT), Struct(1), Function(VOID, &[])]);
    p.declare(1, &[[P, 5]]);
    let p = p.with([void(F, 7, vec![var(X, field(record(6, vec![(P, none(4))]), P))])]);
    put(cases, "a field's type is doubled", p, 4, &[(4, 2), (6, 1)], &[3]);
    let mut p = table(&[Struct(1), Struct(1), Nullable(4), Function(VOID, &[])]);
    p.declare(1, &[]);
    let p = p.with([void(F, 7, vec![when_null(X, 5, null(6), vec![var(Z, name(X))], vec![])])]);
    put(cases, "an if?'s t is doubled", p, 4, &[(4, 1), (6, 1)], &[2]);
    let mut p = table(&[Function(VOID, &[]), Function(VOID, &[]), Array(INT), Array(INT)]);
    p.builtins.push([H, 4]);
    p.declare(1, &[[P, 6]]);
    let p = p.with([void(F, 5, vec![run(name(F), vec![]), var(X, none(7))])]);
    put(cases, "the lowest numbers are a built-in's and a field's alone", p, 5, &[(4, 1), (6, 1)], &[2]);
    let p = table(&[Array(INT), Array(INT), Function(VOID, &[5])]);
    let p = p.with([func(F, 6, &[X], vec![set(name(X), none(4)), var(Z, name(X)), done()])]);
    put(cases, "a parameter's type is doubled", p, 2, &[(4, 3)], &[3]);
}

/// Types that are near each other and not equal.
fn other_kinds(cases: &mut Cases) {
    let p = table(&[Nullable(STRING)]).with([global(G, text(1)), global(H, null(4))]);
    put(cases, "string and string?", p, 2, &[(STRING, 1), (4, 1)], &[1, 1]);
    let p = table(&[Array(INT), Array(4)]).with([global(G, int(1)), global(H, none(4)), global(I, none(5))]);
    put(cases, "int, int[] and int[][]", p, 3, &[(INT, 1), (4, 1), (5, 1)], &[1, 1, 1]);
    let p = table(&[Array(INT), Nullable(4)]).with([global(G, none(4)), global(H, null(5))]);
    put(cases, "int[] and int[]?", p, 2, &[(4, 1), (5, 1)], &[1, 1]);
    let p = table(&[Array(INT), Array(BOOL)]).with([global(G, none(4)), global(H, none(5))]);
    put(cases, "int[] and bool[]", p, 2, &[(4, 1), (5, 1)], &[1, 1]);
    let mut p = table(&[Struct(2), Array(2), Function(2, &[]), Nullable(2)]);
    p.declare(2, &[]);
    p.builtins.push([50, 6]);
    let p = p.with([global(G, record(4, vec![])), global(H, none(5)), global(I, name(50)), global(X, null(7))]);
    put(cases, "records that differ in kind alone", p, 7, &[(4, 1), (5, 1), (6, 1), (7, 1)], &[1, 1, 1, 1]);
}

/// A built-in of each of some types, and a global that holds it.
fn held(p: Program, types: std::ops::RangeInclusive<u16>) -> Program {
    let mut p = p;
    p.builtins.extend(types.clone().map(|t| [50 + t, t]));
    p.with(types.map(|t| global(80 + t, name(50 + t))))
}

fn other_functions(cases: &mut Cases) {
    let types = [
        Function(VOID, &[INT, INT]),
        Function(VOID, &[INT, BOOL]),
        Function(VOID, &[BOOL, INT]),
        Function(VOID, &[INT]),
        Function(VOID, &[]),
        Function(INT, &[INT, INT]),
    ];
    let counts = [(4, 1), (5, 1), (6, 1), (7, 1), (8, 1), (9, 1)];
    put(cases, "functions that differ a little", held(table(&types), 4..=9), 12, &counts, &[1; 6]);
    let types =
        [Array(INT), Array(BOOL), Function(4, &[]), Function(5, &[]), Function(VOID, &[6]), Function(VOID, &[7])];
    let counts = [(6, 1), (7, 1), (8, 1), (9, 1)];
    put(cases, "functions that differ deep inside", held(table(&types), 6..=9), 8, &counts, &[1; 4]);
    let mut p = table(&[Struct(1), Struct(2), Function(5, &[4]), Function(4, &[5]), Function(4, &[4])]);
    p.declare(1, &[[P, INT]]);
    p.declare(2, &[[P, INT], [DRY, INT]]);
    let counts = [(6, 1), (7, 1), (8, 1)];
    put(cases, "(A)->B, (B)->A and (A)->A", held(p, 6..=8), 10, &counts, &[1; 3]);
    let text = [Nullable(STRING), Function(4, &[STRING]), Function(STRING, &[4])];
    put(cases, "functions below each other one way", held(table(&text), 5..=6), 4, &[(5, 1), (6, 1)], &[1; 2]);
}

fn other_structs(cases: &mut Cases) {
    let mut p = table(&[Struct(1), Struct(2), Nullable(4), Nullable(5), Array(4), Array(5)]);
    p.declare(1, &[[P, INT]]);
    p.declare(2, &[[P, INT]]);
    let p = p.with([
        global(20, record(4, vec![(P, int(1))])),
        global(21, record(5, vec![(P, int(1))])),
        global(22, null(6)),
        global(23, null(7)),
        global(24, none(8)),
        global(25, none(9)),
    ]);
    let counts = [(INT, 2), (4, 1), (5, 1), (6, 1), (7, 1), (8, 1), (9, 1)];
    put(cases, "structs with the same fields", p, 10, &counts, &[2, 2, 1, 1, 1, 1]);
    let mut p = table(&[Struct(1), Struct(2), Function(VOID, &[4])]);
    p.declare(1, &[[P, INT]]);
    p.declare(2, &[[P, INT], [DRY, INT]]);
    let b = record(5, vec![(P, int(1)), (DRY, int(2))]);
    let p = p.with([func(F, 6, &[X], vec![set(name(X), b), done()])]);
    put(cases, "A and B below it", p, 6, &[(INT, 2), (4, 1), (5, 1)], &[4]);
    let mut p = table(&[Struct(1), Struct(257), Nullable(5), Nullable(4)]);
    p.declare(1, &[]);
    p.declare(257, &[]);
    let p = p.with([global(G, record(5, vec![])), global(H, record(4, vec![])), global(I, null(6))]);
    let counts = [(4, 1), (5, 1), (6, 1)];
    put(cases, "structs whose names have one low byte", p, 7, &counts, &[1, 1, 1]);
    let mut p = table(&[Struct(1), Nullable(4), Array(4), Array(5)]);
    p.declare(1, &[]);
    let p = p.with([global(G, list(6, vec![record(4, vec![])])), global(H, list(7, vec![record(4, vec![]), null(5)]))]);
    put(cases, "A[] and A?[]", p, 4, &[(4, 2), (5, 1), (6, 1), (7, 1)], &[2, 3]);
}

/// E17: null's type is its t.
fn nulls(cases: &mut Cases) {
    let types = [Nullable(STRING), Array(INT), Nullable(5), Function(VOID, &[]), Nullable(7), Struct(1), Nullable(9)];
    let mut p = table(&types);
    p.declare(1, &[]);
    let p = p.with([global(G, null(4)), global(H, null(6)), global(I, null(8)), global(X, null(10))]);
    put(cases, "nulls of every kind", p, 6, &[(4, 1), (6, 1), (8, 1), (10, 1)], &[1, 1, 1, 1]);
    let p = table(&[Nullable(STRING), Function(VOID, &[])]);
    let p = p.with([void(F, 5, vec![var(X, binary(10, null(4), null(4))), var(Z, null(4))])]);
    put(cases, "null against null", p, 2, &[(BOOL, 1), (4, 3)], &[4]);
    let p = table(&[Nullable(STRING), Function(VOID, &[4])]);
    let p = p.with([func(F, 5, &[X], vec![run(name(F), vec![null(4)]), run(name(F), vec![text(1)]), done()])]);
    put(cases, "a string and null where string? is due", p, 2, &[(STRING, 1), (4, 1), (5, 2)], &[4]);
}

/// Functions of 4, globals that are lists of 5.
fn to_void_and_ints() -> Program {
    table(&[Function(VOID, &[]), Array(INT)])
}

/// A global with so many expressions, one of them of int[].
fn listing(x: u16, count: u16) -> Tree {
    global(x, list(5, (1..count).map(int).collect()))
}

/// A function with so many expressions, all of int.
fn counting(x: u16, count: u16) -> Tree {
    void(x, 4, ints(count))
}

/// The file's order, whatever is declared.
fn mixed_declarations(cases: &mut Cases) {
    let mut mixed = |name, declarations: Vec<Tree>, steps, some: Counts, by_declaration: &[u16]| {
        put(cases, name, to_void_and_ints().with(declarations), steps, some, by_declaration);
    };
    let between = vec![counting(F, 3), listing(G, 1), counting(H, 2)];
    mixed("a global between two functions", between, 5, &[(INT, 5), (5, 1)], &[3, 1, 2]);
    let between = vec![listing(F, 3), counting(G, 1), listing(H, 2)];
    mixed("a function between two globals", between, 4, &[(INT, 4), (5, 2)], &[3, 1, 2]);
    let turns = vec![listing(20, 1), counting(21, 2), listing(22, 3), counting(23, 4)];
    mixed("globals and functions in turn", turns, 6, &[(INT, 8), (5, 2)], &[1, 2, 3, 4]);
    let functions_first = vec![counting(20, 1), counting(21, 2), listing(22, 3), listing(23, 4)];
    mixed("two functions before two globals", functions_first, 6, &[(INT, 8), (5, 2)], &[1, 2, 3, 4]);
    let globals_first = vec![listing(20, 4), listing(21, 3), counting(22, 2), counting(23, 1)];
    mixed("two globals before two functions", globals_first, 6, &[(INT, 8), (5, 2)], &[4, 3, 2, 1]);
    let ten = (0..10).map(|k| counting(20 + k, k)).collect();
    mixed("ten functions, each with one more", ten, 20, &[(INT, 45)], &[0, 1, 2, 3, 4, 5, 6, 7, 8, 9]);
    let one = vec![counting(F, 5)];
    mixed("one function alone", one, 2, &[(INT, 5)], &[5]);
}

/// Declarations without expressions have a 0.
fn without_expressions(cases: &mut Cases) {
    let mut functions = |name, counts: &[u16], sum| {
        let declared = counts.iter().zip(20..).map(|(&count, x)| counting(x, count));
        put(cases, name, to_void_and_ints().with(declared), 2 * counts.len() as u16, &[(INT, sum)], counts);
    };
    functions("the second of three functions has none", &[2, 0, 1], 3);
    functions("the first of two functions has none", &[0, 1], 1);
    functions("the last of two functions has none", &[1, 0], 1);
    functions("none of three functions has any", &[0, 0, 0], 0);
    functions("two of four functions have none", &[0, 7, 0, 3], 10);
}

/// Structs and built-ins are no declarations here.
fn without_declarations(cases: &mut Cases) {
    let mut p = to_void_and_ints();
    p.declare(1, &[[P, 5]]);
    p.declare(2, &[]);
    p.builtins.extend([[50, 4], [51, 4]]);
    put(cases, "structs, built-ins and one global", p.clone().with([listing(G, 2)]), 7, &[(INT, 1), (5, 1)], &[2]);
    put(cases, "structs, built-ins and one function", p.clone().with([counting(F, 2)]), 8, &[(INT, 2)], &[2]);
    put(cases, "structs and built-ins alone", p, 6, &[], &[]);
    put(cases, "types alone", table(&[Array(INT), Array(INT), Struct(9), Nullable(6)]), 0, &[], &[]);
    put(cases, "types 0 to 3 and nothing else", Program::new(), 0, &[], &[]);
    put(cases, "the example", Program::new().with([global(5, tru())]), 1, &[(BOOL, 1)], &[1]);
}

fn limits(parts: usize, depth: usize) -> Limits {
    Limits { parts, depth }
}

/// A refused case: its lengths are told.
fn refuse(cases: &mut Cases, limits: Limits, name: &'static str, file: Vec<u8>, answer: [u16; 3], exact: [usize; 2]) {
    cases.push(TallyCase { name, file, limits, answer, exact, tallies: None });
}

/// Zero bytes have the four types and no declaration, under any limits.
fn zero_bytes(cases: &mut Cases) {
    for (parts, depth) in [(200, 100), (1, 1), (37, 12)] {
        let held = accepted(limits(parts, depth), "the 44 bytes of types 0 to 3", &Program::new(), 0, &[], &[]);
        let tallies = Some([vec![0, 0, 0, 0], vec![]]);
        let (name, file, limits) = ("zero bytes", vec![], held.limits);
        cases.push(TallyCase { name, file, limits, answer: [0, 0, 0], exact: [4, 0], tallies });
        cases.push(held);
    }
    for (parts, depth) in [(0, 1), (1, 0), (201, 100), (200, 101)] {
        refuse(cases, limits(parts, depth), "zero bytes, limits out of range", vec![], [25, 0, 0], [4, 0]);
    }
}

/// 1 to 5 come before 19.
fn refused_unread(cases: &mut Cases) {
    let mut unread = |name, file: Vec<u8>, number| refuse(cases, Limits::WIDEST, name, file, [number, 0, 0], [5, 2]);
    let four = || Program::new().bytes();
    unread("one byte", vec![4], 1);
    unread("one byte 0", vec![0], 1);
    unread("a byte cut off", four()[..43].to_vec(), 1);
    unread("a byte left over", [four(), vec![0]].concat(), 1);
    unread("types 513", 513u16.to_le_bytes().to_vec(), 2);
    unread("six zero counts", vec![0; 12], 3);
    let mut broken = Program::new();
    broken.types[0][0] = 1;
    unread("type 0 of kind 1", broken.bytes(), 3);
    let mut broken = table(&[Array(INT)]).with([global(G, none(4))]);
    broken.fields.push([1, VOID]);
    unread("a field of type 3", broken.bytes(), 4);
    unread("kind 99", Program::new().with([node(99, 0, 0, vec![])]).bytes(), 5);
    unread("a global without a value", Program::new().with([node(1, G, 0, vec![])]).bytes(), 5);
}

/// 7 to 16 come before 19. `f` has six types and one declaration.
fn refused_by_typing(cases: &mut Cases) {
    let mut typed = |name, file, answer, exact| refuse(cases, Limits::WIDEST, name, file, answer, exact);
    let mut doubled = Program::new();
    doubled.declare(1, &[]);
    doubled.declare(1, &[]);
    typed("7 a struct twice", doubled.bytes(), [7, 1, 1], [4, 0]);
    let twice = Program::new().with([global(G, tru()), global(G, tru())]);
    typed("7 a global twice", twice.bytes(), [7, 1, 2], [4, 2]);
    typed("8 a name unknown", Program::new().with([global(G, name(Y))]).bytes(), [8, 0, 1], [4, 1]);
    let unknown = table(&[Struct(9), Nullable(4)]).with([global(G, null(5))]);
    typed("9 Q null", unknown.bytes(), [9, 0, 1], [6, 1]);
    let condition = function_of(VOID, vec![when(int(1), vec![], vec![])]);
    typed("10 if(1)", condition, [10, 1, 2], [6, 1]);
    typed("11 return true for int", function_of(INT, vec![ret(tru())]), [11, 1, 2], [6, 1]);
    let mut none_named = table(&[Struct(1)]);
    none_named.declare(1, &[[P, INT]]);
    let none_named = none_named.with([global(G, record(4, vec![]))]);
    typed("12 a field not named", none_named.bytes(), [12, 1, 1], [5, 1]);
    let argument = function_of(VOID, vec![run(name(F), vec![int(1)])]);
    typed("12 f(1), f takes none", argument, [12, 1, 2], [6, 1]);
    typed("13 return 1 in void", function_of(VOID, vec![ret(int(1))]), [13, 1, 2], [6, 1]);
    let as_value = function_of(VOID, vec![var(X, call(name(F), vec![])), done()]);
    typed("13 a void call as an expression", as_value, [13, 1, 3], [6, 1]);
    typed("14 an empty body", function_of(VOID, vec![]), [14, 1, 0], [6, 1]);
    typed("15 f = f", function_of(VOID, vec![set(name(F), name(F))]), [15, 1, 2], [6, 1]);
    typed("16 new string[3]", function_of(VOID, vec![var(X, blank(5, int(3)))]), [16, 1, 3], [6, 1]);
    let late = to_void_and_ints().with([counting(F, 3), listing(G, 2), func(H, 4, &[], ints(2))]);
    typed("14 in the last of three declarations", late.bytes(), [14, 4, 12], [6, 3]);
}

/// 25 comes before everything, 3 and 5 read the limits.
fn refused_by_limits(cases: &mut Cases) {
    let nested = table(&[Array(INT), Array(4)]).with([global(G, list(5, vec![list(4, vec![int(1)])]))]);
    for (parts, depth) in [(3, 4), (200, 4), (3, 100), (4, 5)] {
        let some = [(INT, 1), (4, 1), (5, 1)];
        cases.push(accepted(limits(parts, depth), "3 parts and depth 4", &nested, 1, &some, &[3]));
    }
    let mut nested_under = |parts, depth, number| {
        refuse(cases, limits(parts, depth), "3 parts and depth 4", nested.bytes(), [number, 0, 0], [6, 1]);
    };
    for (parts, depth) in [(2, 4), (1, 4), (2, 3), (1, 1), (2, 100)] {
        nested_under(parts, depth, 3);
    }
    for (parts, depth) in [(3, 3), (3, 1), (200, 3)] {
        nested_under(parts, depth, 5);
    }
    for (parts, depth) in [(0, 4), (3, 0), (201, 4), (3, 101), (0, 0), (65_536 + 3, 4), (3, 65_536 + 4)] {
        nested_under(parts, depth, 25);
    }
    let unknown = Program::new().with([global(G, name(Y))]).bytes();
    refuse(cases, limits(1, 2), "8 under narrow limits", unknown.clone(), [8, 0, 1], [4, 1]);
    refuse(cases, limits(1, 1), "8 is 5 under depth 1", unknown.clone(), [5, 0, 0], [4, 1]);
    refuse(cases, limits(0, 2), "8 is 25 under parts 0", unknown, [25, 0, 0], [4, 1]);
    refuse(cases, limits(0, 100), "one byte, limits out of range", vec![4], [25, 0, 0], [4, 1]);
    refuse(cases, limits(200, 0), "types 513, limits out of range", vec![1, 2], [25, 0, 0], [4, 1]);
}

/// 512 types, of which most are equal.
fn many_types(cases: &mut Cases) {
    let mut arrays = Program::new();
    let mut structs = Program::new();
    while arrays.types.len() < 512 {
        arrays.array(INT);
        structs.struct_type(1);
    }
    structs.declare(1, &[]);
    let each = (4..512).map(|t| global(1000 + t, none(t)));
    put(cases, "508 times int[], all used", arrays.clone().with(each), 508, &[(4, 508)], &[1; 508]);
    let last = arrays.with([global(G, list(511, vec![int(1), int(2), int(3)]))]);
    put(cases, "508 times int[], the last used", last, 1, &[(INT, 3), (4, 1)], &[4]);
    let three = [511, 4, 300].map(|t| global(1000 + t, record(t, vec![])));
    put(cases, "508 times A, three used", structs.with(three), 5, &[(4, 3)], &[1, 1, 1]);
    let mut pairs = Program::new();
    for name in (0..254).chain(0..254) {
        pairs.struct_type(name);
    }
    for name in 0..254 {
        pairs.declare(name, &[]);
    }
    let later = (0..254).map(|name| global(1000 + name, record(258 + name, vec![])));
    let counts: Vec<(u16, u16)> = (4..258).map(|t| (t, 1)).collect();
    put(cases, "254 structs twice, the later numbers used", pairs.with(later), 762, &counts, &[1; 254]);
}

/// 4,096 nodes in one declaration, and many declarations.
fn many_nodes(cases: &mut Cases) {
    let values = |count| (0..count).map(int).collect();
    let one = table(&[Array(INT)]).with([global(G, list(4, values(4094)))]);
    put(cases, "4,096 nodes in a global", one, 1, &[(INT, 4094), (4, 1)], &[4095]);
    let body = vec![var(X, list(5, values(4091)))];
    let one = to_void_and_ints().with([void(F, 4, body)]);
    put(cases, "4,096 nodes in a function", one, 2, &[(INT, 4091), (5, 1)], &[4092]);
    let value = |k| [int(k), tru(), text(k)][k as usize % 3].clone();
    let globals = Program::new().with((0..400).map(|k| global(1000 + k, value(k))));
    put(cases, "400 globals", globals, 400, &[(INT, 134), (BOOL, 133), (STRING, 133)], &[1; 400]);
    let turns = (0..300).map(|k| if k % 2 == 0 { counting(1000 + k, 2) } else { listing(1000 + k, 3) });
    let by_declaration: Vec<u16> = [2, 3].repeat(150);
    put(
        cases,
        "300 declarations in turn",
        to_void_and_ints().with(turns),
        450,
        &[(INT, 600), (5, 150)],
        &by_declaration,
    );
}

/// Depth 100: function, block, return and 97 expressions.
fn deepest(cases: &mut Cases) {
    let value = (0..96).fold(int(1), |inner, _| unary(0, inner));
    let p = table(&[Function(INT, &[])]).with([func(F, 4, &[], vec![ret(value)])]);
    for (parts, depth) in [(200, 100), (2, 100)] {
        cases.push(accepted(limits(parts, depth), "depth 100", &p, 2, &[(INT, 97)], &[97]));
    }
    refuse(cases, limits(200, 99), "depth 100 under 99", p.bytes(), [5, 0, 0], [5, 1]);
}
