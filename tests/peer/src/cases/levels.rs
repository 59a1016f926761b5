//! Cases of document 02's request (vi): a var is refused only where its own block
//! has bound the name, and a name means its nearest binding. An accepted case
//! tells what each of its names means.

use super::*;
use crate::program::*;

/// A case with the binders of its names, in file order; a refused one has none.
/// A binder is told by its place among the nodes that bind (1, 2, 3, 18, 31 and
/// 36), counted from 0 in file order; a built-in by 40,000 plus its number.
pub struct Resolved {
    pub case: Case,
    pub binders: Vec<u16>,
}

/// Readable files with their answers and binders.
pub fn levels() -> Vec<Resolved> {
    let mut cases = Vec::new();
    for sort in SORTS.into_iter().chain(IN_STEPS) {
        hiding(&mut cases, sort);
    }
    for sort in [SORTS[0], SORTS[3], SORTS[4], IN_STEPS[0]] {
        clashes(&mut cases, sort);
    }
    for k in [2, 5] {
        types(&mut cases, SORTS[k]);
        afterwards(&mut cases, SORTS[k - 1]);
        functions(&mut cases, SORTS[k - 2]);
    }
    parameters(&mut cases);
    for_clashes(&mut cases);
    for_blocks(&mut cases);
    for_meanings(&mut cases);
    nested_fors(&mut cases);
    steps(&mut cases);
    null_tests(&mut cases);
    null_meanings(&mut cases);
    nested_null_tests(&mut cases);
    index_names(&mut cases);
    index_lengths(&mut cases);
    index_places(&mut cases);
    nested_index_names(&mut cases);
    index_orders(&mut cases);
    assigned(&mut cases);
    assigned_in_arms(&mut cases);
    hidden_functions(&mut cases);
    assigned_builtins(&mut cases);
    marks(&mut cases);
    returned(&mut cases);
    orders(&mut cases);
    globals(&mut cases);
    nests(&mut cases);
    cases
}

type Cases = Vec<Resolved>;

/// A smaller table than the usual one; Q is declared nowhere.
const TO_VOID: u16 = 4;
const TO_INT: u16 = 5;
const INT_TO_INT: u16 = 6;
const INT_INT_TO_VOID: u16 = 7;
const STRING_NULL: u16 = 8;
const INTS: u16 = 9;
const INTSS: u16 = 10;
const INTS_NULL: u16 = 11;
const BOOLS: u16 = 12;
const STRING_NULL_TO_VOID: u16 = 13;
const INTS_TO_INTS: u16 = 14;
const Q: u16 = 15;
const Q_NULL: u16 = 16;
const QS: u16 = 17;

fn bare() -> Program {
    let mut p = Program::new();
    p.function(VOID, &[]);
    p.function(INT, &[]);
    p.function(INT, &[INT]);
    p.function(VOID, &[INT, INT]);
    p.nullable(STRING);
    p.array(INT);
    p.array(INTS);
    p.nullable(INTS);
    p.array(BOOL);
    p.function(VOID, &[STRING_NULL]);
    p.function(INTS, &[INTS]);
    p.struct_type(9);
    p.nullable(Q);
    p.array(Q);
    p
}

fn only(t: u16, body: Vec<Tree>) -> Program {
    bare().with([func(F, t, &[], body)])
}

fn put(cases: &mut Cases, answer: [u16; 3], name: &'static str, binders: &[u16], p: Program) {
    cases.push(Resolved { case: Case { name, file: p.bytes(), answer }, binders: binders.to_vec() });
}

/// `f` is the only function, void, binder 0: node 0, its block 1, its first
/// statement 2. A return stands behind the body.
fn passes(cases: &mut Cases, name: &'static str, binders: &[u16], body: Vec<Tree>) {
    put(cases, [0, 2, 0], name, binders, only(TO_VOID, [body, vec![done()]].concat()));
}

fn refused(cases: &mut Cases, number: u16, place: u16, name: &'static str, body: Vec<Tree>) {
    put(cases, [number, 1, place], name, &[], only(TO_VOID, [body, vec![done()]].concat()));
}

/// `f` takes an int x, binder 1, and gives it back: block node 2, first statement 3.
fn with_x(cases: &mut Cases, answer: [u16; 3], name: &'static str, binders: &[u16], body: Vec<Tree>) {
    let body = [body, vec![ret(self::name(X))]].concat();
    put(cases, answer, name, binders, bare().with([func(F, INT_TO_INT, &[X], body)]));
}

const K: u16 = 30;

fn one() -> Tree {
    int(1)
}

fn no_string() -> Tree {
    null(STRING_NULL)
}

/// A name of an int, a bool or a string is assigned; otherwise it is 11 there.
fn as_int(x: u16) -> Tree {
    set(name(x), one())
}

fn as_bool(x: u16) -> Tree {
    set(name(x), tru())
}

fn as_text(x: u16) -> Tree {
    set(name(x), text(1))
}

/// A sort of inner block.
#[derive(Clone, Copy)]
struct Inner {
    around: fn(Vec<Tree>) -> Tree,
    /// Its nodes before its first statement, and all but its statements.
    before: u16,
    size: u16,
    /// How many names it binds itself, before its statements.
    binds: u16,
}

const fn inner(around: fn(Vec<Tree>) -> Tree, before: u16, size: u16, binds: u16) -> Inner {
    Inner { around, before, size, binds }
}

/// The blocks of while, if, else and for, and both of an if? of another name.
const SORTS: [Inner; 6] = [
    inner(|body| during(fls(), body), 3, 3, 0),
    inner(|body| when(tru(), body, vec![]), 3, 4, 0),
    inner(|body| when(tru(), vec![], body), 4, 4, 0),
    inner(|body| repeat(vec![], absent(), absent(), body), 4, 4, 0),
    inner(|body| when_null(K, STRING, no_string(), body, vec![]), 3, 4, 1),
    inner(|body| when_null(K, STRING, no_string(), vec![], body), 4, 4, 1),
];

/// The blocks of a while and of a for that is a for's step.
const IN_STEPS: [Inner; 2] = [
    inner(|body| repeat(vec![], absent(), during(fls(), body), vec![]), 5, 6, 0),
    inner(|body| repeat(vec![], absent(), repeat(vec![], absent(), absent(), body), vec![]), 6, 7, 0),
];

/// Inner blocks bind names again.
fn hiding(cases: &mut Cases, Inner { around, binds: b, .. }: Inner) {
    let hides = vec![var(X, one()), around(vec![var(X, tru()), as_bool(X)]), as_int(X)];
    passes(cases, "T8 an inner block binds a var's name", &[2 + b, 1], hides);
    let hides = vec![around(vec![var(X, tru()), as_bool(X)])];
    with_x(cases, [0, 2, 0], "an inner block binds a parameter's name", &[2 + b, 1], hides);
    let equal = var(X, binary(10, name(X), one()));
    let reads = vec![var(X, one()), around(vec![equal, as_bool(X)])];
    passes(cases, "its expression reads the outer one", &[1, 2 + b], reads);
    let twice = vec![around(vec![var(X, one()), as_int(X)]), around(vec![var(X, tru()), as_bool(X)])];
    passes(cases, "T8 blocks side by side", &[1 + b, 2 + 2 * b], twice);
    let third = around(vec![var(X, text(1)), as_text(X)]);
    let second = around(vec![var(X, tru()), third, as_bool(X)]);
    passes(cases, "three deep", &[3 + 2 * b, 2 + b, 1], vec![var(X, one()), second, as_int(X)]);
    let own = around(vec![around(vec![var(X, one()), as_int(X)]), var(X, tru()), as_bool(X)]);
    passes(cases, "the inner one first", &[1 + 2 * b, 2 + 2 * b], vec![own]);
}

/// A block binds a name twice, whatever inner blocks do.
fn clashes(cases: &mut Cases, Inner { around, before, size, binds: b }: Inner) {
    let twice = vec![var(X, one()), around(vec![var(X, tru()), var(X, one())])];
    refused(cases, 7, before + 6, "twice in an inner block", twice);
    let again = vec![var(X, one()), around(vec![var(X, tru())]), var(X, int(2))];
    refused(cases, 7, size + 6, "again after an inner block that binds it", again);
    let again = vec![var(X, one()), around(vec![]), var(X, int(2))];
    refused(cases, 7, size + 4, "again after an inner block that doesn't", again);
    let deeper = around(vec![var(X, one()), around(vec![var(X, tru())]), var(X, int(2))]);
    refused(cases, 7, before + size + 6, "again in an inner block after one inside it", vec![deeper]);
    let after = around(vec![around(vec![]), var(X, tru()), as_bool(X)]);
    passes(
        cases,
        "not bound in its own block before one inside it",
        &[2 + 2 * b, 1],
        vec![var(X, one()), after, as_int(X)],
    );
}

/// The types show which binding is meant.
fn types(cases: &mut Cases, Inner { around, before, size, .. }: Inner) {
    let hides = |inside: Tree, after: Tree| vec![var(X, one()), around(vec![var(X, tru()), inside]), after];
    refused(cases, 11, before + 6, "the outer type inside", hides(as_int(X), as_int(X)));
    refused(cases, 11, size + 9, "the inner type after it", hides(as_bool(X), as_bool(X)));
    let test = when(name(X), vec![], vec![]);
    refused(cases, 10, before + 6, "an int as a condition", vec![var(X, tru()), around(vec![var(X, one()), test])]);
    refused(cases, 8, before + 5, "T6 the expression before fresh", vec![around(vec![var(X, one()), var(X, name(Y))])]);
}

/// What an inner block bound is gone after it.
fn afterwards(cases: &mut Cases, Inner { around, size, binds: b, .. }: Inner) {
    refused(cases, 8, size + 5, "unknown after the block", vec![around(vec![var(X, one())]), as_int(X)]);
    let free = vec![around(vec![var(X, tru())]), var(X, one()), as_int(X)];
    passes(cases, "free after the block", &[2 + b], free);
    let back = around(vec![var(X, one()), around(vec![var(X, tru())]), as_int(X)]);
    passes(cases, "back after a block inside", &[1 + b], vec![back]);
    passes(cases, "seen two blocks in", &[1, 1], vec![var(X, one()), around(vec![as_int(X), around(vec![as_int(X)])])]);
}

/// 15, and a function's name hidden in inner blocks.
fn functions(cases: &mut Cases, Inner { around, before, size, binds: b }: Inner) {
    passes(cases, "T3 hidden in its own block", &[1 + b], vec![around(vec![var(F, one()), as_int(F)])]);
    let inside = around(vec![var(F, one()), around(vec![as_int(F)])]);
    passes(cases, "T3 hidden one block out", &[1 + b], vec![inside]);
    passes(cases, "T3 hidden two blocks out", &[1], vec![var(F, one()), around(vec![around(vec![as_int(F)])])]);
    let parameter = func(F, INT_TO_INT, &[F], vec![around(vec![around(vec![as_int(F)])]), ret(name(F))]);
    put(cases, [0, 2, 0], "T3 hidden by a parameter two blocks out", &[1, 1], bare().with([parameter]));
    refused(cases, 15, size + 4, "T3 hidden in a block before", vec![around(vec![var(F, one())]), as_int(F)]);
    refused(cases, 15, before + 2, "not hidden in the block", vec![around(vec![as_int(F), var(F, one())])]);
}

/// Parameters and the body's block are one block.
fn parameters(cases: &mut Cases) {
    let two = |names: [u16; 2], body| bare().with([func(F, INT_INT_TO_VOID, &names, body)]);
    put(cases, [7, 1, 4], "a var of the second parameter", &[], two([X, Z], vec![var(Z, one()), done()]));
    put(cases, [7, 1, 4], "a var of the first parameter", &[], two([X, Z], vec![var(X, name(X)), done()]));
    put(cases, [8, 1, 5], "its expression first", &[], two([X, Z], vec![var(X, name(Y)), done()]));
    let after = vec![during(fls(), vec![var(X, tru())]), var(X, one()), done()];
    put(cases, [7, 1, 9], "a var of a parameter after an inner block", &[], two([X, Z], after));
    let after = vec![var(I, one()), during(fls(), vec![]), var(I, one()), done()];
    put(cases, [7, 1, 9], "a var of an earlier var after an inner block", &[], two([X, Z], after));
    let inside = during(fls(), vec![var(X, tru()), during(fls(), vec![var(X, one()), var(X, one())])]);
    put(cases, [7, 1, 14], "twice, two blocks into a body", &[], two([X, Z], vec![inside, done()]));
    put(
        cases,
        [7, 1, 0],
        "D6 parameters are distinct",
        &[],
        two([X, X], vec![during(fls(), vec![var(X, one())]), done()]),
    );
    let swap = when(tru(), vec![var(X, name(Z)), var(Z, name(X)), as_int(Z)], vec![as_int(Z)]);
    put(cases, [0, 2, 0], "both hidden in turn", &[2, 3, 4, 2, 1], two([X, Z], vec![swap, as_int(X), done()]));
    let own = func(F, INT_TO_INT, &[F], vec![var(F, one()), ret(one())]);
    put(cases, [7, 1, 3], "a var of a parameter of the function's name", &[], bare().with([own]));
}

/// `for` alone in the body: node 2, its first variable 3.
fn for_clashes(cases: &mut Cases) {
    let each = |vars, condition, step, body| vec![repeat(vars, condition, step, body)];
    let x = || vec![var(X, one())];
    refused(cases, 7, 5, "two variables", each(vec![var(X, one()), var(X, tru())], absent(), absent(), vec![]));
    let three = vec![var(X, one()), var(Z, one()), var(X, one())];
    refused(cases, 7, 7, "the first and the third variable", each(three, absent(), absent(), vec![]));
    let later = vec![var(X, one()), var(Z, name(X)), var(Z, name(X))];
    refused(cases, 7, 7, "the second and the third variable", each(later, absent(), absent(), vec![]));
    refused(cases, 7, 6, "a variable and the step", each(x(), absent(), var(X, one()), vec![]));
    refused(cases, 7, 6, "of another type", each(x(), absent(), var(X, tru()), vec![as_int(X)]));
    let two = vec![var(X, one()), var(Z, one())];
    refused(cases, 7, 8, "the first variable and the step", each(two.clone(), absent(), var(X, one()), vec![]));
    refused(cases, 7, 8, "the second variable and the step", each(two, absent(), var(Z, one()), vec![]));
    refused(cases, 7, 6, "a variable, the step and the block", each(x(), absent(), var(X, one()), x()));
    refused(cases, 7, 6, "the step before the block", each(x(), absent(), var(X, one()), vec![as_int(Y)]));
    refused(cases, 8, 7, "the step's expression first", each(x(), absent(), var(X, name(Y)), vec![]));
    refused(cases, 10, 2, "the condition before the step", each(x(), name(X), var(X, one()), vec![]));
    refused(cases, 7, 10, "twice in the block", each(x(), absent(), absent(), vec![var(X, one()), var(X, one())]));
    let step_reads = each(x(), absent(), var(X, name(X)), vec![]);
    refused(cases, 7, 6, "a step of the variable's name that reads it", step_reads);
    let after = [x(), each(x(), absent(), absent(), x()), x()].concat();
    refused(cases, 7, 12, "again after a for that binds it", after);
    let in_block = each(vec![], absent(), absent(), each(x(), absent(), var(X, one()), vec![]));
    refused(cases, 7, 10, "a variable and the step of a for inside", in_block);
    let in_block = each(x(), absent(), absent(), each(vec![var(Z, one()), var(Z, one())], absent(), absent(), vec![]));
    refused(cases, 7, 11, "two variables of a for inside", in_block);
}

/// A for's block is an inner block.
fn for_blocks(cases: &mut Cases) {
    let each = |vars, condition, step, body| vec![repeat(vars, condition, step, body)];
    let x = || vec![var(X, one())];
    let hides = || vec![var(X, tru()), as_bool(X)];
    passes(cases, "a variable and the block", &[2], each(x(), absent(), absent(), hides()));
    passes(cases, "the step and the block", &[2], each(vec![], absent(), var(X, one()), hides()));
    let body = vec![var(X, binary(10, name(X), one())), var(Z, tru()), as_bool(X), as_bool(Z)];
    passes(
        cases,
        "a variable, the step and both in the block",
        &[1, 1, 3, 4],
        each(x(), absent(), var(Z, name(X)), body),
    );
    let inside = vec![during(fls(), hides()), as_int(X)];
    passes(cases, "a variable and a block in the block", &[2, 1], each(x(), absent(), absent(), inside));
    let after = vec![repeat(vec![], absent(), absent(), vec![]), var(X, tru()), as_bool(X)];
    passes(cases, "the block, after a for inside", &[2], each(x(), absent(), absent(), after));
    passes(
        cases,
        "free after the for",
        &[2],
        [each(x(), absent(), absent(), vec![]), vec![var(X, tru()), as_bool(X)]].concat(),
    );
    let all = [x(), each(vec![var(X, tru())], absent(), absent(), vec![var(X, text(1)), as_text(X)]), vec![as_int(X)]];
    passes(cases, "a var, a variable and the block", &[3, 1], all.concat());
    refused(cases, 8, 8, "the step's name in the block", each(vec![], absent(), var(X, one()), vec![as_int(X)]));
    refused(
        cases,
        8,
        9,
        "the block's name after it",
        [each(vec![], absent(), absent(), x()), vec![as_int(X)]].concat(),
    );
    let cross = each(vec![], name(X), var(X, tru()), vec![]);
    refused(cases, 8, 3, "the step's name in the condition", cross);
}

/// What names mean in a for's parts.
fn for_meanings(cases: &mut Cases) {
    let count = |body| {
        let less = binary(6, name(X), int(3));
        repeat(vec![var(X, int(0))], less, set(name(X), binary(1, name(X), one())), body)
    };
    let hides = vec![var(X, tru()), count(vec![as_int(X)]), as_bool(X)];
    passes(cases, "condition, step and block mean the variable", &[2, 2, 2, 2, 1], hides);
    with_x(cases, [0, 2, 0], "so too over a parameter", &[2, 2, 2, 2, 1], vec![count(vec![as_int(X)])]);
    let condition = |outer: Tree, own: Tree| vec![var(X, outer), repeat(vec![var(X, own)], name(X), absent(), vec![])];
    passes(cases, "the condition is the variable, not the int outside", &[2], condition(one(), tru()));
    refused(cases, 10, 4, "the condition is the variable, not the bool outside", condition(tru(), one()));
    let first = repeat(vec![var(X, binary(10, name(X), one()))], name(X), absent(), vec![as_bool(X)]);
    passes(cases, "a variable's expression reads the outer one", &[1, 2, 2, 1], vec![var(X, one()), first, as_int(X)]);
    let vars = vec![var(X, tru()), var(Z, unary(1, name(X)))];
    let second = repeat(vars, name(Z), absent(), vec![set(name(Z), name(X))]);
    passes(cases, "the second variable reads the first", &[2, 3, 3, 2], vec![var(X, one()), second]);
    let vars = vec![var(Z, unary(1, name(X))), var(X, one())];
    let before = repeat(vars, name(Z), absent(), vec![as_int(X)]);
    passes(cases, "the first reads no later one", &[1, 2, 3, 1], vec![var(X, tru()), before, as_bool(X)]);
    refused(cases, 8, 4, "no variable reads itself", vec![repeat(vec![var(X, name(X))], absent(), absent(), vec![])]);
    let step = repeat(vec![], absent(), var(X, tru()), vec![as_int(X)]);
    passes(cases, "the block does not see the step's", &[1, 1], vec![var(X, one()), step.clone(), as_int(X)]);
    with_x(cases, [0, 2, 0], "nor over a parameter", &[1, 1], vec![step]);
    let own = repeat(vec![], absent(), var(X, binary(10, name(X), one())), vec![as_int(X)]);
    passes(cases, "the step's expression reads the outer one", &[1, 1], vec![var(X, one()), own]);
    let reads = repeat(vec![var(X, tru())], absent(), var(Z, unary(1, name(X))), vec![as_text(Z)]);
    passes(cases, "the step's expression reads the variable", &[3, 2], vec![var(X, one()), var(Z, text(1)), reads]);
}

/// Loops within loops.
fn nested_fors(cases: &mut Cases) {
    let count = |body| {
        let less = binary(6, name(I), int(9));
        repeat(vec![var(I, int(0))], less, set(name(I), binary(1, name(I), one())), body)
    };
    let three = count(vec![count(vec![count(vec![as_int(I)]), as_int(I)]), as_int(I)]);
    passes(cases, "i in three loops", &[1, 1, 1, 2, 2, 2, 3, 3, 3, 3, 2, 1], vec![three]);
    passes(cases, "i in two loops side by side", &[1, 1, 1, 2, 2, 2], vec![count(vec![]), count(vec![])]);
    let both = count(vec![var(I, tru()), count(vec![var(I, text(1)), as_text(I)]), as_bool(I)]);
    passes(cases, "i in two loops and their blocks", &[1, 1, 1, 3, 3, 3, 4, 2], vec![both]);
    let mixed = count(vec![during(fls(), vec![var(I, tru()), count(vec![]), as_bool(I)]), as_int(I)]);
    passes(cases, "a loop, a while with its own, a loop", &[1, 1, 1, 3, 3, 3, 2, 1], vec![mixed]);
    let again = count(vec![count(vec![]), var(I, one()), var(I, one())]);
    refused(cases, 7, 28, "i twice in a loop's block, after a loop", vec![again]);
    let outside = vec![count(vec![count(vec![])]), as_int(I)];
    refused(cases, 8, 27, "i after two loops", outside);
}

/// Steps with blocks.
fn steps(cases: &mut Cases) {
    let each = |step, body| vec![repeat(vec![var(X, one())], absent(), step, body)];
    let hides = || vec![var(X, tru()), as_bool(X)];
    let branch = || when(tru(), hides(), vec![as_int(X)]);
    passes(cases, "an if as the step", &[2, 1, 1], each(branch(), vec![as_int(X)]));
    passes(cases, "a while as the step", &[2, 1], each(during(fls(), hides()), vec![as_int(X)]));
    let inner = repeat(vec![var(X, tru())], name(X), absent(), vec![var(X, text(1)), as_text(X)]);
    passes(cases, "a for as the step, of the same variable", &[2, 3, 1], each(inner, vec![as_int(X)]));
    let inner = repeat(vec![var(X, tru())], name(X), var(X, one()), vec![]);
    refused(cases, 7, 10, "a for as the step, with its variable in its step", each(inner, vec![]));
    let inner = repeat(vec![], absent(), var(X, tru()), vec![as_int(X)]);
    passes(cases, "a for as the step, whose step binds it", &[1, 1], each(inner, vec![as_int(X)]));
    let test = when_null(X, STRING, no_string(), hides(), vec![as_int(X)]);
    passes(cases, "an if? as the step, bound in its first arm", &[3, 1, 1], each(test, vec![as_int(X)]));
    let test = when_null(X, STRING, no_string(), vec![as_text(X)], hides());
    passes(cases, "an if? as the step, bound in its second arm", &[2, 3, 1], each(test, vec![as_int(X)]));
    let twice = during(fls(), vec![var(Z, one()), var(Z, one())]);
    refused(cases, 7, 11, "twice in the block of a step", each(twice, vec![]));
    let own = vec![var(X, tru()), during(fls(), vec![var(X, text(1)), as_text(X)]), as_bool(X)];
    let all = [vec![var(X, one())], each(when(tru(), own, vec![]), vec![as_int(X)]), vec![as_int(X)]];
    passes(cases, "four deep, in a step", &[4, 3, 2, 1], all.concat());
    refused(cases, 8, 13, "what a step's block bound", each(during(fls(), vec![var(Z, one())]), vec![as_int(Z)]));
    let free = each(during(fls(), vec![var(Z, one())]), vec![var(Z, tru()), as_bool(Z)]);
    passes(cases, "free after the step", &[3], free);
}

/// `if?(string x = null)`: node 2, its first arm 4, a statement there 5.
fn null_tests(cases: &mut Cases) {
    let test = |yes, no| vec![when_null(X, STRING, no_string(), yes, no)];
    let x = || vec![var(X, one())];
    passes(cases, "T11 a var of it in the first arm", &[2], test(vec![var(X, one()), as_int(X)], vec![]));
    refused(cases, 7, 7, "twice in the first arm", test([x(), x()].concat(), vec![]));
    passes(cases, "it is read before and after", &[1, 2], test(vec![as_text(X), var(X, one()), as_int(X)], vec![]));
    let reads = vec![var(X, binary(10, name(X), text(1))), as_bool(X)];
    passes(cases, "the var's expression reads it", &[1, 2], test(reads, vec![]));
    passes(cases, "a var of it in the second arm", &[2], test(vec![], vec![var(X, one()), as_int(X)]));
    refused(cases, 7, 8, "twice in the second arm", test(vec![], [x(), x()].concat()));
    let both = test(vec![var(X, one()), as_int(X)], vec![var(X, tru()), as_bool(X)]);
    passes(cases, "vars of it in both arms", &[2, 3], both);
    refused(cases, 7, 7, "the first arm before the second", test([x(), x()].concat(), vec![as_int(Y)]));
    refused(cases, 11, 7, "its own type in the first arm", test(vec![var(X, one()), as_text(X)], vec![]));
    refused(cases, 8, 7, "unknown in the second arm", test(vec![], vec![as_text(X)]));
    refused(cases, 8, 7, "unknown after it", [test(vec![], vec![]), vec![as_text(X)]].concat());
    let free = [test(vec![var(X, tru())], vec![]), vec![var(X, one()), as_int(X)]].concat();
    passes(cases, "free after it", &[3], free);
    refused(cases, 7, 10, "again after it", [x(), test(x(), vec![]), x()].concat());
    refused(cases, 7, 8, "again after it, empty", [x(), test(vec![], vec![]), x()].concat());
}

/// What an if?'s name hides.
fn null_meanings(cases: &mut Cases) {
    let test = |e, yes, no| when_null(X, STRING, e, yes, no);
    let hides = vec![var(X, one()), test(no_string(), vec![as_text(X)], vec![as_int(X)]), as_int(X)];
    passes(cases, "T11 it hides a local in the first arm alone", &[2, 1, 1], hides);
    let own = set(name(X), no_string());
    let same = vec![var(X, no_string()), test(name(X), vec![as_text(X)], vec![own.clone()]), own];
    passes(cases, "its expression reads the outer one", &[1, 2, 1, 1], same);
    let second = test(no_string(), vec![], vec![var(X, tru()), as_bool(X)]);
    passes(cases, "a var of the outer name in the second arm", &[3, 1], vec![var(X, one()), second, as_int(X)]);
    let first = test(no_string(), vec![var(X, tru()), as_bool(X)], vec![as_int(X)]);
    passes(cases, "a var, it and a var of its first arm", &[3, 1, 1], vec![var(X, one()), first, as_int(X)]);
    let twice = test(no_string(), vec![as_text(X)], vec![var(X, tru()), var(X, tru())]);
    refused(cases, 7, 13, "twice in the second arm, under a local", vec![var(X, one()), twice]);
    refused(cases, 8, 3, "no name in its own expression", vec![test(name(X), vec![], vec![])]);
    let p = |body: Vec<Tree>| bare().with([func(F, STRING_NULL_TO_VOID, &[X], [body, vec![done()]].concat())]);
    let same = || set(name(X), name(X));
    let hides = p(vec![test(name(X), vec![same()], vec![same()]), same()]);
    put(cases, [0, 2, 0], "it hides a parameter", &[1, 2, 2, 1, 1, 1, 1], hides);
    let hides = p(vec![test(name(X), vec![var(X, one()), as_int(X)], vec![var(X, tru()), as_bool(X)])]);
    put(cases, [0, 2, 0], "it and a parameter are hidden", &[1, 3, 4], hides);
    let after = p(vec![test(name(X), vec![], vec![]), var(X, one())]);
    put(cases, [7, 1, 7], "after it, a var of the parameter", &[], after);
    let each = repeat(vec![var(X, tru())], name(X), absent(), vec![as_bool(X)]);
    let inside = vec![var(X, one()), test(no_string(), vec![each, as_text(X)], vec![])];
    passes(cases, "a for's variable hides it", &[3, 3, 2], inside);
    let each = repeat(vec![var(X, tru())], name(X), test(no_string(), vec![as_text(X)], vec![]), vec![as_bool(X)]);
    passes(cases, "it hides a for's variable in the step", &[1, 2, 1], vec![each]);
}

/// if? within if?, each of the same name.
fn nested_null_tests(cases: &mut Cases) {
    let texts = |e, yes, no| when_null(X, STRING, e, yes, no);
    let ints = |yes, no| when_null(X, INTS, null(INTS_NULL), yes, no);
    let as_ints = || set(name(X), list(INTS, vec![]));
    let third = texts(no_string(), vec![as_text(X)], vec![as_ints()]);
    let three = texts(no_string(), vec![ints(vec![third, as_ints()], vec![as_text(X)]), as_text(X)], vec![]);
    passes(cases, "three of one name", &[3, 2, 2, 1, 1], vec![three]);
    let again = texts(name(X), vec![texts(name(X), vec![], vec![])], vec![]);
    refused(cases, 10, 7, "the inner expression reads the outer name", vec![var(X, no_string()), again]);
    let second = texts(no_string(), vec![], vec![ints(vec![as_ints()], vec![]), var(X, one()), as_int(X)]);
    passes(cases, "one in the second arm of the other", &[2, 3], vec![second]);
    let between = texts(no_string(), vec![var(X, no_string()), texts(name(X), vec![as_text(X)], vec![])], vec![]);
    passes(cases, "a var between", &[2, 3], vec![between]);
}

/// `var z = new int[..]{x -> ..}`.
fn index_names(cases: &mut Cases) {
    let own = || var(Z, fill(INTS, X, one(), name(X)));
    passes(cases, "E6 it hides a var", &[3, 1], vec![var(X, tru()), own(), as_bool(X)]);
    let body = vec![own(), set(name(X), list(INTS, vec![])), ret(name(X))];
    let p = bare().with([func(F, INTS_TO_INTS, &[X], body)]);
    put(cases, [0, 2, 0], "E6 it hides a parameter", &[3, 1, 1], p);
    let each = |inside: Vec<Tree>| repeat(vec![var(X, tru())], name(X), absent(), inside);
    passes(cases, "E6 it hides a for's variable", &[1, 3, 1], vec![each(vec![own(), as_bool(X)])]);
    let test = when_null(X, STRING, no_string(), vec![own(), as_text(X)], vec![]);
    passes(cases, "E6 it hides an if? name", &[3, 1], vec![test]);
    let outer = vec![var(X, tru()), during(fls(), vec![own(), as_bool(X)])];
    passes(cases, "E6 it hides a var of an outer block", &[3, 1], outer);
    let deep = vec![var(X, tru()), during(fls(), vec![var(X, text(1)), own(), as_text(X)]), as_bool(X)];
    passes(cases, "E6 it hides two", &[4, 2, 1], deep);
    passes(cases, "a var of it behind", &[2, 3], vec![own(), var(X, tru()), as_bool(X)]);
    refused(cases, 8, 7, "unknown behind", vec![own(), as_int(X)]);
    passes(
        cases,
        "the var's own name",
        &[2, 1],
        vec![var(X, fill(INTS, X, one(), name(X))), set(name(X), list(INTS, vec![]))],
    );
    let inside = during(fls(), vec![var(X, fill(INTS, X, one(), name(X))), set(name(X), list(INTS, vec![]))]);
    passes(cases, "the name of an inner var, and outside", &[3, 2, 1], vec![var(X, tru()), inside, as_bool(X)]);
    refused(
        cases,
        7,
        4,
        "the name is the var's, bound before",
        vec![var(X, one()), var(X, fill(INTS, X, one(), name(X)))],
    );
    let again = vec![own(), var(X, one()), var(I, fill(INTS, X, one(), one())), var(X, one())];
    refused(cases, 7, 12, "it does not make the var new", again);
}

/// The length is outside the index name's block.
fn index_lengths(cases: &mut Cases) {
    let own = |length| var(Z, fill(INTS, X, length, name(X)));
    passes(cases, "the length reads the outer name", &[1, 3], vec![var(X, one()), own(name(X))]);
    refused(cases, 10, 5, "the length is the bool outside", vec![var(X, tru()), own(name(X))]);
    refused(cases, 8, 4, "E6 no index name in its length", vec![own(name(X))]);
    let sized = length(fill(INTS, X, name(X), name(X)));
    passes(cases, "a length within the length", &[1, 4, 3], vec![var(X, one()), own(sized)]);
    with_x(cases, [0, 2, 0], "the length reads a parameter", &[1, 3, 1], vec![own(name(X))]);
    let returned = ret(fill(INTS, X, length(name(X)), name(X)));
    let p = bare().with([func(F, INTS_TO_INTS, &[X], vec![returned])]);
    put(cases, [0, 2, 0], "the length of a parameter", &[1, 2], p);
}

/// Array initializers in each part of a statement.
fn index_places(cases: &mut Cases) {
    let sum = |size: Tree| length(fill(INTS, X, size, name(X)));
    let less = |size| binary(6, sum(size), int(2));
    passes(cases, "in a while's condition", &[1, 2, 1], vec![var(X, one()), during(less(name(X)), vec![as_int(X)])]);
    let both = when(less(name(X)), vec![as_int(X)], vec![var(X, tru()), as_bool(X)]);
    passes(cases, "in an if's condition", &[1, 2, 1, 3], vec![var(X, one()), both]);
    let each = repeat(vec![var(X, sum(one()))], less(name(X)), set(name(X), sum(name(X))), vec![as_int(X)]);
    passes(cases, "in a for's parts", &[2, 1, 3, 1, 1, 4, 1], vec![each]);
    let step = repeat(vec![var(X, one())], absent(), var(Z, sum(name(X))), vec![as_int(X)]);
    passes(cases, "in a step's var", &[1, 3, 1], vec![step]);
    let p = bare().with([func(F, INT_INT_TO_VOID, &[X, Z], vec![run(name(F), vec![sum(name(X)), name(X)]), done()])]);
    put(cases, [0, 2, 0], "in a call, before the outer name", &[0, 1, 3, 1], p);
    let two = list(INTSS, vec![fill(INTS, X, one(), name(X)), fill(INTS, X, one(), name(X))]);
    passes(cases, "two side by side", &[2, 3], vec![var(Z, two)]);
    let left = set(index(fill(INTS, X, name(X), name(X)), name(X)), name(X));
    passes(cases, "on the left of an assignment", &[1, 2, 1, 1], vec![var(X, one()), left]);
}

/// Index names within index names' values.
fn nested_index_names(cases: &mut Cases) {
    let inner = fill(INTS, X, name(X), name(X));
    passes(cases, "E6 nested", &[2, 3], vec![var(Z, fill(INTSS, X, one(), inner))]);
    let back = binary(1, length(fill(INTS, X, one(), name(X))), name(X));
    passes(cases, "the outer one is back", &[3, 2], vec![var(Z, fill(INTS, X, one(), back))]);
    for deep in [3, 8, 30] {
        let mut p = Program::new();
        let to_void = p.function(VOID, &[]);
        let first = p.array(INT);
        let value = fill(first, X, name(X), name(X));
        let value = (2..=deep).fold(value, |inner, _| fill(p.array(p.types.len() as u16 - 1), X, name(X), inner));
        let p = p.with([func(F, to_void, &[], vec![var(X, one()), var(Z, value), as_int(X), done()])]);
        let binders: Vec<u16> = [1].into_iter().chain(3..=deep + 2).chain([1]).collect();
        put(cases, [0, 2, 0], "nested so deep, each length in the one around", &binders, p);
    }
    let other = fill(INTS, I, name(X), binary(1, name(X), name(I)));
    passes(cases, "another name between", &[1, 3, 3, 4], vec![var(X, one()), var(Z, fill(INTSS, X, name(X), other))]);
    let third = length(fill(INTS, X, one(), binary(1, name(X), name(I))));
    let second = length(fill(INTS, I, one(), binary(1, third, name(X))));
    passes(cases, "two names in turn", &[4, 3, 2], vec![var(Z, fill(INTS, X, one(), second))]);
}

/// E5: 9, length, 10, value, 11; nothing is asked of the index name.
fn index_orders(cases: &mut Cases) {
    let bound = |e| vec![var(X, tru()), var(Z, e)];
    refused(cases, 9, 5, "E5 the type first", bound(fill(QS, X, name(Y), name(Y))));
    refused(cases, 8, 6, "E5 then the length", bound(fill(INTS, X, name(Y), name(I))));
    refused(cases, 10, 5, "E5 then its sort", bound(fill(INTS, X, tru(), name(Y))));
    refused(cases, 8, 7, "E5 then the value", bound(fill(INTS, X, one(), name(Y))));
    refused(cases, 10, 7, "E5 the value's sort", bound(fill(INTS, X, one(), unary(1, name(X)))));
    refused(cases, 11, 5, "E5 then the subtype", bound(fill(BOOLS, X, one(), name(X))));
    refused(cases, 11, 7, "E5 an inner subtype", bound(fill(INTSS, X, one(), fill(INTS, X, one(), tru()))));
    let around = vec![var(Z, one()), var(Z, fill(INTS, X, one(), name(X)))];
    refused(cases, 7, 4, "E5 then the var around it", around);
}

/// 15 asks that no local of any level hides the name.
fn assigned(cases: &mut Cases) {
    let count = |body| {
        let less = binary(6, name(F), int(3));
        repeat(vec![var(F, int(0))], less, set(name(F), binary(1, name(F), one())), body)
    };
    passes(cases, "T3 a for's variable hides", &[1, 1, 1, 1], vec![count(vec![as_int(F)])]);
    let two = repeat(vec![var(X, one()), var(F, tru())], name(F), as_bool(F), vec![during(fls(), vec![as_bool(F)])]);
    passes(cases, "T3 a for's second variable hides", &[2, 2, 2], vec![two]);
    let step = repeat(vec![var(F, one())], absent(), during(fls(), vec![as_int(F)]), vec![]);
    passes(cases, "T3 a for's variable hides in its step's block", &[1], vec![step]);
    refused(cases, 15, 17, "T3 not after the for", vec![count(vec![as_int(F)]), as_int(F)]);
    let far = vec![during(fls(), vec![when(tru(), vec![during(fls(), vec![as_int(F)])], vec![])])];
    passes(cases, "T3 a for's variable, four blocks out", &[1, 1, 1, 1], vec![count(far.clone())]);
    refused(cases, 15, 11, "T3 not hidden, three blocks in", far);
    refused(cases, 15, 4, "a step", vec![repeat(vec![], absent(), as_int(F), vec![])]);
    refused(cases, 15, 7, "the step's var is gone", vec![repeat(vec![], absent(), var(F, one()), vec![as_int(F)])]);
}

/// The same of if? names.
fn assigned_in_arms(cases: &mut Cases) {
    let test = |yes, no| when_null(F, STRING, no_string(), yes, no);
    passes(cases, "T3 an if? name", &[1], vec![test(vec![as_text(F)], vec![])]);
    let each = |step, body| repeat(vec![], absent(), step, body);
    let parts = test(vec![each(as_text(F), vec![as_text(F)])], vec![]);
    passes(cases, "T3 an if? name, in a for's step and block", &[1, 1], vec![parts]);
    let step = || test(vec![as_text(F)], vec![]);
    passes(cases, "T3 the name of an if? that is a step", &[1], vec![each(step(), vec![])]);
    refused(cases, 15, 12, "T3 not in the block behind the step", vec![each(step(), vec![as_int(F)])]);
    let hides = vec![var(F, one()), test(vec![as_text(F)], vec![as_int(F)]), as_int(F)];
    passes(cases, "T3 a var and an if? name", &[2, 1, 1], hides);
    let deep = during(fls(), vec![during(fls(), vec![as_text(F)])]);
    passes(cases, "T3 an if? name, two blocks out", &[1], vec![test(vec![deep.clone()], vec![])]);
    refused(cases, 15, 12, "T3 not in the second arm", vec![test(vec![], vec![deep])]);
    passes(cases, "T3 a var in the first arm", &[2], vec![test(vec![var(F, one()), as_int(F)], vec![])]);
    passes(cases, "T3 a var in the second arm", &[2], vec![test(vec![], vec![var(F, one()), as_int(F)])]);
    let arms = when(tru(), vec![var(F, one()), as_int(F)], vec![as_int(F)]);
    refused(cases, 15, 11, "hidden in the other arm", vec![arms]);
}

/// What hides the function is assigned, read and called.
fn hidden_functions(cases: &mut Cases) {
    refused(cases, 11, 7, "the hiding local's type", vec![var(F, one()), during(fls(), vec![as_bool(F)])]);
    refused(cases, 15, 5, "T1 15 before all else", vec![during(fls(), vec![set(name(F), name(Y))])]);
    let twice = during(fls(), vec![var(F, tru()), during(fls(), vec![var(F, text(1)), as_text(F)]), as_bool(F)]);
    let parameter = func(F, INT_TO_INT, &[F], vec![twice, as_int(F), ret(name(F))]);
    put(cases, [0, 2, 0], "a parameter and two vars hide", &[3, 2, 1, 1], bare().with([parameter]));
    let own = during(fls(), vec![var(F, name(F)), set(name(F), name(F)), run(name(F), vec![])]);
    passes(cases, "a local of the function's type", &[0, 1, 1, 1], vec![own]);
    refused(
        cases,
        10,
        7,
        "a hidden function is not called",
        vec![during(fls(), vec![var(F, one()), run(name(F), vec![])])],
    );
    let called = vec![during(fls(), vec![var(F, one())]), run(name(F), vec![])];
    passes(cases, "called after the block", &[0], called);
    refused(
        cases,
        15,
        6,
        "an index name hides in its value alone",
        vec![var(Z, fill(INTS, F, one(), name(F))), as_int(F)],
    );
}

/// The same of a built-in `h`, number 0: heading step 1, body step 2.
fn assigned_builtins(cases: &mut Cases) {
    let mut p = bare();
    p.builtins.push([H, TO_VOID]);
    let mut with = |answer, name, binders: &[u16], body: Vec<Tree>| {
        put(cases, answer, name, binders, p.clone().with([func(F, TO_VOID, &[], [body, vec![done()]].concat())]));
    };
    let call = || run(name(H), vec![]);
    let inside = vec![var(H, one()), during(fls(), vec![as_int(H)])];
    with([0, 3, 0], "T3 a var hides a built-in", &[1, 40_000], vec![when(tru(), inside.clone(), vec![call()])]);
    with([15, 2, 14], "T3 not in the second arm", &[], vec![when(tru(), inside, vec![as_int(H)])]);
    with([15, 2, 7], "T3 not after the block", &[], vec![during(fls(), vec![var(H, one())]), as_int(H)]);
    let each = repeat(vec![var(H, tru())], name(H), as_bool(H), vec![var(H, one()), as_int(H)]);
    with([0, 3, 0], "a for's variable and its block's var", &[1, 1, 2, 40_000], vec![each, call()]);
    let value = vec![var(Z, fill(INTS, H, one(), name(H))), call()];
    with([0, 3, 0], "an index name hides a built-in", &[2, 40_000], value);
    let test = when_null(H, STRING, no_string(), vec![as_text(H)], vec![call()]);
    with([0, 3, 0], "an if? name hides a built-in", &[1, 40_000], vec![test]);
    with([10, 2, 7], "it cannot be called", &[], vec![during(fls(), vec![var(H, one()), call()])]);
}

/// 14 and the marks do not look at names.
fn marks(cases: &mut Cases) {
    let forever = |body| during(tru(), body);
    let x = |value| var(X, value);
    let stuck = vec![x(one()), forever(vec![x(tru()), forever(vec![x(text(1)), as_text(X)])])];
    put(cases, [0, 2, 0], "loops that never end", &[3], only(TO_VOID, stuck));
    let one_arm = vec![x(one()), when(tru(), vec![x(tru()), done()], vec![x(tru())])];
    put(cases, [14, 1, 0], "one arm returns", &[], only(TO_VOID, one_arm));
    let arms = || when(tru(), vec![x(tru()), done()], vec![x(text(1)), done()]);
    put(cases, [0, 2, 0], "both arms return", &[], only(TO_VOID, vec![x(one()), arms()]));
    refused(cases, 14, 4, "14 before 7 behind it", vec![x(one()), arms(), x(one())]);
    refused(cases, 7, 4, "7 before 14 behind it", vec![x(one()), x(one()), arms()]);
    let dead = during(fls(), vec![x(one()), done(), x(one())]);
    refused(cases, 14, 7, "a var behind a return", vec![dead]);
    refused(cases, 14, 6, "a returning step", vec![repeat(vec![x(one())], absent(), done(), vec![x(one())])]);
}

/// What is returned, and 13.
fn returned(cases: &mut Cases) {
    let gives = |body| only(TO_INT, body);
    let inner = |value: Tree, inside: Vec<Tree>| during(fls(), [vec![var(X, value)], inside].concat());
    let p = gives(vec![var(X, one()), inner(tru(), vec![]), ret(name(X))]);
    put(cases, [0, 2, 0], "the outer int", &[1], p);
    let p = gives(vec![var(X, tru()), inner(one(), vec![ret(name(X))]), ret(one())]);
    put(cases, [0, 2, 0], "the inner int", &[2], p);
    let p = gives(vec![var(X, tru()), inner(one(), vec![ret(name(X))]), ret(name(X))]);
    put(cases, [11, 1, 11], "the outer bool", &[], p);
    let p = gives(vec![var(X, one()), inner(tru(), vec![ret(name(X))]), ret(name(X))]);
    put(cases, [11, 1, 9], "the inner bool", &[], p);
    refused(cases, 13, 7, "a value in void", vec![inner(one(), vec![ret(name(X))])]);
    let mut p = bare();
    p.builtins.push([H, TO_VOID]);
    let value = |body| p.clone().with([func(F, TO_INT, &[], body)]);
    let called = || var(Z, call(name(H), vec![]));
    let hides = during(fls(), vec![var(H, name(F)), called()]);
    put(cases, [0, 3, 0], "a local that gives a value", &[0, 1], value(vec![hides, ret(one())]));
    let after = vec![during(fls(), vec![var(H, name(F))]), called(), ret(one())];
    put(cases, [13, 2, 8], "the built-in that gives none", &[], value(after));
    let dropped = vec![during(fls(), vec![var(H, name(F)), run(name(H), vec![])]), ret(one())];
    put(cases, [13, 2, 7], "a local's value is dropped", &[], value(dropped));
}

/// Which broken premise comes first.
fn orders(cases: &mut Cases) {
    let x = || var(X, one());
    let again = |value| vec![x(), var(X, value)];
    refused(cases, 8, 6, "a length before 7", again(fill(INTS, X, name(Y), one())));
    refused(cases, 10, 5, "a sort before 7", again(unary(1, name(X))));
    refused(cases, 11, 5, "a subtype before 7", again(list(INTS, vec![tru()])));
    refused(cases, 9, 5, "a type before 7", again(null(Q_NULL)));
    refused(cases, 7, 4, "7 before the next statement", [again(one()), vec![as_int(Y)]].concat());
    let arms = when(tru(), again(one()), again(name(Y)));
    refused(cases, 7, 7, "the first arm's 7", vec![arms]);
    let arms = when(tru(), vec![x(), var(Z, name(Y))], again(one()));
    refused(cases, 8, 8, "the first arm's 8", vec![arms]);
    let each = repeat(vec![x(), x()], name(Y), absent(), vec![]);
    refused(cases, 7, 5, "a variable's 7 before the condition", vec![each]);
}

/// Globals and other functions.
fn globals(cases: &mut Cases) {
    let body = || vec![during(fls(), vec![var(X, one()), as_int(X)]), as_bool(X), done()];
    let p = || bare().with([global(X, tru())]);
    put(cases, [0, 3, 0], "a global is back after the block", &[2, 0], p().with([func(F, TO_VOID, &[], body())]));
    let own = vec![var(Z, fill(INTS, X, one(), name(X))), as_bool(X), done()];
    put(cases, [0, 3, 0], "an index name hides a global", &[3, 0], p().with([func(F, TO_VOID, &[], own)]));
    let hides = func(F, INT_TO_INT, &[X], vec![during(fls(), vec![var(X, text(1)), as_text(X)]), ret(name(X))]);
    let plain = func(G, TO_VOID, &[], vec![var(X, name(X)), as_bool(X), done()]);
    put(cases, [0, 5, 0], "two functions and a global", &[3, 2, 0, 5], p().with([hides, plain]));
    let second = func(G, TO_VOID, &[], vec![as_int(X), done()]);
    let first = func(F, INT_TO_INT, &[X], vec![during(fls(), vec![var(X, text(1))]), ret(one())]);
    put(cases, [8, 3, 13], "nothing is left for the next function", &[], bare().with([first, second]));
    let same = || vec![var(X, one()), during(fls(), vec![var(X, tru()), as_bool(X)]), as_int(X), done()];
    let both = [func(F, TO_VOID, &[], same()), func(G, TO_VOID, &[], same())];
    put(cases, [0, 4, 0], "two functions alike", &[2, 1, 5, 4], bare().with(both));
    let crowd = [X, X + 512, X + 1024];
    let vars = |value: fn() -> Tree| crowd.map(|x| var(x, value()));
    let inside = vars(tru).into_iter().chain(crowd.map(as_bool)).collect();
    let body = vars(one).into_iter().chain([during(fls(), inside)]).chain(crowd.map(as_int)).collect();
    passes(cases, "names alike in their low bits", &[4, 5, 6, 1, 2, 3], body);
}

/// A name is bound again in each of many blocks.
fn nests(cases: &mut Cases) {
    nest(cases, "48 whiles, depth 100", &[0; 48]);
    nest(cases, "30 blocks of every sort", &std::array::from_fn::<usize, 30, _>(|k| k % SORTS.len()));
    nest(cases, "12 fors", &[3; 12]);
}

/// `var z = x; var x = ..; x = ..;`, the next block, `x = ..;` in each block.
fn nest(cases: &mut Cases, title: &'static str, sorts: &[usize]) {
    let value = |level: usize| [one(), tru(), text(1)][level % 3].clone();
    let mut body = Vec::new();
    let mut own = vec![1];
    for (level, &sort) in sorts.iter().enumerate() {
        own.push(own[level] + SORTS[sort].binds + 2);
        let level = sorts.len() - level;
        let head = [var(Z, name(X)), var(X, value(level)), set(name(X), value(level))];
        let tail = if level == sorts.len() { vec![] } else { vec![set(name(X), value(level))] };
        body = vec![(SORTS[sorts[level - 1]].around)([head.to_vec(), body, tail].concat())];
    }
    let mut binders: Vec<u16> = own.windows(2).flatten().copied().collect();
    binders.extend(own[..sorts.len()].iter().rev());
    passes(cases, title, &binders, [vec![var(X, value(0))], body, vec![set(name(X), value(0))]].concat());
}
