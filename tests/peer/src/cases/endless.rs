//! Cases of document 02's request (i): a while whose condition is the node
//! `true` returns where it is the last statement of its block. An accepted case
//! tells its marks: those of functions, statements and blocks, in file order.

use super::*;
use crate::program::*;

/// A case with the marks of its rows; a refused one has none.
pub struct Marked {
    pub case: Case,
    pub marks: Vec<u16>,
}

/// Readable files with their answers and marks.
pub fn endless() -> Vec<Marked> {
    let mut cases = Vec::new();
    alone(&mut cases);
    last(&mut cases);
    not_last(&mut cases);
    for test in [if_true, if_null] {
        one_arm(&mut cases, test);
        both_arms(&mut cases, test);
        mixed_arms(&mut cases, test);
        nested_arms(&mut cases, test);
        if_steps(&mut cases, test);
    }
    steps(&mut cases);
    loops(&mut cases);
    fors(&mut cases);
    results(&mut cases);
    conditions(&mut cases);
    sorts(&mut cases);
    blocks(&mut cases);
    several(&mut cases);
    cases
}

type Cases = Vec<Marked>;
type Test = fn(Vec<Tree>, Vec<Tree>) -> Tree;

fn put(cases: &mut Cases, answer: [u16; 3], name: &'static str, marks: &[u16], p: Program) {
    cases.push(Marked { case: Case { name, file: p.bytes(), answer }, marks: marks.to_vec() });
}

/// `f` is the only function, void: node 0, its block 1, its first statement 2.
fn passes(cases: &mut Cases, name: &'static str, marks: &[u16], body: Vec<Tree>) {
    put(cases, [0, 2, 0], name, marks, only(TO_VOID, body));
}

fn refused(cases: &mut Cases, place: u16, name: &'static str, body: Vec<Tree>) {
    put(cases, [14, 1, place], name, &[], only(TO_VOID, body));
}

/// `while(true)`; with an empty block, three nodes.
fn forever(body: Vec<Tree>) -> Tree {
    during(tru(), body)
}

fn stuck() -> Tree {
    forever(vec![])
}

fn one() -> Tree {
    int(1)
}

fn go_on() -> Tree {
    var(X, one())
}

/// An if and an if? have the same number of nodes: itself, one, and two blocks.
fn if_true(yes: Vec<Tree>, no: Vec<Tree>) -> Tree {
    when(tru(), yes, no)
}

fn if_null(yes: Vec<Tree>, no: Vec<Tree>) -> Tree {
    when_null(Z, STRING, null(STRING_NULL), yes, no)
}

/// A for that has a step alone; the step is node 4 where the for is node 2.
fn stepping(step: Tree) -> Tree {
    repeat(vec![], absent(), step, vec![])
}

/// The only statement of a body.
fn alone(cases: &mut Cases) {
    passes(cases, "only while(true), void", &[1, 1, 1, 0], vec![stuck()]);
    put(cases, [0, 2, 0], "only while(true), int", &[1, 1, 1, 0], only(TO_INT, vec![stuck()]));
    let work = || vec![go_on(), set(name(X), int(2)), run(name(F), vec![])];
    passes(cases, "its block does something", &[1, 1, 1, 0, 0, 0, 0], vec![forever(work())]);
    passes(cases, "its block returns", &[1, 1, 1, 1, 1], vec![forever(vec![done()])]);
    let value = only(TO_INT, vec![forever(vec![ret(one())])]);
    put(cases, [0, 2, 0], "its block returns a value", &[1, 1, 1, 1, 1], value);
    let leave = if_true(vec![done()], vec![]);
    passes(cases, "its block may return", &[1, 1, 1, 0, 0, 1, 1, 0], vec![forever(vec![leave])]);
    let p = bare().with([func(F, INT_INT_TO_VOID, &[X, Z], vec![stuck()])]);
    put(cases, [0, 2, 0], "a function with parameters", &[1, 1, 1, 0], p);
}

/// The last statement, after others.
fn last(cases: &mut Cases) {
    passes(cases, "after a var", &[1, 1, 0, 1, 0], vec![go_on(), stuck()]);
    let several = vec![go_on(), set(name(X), int(2)), run(name(F), vec![]), stuck()];
    passes(cases, "after a var, an assignment and a call", &[1, 1, 0, 0, 0, 1, 0], several);
    let leave = if_true(vec![done()], vec![]);
    passes(cases, "after an if that may return", &[1, 1, 0, 1, 1, 0, 1, 0], vec![leave, stuck()]);
    passes(cases, "after while(false)", &[1, 1, 0, 0, 1, 0], vec![during(fls(), vec![]), stuck()]);
    passes(cases, "after a for", &[1, 1, 0, 0, 1, 0], vec![repeat(vec![], absent(), absent(), vec![]), stuck()]);
    let value = only(TO_INT, vec![go_on(), stuck()]);
    put(cases, [0, 2, 0], "after a var, int", &[1, 1, 0, 1, 0], value);
    let mut p = bare();
    let nested = p.array(INTS_AGAIN);
    let element = var(X, index(list(nested, vec![]), int(0)));
    let p = p.with([func(F, TO_INTS, &[], vec![element, stuck()])]);
    put(cases, [0, 2, 0], "R1 after an element of a type with two numbers", &[1, 1, 0, 1, 0], p);
    refused(cases, 2, "T14 after a return", vec![done(), stuck()]);
    refused(cases, 2, "T15 after an if that returns", vec![if_true(vec![done()], vec![done()]), stuck()]);
}

/// Something behind it: it has mark 0, and is never 14 at itself.
fn not_last(cases: &mut Cases) {
    passes(cases, "a dead return behind", &[1, 1, 0, 0, 1], vec![stuck(), done()]);
    let value = only(TO_INT, vec![stuck(), ret(one())]);
    put(cases, [0, 2, 0], "a dead return behind, int", &[1, 1, 0, 0, 1], value);
    passes(cases, "a dead return behind, its block returns", &[1, 1, 0, 1, 1, 1], vec![forever(vec![done()]), done()]);
    passes(cases, "a dead var and return behind", &[1, 1, 0, 0, 0, 1], vec![stuck(), go_on(), done()]);
    passes(cases, "two, the last returns", &[1, 1, 0, 0, 1, 0], vec![stuck(), stuck()]);
    passes(cases, "three, the last returns", &[1, 1, 0, 0, 0, 0, 1, 0], vec![stuck(), stuck(), stuck()]);
    passes(cases, "two and a var between", &[1, 1, 0, 0, 0, 1, 0], vec![stuck(), go_on(), stuck()]);
    let arms = if_true(vec![done()], vec![stuck()]);
    passes(cases, "before an if that returns", &[1, 1, 0, 0, 1, 1, 1, 1, 1, 0], vec![stuck(), arms]);
    refused(cases, 0, "before a var", vec![stuck(), go_on()]);
    refused(cases, 0, "before an assignment", vec![go_on(), stuck(), set(name(X), int(2))]);
    refused(cases, 0, "before a call", vec![stuck(), run(name(F), vec![])]);
    refused(cases, 0, "before an if", vec![stuck(), if_true(vec![], vec![])]);
    refused(cases, 0, "before an if?", vec![stuck(), if_null(vec![], vec![])]);
    refused(cases, 0, "before while(false)", vec![stuck(), during(fls(), vec![])]);
    refused(cases, 0, "before a for", vec![stuck(), repeat(vec![], absent(), absent(), vec![])]);
    put(cases, [14, 1, 0], "before a var, int", &[], only(TO_INT, vec![stuck(), go_on()]));
    put(cases, [8, 1, 6], "what stands behind is typed", &[], only(TO_VOID, vec![stuck(), var(X, name(Y)), done()]));
}

/// At the end of one arm: the if may go on.
fn one_arm(cases: &mut Cases, test: Test) {
    refused(cases, 0, "the first arm alone", vec![test(vec![stuck()], vec![])]);
    refused(cases, 0, "the second arm alone", vec![test(vec![], vec![stuck()])]);
    let first = || test(vec![stuck()], vec![]);
    let second = || test(vec![], vec![stuck()]);
    passes(cases, "the first arm, a return behind", &[1, 1, 0, 1, 1, 0, 0, 1], vec![first(), done()]);
    passes(cases, "the second arm, a return behind", &[1, 1, 0, 0, 1, 1, 0, 1], vec![second(), done()]);
    passes(cases, "the first arm, while(true) behind", &[1, 1, 0, 1, 1, 0, 0, 1, 0], vec![first(), stuck()]);
    let not_last = test(vec![stuck(), go_on()], vec![done()]);
    passes(
        cases,
        "not last in an arm, a return behind",
        &[1, 1, 0, 0, 0, 0, 0, 1, 1, 1],
        vec![not_last.clone(), done()],
    );
    refused(cases, 0, "not last in an arm", vec![not_last]);
}

/// At the end of both arms: the if returns.
fn both_arms(cases: &mut Cases, test: Test) {
    let both = || test(vec![stuck()], vec![stuck()]);
    let marks = [1, 1, 1, 1, 1, 0, 1, 1, 0];
    passes(cases, "both arms", &marks, vec![both()]);
    put(cases, [0, 2, 0], "both arms, int", &marks, only(TO_INT, vec![both()]));
    let longer = test(vec![go_on(), stuck()], vec![go_on(), stuck()]);
    passes(cases, "both arms, after vars", &[1, 1, 1, 1, 0, 1, 0, 1, 0, 1, 0], vec![longer]);
    refused(cases, 2, "both arms, a return behind", vec![both(), done()]);
    refused(cases, 2, "both arms, while(true) behind", vec![both(), stuck()]);
    refused(cases, 2, "both arms, an unknown name behind", vec![both(), var(X, name(Y))]);
    refused(cases, 4, "both arms, between two others", vec![go_on(), both(), done()]);
    put(cases, [14, 1, 2], "both arms, a return behind, int", &[], only(TO_INT, vec![both(), ret(one())]));
}

/// One arm ends so, the other returns. With something behind, such an if was
/// accepted before the request.
fn mixed_arms(cases: &mut Cases, test: Test) {
    let first = || test(vec![stuck()], vec![done()]);
    let second = || test(vec![done()], vec![stuck()]);
    passes(cases, "the first arm, the second returns", &[1, 1, 1, 1, 1, 0, 1, 1], vec![first()]);
    passes(cases, "the second arm, the first returns", &[1, 1, 1, 1, 1, 1, 1, 0], vec![second()]);
    refused(cases, 2, "the first arm, the second returns, a return behind", vec![first(), done()]);
    refused(cases, 2, "the second arm, the first returns, a return behind", vec![second(), done()]);
    refused(cases, 2, "the first arm, the second returns, a var behind", vec![first(), go_on()]);
    let value = |yes, no, behind| only(TO_INT, [vec![test(yes, no)], behind].concat());
    let p = value(vec![stuck()], vec![ret(one())], vec![]);
    put(cases, [0, 2, 0], "the first arm, the second returns a value", &[1, 1, 1, 1, 1, 0, 1, 1], p);
    let p = value(vec![ret(one())], vec![stuck()], vec![ret(one())]);
    put(cases, [14, 1, 2], "the second arm, the first returns a value, a return behind", &[], p);
    let dead = test(vec![stuck(), done()], vec![stuck()]);
    passes(cases, "a dead return in the first arm", &[1, 1, 1, 1, 0, 0, 1, 1, 1, 0], vec![dead]);
    let in_loop = forever(vec![first(), go_on()]);
    refused(cases, 5, "not last in a loop's block", vec![in_loop]);
}

/// Ifs in the arms of an if.
fn nested_arms(cases: &mut Cases, test: Test) {
    let both = || test(vec![stuck()], vec![stuck()]);
    let inner = [1, 1, 1, 0, 1, 1, 0];
    let four = [&[1, 1, 1, 1][..], &inner, &[1], &inner].concat();
    passes(cases, "both arms of both inner ones", &four, vec![if_true(vec![both()], vec![both()])]);
    let mixed = [&[1, 1, 1, 1][..], &inner, &[1, 1]].concat();
    passes(cases, "both arms of one, the other returns", &mixed, vec![if_null(vec![both()], vec![done()])]);
    let three = || if_true(vec![both()], vec![test(vec![stuck()], vec![])]);
    refused(cases, 0, "three of four arms", vec![three()]);
    let goes_on = [&[1, 1, 0, 1][..], &inner, &[0, 0, 1, 1, 0, 0, 1]].concat();
    passes(cases, "three of four arms, a return behind", &goes_on, vec![three(), done()]);
    refused(cases, 2, "four arms, a return behind", vec![if_true(vec![both()], vec![both()]), done()]);
    refused(cases, 5, "an inner one is not last", vec![if_true(vec![both(), done()], vec![both()])]);
    let third = (0..2).fold(both(), |arm, _| test(vec![arm], vec![done()]));
    refused(cases, 2, "three levels, a return behind", vec![third, done()]);
}

/// An if as a for's step.
fn if_steps(cases: &mut Cases, test: Test) {
    let both = || test(vec![stuck()], vec![stuck()]);
    let mixed = || test(vec![stuck()], vec![done()]);
    refused(cases, 4, "T13 a step, both arms", vec![stepping(both()), done()]);
    refused(cases, 4, "T13 a step, one arm, the other returns", vec![stepping(mixed()), done()]);
    refused(cases, 4, "T13 before the block", vec![repeat(vec![], tru(), both(), vec![var(X, name(Y))]), done()]);
    refused(cases, 6, "T13 after a var", vec![repeat(vec![go_on()], tru(), mixed(), vec![]), done()]);
    let first = stepping(test(vec![stuck()], vec![]));
    passes(cases, "a step, the first arm", &[1, 1, 0, 0, 1, 1, 0, 0, 0, 1], vec![first, done()]);
    let second = stepping(test(vec![], vec![stuck()]));
    passes(cases, "a step, the second arm", &[1, 1, 0, 0, 0, 1, 1, 0, 0, 1], vec![second, done()]);
    let not_last = stepping(test(vec![stuck(), go_on()], vec![stuck()]));
    passes(cases, "a step, not last in one arm", &[1, 1, 0, 0, 0, 0, 0, 0, 1, 1, 0, 0, 1], vec![not_last, done()]);
}

/// A for's step has mark 0.
fn steps(cases: &mut Cases) {
    passes(cases, "a step", &[1, 1, 0, 0, 0, 0, 1], vec![stepping(stuck()), done()]);
    passes(cases, "a step, before while(true)", &[1, 1, 0, 0, 0, 0, 1, 0], vec![stepping(stuck()), stuck()]);
    passes(
        cases,
        "a step whose block returns",
        &[1, 1, 0, 0, 1, 1, 0, 1],
        vec![stepping(forever(vec![done()])), done()],
    );
    refused(cases, 0, "a step, the for is last", vec![stepping(stuck())]);
    let all = repeat(vec![go_on()], tru(), stuck(), vec![stuck()]);
    passes(cases, "a step and a for's block", &[1, 1, 0, 0, 0, 0, 1, 1, 0, 1], vec![all, done()]);
    let inner = stepping(repeat(vec![], absent(), absent(), vec![stuck()]));
    passes(cases, "in the block of a for that is a step", &[1, 1, 0, 0, 1, 1, 0, 0, 1], vec![inner, done()]);
    let inner = stepping(during(fls(), vec![stuck()]));
    passes(cases, "in the block of a while that is a step", &[1, 1, 0, 0, 1, 1, 0, 0, 1], vec![inner, done()]);
    let inner = stepping(stepping(stuck()));
    passes(cases, "the step of a step", &[1, 1, 0, 0, 0, 0, 0, 0, 1], vec![inner, done()]);
}

/// In the blocks of loops.
fn loops(cases: &mut Cases) {
    let other = || during(fls(), vec![stuck()]);
    passes(cases, "in while(false), a return behind", &[1, 1, 0, 1, 1, 0, 1], vec![other(), done()]);
    refused(cases, 0, "in while(false)", vec![other()]);
    let each = || repeat(vec![], absent(), absent(), vec![stuck()]);
    passes(cases, "in a for, a return behind", &[1, 1, 0, 1, 1, 0, 1], vec![each(), done()]);
    refused(cases, 0, "in a for", vec![each()]);
    let three = || forever(vec![forever(vec![stuck()])]);
    passes(cases, "three deep", &[1, 1, 1, 1, 1, 1, 1, 0], vec![three()]);
    passes(cases, "three deep, a return behind", &[1, 1, 0, 1, 1, 1, 1, 0, 1], vec![three(), done()]);
    passes(cases, "around while(false)", &[1, 1, 1, 0, 0, 1, 1, 0], vec![forever(vec![other()])]);
    passes(cases, "not last in a loop's block", &[1, 1, 1, 0, 0, 0, 0], vec![forever(vec![stuck(), go_on()])]);
    passes(cases, "not last, a return behind", &[1, 1, 1, 1, 0, 0, 1], vec![forever(vec![stuck(), done()])]);
    let both = || if_true(vec![stuck()], vec![stuck()]);
    passes(cases, "an if in a loop's block", &[1, 1, 1, 1, 1, 1, 1, 0, 1, 1, 0], vec![forever(vec![both()])]);
    refused(cases, 5, "an if that is not last in it", vec![forever(vec![both(), go_on()])]);
}

/// A for has mark 0, whatever its condition.
fn fors(cases: &mut Cases) {
    let each = |condition, body| repeat(vec![], condition, absent(), body);
    for (condition, name) in [(tru(), "T16 a for with true"), (absent(), "T16 a for without a condition")] {
        refused(cases, 0, name, vec![each(condition.clone(), vec![])]);
        refused(cases, 0, name, vec![each(condition.clone(), vec![done()])]);
        refused(cases, 0, name, vec![each(condition.clone(), vec![stuck()])]);
        refused(cases, 0, name, vec![if_true(vec![each(condition.clone(), vec![])], vec![done()])]);
        let inside = forever(vec![each(condition, vec![])]);
        passes(cases, name, &[1, 1, 1, 0, 0, 0], vec![inside]);
    }
}

/// Functions of every sort of return type, among the pans: the body's step is 7.
fn results(cases: &mut Cases) {
    let giving = |t: u16, body: Vec<Tree>| {
        let mut p = pans();
        let f = p.function(t, &[]);
        p.with([func(F, f, &[], body)])
    };
    let sorts = [
        (INT, "an int is due"),
        (BOOL, "a bool is due"),
        (STRING, "a string is due"),
        (A, "a struct is due"),
        (AS, "an array is due"),
        (A_NULL, "a nullable is due"),
        (TO_INT, "a function is due"),
    ];
    for (t, name) in sorts {
        put(cases, [0, 8, 0], name, &[1, 1, 1, 0], giving(t, vec![stuck()]));
    }
    let b = record(B, vec![(WET, one()), (P, one()), (DRY, one())]);
    let found = forever(vec![if_true(vec![ret(b)], vec![])]);
    put(cases, [0, 8, 0], "a value below is returned", &[1, 1, 1, 0, 0, 1, 1, 0], giving(A, vec![found]));
    put(cases, [11, 7, 5], "a wrong value is returned", &[], giving(A, vec![forever(vec![ret(one())])]));
    put(cases, [13, 7, 5], "nothing is returned", &[], giving(A, vec![forever(vec![done()])]));
    put(cases, [14, 7, 0], "a struct is due, a var behind", &[], giving(A, vec![stuck(), go_on()]));
}

/// Conditions that are not the node `true`: the while goes on.
fn conditions(cases: &mut Cases) {
    let not = |e| unary(1, e);
    let others = [
        (fls(), "false"),
        (binary(12, tru(), tru()), "true & true"),
        (not(fls()), "!false"),
        (not(not(tru())), "!!true"),
        (binary(13, tru(), fls()), "true | false"),
        (binary(10, one(), one()), "1 == 1"),
        (binary(10, tru(), tru()), "true == true"),
        (index(list(BOOLS, vec![tru()]), int(0)), "an element that is true"),
    ];
    for (condition, name) in others {
        refused(cases, 0, name, vec![during(condition.clone(), vec![])]);
        refused(cases, 0, name, vec![if_true(vec![during(condition.clone(), vec![])], vec![stuck()])]);
        let arm = if_true(vec![during(condition, vec![])], vec![done()]);
        passes(cases, name, &[1, 1, 0, 0, 0, 0, 1, 1, 1], vec![arm, done()]);
    }
    named(cases);
    bound(cases);
}

/// A global that is true: its step is 1, the body's 2; f is node 2.
fn named(cases: &mut Cases) {
    let by_name = || during(name(G), vec![]);
    let mut with_global = |answer, name, marks: &[u16], body| {
        put(cases, answer, name, marks, bare().with([global(G, tru()), func(F, TO_VOID, &[], body)]));
    };
    with_global([14, 2, 2], "a global that is true", &[], vec![by_name()]);
    with_global([0, 3, 0], "a global that is true, a return behind", &[1, 1, 0, 0, 1], vec![by_name(), done()]);
    let arm = if_true(vec![by_name()], vec![done()]);
    let marks = [1, 1, 0, 0, 0, 0, 1, 1, 1];
    with_global([0, 3, 0], "a global that is true, in an arm", &marks, vec![arm, done()]);
    let arm = if_true(vec![stuck()], vec![by_name()]);
    with_global([14, 2, 2], "a global that is true, in the other arm", &[], vec![arm]);
    let around = during(name(G), vec![stuck()]);
    let marks = [1, 1, 0, 1, 1, 0, 1, 0];
    with_global([0, 3, 0], "a global that is true, around while(true)", &marks, vec![around, stuck()]);
}

/// Locals, parameters and calls.
fn bound(cases: &mut Cases) {
    let by_name = || during(name(G), vec![]);
    refused(cases, 0, "a local that is true", vec![var(G, tru()), by_name()]);
    let mut p = bare();
    let of_bool = p.function(VOID, &[BOOL]);
    let to_bool = p.function(BOOL, &[]);
    let with_parameter = |body| p.clone().with([func(F, of_bool, &[G], body)]);
    put(cases, [14, 1, 0], "a parameter", &[], with_parameter(vec![by_name()]));
    let behind = with_parameter(vec![by_name(), stuck()]);
    put(cases, [0, 2, 0], "a parameter, while(true) behind", &[1, 1, 0, 0, 1, 0], behind);
    let again = during(call(name(G), vec![]), vec![]);
    let called = p.with([func(F, TO_VOID, &[], vec![again]), func(G, to_bool, &[], vec![ret(tru())])]);
    put(cases, [14, 2, 0], "a call that gives true", &[], called);
}

/// The condition comes first.
fn sorts(cases: &mut Cases) {
    let whiles = |e| only(TO_VOID, vec![during(e, vec![done(), done()])]);
    put(cases, [10, 1, 2], "E1 while(1) is last", &[], whiles(one()));
    put(cases, [10, 1, 2], "E1 a string", &[], whiles(text(1)));
    put(cases, [10, 1, 2], "E1 a null", &[], whiles(null(STRING_NULL)));
    put(cases, [8, 1, 3], "an unknown name", &[], whiles(name(Y)));
    put(cases, [10, 1, 3], "E1 !1", &[], whiles(unary(1, one())));
    put(cases, [10, 1, 3], "E1 true & 1", &[], whiles(binary(12, tru(), one())));
}

/// T19: its block is typed like any other.
fn blocks(cases: &mut Cases) {
    refused(cases, 5, "T19 dead code in it", vec![forever(vec![done(), done()])]);
    refused(cases, 5, "T19 dead code in it, a return behind", vec![forever(vec![done(), go_on()]), done()]);
    let both = if_true(vec![stuck()], vec![done()]);
    refused(cases, 5, "T19 an if that returns in it", vec![forever(vec![both, stuck()])]);
    let dead = forever(vec![forever(vec![done(), done()])]);
    refused(cases, 8, "T19 dead code in the inner one", vec![dead]);
    let mut other = |answer, name, body| put(cases, answer, name, &[], only(TO_VOID, vec![forever(body)]));
    other([8, 1, 6], "an unknown name in it", vec![var(X, name(Y))]);
    other([7, 1, 7], "a name bound twice in it", vec![go_on(), go_on()]);
    other([13, 1, 5], "a value returned in it", vec![ret(one())]);
    other([15, 1, 5], "a function assigned in it", vec![set(name(F), name(F))]);
    let after = vec![forever(vec![go_on()]), var(Z, name(X)), done()];
    put(cases, [8, 1, 8], "its var is unknown behind it", &[], only(TO_VOID, after));
    let after = vec![forever(vec![go_on()]), go_on(), done()];
    passes(cases, "its var is free behind it", &[1, 1, 0, 0, 0, 0, 1], after);
}

/// Several functions: f is node 0, g the next declaration.
fn several(cases: &mut Cases) {
    let f = |body| func(F, TO_VOID, &[], body);
    let g = |body| func(G, TO_INT, &[], body);
    let two = |a: Tree, b: Tree| bare().with([a, b]);
    let ends = [1, 1, 1, 0];
    put(cases, [0, 4, 0], "two functions", &[ends, ends].concat(), two(f(vec![stuck()]), g(vec![stuck()])));
    let p = two(f(vec![stuck()]), g(vec![ret(one())]));
    put(cases, [0, 4, 0], "the first of two", &[&ends[..], &[1, 1, 1]].concat(), p);
    let p = two(f(vec![done()]), g(vec![run(name(F), vec![]), stuck()]));
    put(cases, [0, 4, 0], "the second of two", &[1, 1, 1, 1, 1, 0, 1, 0], p);
    put(cases, [14, 3, 5], "the second goes on", &[], two(f(vec![stuck()]), g(vec![stuck(), go_on()])));
    put(cases, [14, 2, 0], "the first goes on", &[], two(f(vec![stuck(), go_on()]), g(vec![stuck()])));
    let mixed = || if_true(vec![stuck()], vec![ret(one())]);
    let p = two(f(vec![stuck()]), g(vec![mixed(), ret(one())]));
    put(cases, [14, 3, 7], "an if that isn't last in the second", &[], p);
    let call_it = run(name(F), vec![]);
    let third = two(f(vec![stuck()]), g(vec![mixed()])).with([func(H, TO_VOID, &[], vec![call_it, done()])]);
    let marks = [&ends[..], &[1, 1, 1, 1, 1, 0, 1, 1], &[1, 1, 0, 1]].concat();
    put(cases, [0, 6, 0], "three functions, the last calls the first", &marks, third);
}
