//! Cases of "Typing, and where the print is damaged" and "Steps and the order
//! of premises".

use super::*;
use crate::program::*;

/// Readable files with their answers.
pub fn typing() -> Vec<Case> {
    let mut cases = Vec::new();
    numbers(&mut cases);
    marks(&mut cases);
    sorts(&mut cases);
    arrays(&mut cases);
    literals(&mut cases);
    calls(&mut cases);
    equalities(&mut cases);
    assignments(&mut cases);
    vars(&mut cases);
    returns(&mut cases);
    null_tests(&mut cases);
    loops(&mut cases);
    headings(&mut cases);
    globals(&mut cases);
    structs(&mut cases);
    parameters(&mut cases);
    limits(&mut cases);
    row_programs(&mut cases);
    zero_bytes(&mut cases);
    cases
}

type Cases = Vec<Case>;

fn put(cases: &mut Cases, answer: [u16; 3], name: &'static str, p: Program) {
    cases.push(Case { name, file: p.bytes(), answer });
}

/// `f` is void and holds `var x = e; return;`: e is node 3.
fn holding(e: Tree) -> Program {
    only(TO_VOID, vec![var(X, e), done()])
}

/// The same among the pans; the body's step is 7.
fn pan_holding(e: Tree) -> Program {
    pan(TO_VOID, &[], vec![var(X, e), done()])
}

fn one() -> Tree {
    int(1)
}

/// The examples of the table of numbers, 7 to 16.
fn numbers(cases: &mut Cases) {
    put(cases, [7, 1, 4], "7 var x twice", only(TO_VOID, vec![var(X, one()), var(X, int(2)), done()]));
    put(cases, [8, 1, 3], "8 return y", only(TO_INT, vec![ret(name(Y))]));
    put(cases, [9, 1, 3], "9 Q null", holding(null(Q_NULL)));
    put(cases, [9, 1, 3], "9 Q[] null", holding(null(QS_NULL)));
    put(cases, [9, 0, 0], "9 (Q[])->Q[]", bare().with([func(F, QS_TO_QS, &[X], vec![ret(name(X))])]));
    put(cases, [10, 1, 2], "10 if(1)", only(TO_VOID, vec![when(one(), vec![], vec![]), done()]));
    put(cases, [11, 1, 2], "11 return true for int", only(TO_INT, vec![ret(tru())]));
    put(cases, [12, 1, 2], "12 f(1), f takes none", only(TO_VOID, vec![run(name(F), vec![one()]), done()]));
    put(cases, [13, 1, 2], "13 return 1 in void", only(TO_VOID, vec![ret(one())]));
    put(cases, [14, 1, 0], "14 an empty body", only(TO_VOID, vec![]));
    put(cases, [15, 1, 2], "15 f = f", only(TO_VOID, vec![set(name(F), name(F)), done()]));
    put(cases, [16, 1, 3], "16 new string[3]", holding(blank(STRINGS, int(3))));
    put(cases, [0, 0, 0], "Pan: types 0 to 3 and nothing else", Program::new());
    put(cases, [0, 1, 0], "the example", Program::new().with([global(5, tru())]));
}

/// Return marks.
fn marks(cases: &mut Cases) {
    let arms = |a: bool, b: bool| {
        let arm = |returns: bool| if returns { vec![done()] } else { vec![] };
        only(TO_VOID, vec![when(tru(), arm(a), arm(b))])
    };
    put(cases, [0, 2, 0], "Pan: body return", only(TO_VOID, vec![done()]));
    put(cases, [14, 1, 0], "Pan: empty body", only(TO_VOID, vec![]));
    put(cases, [0, 2, 0], "Pan: both arms return", arms(true, true));
    put(cases, [14, 1, 0], "Pan: the first arm returns", arms(true, false));
    put(cases, [14, 1, 0], "Pan: the second arm returns", arms(false, true));
    put(cases, [14, 1, 0], "no arm returns", arms(false, false));
    put(cases, [14, 1, 2], "T14 dead code is not typed", only(TO_VOID, vec![done(), var(X, name(Y))]));
    put(cases, [14, 1, 2], "T14 two returns", only(TO_VOID, vec![done(), done()]));
    let both = || when(tru(), vec![done()], vec![done()]);
    put(cases, [14, 1, 2], "T15 a returning if", only(TO_VOID, vec![both(), done()]));
    put(cases, [0, 2, 0], "a last while(true) has mark 1", only(TO_VOID, vec![during(tru(), vec![done()])]));
    let forever = repeat(vec![], absent(), absent(), vec![done()]);
    put(cases, [14, 1, 0], "T16 a for has mark 0", only(TO_VOID, vec![forever]));
    put(
        cases,
        [14, 1, 5],
        "T19 dead code in a while",
        only(TO_VOID, vec![during(tru(), vec![done(), done()]), done()]),
    );
    put(cases, [0, 2, 0], "T19 a loop's block may return", only(TO_VOID, vec![during(tru(), vec![done()]), done()]));
    let string_null = |yes, no| when_null(X, STRING, null(STRING_NULL), yes, no);
    put(cases, [0, 2, 0], "if? with both arms", only(TO_VOID, vec![string_null(vec![done()], vec![done()])]));
    put(cases, [14, 1, 0], "if? with one arm", only(TO_VOID, vec![string_null(vec![done()], vec![])]));
    put(cases, [14, 1, 0], "if? with the other arm", only(TO_VOID, vec![string_null(vec![], vec![done()])]));
    put(cases, [14, 1, 2], "T15 a returning if?", only(TO_VOID, vec![string_null(vec![done()], vec![done()]), done()]));
}

/// Sorts of operands and conditions.
fn sorts(cases: &mut Cases) {
    put(cases, [10, 1, 3], "E1 -true", holding(unary(0, tru())));
    put(cases, [10, 1, 3], "E1 !1", holding(unary(1, one())));
    put(cases, [10, 1, 3], "E1 ~true", holding(unary(2, tru())));
    put(cases, [0, 2, 0], "-1", holding(unary(0, one())));
    put(cases, [0, 2, 0], "!true", holding(unary(1, tru())));
    put(cases, [0, 2, 0], "~1", holding(unary(2, one())));
    for x in 0..16 {
        let bools = matches!(x, 12 | 13);
        let takes = || if bools { tru() } else { one() };
        let other = || if bools { one() } else { tru() };
        let gives_int = matches!(x, 0..=5 | 14 | 15);
        let result = if gives_int { [0, 2, 0] } else { [11, 1, 2] };
        put(cases, result, "an operator's result", only(TO_INT, vec![ret(binary(x, takes(), takes()))]));
        let wrong = if matches!(x, 10 | 11) { [11, 1, 3] } else { [10, 1, 3] };
        put(cases, wrong, "E1 an operator's first sort", holding(binary(x, other(), takes())));
        put(cases, wrong, "E1 an operator's second sort", holding(binary(x, takes(), other())));
        let unknown = if matches!(x, 10 | 11) { [8, 1, 5] } else { [10, 1, 3] };
        put(cases, unknown, "E2 the sort before the next child", holding(binary(x, other(), name(Y))));
        put(cases, [8, 1, 4], "the first child first", holding(binary(x, name(Y), null(Q_NULL))));
    }
    put(cases, [10, 1, 3], "E1 index of an int", holding(index(one(), name(Y))));
    put(cases, [10, 1, 3], "E1 index that is no int", holding(index(list(INTS, vec![]), tru())));
    put(cases, [8, 1, 5], "an unknown index", holding(index(list(INTS, vec![]), name(Y))));
    put(cases, [0, 2, 0], "index", holding(index(list(INTS, vec![]), one())));
    put(cases, [10, 1, 3], "E1 length of an int", holding(length(one())));
    put(cases, [10, 1, 3], "E15 length of a string", holding(length(text(1))));
    put(cases, [0, 2, 0], "length", holding(length(list(INTS, vec![]))));
    put(cases, [10, 1, 3], "E1 field of an int", holding(field(one(), P)));
    put(cases, [10, 1, 3], "E1 call of an int", holding(call(one(), vec![name(Y)])));
    put(cases, [10, 1, 2], "E1 if? of an int", only(TO_VOID, vec![when_null(X, A, one(), vec![], vec![]), done()]));
    put(cases, [10, 1, 2], "E1 while(1)", only(TO_VOID, vec![during(one(), vec![var(X, name(Y))]), done()]));
    put(
        cases,
        [10, 1, 2],
        "the condition's sort before the blocks",
        only(TO_VOID, vec![when(one(), vec![done(), done()], vec![])]),
    );
    let after = |null_type, use_it: fn(Tree) -> Tree| {
        pan(TO_VOID, &[], vec![var(X, null(null_type)), var(Z, use_it(name(X))), done()])
    };
    put(cases, [10, 7, 5], "E11 field of a nullable", after(A_NULL, |e| field(e, P)));
    put(cases, [10, 7, 5], "E11 length of a nullable", after(INTS_NULL, length));
    put(cases, [10, 7, 5], "E11 index of a nullable", after(INTS_NULL, |e| index(e, one())));
    put(cases, [10, 7, 5], "E11 call of a nullable", after(TO_INT_NULL, |e| call(e, vec![])));
}

/// Array literals, default arrays, arrays with initializer.
fn arrays(cases: &mut Cases) {
    put(cases, [8, 1, 5], "E3 all elements, then all subtypes", holding(list(INTS, vec![tru(), name(Y)])));
    put(cases, [11, 1, 3], "E3 an element's subtype", holding(list(INTS, vec![one(), tru()])));
    put(cases, [9, 1, 3], "E3 the type first", holding(list(QS, vec![name(Y)])));
    put(cases, [9, 1, 3], "an undeclared struct, no elements", holding(list(QS, vec![])));
    put(cases, [0, 8, 0], "elements below", pan_holding(list(A_NULLS, vec![null(B_NULL), null(A_NULL)])));
    put(cases, [9, 1, 3], "E4 the type first", holding(blank(QS, name(Y))));
    put(cases, [8, 1, 4], "E4 then the length", holding(blank(STRINGS, name(Y))));
    put(cases, [10, 1, 3], "E4 then its sort", holding(blank(STRINGS, tru())));
    put(cases, [16, 1, 3], "E4 then the default", holding(blank(STRINGS, one())));
    put(cases, [16, 1, 3], "an array has no default", holding(blank(INTSS, one())));
    put(cases, [16, 7, 3], "a struct has no default", pan_holding(blank(AS, one())));
    put(cases, [0, 2, 0], "ints have a default", holding(blank(INTS, one())));
    put(cases, [0, 2, 0], "bools have a default", holding(blank(BOOLS, one())));
    put(cases, [0, 8, 0], "nullables have a default", pan_holding(blank(A_NULLS, one())));
    put(cases, [9, 1, 3], "E5 the type first", holding(fill(QS, X, name(Y), name(Y))));
    put(cases, [8, 1, 4], "E5 then the length", holding(fill(INTS, X, name(Y), null(Q_NULL))));
    put(cases, [10, 1, 3], "E5 then its sort", holding(fill(INTS, X, tru(), name(Y))));
    let bound = |e| only(TO_VOID, vec![var(X, one()), var(Z, e), done()]);
    put(cases, [8, 1, 6], "E5 the length under a bound index name", bound(fill(INTS, X, name(Y), one())));
    put(cases, [10, 1, 5], "E5 its sort under a bound index name", bound(fill(INTS, X, tru(), one())));
    put(cases, [8, 1, 7], "E5 a bound index name asks nothing", bound(fill(INTS, X, one(), name(Y))));
    put(cases, [8, 1, 5], "E5 then the value", holding(fill(INTS, I, one(), name(Y))));
    put(cases, [11, 1, 3], "E5 then the subtype", holding(fill(INTS, I, one(), tru())));
    put(cases, [0, 2, 0], "E6 bound in the value", holding(fill(INTS, I, one(), name(I))));
    put(cases, [8, 1, 4], "E6 not in the length", holding(fill(INTS, I, name(I), one())));
    let then = |e| only(TO_VOID, vec![var(X, fill(INTS, I, one(), one())), var(Z, e), done()]);
    put(cases, [8, 1, 7], "E6 not after it", then(name(I)));
    put(cases, [0, 2, 0], "E6 free again after it", then(fill(INTS, I, one(), one())));
    put(cases, [0, 2, 0], "E6 it may hide a function", holding(fill(INTS, F, one(), name(F))));
    put(cases, [0, 2, 0], "E6 nested", holding(fill(INTSS, I, one(), fill(INTS, I, one(), one()))));
    put(cases, [0, 2, 0], "the var's own name", holding(fill(INTS, X, one(), name(X))));
}

/// Struct literals and fields.
fn literals(cases: &mut Cases) {
    let a = |p, dry| record(A, vec![(P, p), (DRY, dry)]);
    put(cases, [0, 8, 0], "a struct literal", pan_holding(a(one(), one())));
    put(cases, [0, 8, 0], "a permuted struct literal", pan_holding(record(A, vec![(DRY, one()), (P, one())])));
    put(cases, [12, 7, 3], "E7 a field the struct lacks", pan_holding(record(A, vec![(P, one()), (WET, one())])));
    put(cases, [9, 7, 3], "E8 the struct first", pan_holding(record(Q, vec![(P, name(Y))])));
    put(cases, [12, 7, 3], "E8 then the names: one missing", pan_holding(record(A, vec![(P, name(Y))])));
    put(cases, [12, 7, 3], "one too many", pan_holding(record(A, vec![(P, one()), (DRY, one()), (WET, one())])));
    put(cases, [12, 7, 3], "one named twice", pan_holding(record(A, vec![(P, one()), (P, one())])));
    put(
        cases,
        [12, 7, 3],
        "one too many, named twice",
        pan_holding(record(A, vec![(P, one()), (DRY, one()), (P, one())])),
    );
    put(cases, [8, 7, 7], "E8 then the values", pan_holding(a(tru(), name(Y))));
    put(cases, [11, 7, 3], "E8 then the subtypes", pan_holding(record(A, vec![(DRY, tru()), (P, one())])));
    put(
        cases,
        [12, 7, 3],
        "E10 outer names before inner ones",
        pan_holding(record(A, vec![(P, record(A, vec![])), (WET, one())])),
    );
    put(cases, [12, 7, 3], "E10 outer names before an inner 9", pan_holding(record(A, vec![(P, null(Q_NULL))])));
    put(cases, [12, 7, 5], "E10 then inner names", pan_holding(a(record(A, vec![]), one())));
    put(cases, [9, 7, 5], "E10 then an inner 9", pan_holding(a(null(Q_NULL), tru())));
    let one_field = |t, e| {
        let mut p = bare();
        p.declare(1, &[[P, t], [DRY, Q]]);
        p.with([global(G, e)])
    };
    put(
        cases,
        [11, 1, 1],
        "E9 ill-formed fields are not asked",
        one_field(Q_NULL, record(A, vec![(P, one()), (DRY, one())])),
    );
    put(cases, [12, 1, 1], "E9 the names are", one_field(INT, record(A, vec![(P, one())])));
    put(cases, [8, 7, 3], "E16 an unknown field", pan_holding(field(a(one(), one()), WET)));
    put(cases, [0, 8, 0], "a field", pan_holding(field(a(one(), one()), DRY)));
    put(cases, [8, 7, 4], "the record first", pan_holding(field(name(Y), 77)));
}

/// Calls and call statements.
fn calls(cases: &mut Cases) {
    put(cases, [8, 1, 4], "E12 the callee first", holding(call(name(Y), vec![])));
    put(cases, [10, 1, 3], "E12 then its sort", holding(call(tru(), vec![name(Y)])));
    put(cases, [13, 1, 3], "E12 then void", holding(call(name(F), vec![one()])));
    put(cases, [13, 1, 3], "E12 void before the arguments", holding(call(name(F), vec![name(Y)])));
    put(cases, [12, 1, 3], "E12 then the count", only(TO_INT, vec![ret(call(name(F), vec![name(Y)]))]));
    put(cases, [0, 2, 0], "a call", only(TO_INT, vec![ret(call(name(F), vec![]))]));
    let pair = |body: Vec<Tree>| bare().with([func(F, INT_INT_TO_VOID, &[X, Z], body)]);
    let run_f = |arguments| pair(vec![run(name(F), arguments), done()]);
    put(cases, [8, 1, 7], "E12 then the arguments", run_f(vec![tru(), name(Y)]));
    put(cases, [11, 1, 4], "E12 then the subtypes", run_f(vec![one(), tru()]));
    put(cases, [11, 1, 4], "the first argument's subtype", run_f(vec![tru(), one()]));
    put(cases, [12, 1, 4], "too few arguments", run_f(vec![name(Y)]));
    put(cases, [12, 1, 4], "too many arguments", run_f(vec![one(), one(), name(Y)]));
    put(cases, [0, 2, 0], "a call statement", run_f(vec![one(), one()]));
    put(cases, [13, 1, 2], "E13 a value is dropped", only(TO_INT, vec![run(name(F), vec![]), ret(one())]));
    put(cases, [13, 1, 2], "E13 before the count", only(TO_INT, vec![run(name(F), vec![name(Y)]), ret(one())]));
    put(cases, [10, 1, 2], "a call statement's sort", only(TO_INT, vec![run(one(), vec![name(Y)]), ret(one())]));
    let mut p = pans();
    p.builtins.push([H, AA_TO_VOID]);
    let b = || record(B, vec![(P, one()), (DRY, one()), (WET, one())]);
    let with_b = |argument| p.clone().with([func(F, TO_VOID, &[], vec![run(name(H), vec![b(), argument]), done()])]);
    put(cases, [0, 9, 0], "arguments below", with_b(b()));
    put(cases, [11, 8, 2], "an argument not below", with_b(record(C, vec![(P, one()), (WET, one())])));
}

/// `==` and `!=`.
fn equalities(cases: &mut Cases) {
    for x in [10, 11] {
        put(cases, [8, 1, 5], "E14 both children first", holding(binary(x, tru(), name(Y))));
        put(cases, [11, 1, 3], "E14 then both directions", holding(binary(x, tru(), one())));
        put(cases, [11, 7, 3], "E14 the first direction fails", pan_holding(binary(x, null(A_NULL), null(B_NULL))));
        put(cases, [11, 7, 3], "E14 the second direction fails", pan_holding(binary(x, null(B_NULL), null(A_NULL))));
        put(cases, [0, 2, 0], "E14 equal types", holding(binary(x, list(INTS, vec![]), list(INTS_AGAIN, vec![]))));
        put(cases, [0, 2, 0], "E14 strings", holding(binary(x, text(1), text(2))));
    }
}

/// Assignments and 15.
fn assignments(cases: &mut Cases) {
    put(cases, [15, 1, 2], "T1 15 before all else", only(TO_VOID, vec![set(name(F), name(Y)), done()]));
    put(cases, [15, 1, 2], "T1 15 before the subtype", only(TO_VOID, vec![set(name(F), one()), done()]));
    let pointer = |body: Vec<Tree>| bare().with([func(F, TO_VOID, &[], body), global(G, name(F))]);
    put(cases, [0, 3, 0], "T2 a global of function type", pointer(vec![set(name(G), name(F)), done()]));
    let hidden = bare().with([func(F, INT_TO_INT, &[F], vec![set(name(F), one()), ret(name(F))])]);
    put(cases, [0, 2, 0], "T3 a parameter hides", hidden);
    put(cases, [0, 2, 0], "T3 a var hides", only(TO_VOID, vec![var(F, one()), set(name(F), one()), done()]));
    let tested = |yes, no, after: Vec<Tree>| {
        let test = when_null(F, A, name(X), yes, no);
        pan(A_NULL_TO_VOID, &[X], [vec![test], after, vec![done()]].concat())
    };
    let set_f = || vec![set(name(F), name(F))];
    put(cases, [0, 8, 0], "T3 an if? name hides", tested(set_f(), vec![], vec![]));
    put(cases, [15, 7, 10], "T3 not in the else block", tested(set_f(), set_f(), vec![]));
    put(cases, [15, 7, 7], "T3 nor after", tested(vec![], vec![], set_f()));
    put(cases, [8, 1, 3], "T4 an unknown left side", only(TO_VOID, vec![set(name(Y), null(Q_NULL)), done()]));
    put(cases, [10, 1, 3], "T5 f[0] = 1", only(TO_VOID, vec![set(index(name(F), int(0)), one()), done()]));
    let mut p = bare();
    p.builtins.push([H, TO_VOID]);
    let built_in = |body: Vec<Tree>| p.clone().with([func(F, TO_VOID, &[], body)]);
    put(cases, [15, 2, 2], "a built-in is assigned", built_in(vec![set(name(H), name(Y)), done()]));
    put(cases, [0, 3, 0], "a hidden built-in", built_in(vec![var(H, one()), set(name(H), int(2)), done()]));
    let x_is = |e, value| only(TO_VOID, vec![var(X, e), set(name(X), value), done()]);
    put(cases, [11, 1, 4], "an assignment's subtype", x_is(one(), tru()));
    put(cases, [8, 1, 6], "an assignment's value", x_is(one(), name(Y)));
    put(cases, [0, 2, 0], "an assignment", x_is(one(), int(2)));
    let pan_x = |t, value| pan(TO_VOID, &[], vec![var(X, null(t)), set(name(X), null(value)), done()]);
    put(cases, [0, 8, 0], "a value below", pan_x(A_NULL, B_NULL));
    put(cases, [11, 7, 4], "a value above", pan_x(B_NULL, A_NULL));
    let element = |value| only(TO_VOID, vec![set(index(list(INTS, vec![]), int(0)), value), done()]);
    put(cases, [0, 2, 0], "an element is assigned", element(one()));
    put(cases, [11, 1, 2], "an element is assigned wrongly", element(tru()));
}

/// Vars and scopes.
fn vars(cases: &mut Cases) {
    put(
        cases,
        [8, 1, 5],
        "T6 the expression before fresh",
        only(TO_VOID, vec![var(X, one()), var(X, name(Y)), done()]),
    );
    put(cases, [8, 1, 3], "T6 not in its own expression", holding(name(X)));
    put(cases, [0, 2, 0], "T7 a var may hide a function", only(TO_VOID, vec![var(F, name(F)), done()]));
    let over = |x| {
        let mut p = bare();
        p.builtins.push([H, TO_VOID]);
        p.with([global(G, one()), func(F, TO_VOID, &[], vec![var(x, tru()), var(Z, unary(1, name(x))), done()])])
    };
    put(cases, [0, 4, 0], "T7 a var may hide a global", over(G));
    put(cases, [0, 4, 0], "T7 a var may hide a built-in", over(H));
    let var_x = || vec![var(X, one())];
    put(cases, [0, 2, 0], "T8 sibling blocks may share", only(TO_VOID, vec![when(tru(), var_x(), var_x()), done()]));
    put(
        cases,
        [0, 2, 0],
        "T8 an inner block too",
        only(TO_VOID, vec![var(X, one()), when(tru(), var_x(), vec![]), done()]),
    );
    put(
        cases,
        [0, 2, 0],
        "free after the block",
        only(TO_VOID, vec![when(tru(), var_x(), vec![]), var(X, tru()), done()]),
    );
    put(
        cases,
        [8, 1, 9],
        "unknown after the block",
        only(TO_VOID, vec![when(tru(), var_x(), vec![]), var(Z, name(X)), done()]),
    );
    put(cases, [8, 1, 9], "unknown in the other block", only(TO_INT, vec![when(tru(), var_x(), vec![ret(name(X))])]));
    let parameter = bare().with([func(F, INT_TO_INT, &[X], vec![var(X, one()), ret(one())])]);
    put(cases, [7, 1, 3], "a var of a parameter's name", parameter);
    let second = |e| bare().with([func(F, INT_TO_INT, &[X], vec![ret(name(X))]), func(G, TO_INT, &[], vec![ret(e)])]);
    put(cases, [8, 3, 8], "another function's parameter", second(name(X)));
    put(cases, [0, 4, 0], "two functions", second(call(name(F), vec![one()])));
}

/// Returns.
fn returns(cases: &mut Cases) {
    put(cases, [13, 1, 2], "T9 void before the expression", only(TO_VOID, vec![ret(name(Y))]));
    put(cases, [13, 1, 2], "T9 a bare return where a value is due", only(TO_INT, vec![done()]));
    put(cases, [8, 1, 3], "the expression", only(TO_INT, vec![ret(name(Y))]));
    put(cases, [0, 2, 0], "return 1", only(TO_INT, vec![ret(one())]));
    put(cases, [0, 2, 0], "an equal type under another number", only(TO_INTS, vec![ret(list(INTS, vec![]))]));
    let b = || record(B, vec![(WET, one()), (P, one()), (DRY, one())]);
    put(cases, [0, 8, 0], "a value below the return type", pan(B_TO_A, &[X], vec![ret(name(X))]));
    put(cases, [11, 7, 3], "a value above the return type", pan(A_TO_B, &[X], vec![ret(name(X))]));
    put(cases, [0, 8, 0], "a literal below", pan(B_TO_A, &[X], vec![ret(b())]));
}

/// if?.
fn null_tests(cases: &mut Cases) {
    let test = |t, e, yes, no| only(TO_VOID, vec![when_null(X, t, e, yes, no), done()]);
    let bad = || vec![var(Z, name(Y))];
    put(cases, [8, 1, 3], "T10 the expression first", test(A, name(Y), vec![], vec![]));
    put(cases, [10, 1, 2], "T10 then nullable", test(A, text(1), bad(), vec![]));
    put(cases, [11, 1, 2], "T10 then the subtype, t undeclared", test(A, null(STRING_NULL), bad(), vec![]));
    put(cases, [8, 1, 6], "T10 then the blocks", test(STRING, null(STRING_NULL), bad(), vec![]));
    put(cases, [8, 1, 7], "then the second block", test(STRING, null(STRING_NULL), vec![], bad()));
    let pan_test = |t, null_type| pan(TO_VOID, &[], vec![when_null(X, t, null(null_type), vec![], vec![]), done()]);
    put(cases, [0, 8, 0], "t above", pan_test(A, B_NULL));
    put(cases, [11, 7, 2], "t below", pan_test(B, A_NULL));
    let strings = |yes, no| when_null(X, STRING, null(STRING_NULL), yes, no);
    let use_x = || vec![var(Z, binary(10, name(X), text(1)))];
    let sum = || var(Z, binary(1, name(X), one()));
    let hiding = vec![var(X, one()), strings(use_x(), vec![sum()]), sum(), done()];
    put(cases, [0, 2, 0], "T11 it may hide a local", only(TO_VOID, hiding));
    put(
        cases,
        [0, 2, 0],
        "T11 a var of it in its block",
        only(TO_VOID, vec![strings(vec![var(X, one())], vec![]), done()]),
    );
    put(
        cases,
        [0, 2, 0],
        "T11 a var of it in the other",
        only(TO_VOID, vec![strings(vec![], vec![var(X, one())]), done()]),
    );
    put(cases, [8, 1, 8], "T11 unknown in the second block", only(TO_VOID, vec![strings(vec![], use_x()), done()]));
    put(
        cases,
        [8, 1, 8],
        "T11 unknown after it",
        only(TO_VOID, [vec![strings(vec![], vec![])], use_x(), vec![done()]].concat()),
    );
}

/// for and while.
fn loops(cases: &mut Cases) {
    let one_for = |vars, condition, step, body| only(TO_VOID, vec![repeat(vars, condition, step, body), done()]);
    let x = || vec![var(X, one())];
    put(cases, [0, 2, 0], "T12 the step's name is free in the block", one_for(vec![], absent(), var(X, one()), x()));
    put(
        cases,
        [8, 1, 8],
        "T12 the step's name is unknown in the block",
        one_for(vec![], absent(), var(X, one()), vec![var(Z, name(X))]),
    );
    put(
        cases,
        [14, 1, 4],
        "T13 a returning step before the block",
        one_for(vec![], absent(), done(), vec![var(Z, name(Y))]),
    );
    let both = when(tru(), vec![done()], vec![done()]);
    put(cases, [14, 1, 4], "T13 a returning if as the step", one_for(vec![], absent(), both, vec![]));
    put(
        cases,
        [8, 1, 5],
        "T13 the step is typed before the block",
        one_for(vec![], absent(), set(name(Y), one()), vec![var(Z, null(Q_NULL))]),
    );
    put(cases, [10, 1, 2], "T17 a for's condition", one_for(vec![], one(), set(name(Y), one()), vec![]));
    put(cases, [10, 1, 2], "T17 with vars", one_for(x(), name(X), absent(), vec![]));
    put(cases, [13, 1, 4], "T18 a returning step is typed first", one_for(vec![], absent(), ret(one()), vec![]));
    put(cases, [0, 2, 0], "vars in condition, step and block", {
        let less = binary(6, name(X), int(9));
        let step = set(name(X), binary(1, name(X), one()));
        one_for(x(), less, step, vec![var(Z, name(X))])
    });
    put(
        cases,
        [0, 2, 0],
        "a var sees those before",
        one_for(vec![var(X, one()), var(Z, name(X))], absent(), absent(), vec![]),
    );
    put(cases, [7, 1, 5], "a var twice", one_for(vec![var(X, one()), var(X, one())], absent(), absent(), vec![]));
    put(cases, [0, 2, 0], "a var of it in the block", one_for(x(), absent(), absent(), x()));
    let loop_x = || repeat(x(), absent(), absent(), vec![]);
    put(cases, [0, 2, 0], "a var of a bound name", only(TO_VOID, vec![var(X, one()), loop_x(), done()]));
    put(cases, [0, 2, 0], "the variables are free after it", only(TO_VOID, vec![loop_x(), var(X, one()), done()]));
    put(cases, [8, 1, 9], "the variables are unknown after it", only(TO_VOID, vec![loop_x(), var(Z, name(X)), done()]));
    put(cases, [14, 1, 6], "dead code in a for", one_for(vec![], absent(), absent(), vec![done(), done()]));
    let nested = repeat(vec![], absent(), repeat(vec![var(I, one())], absent(), absent(), vec![]), vec![var(I, one())]);
    put(cases, [0, 2, 0], "a for as the step", only(TO_VOID, vec![nested, done()]));
}

/// Built-ins and function headings.
fn headings(cases: &mut Cases) {
    let f = |t, parameters: &[u16]| func(F, t, parameters, vec![done()]);
    put(cases, [9, 1, 3], "D1 a heading's type before its name", bare().with([f(TO_VOID, &[]), f(Q_TO_VOID, &[X])]));
    put(cases, [7, 1, 3], "D1 then its name", bare().with([f(TO_VOID, &[]), f(TO_VOID, &[])]));
    put(cases, [9, 0, 0], "an undeclared return type", bare().with([func(F, TO_Q, &[], vec![ret(name(Y))])]));
    let builtins = |records: &[[u16; 2]]| {
        let mut p = bare();
        p.builtins.extend(records);
        p
    };
    put(cases, [9, 1, 1], "D1 a built-in's type before its name", builtins(&[[H, TO_VOID], [H, Q_TO_VOID]]));
    put(cases, [7, 1, 1], "D8 a built-in twice", builtins(&[[H, TO_VOID], [H, TO_INT]]));
    put(cases, [9, 0, 0], "F12 an undeclared struct in a built-in", builtins(&[[H, TO_Q]]));
    put(cases, [0, 2, 0], "two built-ins", builtins(&[[H, TO_VOID], [G, TO_VOID]]));
    put(cases, [7, 1, 0], "a function of a built-in's name", builtins(&[[F, TO_VOID]]).with([f(TO_VOID, &[])]));
    put(cases, [7, 1, 0], "a global of a built-in's name", builtins(&[[G, TO_VOID]]).with([global(G, one())]));
    put(cases, [7, 1, 0], "D3 a clash is the global's", bare().with([global(F, one()), f(TO_VOID, &[])]));
    put(cases, [9, 0, 2], "D3 headings before globals", bare().with([global(G, name(Y)), f(Q_TO_VOID, &[X])]));
    put(cases, [9, 0, 0], "built-ins before headings", builtins(&[[H, TO_Q]]).with([f(Q_TO_VOID, &[X])]));
}

/// Globals.
fn globals(cases: &mut Cases) {
    put(cases, [8, 1, 3], "D2 the initializer before the name", bare().with([global(G, one()), global(G, name(Y))]));
    put(cases, [7, 1, 2], "D2 then the name", bare().with([global(G, one()), global(G, one())]));
    put(cases, [8, 0, 1], "D10 a global sees no itself", bare().with([global(G, name(G))]));
    put(cases, [8, 0, 1], "D10 no later global", bare().with([global(G, name(H)), global(H, one())]));
    put(cases, [0, 2, 0], "D10 an earlier global", bare().with([global(H, one()), global(G, name(H))]));
    put(cases, [0, 3, 0], "a later function", bare().with([global(G, name(F)), func(F, TO_VOID, &[], vec![done()])]));
    put(
        cases,
        [0, 3, 0],
        "a body sees a later global",
        bare().with([func(F, TO_INT, &[], vec![ret(name(G))]), global(G, one())]),
    );
    put(cases, [9, 0, 1], "a global's null", bare().with([global(G, null(Q_NULL))]));
    put(cases, [9, 0, 1], "a global's struct", bare().with([global(G, record(A, vec![]))]));
    put(
        cases,
        [0, 7, 0],
        "a global's literals",
        pans().with([global(G, list(A_NULLS, vec![record(B, vec![(WET, one()), (P, one()), (DRY, one())])]))]),
    );
    put(cases, [11, 3, 1], "a global's element", pans().with([global(G, list(AS, vec![null(A_NULL)]))]));
    let mut p = bare();
    p.declare(1, &[[P, INT], [P, INT]]);
    let doubled = |names: [u16; 2]| p.clone().with([global(G, record(A, names.map(|x| (x, one())).to_vec()))]);
    put(cases, [12, 1, 1], "D5 a doubled field, named twice", doubled([P, P]));
    put(cases, [12, 1, 1], "D5 a doubled field, named once", doubled([P, DRY]));
}

/// Struct names and fields.
fn structs(cases: &mut Cases) {
    let with = |fields: &[[u16; 2]], declarations: Vec<Tree>| {
        let mut p = bare();
        p.declare(1, fields);
        p.with(declarations)
    };
    let bad_global = || global(G, name(Y));
    let bad_body = || func(F, TO_VOID, &[], vec![ret(one())]);
    put(
        cases,
        [9, 3, 0],
        "D4 fields after globals, before bodies",
        with(&[[P, Q]], vec![global(G, one()), bad_body()]),
    );
    put(cases, [8, 2, 1], "D4 globals before fields", with(&[[P, Q]], vec![bad_global(), bad_body()]));
    put(cases, [9, 1, 0], "D4 9 before 7", with(&[[P, INT], [P, Q]], vec![]));
    put(cases, [7, 1, 0], "D4 then 7", with(&[[P, INT], [DRY, INT], [P, BOOL]], vec![]));
    put(cases, [0, 2, 0], "a struct that mentions itself", with(&[[P, A_NULL], [DRY, AS]], vec![]));
    let second = |fields: &[[u16; 2]]| {
        let mut p = pans();
        p.declare(9, fields);
        p
    };
    put(cases, [0, 8, 0], "a fourth struct", second(&[[P, Q]]));
    put(cases, [7, 7, 3], "D8 a doubled field in the fourth", second(&[[P, Q], [P, Q]]));
    let doubled = |name| {
        let mut p = pans();
        p.declare(name, &[]);
        p.with([bad_body()])
    };
    put(cases, [7, 3, 3], "D8 a doubled struct stands at the later", doubled(1));
    put(cases, [7, 3, 3], "D8 another doubled struct", doubled(3));
    let mut apart = bare();
    apart.declare(F, &[[F, INT], [G, INT]]);
    apart.builtins.push([H, TO_VOID]);
    apart.declare(H, &[]);
    put(cases, [0, 7, 0], "D7 names of three sorts are apart", apart.with([func(F, TO_VOID, &[], vec![done()])]));
    let mut many = bare();
    let fields: Vec<[u16; 2]> = (0..40).map(|i| [if i == 39 { 7 } else { i }, INT]).collect();
    many.declare(1, &fields);
    put(cases, [7, 1, 0], "a doubled field among forty", many);
}

/// Parameters and the body's mark.
fn parameters(cases: &mut Cases) {
    let two = |names: [u16; 2], body| bare().with([func(F, INT_INT_TO_VOID, &names, body)]);
    put(cases, [7, 1, 0], "D6 distinct parameters before the block", two([X, X], vec![var(Z, name(Y)), done()]));
    put(cases, [7, 1, 0], "D6 before the mark", two([X, X], vec![]));
    put(cases, [0, 2, 0], "D6 distinct", two([X, Z], vec![var(I, binary(0, name(X), name(Z))), done()]));
    let later = func(G, Q_TO_VOID, &[X], vec![done()]);
    put(cases, [9, 1, 5], "D6 in the body's step, after all headings", two([X, X], vec![done()]).with([later]));
    put(cases, [0, 2, 0], "a parameter may have the function's name", two([F, X], vec![var(Z, name(F)), done()]));
    put(cases, [14, 1, 0], "the mark is the function's", two([X, Z], vec![var(I, one())]));
}

/// The programs whose rows are tested.
fn row_programs(cases: &mut Cases) {
    put(cases, [0, 14, 0], "R5 every node kind", rows::every_kind());
    put(cases, [0, 2, 0], "R1 a call's number", rows::called());
    put(cases, [0, 2, 0], "R1 an element's number", rows::element());
    put(cases, [0, 4, 0], "R1 a field's number", rows::projected());
    put(cases, [0, 2, 0], "R4 a parameter's number", rows::parameter());
    put(cases, [0, 8, 0], "R3 an if? name's number", rows::null_test());
}

/// Document 02's request (v).
fn zero_bytes(cases: &mut Cases) {
    cases.push(Case { name: "zero bytes", file: vec![], answer: [0, 0, 0] });
}

/// The largest parts, depths and names.
fn limits(cases: &mut Cases) {
    let mut parts = Program::new();
    parts.function(INT, &[INT; 198]);
    put(cases, [0, 0, 0], "Pan: 200 parts pass", parts);
    let deep = only(TO_INT, vec![ret((0..96).fold(one(), |t, _| unary(0, t)))]);
    put(cases, [0, 2, 0], "Pan: depth 100 passes", deep);
    const LAST: u16 = 65_535;
    put(cases, [0, 2, 0], "the last name", only(TO_INT, vec![var(LAST, one()), ret(name(LAST))]));
    put(cases, [8, 1, 3], "the last name unbound", only(TO_INT, vec![ret(name(LAST))]));
    put(cases, [7, 1, 4], "the last name twice", only(TO_VOID, vec![var(LAST, one()), var(LAST, one()), done()]));
    put(cases, [0, 2, 0], "name 0", only(TO_INT, vec![var(0, one()), ret(name(0))]));
    put(
        cases,
        [15, 1, 2],
        "the last name assigned",
        bare().with([func(LAST, TO_VOID, &[], vec![set(name(LAST), one()), done()])]),
    );
    let mut p = Program::new();
    let last = p.struct_type(LAST);
    p.declare(LAST, &[[LAST, INT], [0, BOOL]]);
    let value = || record(last, vec![(0, tru()), (LAST, one())]);
    put(cases, [0, 3, 0], "the last struct and field", p.clone().with([global(LAST, value())]));
    put(cases, [7, 2, 6], "the last global twice", p.with([global(LAST, value()), global(LAST, tru())]));
    let mut many = bare();
    many.builtins = (0..128).map(|i| [600 + i, TO_VOID]).collect();
    let body = vec![run(name(727), vec![]), done()];
    put(cases, [0, 130, 0], "128 built-ins", many.clone().with([func(F, TO_VOID, &[], body)]));
    let crowd = [X, X + 512, X + 1024, X + 2048];
    let vars = crowd.iter().map(|&x| var(x, one())).chain([ret(name(X))]).collect();
    put(cases, [0, 2, 0], "names alike in their low bits", only(TO_INT, vars));
}
