//! Cases of document 02's request (ii): a struct literal names each field once.
//! The struct is A; unless told otherwise its fields are ints, and so are the
//! values.

use super::*;
use crate::program::*;

/// Readable files with their answers.
pub fn names() -> Vec<Case> {
    let mut cases = Vec::new();
    orders(&mut cases);
    named_twice(&mut cases);
    unknown(&mut cases);
    counts(&mut cases);
    numbers(&mut cases);
    declared_twice(&mut cases);
    nested(&mut cases);
    bound(&mut cases);
    cases
}

type Cases = Vec<Case>;

/// Names in ascending, descending and mixed order.
const UP: [u16; 4] = [2, 4, 6, 8];
const DOWN: [u16; 4] = [8, 6, 4, 2];
const MIXED: [u16; 4] = [6, 2, 8, 4];
const LAST: u16 = 65_535;
const K: u16 = 30;

fn forty() -> Vec<u16> {
    (100..140).collect()
}

fn put(cases: &mut Cases, answer: [u16; 3], name: &'static str, p: Program) {
    cases.push(Case { name, file: p.bytes(), answer });
}

fn declaring(fields: &[u16]) -> Program {
    let mut p = bare();
    p.declare(1, &fields.iter().map(|&x| [x, INT]).collect::<Vec<_>>());
    p
}

fn literal(names: &[u16]) -> Tree {
    record(A, names.iter().map(|&x| (x, int(1))).collect())
}

/// The global's step is 1, of 3 in all; the literal is node 1.
fn in_global(fields: &[u16], names: &[u16]) -> Program {
    declaring(fields).with([global(G, literal(names))])
}

/// The body's step is 3, of 4 in all; the literal is node 3.
fn in_body(fields: &[u16], names: &[u16]) -> Program {
    declaring(fields).with([func(F, TO_VOID, &[], vec![var(X, literal(names)), done()])])
}

fn refused_in_global(cases: &mut Cases, name: &'static str, fields: &[u16], names: &[u16]) {
    put(cases, [12, 1, 1], name, in_global(fields, names));
}

fn refused_in_body(cases: &mut Cases, name: &'static str, fields: &[u16], names: &[u16]) {
    put(cases, [12, 3, 3], name, in_body(fields, names));
}

fn accepted(cases: &mut Cases, name: &'static str, fields: &[u16], names: &[u16]) {
    put(cases, [0, 3, 0], name, in_global(fields, names));
    put(cases, [0, 4, 0], name, in_body(fields, names));
}

/// Every name once, the values telling the fields apart by their types.
fn orders(cases: &mut Cases) {
    let typed = |fields: &[u16], order: &[u16], body: bool| {
        let mut p = bare();
        p.declare(1, &fields.iter().zip(0..).map(|(&x, i)| [x, i % 3]).collect::<Vec<_>>());
        let place = |x| fields.iter().position(|&f| f == x).expect("a field's name");
        let value = |x| [int(1), tru(), text(1)][place(x) % 3].clone();
        let e = record(A, order.iter().map(|&x| (x, value(x))).collect());
        p.with([if body { func(F, TO_VOID, &[], vec![var(X, e), done()]) } else { global(G, e) }])
    };
    let mut each = |fields: &[u16], body: bool| {
        let mut put_order = |name, change: fn(&mut [u16])| {
            let mut order = fields.to_vec();
            change(&mut order);
            put(cases, if body { [0, 4, 0] } else { [0, 3, 0] }, name, typed(fields, &order, body));
        };
        put_order("names in the declared order", |_| {});
        put_order("reversed", |x| x.reverse());
        put_order("rotated", |x| x.rotate_left(1));
        put_order("two neighbours swapped", |x| x.swap(x.len() / 2 - 1, x.len() / 2));
        put_order("first and last swapped", |x| x.swap(0, x.len() - 1));
    };
    each(&[5, 9, 3], false);
    each(&UP, true);
    each(&DOWN, false);
    each(&MIXED, true);
    each(&forty(), false);
    each(&forty(), true);
}

/// A field twice and another not at all.
fn named_twice(cases: &mut Cases) {
    refused_in_body(cases, "the first of three twice", &[5, 9, 3], &[5, 5, 3]);
    refused_in_body(cases, "the first and last of three are one", &[5, 9, 3], &[5, 9, 5]);
    refused_in_body(cases, "the last of three twice", &[5, 9, 3], &[5, 3, 3]);
    refused_in_body(cases, "the first two of four are one", &UP, &[2, 2, 6, 8]);
    refused_in_body(cases, "the middle two are one", &UP, &[2, 4, 4, 8]);
    refused_in_body(cases, "the last two are one", &UP, &[2, 4, 8, 8]);
    refused_in_body(cases, "the last is the first again", &UP, &[2, 4, 6, 2]);
    refused_in_body(cases, "the first is the last", &DOWN, &[2, 6, 4, 2]);
    refused_in_body(cases, "in another order, one apart", &MIXED, &[4, 8, 4, 6]);
    refused_in_body(cases, "two twice, next to each other", &UP, &[2, 2, 8, 8]);
    refused_in_body(cases, "two twice, in turn", &DOWN, &[4, 6, 4, 6]);
    refused_in_body(cases, "all names the same", &MIXED, &[8, 8, 8, 8]);
    let mut names = forty();
    names[39] = 100;
    refused_in_body(cases, "the last of forty is the first", &forty(), &names);
    names = forty();
    names[20] = 119;
    refused_in_body(cases, "two neighbours of forty are one", &forty(), &names);
    names.reverse();
    refused_in_body(cases, "reversed too", &forty(), &names);
    refused_in_body(cases, "all forty the same", &forty(), &[139; 40]);
}

/// E7: as many names as fields, one of them unknown.
fn unknown(cases: &mut Cases) {
    refused_in_body(cases, "E7 an unknown name first", &UP, &[1, 4, 6, 8]);
    refused_in_body(cases, "E7 in the middle", &UP, &[2, 4, 7, 8]);
    refused_in_body(cases, "E7 last", &UP, &[2, 4, 6, 9]);
    refused_in_body(cases, "E7 first, in another order", &UP, &[5, 8, 6, 2]);
    refused_in_body(cases, "E7 last, in another order", &MIXED, &[4, 8, 2, 3]);
    refused_in_body(cases, "E7 all unknown", &UP, &[1, 3, 5, 7]);
    for place in [0, 20, 39] {
        let mut names = forty();
        names[place] = 99;
        refused_in_global(cases, "E7 an unknown name among forty", &forty(), &names);
    }
}

/// Right names, but not as many as fields.
fn counts(cases: &mut Cases) {
    refused_in_global(cases, "the first missing", &UP, &[4, 6, 8]);
    refused_in_global(cases, "one missing in the middle", &UP, &[8, 4, 2]);
    refused_in_global(cases, "the last missing", &UP, &[2, 4, 6]);
    refused_in_global(cases, "the first named again at the end", &UP, &[2, 4, 6, 8, 2]);
    refused_in_global(cases, "an unknown name too many", &UP, &[1, 2, 4, 6, 8]);
    let names: Vec<u16> = (100..141).collect();
    refused_in_global(cases, "39 names for forty fields", &forty(), &names[..39]);
    refused_in_global(cases, "41 names for forty fields", &forty(), &names);
    accepted(cases, "no fields", &[], &[]);
    refused_in_global(cases, "no fields, one named", &[], &[0]);
    accepted(cases, "one field", &[5], &[5]);
    refused_in_global(cases, "one field, not named", &[5], &[]);
    refused_in_global(cases, "one field, another named", &[5], &[6]);
    refused_in_global(cases, "one field, named twice", &[5], &[5, 5]);
}

/// The least and the largest name, and names alike in a byte.
fn numbers(cases: &mut Cases) {
    accepted(cases, "names 0 and 65,535", &[0, 7, LAST], &[LAST, 0, 7]);
    accepted(cases, "names 65,535 and 0", &[LAST, 7, 0], &[7, LAST, 0]);
    refused_in_global(cases, "name 0 twice", &[0, 7, LAST], &[0, 7, 0]);
    refused_in_global(cases, "name 65,535 twice", &[0, 7, LAST], &[LAST, 7, LAST]);
    refused_in_global(cases, "name 0 unknown", &[1, 7, LAST], &[LAST, 7, 0]);
    refused_in_global(cases, "name 65,535 unknown", &[0, 7, 9], &[0, LAST, 9]);
    accepted(cases, "names alike in their low bytes", &[1, 257, 513], &[513, 1, 257]);
    refused_in_global(cases, "unknown, alike in its low byte", &[1, 257, 513], &[1, 257, 769]);
    accepted(cases, "names alike in their high bytes", &[513, 514, 515], &[514, 513, 515]);
    refused_in_global(cases, "unknown, alike in its high byte", &[513, 514, 515], &[514, 516, 515]);
}

/// D5: no literal fits a struct that declares a name twice.
fn declared_twice(cases: &mut Cases) {
    let fields: [[u16; 4]; 8] = [
        [2, 2, 6, 8],
        [2, 4, 6, 2],
        [2, 4, 8, 8],
        [2, 4, 6, 4],
        [8, 8, 4, 2],
        [8, 6, 4, 8],
        [8, 6, 2, 2],
        [8, 6, 4, 6],
    ];
    for fields in fields {
        refused_in_global(cases, "D5 named as declared", &fields, &fields);
        let mut names = fields;
        names.rotate_left(1);
        refused_in_global(cases, "D5 in another order", &fields, &names);
        names.sort_unstable();
        let mut once = names.to_vec();
        once.dedup();
        refused_in_global(cases, "D5 each name once", &fields, &once);
    }
    refused_in_global(cases, "D5 each name once, and an unknown one", &[2, 4, 6, 4], &[2, 4, 6, 8]);
    refused_in_global(cases, "D5 one name for all", &[4, 4, 4], &[4, 4, 4]);
    put(cases, [7, 2, 0], "D5 a body is not reached", in_body(&[2, 4, 2], &[2, 4, 2]));
    let mut fields = forty();
    fields[39] = 100;
    refused_in_global(cases, "D5 the first and last of forty", &fields, &fields);
}

/// E10: the names of literals within a literal's values are not its own. A has
/// p and dry of A?, and wet.
fn nested(cases: &mut Cases) {
    let a = |p, dry| record(A, vec![(P, p), (DRY, dry), (WET, int(1))]);
    let nil = || null(A_NULL);
    let leaf = || a(nil(), nil());
    let mut recursive = bare();
    recursive.declare(1, &[[P, A_NULL], [DRY, A_NULL], [WET, INT]]);
    let mut both = |global_answer, body_answer, name, e: Tree| {
        put(cases, global_answer, name, recursive.clone().with([global(G, e.clone())]));
        put(cases, body_answer, name, recursive.clone().with([func(F, TO_VOID, &[], vec![var(X, e), done()])]));
    };
    let mut outer = |name, fields| both([12, 1, 1], [12, 3, 3], name, record(A, fields));
    outer("E10 an inner one has the missing name", vec![(P, leaf()), (P, nil()), (WET, int(1))]);
    outer("E10 the last one has it", vec![(WET, int(1)), (P, nil()), (P, leaf())]);
    outer("E10 one name, an inner one has all", vec![(P, leaf())]);
    outer("E10 an inner one completes the names", vec![(P, record(A, vec![(DRY, nil()), (WET, int(1))]))]);
    outer("E10 an unknown name beside an inner one", vec![(P, leaf()), (DRY, leaf()), (77, int(1))]);
    both([0, 3, 0], [0, 4, 0], "inner ones have the same names", a(leaf(), leaf()));
    let deep = (0..12).fold(leaf(), |e, _| record(A, vec![(WET, int(1)), (DRY, e), (P, nil())]));
    let first = record(A, vec![(DRY, deep), (WET, int(1)), (P, leaf())]);
    both([0, 3, 0], [0, 4, 0], "a deep value first, names in another order", first);
    let twice = || record(A, vec![(P, nil()), (DRY, nil()), (P, nil())]);
    both([12, 1, 3], [12, 3, 5], "E10 the first value names a field twice", a(twice(), nil()));
    both([12, 1, 5], [12, 3, 7], "E10 the second value does", a(nil(), twice()));
    let mut p = bare();
    p.declare(1, &[[P, INT], [DRY, INT]]);
    p.declare(2, &[[P, AS], [WET, INT], [DRY, A]]);
    let a = || literal(&[DRY, P]);
    let b = record(B, vec![(DRY, a()), (P, list(AS, vec![a(), a()])), (WET, int(1))]);
    put(cases, [0, 5, 0], "inner ones of another struct, in an array too", p.with([global(G, b)]));
}

/// As many names as fields, refused where functions, globals, parameters and
/// vars are bound.
fn bound(cases: &mut Cases) {
    let p = || declaring(&UP);
    let bad = || literal(&[8, 2, 4, 2]);
    let plain = |x| func(x, TO_VOID, &[], vec![done()]);
    let one = |x| global(x, int(1));
    put(cases, [12, 3, 6], "a global and a function before", p().with([one(G), plain(F), global(H, bad()), one(K)]));
    put(
        cases,
        [12, 5, 11],
        "two globals and two functions before",
        p().with([plain(F), one(G), one(H), plain(K), global(31, bad()), one(32)]),
    );
    let f = |t, parameters: &[u16], body| func(F, t, parameters, body);
    let body = vec![var(I, int(1)), var(K, bad()), done()];
    put(cases, [12, 3, 7], "two parameters and a var before", p().with([f(INT_INT_TO_VOID, &[X, Z], body)]));
    let body = vec![var(I, name(X)), var(K, name(Z)), run(name(F), vec![name(I), bad()]), done()];
    put(cases, [12, 3, 11], "two parameters and two vars before", p().with([f(AA_TO_VOID, &[X, Z], body)]));
    let body = vec![var(Z, int(1)), var(I, name(X)), var(K, bad()), ret(int(1))];
    put(
        cases,
        [12, 5, 10],
        "two functions, a global, a parameter and two vars",
        p().with([one(G), f(INT_TO_INT, &[X], body), plain(H)]),
    );
    let vars = (40..45).map(|x| var(x, int(1)));
    let body = vars.chain([var(50, literal(&[2, 4, 6, 7])), ret(int(1))]).collect();
    put(
        cases,
        [12, 7, 14],
        "three functions, two globals, a parameter and five vars",
        p().with([f(INT_TO_INT, &[X], body), one(G), plain(H), plain(K), one(31)]),
    );
}
