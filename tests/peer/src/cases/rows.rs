//! Accepted programs whose rows the readings R1 to R5, M1 and E17 are about.

use super::*;
use crate::program::*;

const NAME: u16 = 30;
const ALIAS: u16 = 31;
const K: u16 = 32;

/// Every node kind: three globals, a built-in and two functions.
pub fn every_kind() -> Program {
    let mut p = pans();
    p.builtins.push([H, INT_BOOL_TO_VOID]);
    let b = record(B, vec![(WET, int(1)), (P, int(2)), (DRY, int(3))]);
    p.with([
        global(G, list(A_NULLS, vec![null(A_NULL), b])),
        global(NAME, text(7)),
        global(ALIAS, name(G)),
        func(F, A_TO_INTS, &[X], every_statement()),
        func(K, TO_VOID, &[], vec![done()]),
    ])
}

fn every_statement() -> Vec<Tree> {
    vec![
        var(I, blank(INTS_AGAIN, int(3))),
        set(index(name(I), int(0)), unary(0, field(name(X), P))),
        set(field(name(X), DRY), length(name(I))),
        run(name(H), vec![int(1), binary(13, tru(), fls())]),
        when(binary(10, name(G), name(G)), vec![ret(call(name(F), vec![name(X)]))], vec![]),
        when_null(Z, A, index(name(G), int(0)), vec![set(name(X), name(Z))], vec![]),
        repeat(vec![var(Z, int(0))], absent(), absent(), vec![set(name(Z), binary(1, name(Z), int(1)))]),
        during(fls(), vec![]),
        ret(fill(INTS, Z, int(5), name(Z))),
    ]
}

/// R1: a call gives the number in the callee's type.
pub fn called() -> Program {
    only(TO_INTS, vec![ret(call(name(F), vec![]))])
}

/// R1: an element gives the number in the array's type, here type 40.
pub fn element() -> Program {
    let mut p = bare();
    let nested = p.array(INTS_AGAIN);
    p.with([func(F, TO_INTS, &[], vec![ret(index(list(nested, vec![]), int(0)))])])
}

/// R1: a field gives the number in its record.
pub fn projected() -> Program {
    let mut p = bare();
    p.declare(1, &[[P, INTS_AGAIN]]);
    let value = record(A, vec![(P, list(INTS, vec![]))]);
    p.with([func(F, TO_INTS, &[], vec![ret(field(value, P))])])
}

/// R4: a parameter has the number in the type list.
pub fn parameter() -> Program {
    bare().with([func(F, INTS_TO_INTS, &[X], vec![ret(name(X))])])
}

/// R3, E17: an if? name has the if?'s t, null its own.
pub fn null_test() -> Program {
    let test = when_null(X, A_AGAIN, null(B_NULL), vec![set(name(X), name(X))], vec![]);
    pan(TO_VOID, &[], vec![test, done()])
}
