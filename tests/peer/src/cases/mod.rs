//! Cases written by hand: each rule of document 01 with a file on each side of
//! it, each reading with its program, each Pan case. A case's name begins with
//! the number of the reading it shows, if it shows one.

mod endless;
mod levels;
mod limits;
mod names;
mod pages;
mod pairs;
mod reading;
pub mod rows;
mod subtyping;
mod tallies;
mod typing;

pub use endless::{Marked, endless};
pub use levels::{Resolved, levels};
pub use limits::{LimitCase, limits};
pub use names::names;
pub use pages::{PageCase, Told, pages};
pub use pairs::{Counted, Summed, counted, summed};
pub use reading::reading;
pub use subtyping::{Question, subtyping};
pub use tallies::{TallyCase, tallies};
pub use typing::typing;

pub use crate::program::{BOOL, INT, STRING, VOID};
use crate::program::{Program, Tree, func};

/// A file with the answer that the check gives.
pub struct Case {
    pub name: &'static str,
    pub file: Vec<u8>,
    pub answer: [u16; 3],
}

/// Readable files with their answers, all of them.
pub fn checked() -> Vec<Case> {
    let marked = endless().into_iter().map(|m| m.case);
    let resolved = levels().into_iter().map(|r| r.case);
    let with_sums = summed().into_iter().map(|s| s.case);
    typing().into_iter().chain(names()).chain(marked).chain(resolved).chain(with_sums).collect()
}

/// Types of the usual table, after the base types.
pub const A: u16 = 4;
pub const B: u16 = 5;
pub const C: u16 = 6;
pub const A_NULL: u16 = 7;
pub const B_NULL: u16 = 8;
pub const AS: u16 = 9;
pub const BS: u16 = 10;
pub const INTS: u16 = 11;
pub const TO_VOID: u16 = 12;
pub const TO_INT: u16 = 13;
pub const INT_TO_INT: u16 = 14;
pub const Q: u16 = 15;
pub const Q_NULL: u16 = 16;
pub const QS: u16 = 17;
pub const Q_TO_VOID: u16 = 18;
pub const STRING_NULL: u16 = 19;
pub const STRINGS: u16 = 20;
pub const INTS_AGAIN: u16 = 21;
pub const A_AGAIN: u16 = 22;
pub const A_NULLS: u16 = 23;
pub const INTS_NULL: u16 = 24;
pub const A_TO_B: u16 = 25;
pub const B_TO_A: u16 = 26;
pub const BOOLS: u16 = 27;
pub const INT_BOOL_TO_VOID: u16 = 28;
pub const INTSS: u16 = 29;
pub const TO_INT_NULL: u16 = 30;
pub const TO_Q: u16 = 31;
pub const QS_TO_QS: u16 = 32;
pub const QS_NULL: u16 = 33;
pub const TO_INTS: u16 = 34;
pub const INTS_TO_INTS: u16 = 35;
pub const A_TO_INTS: u16 = 36;
pub const A_NULL_TO_VOID: u16 = 37;
pub const INT_INT_TO_VOID: u16 = 38;
pub const AA_TO_VOID: u16 = 39;

/// Names. `Y` is bound nowhere.
pub const F: u16 = 10;
pub const G: u16 = 11;
pub const H: u16 = 12;
pub const X: u16 = 20;
pub const Z: u16 = 21;
pub const I: u16 = 22;
pub const Y: u16 = 99;
/// Fields.
pub const P: u16 = 1;
pub const DRY: u16 = 2;
pub const WET: u16 = 3;

/// The usual types without any struct declared: A, B, C and Q are unknown.
pub fn bare() -> Program {
    let mut p = Program::new();
    for name in [1, 2, 3] {
        p.struct_type(name);
    }
    p.nullable(A);
    p.nullable(B);
    p.array(A);
    p.array(B);
    p.array(INT);
    p.function(VOID, &[]);
    p.function(INT, &[]);
    p.function(INT, &[INT]);
    p.struct_type(9);
    p.nullable(Q);
    p.array(Q);
    p.function(VOID, &[Q]);
    p.nullable(STRING);
    p.array(STRING);
    p.array(INT);
    p.struct_type(1);
    p.array(A_NULL);
    p.nullable(INTS);
    p.function(B, &[A]);
    p.function(A, &[B]);
    p.array(BOOL);
    p.function(VOID, &[INT, BOOL]);
    p.array(INTS);
    p.nullable(TO_INT);
    p.function(Q, &[]);
    p.function(QS, &[QS]);
    p.nullable(QS);
    p.function(INTS_AGAIN, &[]);
    p.function(INTS_AGAIN, &[INTS_AGAIN]);
    p.function(INTS, &[A_AGAIN]);
    p.function(VOID, &[A_NULL]);
    p.function(VOID, &[INT, INT]);
    p.function(VOID, &[A, A]);
    p
}

/// The usual types with the pans A{p, dry}, B{p, dry, wet}, C{p, wet}.
pub fn pans() -> Program {
    let mut p = bare();
    p.declare(1, &[[P, INT], [DRY, INT]]);
    p.declare(2, &[[P, INT], [DRY, INT], [WET, INT]]);
    p.declare(3, &[[P, INT], [WET, INT]]);
    p
}

/// The one function `f` of a type without parameters, no struct declared:
/// heading step 0, body step 1, first statement node 2.
pub fn only(t: u16, body: Vec<Tree>) -> Program {
    bare().with([func(F, t, &[], body)])
}

/// `f` among the pans: heading step 3, body step 7.
pub fn pan(t: u16, parameters: &[u16], body: Vec<Tree>) -> Program {
    pans().with([func(F, t, parameters, body)])
}

/// The one function `f` of type 4, in a file whose type 5 is string[].
fn function_of(result: u16, body: Vec<Tree>) -> Vec<u8> {
    let mut p = Program::new();
    let f = p.function(result, &[]);
    p.array(STRING);
    p.with([func(F, f, &[], body)]).bytes()
}
