//! Document 02, request (v): zero bytes mean types 0 to 3 and nothing else.

use crate::file::{File, sections};
use crate::mutants::{Exact, Mutant, Mutant::*, Rules};

/// The 44 bytes of types 0 to 3 and nothing else: the count 4, the kinds 1 to 3, else zeros.
const FOUR_TYPES: [u8; 44] = zeros_but([(0, 4), (10, 1), (18, 2), (26, 3)]);

/// Only for mutants: a fifth type int[]; a struct without fields; document 01's example.
const FIVE_TYPES: [u8; 52] = zeros_but([(0, 5), (10, 1), (18, 2), (26, 3), (34, 5)]);
const A_STRUCT: [u8; 50] = zeros_but([(0, 4), (10, 1), (18, 2), (26, 3), (38, 1)]);
const A_GLOBAL: [u8; 60] = zeros_but([(0, 4), (10, 1), (18, 2), (26, 3), (42, 2), (44, 1), (46, 5), (50, 1), (52, 11)]);

/// Zeros, but for some bytes, each with its place.
const fn zeros_but<const N: usize, const M: usize>(some: [(usize, u8); M]) -> [u8; N] {
    let mut bytes = [0; N];
    let mut i = 0;
    while i < M {
        let (place, byte) = some[i];
        bytes[place] = byte;
        i += 1;
    }
    bytes
}

/// What the bytes of a file mean: themselves, unless there are none.
#[inline(always)]
pub fn meant<R: Rules>(bytes: &[u8], rules: R) -> &[u8] {
    match rules.mutant() {
        Some(mutant) => meant_under(bytes, mutant),
        None if bytes.is_empty() => &FOUR_TYPES,
        None => bytes,
    }
}

/// What they mean under a mutant.
fn meant_under(bytes: &[u8], mutant: Mutant) -> &[u8] {
    let taken_for_empty = match mutant {
        OneByteIsEmpty => bytes.len() == 1,
        ZeroByteIsEmpty => bytes == [0],
        ZerosAreEmpty => bytes.iter().all(|&b| b == 0),
        ZeroCountsAreEmpty => bytes == [0; 12],
        WrongLengthIsEmpty => matches!(sections(bytes, Exact), Err(1)),
        _ => false,
    };
    match mutant {
        _ if !bytes.is_empty() && !taken_for_empty => bytes,
        EmptyIsOne => bytes,
        EmptyIsThree => &[0; 12],
        EmptyHasFiveTypes => &FIVE_TYPES,
        EmptyHasStruct => &A_STRUCT,
        EmptyHasGlobal => &A_GLOBAL,
        _ => &FOUR_TYPES,
    }
}

/// Only under a mutant: zero bytes, once read, have fewer types.
#[inline(always)]
pub fn with_types<'a, R: Rules>(bytes: &[u8], file: File<'a>, rules: R) -> File<'a> {
    let types = match rules.mutant() {
        Some(EmptyHasNoTypes) if bytes.is_empty() => &[],
        Some(EmptyHasThreeTypes) if bytes.is_empty() => &file.types[..3],
        _ => file.types,
    };
    File { types, ..file }
}
