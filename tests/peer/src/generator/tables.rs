//! Type tables: structs with common prefixes, equal types under several
//! numbers, undeclared structs.

use super::rng::Rng;
use crate::program::Program;

/// The struct name that well-typed programs never declare.
pub const UNDECLARED: u16 = 77;

/// Parts stay far below 200, so that every type can be built.
const SMALL: usize = 30;

/// The number of parts of each type.
fn parts(p: &Program, t: u16) -> usize {
    let [kind, a, ..] = p.types[t as usize];
    match kind {
        0..=4 => 1,
        6 => 1 + parts(p, a) + p.parameters(t).iter().map(|&q| parts(p, q)).sum::<usize>(),
        _ => 1 + parts(p, a),
    }
}

/// A type that may stand as a parameter, element or field.
fn any(rng: &mut Rng, p: &Program) -> u16 {
    loop {
        let t = rng.below(p.types.len()) as u16;
        if t != 3 && parts(p, t) < SMALL {
            return t;
        }
    }
}

/// A type of kind 2, 4, 5 or 6.
fn reference(rng: &mut Rng, p: &Program) -> u16 {
    loop {
        let t = any(rng, p);
        if [2, 4, 5, 6].contains(&p.types[t as usize][0]) {
            return t;
        }
    }
}

/// Adds one random type.
pub fn grow(rng: &mut Rng, p: &mut Program) {
    match rng.below(10) {
        0..=2 => {
            let element = any(rng, p);
            p.array(element);
        }
        3..=5 => {
            let inside = reference(rng, p);
            p.nullable(inside);
        }
        6..=8 => {
            let result = if rng.chance(40) { 3 } else { any(rng, p) };
            let parameters: Vec<u16> = (0..rng.below(4)).map(|_| any(rng, p)).collect();
            p.function(result, &parameters);
        }
        _ => again(rng, p),
    }
}

/// Adds an equal type under a new number.
fn again(rng: &mut Rng, p: &mut Program) {
    let t = reference(rng, p);
    match p.types[t as usize] {
        [4, name, ..] => p.struct_type(name),
        [5, element, ..] => p.array(element),
        [6, result, ..] => {
            let parameters = p.parameters(t).to_vec();
            p.function(result, &parameters)
        }
        _ => p.nullable(2),
    };
}

/// Declares structs of the given names; many begin with another one's fields.
pub fn declare(
    rng: &mut Rng,
    p: &mut Program,
    names: &[u16],
    mut field_type: impl FnMut(&mut Rng, &Program, usize) -> u16,
) {
    for (i, &name) in names.iter().enumerate() {
        let mut fields: Vec<[u16; 2]> = Vec::new();
        if i > 0 && rng.chance(60) {
            fields = p.fields_of(rng.below(i)).to_vec();
            if rng.chance(25) {
                fields.truncate(rng.below(fields.len() + 1));
            }
        }
        for _ in 0..rng.below(4) {
            let x = fields.len() as u16 + 10 * u16::from(rng.chance(10));
            let t = field_type(rng, p, i);
            if fields.iter().all(|f| f[0] != x) {
                fields.push([x, t]);
            }
        }
        p.declare(name, &fields);
    }
}

/// A table for the subtype question: structs undeclared and declared twice too.
pub fn rich(rng: &mut Rng) -> Program {
    let mut p = Program::new();
    let names: Vec<u16> = (0..2 + rng.below(4) as u16).collect();
    for &name in &names {
        p.struct_type(name);
    }
    p.struct_type(UNDECLARED);
    for _ in 0..8 + rng.below(18) {
        grow(rng, &mut p);
    }
    let mut declared: Vec<u16> = names.iter().copied().filter(|_| !rng.chance(10)).collect();
    if rng.chance(30) {
        declared.extend(rng.pick(&names));
    }
    declare(rng, &mut p, &declared, |rng, p, _| any(rng, p));
    if rng.chance(50) {
        change_field(rng, &mut p);
    }
    p
}

/// Changes one field's name or type, so that a prefix may be lost.
fn change_field(rng: &mut Rng, p: &mut Program) {
    if p.fields.is_empty() {
        return;
    }
    let i = rng.below(p.fields.len());
    if rng.chance(50) {
        p.fields[i][0] = rng.below(6) as u16;
    } else {
        p.fields[i][1] = any(rng, p);
    }
}
