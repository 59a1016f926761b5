//! Files about the names of struct literals: structs of few and of many fields,
//! literals in globals and bodies, one within another, named in any order, with
//! a small change of the names or of what is declared.

use super::misses::edit;
use super::rng::Rng;
use crate::program::*;

const FIRST_STRUCT: u16 = 4;

/// Names at the ends, and names alike in one byte.
const SPECIAL: [u16; 12] = [0, 1, 2, 255, 256, 257, 511, 512, 513, 65_279, 65_534, 65_535];

/// One file.
pub fn file(rng: &mut Rng) -> Vec<u8> {
    let mut p = table(rng);
    let body_type = p.types.len() as u16 - 1 - rng.below(3) as u16;
    let parameters: Vec<u16> = (20..20 + p.parameters(body_type).len() as u16).collect();
    let mut body: Vec<Tree> = (30..30 + rng.below(4) as u16).map(|x| var(x, value(rng, &p))).collect();
    body.push(done());
    let mut declarations = vec![func(10, body_type, &parameters, body)];
    declarations.extend((40..40 + rng.below(4) as u16).map(|x| global(x, value(rng, &p))));
    if rng.chance(30) {
        declarations.push(func(11, p.types.len() as u16 - 3, &[], vec![done()]));
    }
    rng.shuffle(&mut declarations);
    p.declarations = declarations;
    match rng.below(10) {
        0..=2 => {}
        3..=8 => rename(rng, &mut p),
        _ => {
            rename(rng, &mut p);
            rename(rng, &mut p);
        }
    }
    p.bytes()
}

/// Struct types, their nullables, functions of no, one and two ints to void;
/// some structs declare a name twice.
fn table(rng: &mut Rng) -> Program {
    let mut p = Program::new();
    let structs = 1 + rng.below(3) as u16;
    for s in 0..structs {
        p.struct_type(s);
    }
    for s in 0..structs {
        p.nullable(FIRST_STRUCT + s);
    }
    for count in 0..3 {
        p.function(VOID, &vec![INT; count]);
    }
    for s in 0..structs {
        let names = field_names(rng);
        let plain = names.len() > 8;
        let mut fields: Vec<[u16; 2]> = names.into_iter().map(|x| [x, field_type(rng, plain, structs, s)]).collect();
        if fields.len() > 1 && rng.chance(12) {
            let (i, j) = (rng.below(fields.len()), rng.below(fields.len()));
            fields[i] = fields[j];
        }
        p.declare(s, &fields);
    }
    p
}

/// Distinct names in ascending, descending or any order.
fn field_names(rng: &mut Rng) -> Vec<u16> {
    let count = if rng.chance(10) { 20 + rng.below(40) } else { rng.below(7) };
    let mut names: Vec<u16> = if rng.chance(30) && count <= SPECIAL.len() {
        SPECIAL.to_vec()
    } else {
        (0..count as u16 + 4).map(|i| 3 * i).collect()
    };
    rng.shuffle(&mut names);
    names.truncate(count);
    match rng.below(4) {
        0 => names.sort_unstable(),
        1 => names.sort_unstable_by(|a, b| b.cmp(a)),
        _ => {}
    }
    names
}

/// Int, bool or string; in a small struct also an earlier one, or any nullable.
fn field_type(rng: &mut Rng, plain: bool, structs: u16, s: u16) -> u16 {
    match rng.below(8) {
        0 if !plain && s > 0 => FIRST_STRUCT + rng.below(s as usize) as u16,
        1 | 2 if !plain => FIRST_STRUCT + structs + rng.below(structs as usize) as u16,
        3 => 1,
        4 => 2,
        _ => INT,
    }
}

/// A literal of some struct, rarely an int.
fn value(rng: &mut Rng, p: &Program) -> Tree {
    if rng.chance(15) {
        return int(1);
    }
    let s = rng.below(p.structs.len()) as u16;
    literal(rng, p, s, 3)
}

/// A literal with every field, in the declared order or another.
fn literal(rng: &mut Rng, p: &Program, s: u16, depth: usize) -> Tree {
    let mut fields = p.fields_of(s as usize).to_vec();
    match rng.below(5) {
        0 => {}
        1 => fields.reverse(),
        2 if fields.len() > 1 => fields.rotate_left(1),
        _ => rng.shuffle(&mut fields),
    }
    let values = fields.into_iter().map(|[x, t]| (x, field_value(rng, p, t, depth))).collect();
    record(FIRST_STRUCT + s, values)
}

/// A nullable field is null at the end of a chain.
fn field_value(rng: &mut Rng, p: &Program, t: u16, depth: usize) -> Tree {
    match p.types[t as usize] {
        [4, s, ..] => literal(rng, p, s, depth.saturating_sub(1)),
        [7, inside, ..] if depth > 0 && rng.chance(40) && p.fields_of((inside - FIRST_STRUCT) as usize).len() < 8 => {
            literal(rng, p, inside - FIRST_STRUCT, depth - 1)
        }
        [7, ..] => null(t),
        [1, ..] => fls(),
        [2, ..] => text(1),
        _ => int(1),
    }
}

/// Changes the names of one literal: a name is another's, unknown, left out or
/// one too many, two are swapped, or all are one.
fn rename(rng: &mut Rng, p: &mut Program) {
    let is_literal = |t: &Tree| t.kind == 21 && !t.kids.is_empty();
    edit(rng, p, is_literal, |rng, t| {
        let (i, j) = (rng.below(t.kids.len()), rng.below(t.kids.len()));
        let x = t.kids[i].x;
        let near = [x.wrapping_add(1), x.wrapping_sub(1), x ^ 256, 65_535][rng.below(4)];
        match rng.below(10) {
            0..=3 => t.kids[j].x = x,
            4 | 5 => t.kids[i].x = near,
            6 => {
                t.kids.remove(i);
            }
            7 => {
                let mut again = t.kids[i].clone();
                again.x = if rng.chance(50) { x } else { near };
                t.kids.insert(j, again);
            }
            8 => {
                t.kids[i].x = t.kids[j].x;
                t.kids[j].x = x;
            }
            _ => t.kids.iter_mut().for_each(|kid| kid.x = x),
        }
    });
}
