//! Files of the largest sizes.

use super::rng::Rng;
use crate::program::*;

const NAMES: u16 = 2000;

/// A large file; sometimes with an unknown name.
pub fn file(rng: &mut Rng, wanted: u16) -> Vec<u8> {
    let mut p = match rng.below(4) {
        0 => full(),
        1 => deep(rng.below(3)),
        2 => wide(rng),
        _ => record_of_all(rng),
    };
    if wanted == 8 {
        p.declarations.pop();
        p.declarations.push(global(9999, name(10_000)));
    }
    p.bytes()
}

/// One accepted file of each sort.
pub fn each() -> [Vec<u8>; 4] {
    let mut rng = Rng::new(1);
    [full(), deep(2), wide(&mut rng), record_of_all(&mut rng)].map(|p| p.bytes())
}

/// All sections at their most, 45,068 bytes, and accepted.
fn full() -> Program {
    let mut p = Program::new();
    for _ in 0..128 {
        p.function(0, &[0, 1, 2, 0, 1, 2, 0, 1]);
    }
    for i in 0..256 {
        p.struct_type(i);
    }
    while p.types.len() < 512 {
        p.array(p.types.len() as u16 - 200);
    }
    for i in 0..256 {
        p.declare(i, &[[0, 0], [1, 1], [2, 132 + i], [3, 4]]);
    }
    p.builtins = (0..128).map(|i| [i, 4 + i]).collect();
    p.with((0..2048).map(|i| global(NAMES + i, int(i))))
}

/// A body of depth 98 and so many more, with names of every level in scope.
fn deep(more: usize) -> Program {
    let mut p = Program::new();
    let f = p.function(0, &[0]);
    let x = |i: u16| NAMES + i;
    let mut body = vec![var(x(1000), (0..more).fold(name(1), |t, _| unary(0, t)))];
    for i in 0..47 {
        let value = if i == 46 { name(1) } else { name(x(i + 1)) };
        body = vec![var(x(i), value), during(tru(), body)];
    }
    body.push(ret(name(1)));
    p.with([func(1, f, &[1], body)])
}

/// A body of many vars, each seeing the one before, and 4,096 nodes.
fn wide(rng: &mut Rng) -> Program {
    let mut p = Program::new();
    let f = p.function(0, &[]);
    let mut body: Vec<Tree> = Vec::new();
    for i in 0..1363 {
        let value = if i == 0 { int(0) } else { name(NAMES + rng.below(i as usize) as u16) };
        body.push(var(NAMES + i, unary(0, value)));
    }
    body.push(during(tru(), vec![]));
    body.push(ret(int(1)));
    p.with([func(1, f, &[], body)])
}

/// A struct of 1,024 fields and a literal that names them in any order.
fn record_of_all(rng: &mut Rng) -> Program {
    let mut p = Program::new();
    let s = p.struct_type(1);
    let mut fields: Vec<[u16; 2]> = (0..1024).map(|i| [i, i % 3]).collect();
    p.declare(1, &fields);
    rng.shuffle(&mut fields);
    let value = |t| [int(1), tru(), text(1)][t as usize].clone();
    p.with([global(1, record(s, fields.into_iter().map(|[x, t]| (x, value(t))).collect()))])
}
