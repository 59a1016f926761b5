//! Damaged files for the numbers 1 to 5.

use super::rng::Rng;
use crate::program::*;

/// The file of a program with damage that may lead to the number.
pub fn damaged(rng: &mut Rng, mut p: Program, wanted: u16) -> Vec<u8> {
    match wanted {
        3 => types(rng, &mut p),
        4 => records(rng, &mut p),
        5 => nodes(rng, &mut p),
        _ => {}
    }
    let mut bytes = p.bytes();
    match wanted {
        1 if rng.chance(70) => bytes.truncate(rng.below(bytes.len())),
        1 => bytes.extend((0..1 + rng.below(4)).map(|i| i as u8)),
        2 => count(rng, &p, &mut bytes),
        _ => {}
    }
    bytes
}

/// A number near another, or any.
fn other(rng: &mut Rng, number: u16) -> u16 {
    match rng.below(6) {
        0 => number.wrapping_add(1),
        1 => number.wrapping_sub(1),
        2 => 0,
        3 => 65535,
        4 => rng.below(12) as u16,
        _ => rng.below(1 << 16) as u16,
    }
}

/// Too large a count in some section.
fn count(rng: &mut Rng, p: &Program, bytes: &mut [u8]) {
    let sizes = [8 * p.types.len(), 2 * p.list.len(), 4 * p.fields.len(), 6 * p.structs.len(), 4 * p.builtins.len()];
    let section = rng.below(6);
    let place = 2 * section + sizes[..section].iter().sum::<usize>();
    let most = [512, 1024, 1024, 256, 128, 4096][section];
    let number: u16 = if rng.chance(50) { most + 1 } else { most + rng.below(60000) as u16 };
    bytes[place..place + 2].copy_from_slice(&number.to_le_bytes());
}

fn types(rng: &mut Rng, p: &mut Program) {
    let i = rng.below(p.types.len());
    let k = rng.below(4);
    match rng.below(8) {
        0 if !p.list.is_empty() => {
            let i = rng.below(p.list.len());
            p.list[i] = if rng.chance(40) { 3 } else { other(rng, p.list[i]) };
        }
        1 => p.list.push(0),
        2 => {
            p.list.pop();
        }
        3 => p.types.truncate(rng.below(4)),
        4 => p.types.push([rng.below(10) as u16, rng.below(p.types.len() + 2) as u16, 0, 0]),
        5 => {
            let count = 190 + rng.below(20) as u16;
            let result = rng.below(4) as u16;
            p.function(result, &vec![0; count as usize]);
        }
        _ => p.types[i][k] = other(rng, p.types[i][k]),
    }
}

fn records(rng: &mut Rng, p: &mut Program) {
    match rng.below(7) {
        0 if !p.fields.is_empty() => {
            let i = rng.below(p.fields.len());
            p.fields[i][1] = if rng.chance(50) { 3 } else { other(rng, p.types.len() as u16) };
        }
        1 => p.fields.push([1, 0]),
        2 => {
            p.fields.pop();
        }
        3 => p.builtins.push([500, rng.below(p.types.len() + 2) as u16]),
        4 => p.structs.push([500, p.fields.len() as u16 + 1, 0]),
        _ => {
            let i = rng.below(p.structs.len());
            let k = 1 + rng.below(2);
            p.structs[i][k] = other(rng, p.structs[i][k]);
        }
    }
}

fn nodes(rng: &mut Rng, p: &mut Program) {
    if p.declarations.is_empty() {
        return;
    }
    let d = rng.below(p.declarations.len());
    let tree = random_node(rng, &mut p.declarations[d]);
    match rng.below(9) {
        0 => tree.x = other(rng, tree.x),
        1 => tree.t = other(rng, tree.t),
        2 => tree.kind = rng.below(42) as u16,
        3 => tree.kind = other(rng, tree.kind),
        4 => tree.kids.push(int(1)),
        5 => {
            tree.kids.pop();
        }
        6 => {
            let kid = random_node(rng, tree).clone();
            tree.kids.push(kid);
        }
        7 if !tree.kids.is_empty() => {
            let i = rng.below(tree.kids.len());
            tree.kids[i] = [absent(), block(vec![]), done(), node(22, 1, 0, vec![int(1)])][rng.below(4)].clone();
        }
        _ => {
            let times = 85 + rng.below(20);
            let deep = (0..times).fold(int(1), |t, _| unary(0, t));
            if matches!(tree.kind, 10..=15) {
                *tree = deep;
            }
        }
    }
}

/// Some node of a tree, the root or one below.
fn random_node<'t>(rng: &mut Rng, tree: &'t mut Tree) -> &'t mut Tree {
    if tree.kids.is_empty() || rng.chance(20) {
        return tree;
    }
    let i = rng.below(tree.kids.len());
    random_node(rng, &mut tree.kids[i])
}
