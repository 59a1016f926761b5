//! Near misses: a well-typed program with one to three small changes, so that
//! a premise fails, or two fail and their order shows.

use super::rng::Rng;
use super::tables::UNDECLARED;
use crate::program::*;

/// A name that is bound nowhere.
const UNBOUND: u16 = 999;

/// A file that may have the number asked for.
pub fn near(rng: &mut Rng, mut p: Program, wanted: u16) -> Vec<u8> {
    if rng.chance(30) {
        pair(rng, &mut p);
        return p.bytes();
    }
    let changes = [1, 1, 1, 2, 2, 3][rng.below(6)];
    for i in 0..changes {
        let number = if i == 0 { wanted } else { 7 + rng.below(10) as u16 };
        change(rng, &mut p, number);
    }
    p.bytes()
}

/// One change that often leads to the number.
fn change(rng: &mut Rng, p: &mut Program, number: u16) {
    match number {
        7 => bind_twice(rng, p),
        8 => unknown(rng, p),
        9 => undeclared(rng, p),
        12 => mismatch(rng, p),
        13 => void_against_value(rng, p),
        14 => mark(rng, p),
        15 => assign_function(rng, p),
        10 if rng.chance(30) => wrong_sort(rng, p),
        10 | 11 if rng.chance(20) => nullable_for_inside(rng, p),
        _ if rng.chance(50) => other_value(rng, p),
        _ => faulty(rng, p, number),
    }
}

/// Two faults at one node, so that the order of its premises shows.
fn pair(rng: &mut Rng, p: &mut Program) {
    let all = names(p);
    let x = rng.pick(&all).unwrap_or(UNBOUND);
    let arrays: Vec<u16> = (0..p.types.len() as u16).filter(|&t| p.types[t as usize][0] == 5).collect();
    let bad = small_fault(rng, p);
    match rng.below(8) {
        0..=3 => edit(
            rng,
            p,
            |t| t.kids.len() > 1 && matches!(t.kind, 16..=30 | 34),
            |rng, t| {
                let last = t.kids.len() - 1;
                let first = rng.below(last);
                *value_of(&mut t.kids[first]) = [int(1), tru(), text(1)][rng.below(3)].clone();
                *value_of(&mut t.kids[last]) = bad;
            },
        ),
        4 => edit(
            rng,
            p,
            |t| matches!(t.kind, 1 | 18 | 31),
            |_, t| {
                t.x = x;
                t.kids[0] = bad;
            },
        ),
        5 => edit(
            rng,
            p,
            |t| t.kind == 17,
            |rng, t| {
                t.t = rng.pick(&arrays).unwrap_or(t.t);
                t.kids[0] = bad;
            },
        ),
        6 => doubled_and_undeclared(rng, p, x),
        _ => {
            void_against_value(rng, p);
            mismatch(rng, p);
        }
    }
}

/// A record or heading with a doubled name and an undeclared struct.
fn doubled_and_undeclared(rng: &mut Rng, p: &mut Program, x: u16) {
    let functions = undeclared_types(p, 6);
    match rng.below(3) {
        0 => {
            heading_undeclared(rng, p, &functions);
            edit(rng, p, |t| t.kind == 2 && functions.contains(&t.t), |_, t| t.x = x);
        }
        1 => {
            let again = p.builtins.last().map_or(1, |b| b[0]);
            p.builtins.push([again, rng.pick(&functions).unwrap_or(0)]);
        }
        _ => {
            let types = [undeclared_types(p, 4), undeclared_types(p, 5)].concat();
            double(rng, &mut p.fields);
            if !p.fields.is_empty() {
                let i = rng.below(p.fields.len());
                p.fields[i][1] = rng.pick(&types).unwrap_or(0);
            }
        }
    }
}

/// A nullable where its inside is asked for, or under `==`.
fn nullable_for_inside(rng: &mut Rng, p: &mut Program) {
    let nullables: Vec<[u16; 2]> = (0..p.types.len() as u16)
        .filter(|&t| p.types[t as usize][0] == 7)
        .map(|t| [t, p.types[p.types[t as usize][1] as usize][0]])
        .collect();
    edit(
        rng,
        p,
        |t| matches!(t.kind, 19 | 20 | 23 | 24) || t.kind == 26 && matches!(t.x, 10 | 11),
        |rng, t| {
            let inside = match t.kind {
                19 | 20 => 5,
                23 => 4,
                24 => 6,
                _ => 0,
            };
            let fitting: Vec<[u16; 2]> = nullables.iter().filter(|n| inside == 0 || n[1] == inside).copied().collect();
            let side = if t.kind == 26 { rng.below(2) } else { 0 };
            if let Some([nullable, _]) = rng.pick(&fitting) {
                t.kids[side] = null(nullable);
            }
        },
    );
}

/// A node, or the value of a field initializer.
fn value_of(tree: &mut Tree) -> &mut Tree {
    if tree.kind == 22 { &mut tree.kids[0] } else { tree }
}

/// A small expression with a fault of its own.
fn small_fault(rng: &mut Rng, p: &Program) -> Tree {
    match rng.below(4) {
        0 => null(rng.pick(&undeclared_types(p, 7)).unwrap_or(0)),
        1 => unary(1, int(1)),
        2 => binary(11, tru(), text(1)),
        _ => name(UNBOUND),
    }
}

/// Edits one of the nodes that satisfy a test.
pub fn edit(rng: &mut Rng, p: &mut Program, test: impl Fn(&Tree) -> bool, make: impl FnOnce(&mut Rng, &mut Tree)) {
    let count: usize = p.declarations.iter().map(|d| matching(d, &test)).sum();
    if count > 0 {
        let mut left = rng.below(count);
        let found = p.declarations.iter_mut().find_map(|d| nth(d, &test, &mut left));
        make(rng, found.expect("there are that many"));
    }
}

fn matching(tree: &Tree, test: &dyn Fn(&Tree) -> bool) -> usize {
    usize::from(test(tree)) + tree.kids.iter().map(|kid| matching(kid, test)).sum::<usize>()
}

/// The matching node after `left` others.
fn nth<'t>(tree: &'t mut Tree, test: &dyn Fn(&Tree) -> bool, left: &mut usize) -> Option<&'t mut Tree> {
    if test(tree) {
        if *left == 0 {
            return Some(tree);
        }
        *left -= 1;
    }
    tree.kids.iter_mut().find_map(|kid| nth(kid, test, left))
}

fn is_expression(t: &Tree) -> bool {
    matches!(t.kind, 10..=21 | 23..=26)
}

/// All names that a program gives to values.
fn names(p: &Program) -> Vec<u16> {
    let mut all: Vec<u16> = p.builtins.iter().map(|b| b[0]).collect();
    let mut open: Vec<&Tree> = p.declarations.iter().collect();
    while let Some(tree) = open.pop() {
        if matches!(tree.kind, 1 | 2 | 3 | 18 | 31 | 36) {
            all.push(tree.x);
        }
        open.extend(&tree.kids);
    }
    all
}

fn bind_twice(rng: &mut Rng, p: &mut Program) {
    let all = names(p);
    let x = rng.pick(&all).unwrap_or(1);
    match rng.below(9) {
        0 => edit(rng, p, |t| t.kind == 3, |_, t| t.x = x),
        1 | 2 => edit(rng, p, |t| t.kind == 31, |_, t| t.x = x),
        3 | 4 => edit(rng, p, |t| t.kind == 18, |_, t| t.x = x),
        5 => edit(rng, p, |t| t.kind < 3, |_, t| t.x = x),
        6 => double(rng, &mut p.structs),
        7 => double(rng, &mut p.fields),
        _ => double(rng, &mut p.builtins),
    }
}

/// Gives one record the name of another.
fn double<const N: usize>(rng: &mut Rng, records: &mut [[u16; N]]) {
    if records.len() > 1 {
        let name = records[rng.below(records.len())][0];
        let i = rng.below(records.len());
        records[i][0] = name;
    }
}

fn unknown(rng: &mut Rng, p: &mut Program) {
    let all = names(p);
    let x = if rng.chance(50) { UNBOUND } else { rng.pick(&all).unwrap_or(UNBOUND) };
    if rng.chance(40) {
        edit(rng, p, is_expression, |_, t| *t = name(x));
    } else if rng.chance(60) {
        edit(rng, p, |t| t.kind == 15, |_, t| t.x = x);
    } else {
        edit(rng, p, |t| t.kind == 23 || t.kind == 22, |rng, t| t.x = rng.below(6) as u16);
    }
}

/// Types of a kind that mention the undeclared struct.
fn undeclared_types(p: &Program, kind: u16) -> Vec<u16> {
    let all = 0..p.types.len() as u16;
    all.filter(|&t| p.types[t as usize][0] == kind && mentions(p, t)).collect()
}

fn mentions(p: &Program, t: u16) -> bool {
    match p.types[t as usize] {
        [4, name, ..] => name == UNDECLARED,
        [5 | 7, a, ..] => mentions(p, a),
        [6, result, ..] => mentions(p, result) || p.parameters(t).iter().any(|&q| mentions(p, q)),
        _ => false,
    }
}

fn undeclared(rng: &mut Rng, p: &mut Program) {
    let of = [4, 5, 6, 7].map(|kind| undeclared_types(p, kind));
    let [structs, arrays, functions, nullables] = of;
    match rng.below(8) {
        0 if !p.fields.is_empty() => {
            let i = rng.below(p.fields.len());
            p.fields[i][1] = rng.pick(&[structs, arrays, nullables].concat()).unwrap_or(0);
        }
        1 if !p.builtins.is_empty() => {
            let i = rng.below(p.builtins.len());
            p.builtins[i][1] = rng.pick(&functions).unwrap_or(p.builtins[i][1]);
        }
        2 => heading_undeclared(rng, p, &functions),
        3 => edit(rng, p, is_expression, |rng, t| *t = null(rng.pick(&nullables).unwrap_or(0))),
        4 => edit(rng, p, is_expression, |rng, t| *t = list(rng.pick(&arrays).unwrap_or(0), vec![])),
        5 => edit(rng, p, |t| matches!(t.kind, 16..=18), |rng, t| t.t = rng.pick(&arrays).unwrap_or(t.t)),
        6 => edit(rng, p, |t| t.kind == 36, |rng, t| t.t = rng.pick(&structs).unwrap_or(t.t)),
        _ => edit(
            rng,
            p,
            |t| matches!(t.kind, 10 | 21),
            |rng, t| {
                t.t = rng.pick(if t.kind == 10 { &nullables } else { &structs }).unwrap_or(t.t);
            },
        ),
    }
}

/// Gives a function an undeclared type, with as many parameters as it takes.
fn heading_undeclared(rng: &mut Rng, p: &mut Program, functions: &[u16]) {
    let Some(t) = rng.pick(functions) else { return };
    let count = p.parameters(t).len();
    edit(
        rng,
        p,
        |tree| tree.kind == 2,
        |_, tree| {
            let block = tree.kids.pop();
            tree.kids = (0..count as u16).map(|i| node(3, 60 + i, 0, vec![])).collect();
            tree.kids.extend(block);
            tree.t = t;
        },
    );
}

fn mismatch(rng: &mut Rng, p: &mut Program) {
    match rng.below(6) {
        0 => edit(rng, p, |t| matches!(t.kind, 24 | 34), |_, t| t.kids.push(name(UNBOUND))),
        1 => edit(
            rng,
            p,
            |t| matches!(t.kind, 24 | 34) && t.kids.len() > 1,
            |_, t| {
                t.kids.pop();
            },
        ),
        2 => edit(
            rng,
            p,
            |t| t.kind == 21 && !t.kids.is_empty(),
            |_, t| {
                t.kids.pop();
            },
        ),
        3 => edit(
            rng,
            p,
            |t| t.kind == 21 && !t.kids.is_empty(),
            |_, t| {
                let again = t.kids[0].clone();
                t.kids.push(again);
            },
        ),
        4 => edit(rng, p, |t| t.kind == 21 && t.kids.len() > 1, |_, t| t.kids[1].x = t.kids[0].x),
        _ => edit(rng, p, |t| t.kind == 22, |rng, t| t.x = rng.below(12) as u16),
    }
}

fn void_against_value(rng: &mut Rng, p: &mut Program) {
    match rng.below(5) {
        0 => edit(rng, p, |t| t.kind == 32, |_, t| *t = done()),
        1 => edit(rng, p, |t| t.kind == 33, |rng, t| *t = ret(if rng.chance(50) { name(UNBOUND) } else { int(1) })),
        2 => edit(rng, p, |t| matches!(t.kind, 24 | 34), |_, t| t.kids[0].x = 20),
        3 => {
            let functions: Vec<u16> = p.builtins.iter().map(|b| b[0]).collect();
            edit(rng, p, |t| matches!(t.kind, 24 | 34), |rng, t| t.kids[0] = name(rng.pick(&functions).unwrap_or(1)));
        }
        _ => {
            let functions: Vec<u16> = p.builtins.iter().map(|b| b[0]).collect();
            let f = rng.pick(&functions).unwrap_or(1);
            insert(rng, p, var(998, call(name(f), vec![])), run(name(f), vec![]));
        }
    }
}

/// Puts one of two statements at some place of some block.
fn insert(rng: &mut Rng, p: &mut Program, one: Tree, other: Tree) {
    let statement = if rng.chance(50) { one } else { other };
    edit(
        rng,
        p,
        |t| t.kind == 39,
        |rng, t| {
            let i = rng.below(t.kids.len() + 1);
            t.kids.insert(i, statement);
        },
    );
}

fn mark(rng: &mut Rng, p: &mut Program) {
    match rng.below(6) {
        0 => edit(
            rng,
            p,
            |t| t.kind == 39 && !t.kids.is_empty(),
            |_, t| {
                t.kids.pop();
            },
        ),
        1 => insert(rng, p, done(), ret(int(1))),
        2 => insert(rng, p, when(tru(), vec![done()], vec![done()]), when(fls(), vec![ret(int(1))], vec![ret(int(1))])),
        3 => edit(
            rng,
            p,
            |t| t.kind == 37,
            |rng, t| {
                let step = t.kids.len() - 2;
                t.kids[step] = if rng.chance(50) { done() } else { ret(int(1)) };
            },
        ),
        4 => edit(rng, p, |t| t.kind == 35, |_, t| t.kids[2] = block(vec![])),
        _ => edit(
            rng,
            p,
            |t| t.kind == 39,
            |rng, t| {
                if t.kids.len() > 1 {
                    rng.shuffle(&mut t.kids);
                }
            },
        ),
    }
}

fn assign_function(rng: &mut Rng, p: &mut Program) {
    let mut functions: Vec<u16> = p.builtins.iter().map(|b| b[0]).collect();
    functions.extend(p.declarations.iter().map(|d| d.x));
    let (f, g) = (rng.pick(&functions).unwrap_or(1), rng.pick(&functions).unwrap_or(1));
    let value = if rng.chance(50) { name(g) } else { name(UNBOUND) };
    if rng.chance(50) {
        insert(rng, p, set(name(f), value), set(name(f), name(f)));
    } else {
        edit(rng, p, |t| t.kind == 30, |_, t| t.kids[0] = name(f));
    }
}

/// Another value, of another sort or type, for some expression.
fn other_value(rng: &mut Rng, p: &mut Program) {
    let of =
        |kind: u16| -> Vec<u16> { (0..p.types.len() as u16).filter(|&t| p.types[t as usize][0] == kind).collect() };
    let (arrays, nullables) = (of(5), of(7));
    let all = names(p);
    let value = match rng.below(7) {
        0 => int(3),
        1 => tru(),
        2 => text(1),
        3 => null(rng.pick(&nullables).unwrap_or(0)),
        4 => list(rng.pick(&arrays).unwrap_or(0), vec![]),
        5 => blank(rng.pick(&arrays).unwrap_or(0), int(1)),
        _ => name(rng.pick(&all).unwrap_or(1)),
    };
    if rng.chance(75) {
        edit(rng, p, is_expression, |_, t| *t = value);
    } else {
        edit(rng, p, |t| matches!(t.kind, 25 | 26), |rng, t| t.x = rng.below(if t.kind == 25 { 3 } else { 16 }) as u16);
    }
}

/// Another value where a sort is asked for: a condition, length, array, record
/// or callee.
fn wrong_sort(rng: &mut Rng, p: &mut Program) {
    let value = [int(1), tru(), text(1), name(60)][rng.below(4)].clone();
    let nullables: Vec<u16> = (0..p.types.len() as u16).filter(|&t| p.types[t as usize][0] == 7).collect();
    let value = if rng.chance(40) { null(rng.pick(&nullables).unwrap_or(0)) } else { value };
    edit(
        rng,
        p,
        |t| matches!(t.kind, 17..=20 | 23..=24 | 34..=38),
        |_, t| {
            let condition = if t.kind == 37 { t.kids.len() - 3 } else { 0 };
            t.kids[condition] = value;
        },
    );
}

/// An expression that has the number in itself.
fn faulty(rng: &mut Rng, p: &mut Program, number: u16) {
    let arrays: Vec<u16> = (0..p.types.len() as u16).filter(|&t| p.types[t as usize][0] == 5).collect();
    let t = rng.pick(&arrays).unwrap_or(0);
    let value = match (number, rng.below(3)) {
        (10, 0) => unary(1, int(1)),
        (10, 1) => binary(rng.below(16) as u16, tru(), name(UNBOUND)),
        (10, _) => index(int(1), name(UNBOUND)),
        (11, 0) => binary(10, tru(), int(1)),
        (11, _) => list(t, vec![tru(), int(1), text(1)]),
        _ => blank(t, if rng.chance(80) { int(1) } else { tru() }),
    };
    if rng.chance(70) {
        edit(rng, p, is_expression, |_, tree| *tree = value);
    } else {
        insert(rng, p, var(998, value.clone()), set(name(60), value));
    }
}
