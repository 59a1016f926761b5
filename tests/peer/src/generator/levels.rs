//! Files about names in inner blocks: nests of every sort of block in which two
//! to four names are bound again and again, at several types, with small changes
//! after which a name is bound twice in one block, or means another binding.

use super::misses::edit;
use super::rng::Rng;
use crate::program::*;

const TO_VOID: u16 = 4;
/// Functions of an int, a bool and a string to void.
const USES: u16 = 5;
const STRING_NULL: u16 = 8;
const INTS: u16 = 9;
/// Types of the functions that are declared.
const BODIES: [u16; 4] = [10, 11, 12, 13];

/// Names: locals, a function, a global, a built-in, and built-ins that use a value.
const PLAIN: u16 = 20;
const FUNCTION: u16 = 10;
const LEVEL: u16 = 40;
const TICK: u16 = 50;
const USE: u16 = 60;

/// One file.
pub fn file(rng: &mut Rng) -> Vec<u8> {
    let mut p = table();
    let names = pool(rng);
    for x in FUNCTION..FUNCTION + [1, 1, 1, 2][rng.below(4)] {
        let t = BODIES[rng.below(BODIES.len())];
        let (depth, fuel) = (2 + rng.below(5), 6 + rng.below(24));
        let result = p.types[t as usize][1];
        let mut maker = Maker { rng, names: &names, blocks: vec![vec![]], fuel };
        let parameters = maker.parameters(p.parameters(t));
        let body = maker.body(depth, result);
        p.declarations.push(func(x, t, &parameters, body));
    }
    for _ in 0..[0, 0, 1, 1, 1, 2][rng.below(6)] {
        slip(rng, &mut p, &names);
    }
    p.bytes()
}

fn table() -> Program {
    let mut p = Program::new();
    p.function(VOID, &[]);
    for t in [INT, BOOL, STRING] {
        p.function(VOID, &[t]);
    }
    p.nullable(STRING);
    p.array(INT);
    p.function(VOID, &[INT, BOOL]);
    p.function(INT, &[STRING_NULL]);
    p.function(VOID, &[INTS, INT]);
    p.function(INT, &[]);
    p.builtins.push([TICK, TO_VOID]);
    p.builtins.extend((0..3).map(|k| [USE + k, USES + k]));
    p.with([global(LEVEL, int(1))])
}

/// Two to four names; one or none of them is a function's, a global's or a built-in's.
fn pool(rng: &mut Rng) -> Vec<u16> {
    let mut names: Vec<u16> = (PLAIN..PLAIN + 2 + rng.below(2) as u16).collect();
    names.extend([None, Some(FUNCTION), Some(FUNCTION), Some(LEVEL), Some(TICK)][rng.below(5)]);
    names
}

/// A body under construction.
struct Maker<'r> {
    rng: &'r mut Rng,
    names: &'r [u16],
    /// What each block has bound, name and type, the innermost last.
    blocks: Vec<Vec<[u16; 2]>>,
    /// How many more statements may be made freely.
    fuel: usize,
}

impl Maker<'_> {
    fn parameters(&mut self, types: &[u16]) -> Vec<u16> {
        let mut names = self.names.to_vec();
        self.rng.shuffle(&mut names);
        names.truncate(types.len());
        self.blocks[0].extend(names.iter().zip(types).map(|(&x, &t)| [x, t]));
        names
    }

    fn body(&mut self, depth: usize, result: u16) -> Vec<Tree> {
        let mut body = self.statements(depth);
        body.push(if result == VOID { done() } else { ret(self.expression(INT, 2)) });
        body
    }

    fn statements(&mut self, depth: usize) -> Vec<Tree> {
        (0..1 + self.rng.below(4)).map(|_| self.statement(depth)).collect()
    }

    /// The statements of an inner block.
    fn block(&mut self, depth: usize) -> Vec<Tree> {
        self.inside(None, |maker| maker.statements(depth))
    }

    /// What is made in an inner block that has bound a name or none.
    fn inside<T>(&mut self, bound: Option<[u16; 2]>, make: impl FnOnce(&mut Self) -> T) -> T {
        self.blocks.push(bound.into_iter().collect());
        let made = make(self);
        self.blocks.pop();
        made
    }

    fn statement(&mut self, depth: usize) -> Tree {
        self.fuel = self.fuel.saturating_sub(1);
        let simple = self.fuel == 0 || depth == 0;
        match self.rng.below(if simple { 8 } else { 18 }) {
            0..=3 => self.var(),
            4 | 5 => self.assignment(),
            6 | 7 => self.used(),
            8 | 9 => during(self.expression(BOOL, 1), self.block(depth - 1)),
            10 | 11 => when(self.expression(BOOL, 1), self.block(depth - 1), self.block(depth - 1)),
            12..=14 => self.null_test(depth - 1),
            _ => self.for_loop(depth - 1),
        }
    }

    fn any_name(&mut self) -> u16 {
        self.names[self.rng.below(self.names.len())]
    }

    /// A name's type, where a local or the global has it.
    fn type_of(&self, x: u16) -> Option<u16> {
        let local = self.blocks.iter().rev().flatten().find(|b| b[0] == x);
        local.map(|b| b[1]).or((x == LEVEL).then_some(INT))
    }

    /// A var of a name that its block has not bound, if there is one.
    fn var(&mut self) -> Tree {
        let own = self.blocks.last().expect("a block");
        let free: Vec<u16> = self.names.iter().copied().filter(|&x| own.iter().all(|b| b[0] != x)).collect();
        let Some(x) = self.rng.pick(&free) else { return self.used() };
        let t = [INT, INT, BOOL, STRING, STRING_NULL, INTS][self.rng.below(6)];
        let value = self.expression(t, 2);
        let t = if value.kind == 14 { STRING } else { t };
        let t = if value.kind == 15 { self.type_of(value.x).unwrap_or(t) } else { t };
        self.blocks.last_mut().expect("a block").push([x, t]);
        var(x, value)
    }

    fn assignment(&mut self) -> Tree {
        let x = self.any_name();
        match self.type_of(x) {
            Some(t) => set(name(x), self.expression(t, 2)),
            None => self.used(),
        }
    }

    /// A built-in that takes a value of one type.
    fn used(&mut self) -> Tree {
        let t = self.rng.below(3) as u16;
        run(name(USE + t), vec![self.expression(t, 2)])
    }

    fn null_test(&mut self, depth: usize) -> Tree {
        let x = self.any_name();
        let known: Vec<u16> = self.names.iter().copied().filter(|&x| self.type_of(x) == Some(STRING_NULL)).collect();
        let value = self.rng.pick(&known).map_or(null(STRING_NULL), name);
        let yes = self.inside(Some([x, STRING]), |maker| maker.block(depth));
        when_null(x, STRING, value, yes, self.block(depth))
    }

    fn for_loop(&mut self, depth: usize) -> Tree {
        self.inside(None, |maker| {
            let count = maker.rng.below(3);
            let vars = (0..count).map(|_| maker.var()).filter(|v| v.kind == 31).collect();
            let condition = if maker.rng.chance(70) { maker.expression(BOOL, 1) } else { absent() };
            let bound = maker.blocks.last().map_or(0, Vec::len);
            let step = if maker.rng.chance(75) { maker.statement(depth) } else { absent() };
            maker.blocks.last_mut().expect("a block").truncate(bound);
            repeat(vars, condition, step, maker.block(depth))
        })
    }

    /// An expression whose type is t or below it: a name of that type, or made.
    fn expression(&mut self, t: u16, depth: usize) -> Tree {
        let fits = |x: &u16| self.type_of(*x).is_some_and(|own| own == t || own == STRING && t == STRING_NULL);
        let fitting: Vec<u16> = self.names.iter().copied().filter(fits).collect();
        if self.rng.chance(75)
            && let Some(x) = self.rng.pick(&fitting)
        {
            return name(x);
        }
        let deep = depth > 0 && self.rng.chance(60);
        match t {
            INT if deep && self.rng.chance(40) => length(self.array(depth - 1)),
            INT if deep => binary(1, self.expression(INT, depth - 1), self.expression(INT, depth - 1)),
            INT => int(1),
            BOOL if deep => binary(6, self.expression(INT, depth - 1), self.expression(INT, depth - 1)),
            BOOL => [tru(), fls()][self.rng.below(2)].clone(),
            STRING => text(1),
            STRING_NULL => null(t),
            _ => self.array(depth),
        }
    }

    /// An array whose index name may hide anything.
    fn array(&mut self, depth: usize) -> Tree {
        if depth == 0 {
            return list(INTS, vec![]);
        }
        let x = self.any_name();
        let size = self.expression(INT, depth - 1);
        let value = self.inside(Some([x, INT]), |maker| maker.expression(INT, depth - 1));
        fill(INTS, x, size, value)
    }
}

/// One small change: a var more of a name, another name of a binder or a use, an
/// assignment more.
fn slip(rng: &mut Rng, p: &mut Program, names: &[u16]) {
    let x = names[rng.below(names.len())];
    let value = [int(1), tru(), text(1), name(x), name(FUNCTION)][rng.below(5)].clone();
    let has_var = |t: &Tree| t.kind == 39 && t.kids.iter().any(|k| k.kind == 31);
    match rng.below(12) {
        0..=2 => edit(rng, p, has_var, |rng, t| {
            let first = t.kids.iter().position(|k| k.kind == 31).unwrap_or(0);
            let again = t.kids[first].x;
            let place = first + 1 + rng.below(t.kids.len() - first);
            t.kids.insert(place.min(t.kids.len() - 1), var(again, value));
        }),
        3 => edit(rng, p, |t| t.kind == 37 && t.kids[0].kind == 31, |rng, t| step_again(rng, t, value)),
        4 => edit(
            rng,
            p,
            |t| t.kind == 2 && t.kids[0].kind == 3,
            |_, t| {
                let x = t.kids[0].x;
                t.kids.last_mut().expect("a block").kids.insert(0, var(x, value));
            },
        ),
        5 => edit(rng, p, |t| t.kind == 31, |_, t| t.x = x),
        6 => edit(rng, p, |t| matches!(t.kind, 3 | 18 | 36), |_, t| t.x = x),
        7 | 8 => edit(rng, p, |t| t.kind == 15, |_, t| t.x = x),
        _ => edit(
            rng,
            p,
            |t| t.kind == 39 && !t.kids.is_empty(),
            |rng, t| {
                let left = if rng.chance(50) { FUNCTION } else { x };
                let more = if rng.chance(70) { set(name(left), value) } else { var(x, value) };
                t.kids.insert(rng.below(t.kids.len()), more);
            },
        ),
    }
}

/// A for's step, or another of its variables, is a var of its first one's name.
fn step_again(rng: &mut Rng, each: &mut Tree, value: Tree) {
    let again = var(each.kids[0].x, value);
    if rng.chance(60) {
        let step = each.kids.len() - 2;
        each.kids[step] = again;
    } else {
        each.kids.insert(1, again);
    }
}
