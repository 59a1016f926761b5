//! Files about loops that never end: bodies that are deep nests of while, if,
//! if? and for, most of their conditions `true`, with small changes after which
//! a body goes on, or something stands behind what returns.

use super::misses::edit;
use super::rng::Rng;
use crate::program::*;

/// Types: functions of none and of a bool to void, the same to int, string?.
const TO_VOID: u16 = 4;
const TO_INT: u16 = 6;
const STRING: u16 = 2;
const STRING_NULL: u16 = 8;

/// Names: a global that is true, a global int, a parameter, a built-in.
const TRUE: u16 = 40;
const LEVEL: u16 = 41;
const FLAG: u16 = 20;
const TICK: u16 = 50;
const FIRST_VAR: u16 = 100;

/// One file.
pub fn file(rng: &mut Rng) -> Vec<u8> {
    let mut p = table();
    let base = if rng.chance(60) { TO_VOID } else { TO_INT };
    let leave = if base == TO_VOID { done() } else { ret(int(1)) };
    for x in 10..11 + [0, 0, 0, 1, 2][rng.below(5)] {
        let t = base + rng.below(2) as u16;
        let (depth, fuel) = (2 + rng.below(6), 4 + rng.below(20));
        let body = Maker { rng, leave: leave.clone(), vars: FIRST_VAR, fuel }.block(depth, true);
        let parameters = vec![FLAG; p.parameters(t).len()];
        p.declarations.push(func(x, t, &parameters, body));
    }
    for _ in 0..[0, 1, 1, 2, 2, 3][rng.below(6)] {
        slip(rng, &mut p, &leave);
    }
    p.bytes()
}

fn table() -> Program {
    let mut p = Program::new();
    for result in [3, 0] {
        p.function(result, &[]);
        p.function(result, &[1]);
    }
    p.nullable(STRING);
    p.builtins.push([TICK, TO_VOID]);
    p.with([global(TRUE, tru()), global(LEVEL, int(1))])
}

/// A condition that is not the node `true`.
fn other_condition(rng: &mut Rng) -> Tree {
    [fls(), unary(1, fls()), binary(12, tru(), tru()), name(TRUE)][rng.below(4)].clone()
}

fn stuck() -> Tree {
    during(tru(), vec![])
}

/// A body under construction.
struct Maker<'r> {
    rng: &'r mut Rng,
    /// The return that fits the function.
    leave: Tree,
    /// The next name of a var.
    vars: u16,
    /// How many more statements may hold blocks.
    fuel: usize,
}

impl Maker<'_> {
    fn spend(&mut self, depth: usize) -> bool {
        self.fuel = self.fuel.saturating_sub(1);
        self.fuel > 0 && depth > 0
    }

    /// Statements of which the last returns, or none does.
    fn block(&mut self, depth: usize, returns: bool) -> Vec<Tree> {
        let mut statements: Vec<Tree> = (0..self.rng.below(3)).map(|_| self.not_last(depth)).collect();
        if returns {
            statements.push(self.returning(depth));
        } else if !statements.is_empty() || self.rng.chance(50) {
            statements.push(self.going_on(depth));
        }
        statements
    }

    fn any_block(&mut self, depth: usize) -> Vec<Tree> {
        let returns = self.rng.chance(50);
        self.block(depth, returns)
    }

    /// Something that goes on where it isn't last.
    fn not_last(&mut self, depth: usize) -> Tree {
        if self.rng.chance(35) && self.spend(depth) {
            return during(tru(), self.any_block(depth - 1));
        }
        self.going_on(depth)
    }

    fn plain(&mut self) -> Tree {
        match self.rng.below(3) {
            0 => {
                self.vars += 1;
                var(self.vars, int(1))
            }
            1 => set(name(LEVEL), int(2)),
            _ => run(name(TICK), vec![]),
        }
    }

    /// An if or if? with arms that return or go on.
    fn test(&mut self, depth: usize, [first, second]: [bool; 2]) -> Tree {
        let (yes, no) = (self.block(depth, first), self.block(depth, second));
        if self.rng.chance(50) {
            return when_null(FIRST_VAR, STRING, null(STRING_NULL), yes, no);
        }
        let condition = if self.rng.chance(60) { tru() } else { other_condition(self.rng) };
        when(condition, yes, no)
    }

    /// A test that goes on: at most one arm returns.
    fn open_test(&mut self, depth: usize) -> Tree {
        let arms = [[false, false], [true, false], [false, true]][self.rng.below(3)];
        self.test(depth, arms)
    }

    /// A statement that goes on, last or not.
    fn going_on(&mut self, depth: usize) -> Tree {
        if self.rng.chance(30) || !self.spend(depth) {
            return self.plain();
        }
        match self.rng.below(5) {
            0 => during(other_condition(self.rng), self.any_block(depth - 1)),
            1 | 2 => self.open_test(depth - 1),
            _ => self.for_loop(depth),
        }
    }

    fn for_loop(&mut self, depth: usize) -> Tree {
        let condition = [absent(), tru(), fls()][self.rng.below(3)].clone();
        let step = match self.rng.below(5) {
            0 => absent(),
            1 => self.plain(),
            2 => during(tru(), self.any_block(depth - 1)),
            _ => self.open_test(depth - 1),
        };
        repeat(vec![], condition, step, self.any_block(depth - 1))
    }

    /// A statement that returns where it is last.
    fn returning(&mut self, depth: usize) -> Tree {
        if !self.spend(depth) {
            return if self.rng.chance(50) { stuck() } else { self.leave.clone() };
        }
        match self.rng.below(5) {
            0 => self.leave.clone(),
            1 | 2 => during(tru(), self.any_block(depth - 1)),
            _ => self.test(depth - 1, [true, true]),
        }
    }
}

/// One small change: something more or in another order in a block, another end
/// of a body, another condition, another step, another arm.
fn slip(rng: &mut Rng, p: &mut Program, leave: &Tree) {
    let is_block = |t: &Tree| t.kind == 39 && !t.kids.is_empty();
    match rng.below(10) {
        0 => edit(rng, p, is_block, |rng, t| {
            let more = [leave.clone(), stuck(), run(name(TICK), vec![])][rng.below(3)].clone();
            t.kids.insert(rng.below(t.kids.len() + 1), more);
        }),
        1 => edit(rng, p, is_block, |rng, t| rng.shuffle(&mut t.kids)),
        2 | 3 => edit(rng, p, |t| t.kind == 2, body_end),
        4 => edit(rng, p, |t| t.kind == 38, |rng, t| t.kids[0] = other_condition(rng)),
        5 | 6 => edit(rng, p, |t| t.kind == 37, |rng, t| other_step(rng, t, leave)),
        7 | 8 => edit(rng, p, is_block, |rng, t| {
            t.kids.insert(rng.below(t.kids.len()), closed_test(rng, leave));
        }),
        _ => edit(
            rng,
            p,
            |t| matches!(t.kind, 35 | 36),
            |rng, t| {
                let arm = 1 + rng.below(2);
                t.kids[arm] = block(if rng.chance(50) { vec![stuck()] } else { vec![] });
            },
        ),
    }
}

/// A for's step is while(true), or an if that returns.
fn other_step(rng: &mut Rng, each: &mut Tree, leave: &Tree) {
    let step = each.kids.len() - 2;
    each.kids[step] = if rng.chance(20) { stuck() } else { closed_test(rng, leave) };
}

/// The last statement of a function is left out, gets another condition, or has
/// something behind it.
fn body_end(rng: &mut Rng, function: &mut Tree) {
    let Some(body) = function.kids.last_mut().map(|block| &mut block.kids) else { return };
    match body.last_mut() {
        Some(last) if last.kind == 38 && rng.chance(50) => last.kids[0] = other_condition(rng),
        _ if rng.chance(50) => body.push([stuck(), run(name(TICK), vec![])][rng.below(2)].clone()),
        _ => {
            body.pop();
        }
    }
}

/// An if or if? whose arms return, each by a loop or not.
fn closed_test(rng: &mut Rng, leave: &Tree) -> Tree {
    let mut arm = || vec![if rng.chance(50) { stuck() } else { leave.clone() }];
    let (yes, no) = (arm(), arm());
    if rng.chance(50) { when(tru(), yes, no) } else { when_null(FIRST_VAR, STRING, null(STRING_NULL), yes, no) }
}
