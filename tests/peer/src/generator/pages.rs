//! Files for pages: well-typed programs with small declarations before and behind
//! them, so that they have a wanted number of nodes, and lengths of the buffer
//! around the one that is needed.

use super::bodies;
use super::rng::Rng;
use crate::page_length;
use crate::program::*;

/// The names of the small declarations, which no generated program has.
const NAMES: u16 = 3000;

/// How many nodes large files have: as few as a page of more than 65,535 bytes
/// needs, one fewer, the most, one fewer, and full pages.
const LARGE: [usize; 6] = [3275, 3276, 4000, 4050, 4095, 4096];

/// A well-typed program with as many nodes as some full pages have, or one more or fewer.
pub fn rounded(rng: &mut Rng) -> Program {
    let p = bodies::typed(rng);
    let pages = (p.size() + 2) / 50 + 1 + rng.below(3);
    let wanted = 50 * pages - 1 + rng.below(3);
    filled(rng, p, wanted)
}

/// Small declarations alone: no node, or 2 to 12, or one or two full pages, some
/// more or fewer.
pub fn small(rng: &mut Rng) -> Program {
    let wanted = match rng.below(4) {
        0 => rng.below(13),
        1 => 2 + rng.below(11),
        2 => 48 + rng.below(5),
        _ => 97 + rng.below(7),
    };
    let mut p = Program::new();
    p.function(VOID, &[]);
    filled(rng, p, wanted)
}

/// Thousands of nodes.
pub fn large(rng: &mut Rng) -> Program {
    let (p, wanted) = (bodies::typed(rng), LARGE[rng.below(LARGE.len())]);
    filled(rng, p, wanted)
}

/// What small declarations may name.
struct Small<'r> {
    rng: &'r mut Rng,
    /// A function type ()->void, and types that have empty array literals.
    to_void: u16,
    arrays: Vec<u16>,
    builtins: Vec<u16>,
    /// The names of the small globals so far.
    globals: Vec<u16>,
}

impl Small<'_> {
    /// A declaration of two nodes or three; a global may name an earlier one.
    fn next(&mut self, x: u16, nodes: usize) -> Tree {
        if nodes == 3 {
            return func(x, self.to_void, &[], vec![done()]);
        }
        let value = match self.rng.below(6) {
            0 => self.rng.pick(&self.arrays).map(|t| list(t, vec![])),
            1 => self.rng.pick(&self.builtins).map(name),
            2 | 3 => self.rng.pick(&self.globals).map(name),
            4 => Some(int(x)),
            _ => None,
        };
        self.globals.push(x);
        global(x, value.unwrap_or_else(tru))
    }
}

/// A program with small declarations before and behind its own, so that it has so
/// many nodes. One node more cannot be had; such a program gets none.
fn filled(rng: &mut Rng, mut p: Program, wanted: usize) -> Program {
    let more = wanted.saturating_sub(p.size());
    let to_void = p.types.iter().position(|t| *t == [6, VOID, t[2], 0]).expect("every table has ()->void") as u16;
    let arrays = array_types(rng, &mut p);
    let builtins = p.builtins.iter().map(|b| b[0]).collect();
    let mut small = Small { rng, to_void, arrays, builtins, globals: vec![] };
    let made: Vec<Tree> = sizes(small.rng, more).iter().zip(NAMES..).map(|(&nodes, x)| small.next(x, nodes)).collect();
    let before = if rng.chance(60) { rng.below(made.len() + 1) } else { 0 };
    let own = std::mem::take(&mut p.declarations);
    let (front, back) = made.split_at(before);
    p.with([front, &own, back].concat())
}

/// New types int[], so that some have numbers of two digits and of three.
fn array_types(rng: &mut Rng, p: &mut Program) -> Vec<u16> {
    let most = [12, 60, 130, 512][rng.below(4)];
    let mut types = vec![p.array(INT)];
    while p.types.len() < most {
        types.push(p.array(INT));
    }
    types
}

/// Twos and threes, in any order, that add up to a number; none if it is 1.
fn sizes(rng: &mut Rng, sum: usize) -> Vec<usize> {
    if sum < 2 {
        return vec![];
    }
    let one = sum % 2;
    let threes = one + 2 * rng.below((sum - 3 * one) / 6 + 1).min(10);
    let mut sizes = [vec![3; threes], vec![2; (sum - 3 * threes) / 2]].concat();
    rng.shuffle(&mut sizes);
    sizes
}

/// The k-th case's length: in turn exact, longer, exact, one short, any that is too
/// short, longer, a line short, and none.
pub fn length(rng: &mut Rng, k: usize, file: &[u8]) -> usize {
    let exact = page_length(file);
    match k % 8 {
        0 | 2 => exact,
        3 => exact - 1,
        4 => rng.below(exact),
        6 => exact.saturating_sub(18 + rng.below(4)),
        7 => 0,
        _ => exact + 1 + rng.below(9),
    }
}
