//! Files for tallies: well-typed programs whose types have several numbers, used
//! at random, and lengths of the two buffers around those that are needed.

use super::rng::Rng;
use super::{bodies, limits};
use crate::program::{Program, Tree};
use crate::{Limits, tally_lengths};

/// A well-typed program, and the same with every type under more numbers.
pub fn pair(rng: &mut Rng) -> [Program; 2] {
    let p = bodies::typed(rng);
    let copies = 1 + rng.below(3);
    let again = doubled(rng, &p, copies);
    [p, again]
}

/// Which numbers the types of a program have, when it has copies of all but the
/// base types behind them, in order.
struct Copies<'r> {
    rng: &'r mut Rng,
    /// How many types there were.
    types: u16,
}

impl Copies<'_> {
    /// A number of an equal type, of the first so many copies or the type itself.
    fn any(&mut self, t: u16, copies: usize) -> u16 {
        if t < 4 {
            return t;
        }
        t + self.rng.below(copies + 1) as u16 * (self.types - 4)
    }

    /// All types named in a tree. A type that is not named is 0.
    fn rename(&mut self, tree: &mut Tree, copies: usize) {
        tree.t = self.any(tree.t, copies);
        tree.kids.iter_mut().for_each(|kid| self.rename(kid, copies));
    }
}

/// The same program with copies of its types. What a copy refers to, and what
/// fields, built-ins and nodes name, has any of its numbers.
fn doubled(rng: &mut Rng, p: &Program, copies: usize) -> Program {
    let mut found = p.clone();
    let mut numbers = Copies { rng, types: p.types.len() as u16 };
    for copy in 1..=copies {
        for t in 4..numbers.types {
            let [kind, a, ..] = p.types[t as usize];
            match kind {
                4 => found.struct_type(a),
                5 => found.array(numbers.any(a, copy)),
                6 => {
                    let parameters: Vec<u16> = p.parameters(t).iter().map(|&q| numbers.any(q, copy)).collect();
                    found.function(numbers.any(a, copy), &parameters)
                }
                _ => found.nullable(numbers.any(a, copy)),
            };
        }
    }
    for named in found.fields.iter_mut().chain(&mut found.builtins) {
        named[1] = numbers.any(named[1], copies);
    }
    found.declarations.iter_mut().for_each(|tree| numbers.rename(tree, copies));
    found
}

/// The k-th case's lengths: in turn exact, longer, too short by type, exact, longer,
/// too short by declaration, longer, and any, which are mostly too short.
pub fn lengths(rng: &mut Rng, k: usize, file: &[u8]) -> [usize; 2] {
    let [types, declarations] = tally_lengths(file);
    match k % 8 {
        0 | 3 => [types, declarations],
        2 => [types.saturating_sub(1), declarations],
        5 => [types, declarations.saturating_sub(1)],
        7 => [rng.below(types + 3), rng.below(declarations + 3)],
        _ => [types + 1 + rng.below(3), declarations + 1 + rng.below(3)],
    }
}

/// Mostly the widest limits, else some around the file's measures or out of range.
pub fn limits(rng: &mut Rng, file: &[u8]) -> Limits {
    if rng.chance(85) { Limits::WIDEST } else { limits::four(rng, file)[rng.below(4)] }
}
