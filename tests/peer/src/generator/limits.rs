//! Settings of the two limits for generated files.

use super::rng::Rng;
use crate::{Limits, measures};

/// Settings past the range: next to it, and equal to numbers in it in their low bits.
const FAR: [usize; 6] = [255, 256, 65_535, 65_536, 65_536 + 50, u32::MAX as usize];

/// Four settings: near the file's measures or anywhere in range; one at least
/// that in both; the widest; one that is out of range a third of the time.
pub fn four(rng: &mut Rng, file: &[u8]) -> [Limits; 4] {
    let first = some(rng, measures(file));
    let second = wider(rng, first);
    [first, second, Limits::WIDEST, if rng.below(3) == 0 { out_of_range(rng, first) } else { anywhere(rng) }]
}

/// The file's own measures, one less in either, one more, and others at random,
/// in range and slightly out of it.
pub fn settings_around(seed: u64, file: &[u8]) -> Vec<Limits> {
    let mut rng = Rng::new(seed);
    let own = into_range(measures(file));
    let Limits { parts, depth } = own;
    vec![
        own,
        Limits { parts: parts - 1, depth },
        Limits { parts, depth: depth - 1 },
        Limits { parts: parts + 1, depth: depth + 1 },
        some(&mut rng, own),
        anywhere(&mut rng),
        out_of_range(&mut rng, own),
    ]
}

fn into_range(limits: Limits) -> Limits {
    let Limits { parts, depth } = Limits::WIDEST;
    Limits { parts: limits.parts.clamp(1, parts), depth: limits.depth.clamp(1, depth) }
}

/// Each limit near the file's measure or anywhere in range.
fn some(rng: &mut Rng, own: Limits) -> Limits {
    let mut one = |own: usize, most: usize| {
        if rng.chance(25) {
            return 1 + rng.below(most);
        }
        (own + rng.below(5)).saturating_sub(1 + rng.below(2)).clamp(1, most)
    };
    Limits { parts: one(own.parts, Limits::WIDEST.parts), depth: one(own.depth, Limits::WIDEST.depth) }
}

/// In range and at least the other in both: the same, one more, or any.
fn wider(rng: &mut Rng, least: Limits) -> Limits {
    let mut one = |least: usize, most: usize| match rng.below(3) {
        0 => least,
        1 => most.min(least + 1),
        _ => least + rng.below(most - least + 1),
    };
    Limits { parts: one(least.parts, Limits::WIDEST.parts), depth: one(least.depth, Limits::WIDEST.depth) }
}

fn anywhere(rng: &mut Rng) -> Limits {
    Limits { parts: 1 + rng.below(Limits::WIDEST.parts), depth: 1 + rng.below(Limits::WIDEST.depth) }
}

/// With one limit, or both, out of range.
fn out_of_range(rng: &mut Rng, given: Limits) -> Limits {
    let which = rng.below(3);
    let mut past = |most: usize| match rng.below(4) {
        0 => 0,
        1 => most + 1,
        2 => most + 1 + rng.below(20),
        _ => FAR[rng.below(FAR.len())],
    };
    Limits {
        parts: if which != 1 { past(Limits::WIDEST.parts) } else { given.parts },
        depth: if which != 0 { past(Limits::WIDEST.depth) } else { given.depth },
    }
}
