//! Document 02, request (xi): the 200 parts and the 100 levels as parameters.

use crate::file::{ARRAY, FUNCTION, File, NULLABLE, listed, sections};
use crate::mutants::{Exact, Mutant, Mutant::*, Rules};
use std::ops::RangeInclusive;

/// The most parts of a type and the deepest level of a node.
#[derive(Clone, Copy, Debug, PartialEq, Eq)]
pub struct Limits {
    pub parts: usize,
    pub depth: usize,
}

/// What the tables of parts and of open nodes can hold; only mutants come near it.
const HELD: usize = 255;

/// The range: zero let in, one refused, the most refused, one past it let in.
const PARTS_MUTANTS: [Mutant; 4] = [PartsZeroLetIn, PartsOneRefused, PartsMostRefused, PartsPastLetIn];
const DEPTH_MUTANTS: [Mutant; 4] = [DepthZeroLetIn, DepthOneRefused, DepthMostRefused, DepthPastLetIn];

/// A limit that is fixed, tested apart from the rest, one more, one fewer.
const READ_BY_3: [Mutant; 4] = [PartsLimitFixed, PartsLimitLast, PartsLimitOneMore, PartsLimitOneFewer];
const READ_BY_5: [Mutant; 4] = [DepthLimitFixed, DepthLimitFirst, DepthLimitOneMore, DepthLimitOneFewer];

fn range<R: Rules>(most: usize, mutants: [Mutant; 4], rules: R) -> RangeInclusive<usize> {
    let [zero, one, last, past] = mutants.map(|m| usize::from(rules.breaks(m)));
    1 - zero + one..=most - last + past
}

impl Limits {
    /// Document 01's limits, and the most that may be set.
    pub const WIDEST: Limits = Limits { parts: 200, depth: 100 };

    /// Parts from 1 to 200 and depth from 1 to 100; otherwise it is 25.
    pub fn in_range(self) -> bool {
        self.pass(Exact)
    }

    /// At least the other in both.
    pub fn at_least(self, other: Limits) -> bool {
        self.parts >= other.parts && self.depth >= other.depth
    }

    /// The range test under rules that a mutant may break.
    pub(crate) fn pass<R: Rules>(self, rules: R) -> bool {
        let given = self.cut(rules);
        let widest = if rules.breaks(RangesSwapped) { Limits::WIDEST.turned() } else { Limits::WIDEST };
        let parts = range(widest.parts, PARTS_MUTANTS, rules).contains(&given.parts);
        let depth = range(widest.depth, DEPTH_MUTANTS, rules).contains(&given.depth);
        parts && depth || (parts || depth) && rules.breaks(OneInRangeWillDo)
    }

    /// The most parts that number 3 lets pass.
    #[inline(always)]
    pub(crate) fn most_parts<R: Rules>(self, rules: R) -> u32 {
        let most = rules.mutant().map_or(self.parts, |m| self.most_under(m, READ_BY_3, |l| l.parts));
        most as u32 + u32::from(rules.breaks(PartsOneMore)) - u32::from(rules.breaks(PartsOneFewer))
    }

    /// The deepest level that number 5 lets pass.
    #[inline(always)]
    pub(crate) fn most_depth<R: Rules>(self, rules: R) -> u32 {
        let most = rules.mutant().map_or(self.depth, |m| self.most_under(m, READ_BY_5, |l| l.depth));
        most as u32 + u32::from(rules.breaks(DepthOneMore)) - u32::from(rules.breaks(DepthOneFewer))
    }

    /// One limit as a mutant reads it.
    fn most_under(self, mutant: Mutant, [fixed, apart, more, fewer]: [Mutant; 4], of: fn(Limits) -> usize) -> usize {
        let given = self.cut(mutant);
        let (limit, widest) = (of(given), of(Limits::WIDEST));
        let most = match mutant {
            m if m == fixed || m == apart => widest,
            m if m == more && limit < widest => limit + 1,
            m if m == fewer && limit < widest => limit.saturating_sub(1),
            LimitsSwapped => of(given.turned()),
            _ => limit,
        };
        most.min(HELD)
    }

    /// What an operation hands on to reading: its own limits, but under the
    /// mutant that ignores them, and under the one that is late with 25.
    #[inline(always)]
    pub(crate) fn handed_on<R: Rules>(self, ignored: Mutant, late: Option<Mutant>, rules: R) -> Limits {
        let late = late.is_some_and(|m| rules.breaks(m)) && !self.pass(rules);
        if rules.breaks(ignored) || late { Limits::WIDEST } else { self }
    }

    fn turned(self) -> Limits {
        Limits { parts: self.depth, depth: self.parts }
    }

    /// As given, but under the mutant that keeps 16 bits.
    fn cut<R: Rules>(self, rules: R) -> Limits {
        if !rules.breaks(LimitsCut) {
            return self;
        }
        Limits { parts: self.parts % (1 << 16), depth: self.depth % (1 << 16) }
    }
}

/// A file's own measures, the least limits that let it pass: the most parts of
/// a type and the depth. Also of a broken file, as far as it can be cut.
pub fn measures(bytes: &[u8]) -> Limits {
    sections(bytes, Exact).map_or(Limits { parts: 1, depth: 0 }, |file| Limits {
        parts: parts_of_all(&file).into_iter().max().unwrap_or(1),
        depth: deepest(&file),
    })
}

/// Larger measures make no difference; a type may have more parts than can be counted.
const MEASURED: usize = 100_000;

fn parts_of_all(file: &File) -> Vec<usize> {
    let mut parts = Vec::new();
    for i in 0..file.types.len() {
        let t = file.ty(i as u16);
        let known = |r: u16| parts.get(r as usize).copied().unwrap_or(0);
        let inside = match t.kind() {
            ARRAY | NULLABLE => known(t.a()),
            FUNCTION => {
                let taken = file.list.iter().skip(t.b() as usize).take(t.c() as usize);
                known(t.a()) + taken.map(|p| known(listed(p))).sum::<usize>()
            }
            _ => 0,
        };
        parts.push(MEASURED.min(1 + inside));
    }
    parts
}

/// The most nodes that are open at once, each inside the one before.
fn deepest(file: &File) -> usize {
    let mut to_come: Vec<u16> = Vec::new();
    let mut deepest = 0;
    for i in 0..file.nodes.len() {
        if let Some(left) = to_come.last_mut() {
            *left -= 1;
        }
        to_come.push(file.node(i).children());
        deepest = deepest.max(to_come.len());
        while to_come.last() == Some(&0) {
            to_come.pop();
        }
    }
    deepest
}
