//! An independent checker for Oat v.2 program files, after document 01 ("The
//! Oat v.2 checker for pan programs"), document 001 (the specification) and
//! document 02's requests (i), loops that never end, (iii), a printed page of the
//! rows, (iv), tallies of expressions, (v), zero bytes, (vi), the same name in an
//! inner block, (viii), counts of compared pairs, and (xi), limits as parameters.

pub mod cases;
mod empty;
mod endless;
mod expressions;
mod file;
pub mod generator;
mod levels;
mod limits;
pub mod mutants;
mod pages;
mod pairs;
pub mod print;
pub mod program;
mod statements;
mod tallies;
mod tree;
mod types;
mod typing;
pub mod vectors;

pub use limits::{Limits, measures};
pub use pages::{Paged, page, page_length, page_under};
pub use tallies::{Tallied, tally, tally_lengths, tally_under};

use empty::with_types;
use file::{File, records_broken, sections, types_broken};
use mutants::{Exact, Mutant, Mutant::*, Rules};
use tree::{Declarations, tree_fits};
use types::Types;
use typing::Checker;

/// Document 01, "Rows and answers", and document 02, (viii): the sum of the
/// counts of all subtype questions, up to and including the broken premise.
#[derive(Clone, Copy, Debug, PartialEq, Eq)]
pub struct Answer {
    pub number: u16,
    pub step: u16,
    pub place: u16,
    pub pairs: u32,
}

/// The answer to a subtype question: yes or no, and how many pairs of types were
/// compared.
#[derive(Clone, Copy, Debug, PartialEq, Eq)]
pub struct Below {
    pub holds: bool,
    pub pairs: u32,
}

impl Below {
    /// No question asked yet.
    pub const START: Below = Below { holds: true, pairs: 0 };

    /// One pair that decides.
    #[inline(always)]
    pub fn one(holds: bool) -> Below {
        Below { holds, pairs: 1 }
    }

    /// What comes next is compared only if this holds.
    #[inline(always)]
    pub fn then(self, next: impl FnOnce() -> Below) -> Below {
        if !self.holds {
            return self;
        }
        let next = next();
        Below { pairs: self.pairs + next.pairs, ..next }
    }
}

/// Checks a file. Under 25 and 1 to 6 no buffer changes; under 7 to 16 the
/// first two numbers per node of `rows` are 65,535; accepted, they are the rows.
pub fn check(file: &[u8], limits: Limits, rows: &mut [u16], work: &mut [u16]) -> Answer {
    check_under(file, limits, rows, work, Exact)
}

/// The check under rules that a mutant may break.
pub fn check_under<R: Rules>(bytes: &[u8], limits: Limits, rows: &mut [u16], work: &mut [u16], rules: R) -> Answer {
    let refused = |number| Answer { number, step: 0, place: 0, pairs: u32::from(rules.breaks(UnreadCounted)) };
    let mut declarations = Declarations::new();
    let handed_on = limits.handed_on(CheckIgnoresLimits, Some(RangeAfterShort), rules);
    let file = match readable(bytes, handed_on, CheckRefusesEmpty, &mut declarations, rules) {
        Ok(file) => file,
        Err(number) => return refused(number),
    };
    let needed = 2 * file.nodes.len() + usize::from(rules.breaks(EmptyNeedsBuffers) && bytes.is_empty());
    if rows.len() < needed || work.len() < needed {
        return refused(6);
    }
    if rules.breaks(RangeAfterShort) && !limits.pass(rules) {
        return refused(25);
    }
    let mut types = Types::new(&file, rules);
    types.learn_all();
    Checker::new(&file, &types, rows, work, rules).run(&declarations)
}

/// 0 for a file that can be read, else its number: 25 or 1 to 5.
pub fn read(file: &[u8], limits: Limits) -> u16 {
    read_under(file, limits, Exact)
}

/// Reading under rules that a mutant may break.
pub fn read_under<R: Rules>(file: &[u8], limits: Limits, rules: R) -> u16 {
    let handed_on = limits.handed_on(ReadIgnoresLimits, None, rules);
    readable(file, handed_on, ReadRefusesEmpty, &mut Declarations::new(), rules).err().unwrap_or(0)
}

/// The subtype question: 25, 1 to 5, then 17, then yes or no. A refused question
/// counts no pairs.
pub fn subtype(file: &[u8], limits: Limits, a: usize, b: usize) -> Result<Below, u16> {
    subtype_under(file, limits, a, b, Exact)
}

/// The subtype question under rules that a mutant may break.
pub fn subtype_under<R: Rules>(file: &[u8], limits: Limits, a: usize, b: usize, rules: R) -> Result<Below, u16> {
    let handed_on = limits.handed_on(SubtypeIgnoresLimits, Some(RangeAfterType), rules);
    let file = readable(file, handed_on, SubtypeRefusesEmpty, &mut Declarations::new(), rules)?;
    if a.max(b) >= file.types.len() {
        return Err(17);
    }
    if rules.breaks(RangeAfterType) && !limits.pass(rules) {
        return Err(25);
    }
    let mut types = Types::new(&file, rules);
    types.learn_all();
    Ok(types.below(a as u16, b as u16))
}

/// The subtype question for all pairs of a file's types, row by row.
pub fn subtypes<R: Rules>(file: &[u8], limits: Limits, rules: R) -> Result<Vec<Vec<Below>>, u16> {
    let file = readable(file, limits, SubtypeRefusesEmpty, &mut Declarations::new(), rules)?;
    let mut types = Types::new(&file, rules);
    types.learn_all();
    let all = 0..file.types.len() as u16;
    Ok(all.clone().map(|a| all.clone().map(|b| types.below(a, b)).collect()).collect())
}

/// How many nodes a file has, if its sections can be cut.
pub fn node_count(file: &[u8]) -> usize {
    sections(file, Exact).map_or(0, |f| f.nodes.len())
}

/// The numbers 25 and 1 to 5, in order; notes the declarations. `alone` is the
/// mutant under which the operation that asks refuses zero bytes.
fn readable<'a, R: Rules>(
    bytes: &'a [u8],
    limits: Limits,
    alone: Mutant,
    declarations: &mut Declarations,
    rules: R,
) -> Result<File<'a>, u16> {
    let late = rules.breaks(RangeAfterReading) || rules.breaks(EmptyBeforeRange) && bytes.is_empty();
    if !late && !limits.pass(rules) {
        return Err(25);
    }
    let narrow = rules.breaks(EmptyAtWidestOnly) && limits != Limits::WIDEST;
    if (rules.breaks(alone) || narrow) && bytes.is_empty() {
        return Err(1);
    }
    let file = sections(bytes, rules)?;
    if rules.breaks(DepthLimitFirst) && measures(bytes).depth > limits.depth {
        return Err(5);
    }
    if rules.breaks(RecordsBeforeTypes) && records_broken(&file, rules) {
        return Err(4);
    }
    if types_broken(&file, limits, rules) {
        return Err(3);
    }
    if rules.breaks(TreeBeforeRecords) && !tree_fits(&file, limits, &mut Declarations::new(), rules) {
        return Err(5);
    }
    if records_broken(&file, rules) {
        return Err(4);
    }
    if !tree_fits(&file, limits, declarations, rules) {
        return Err(5);
    }
    if rules.breaks(PartsLimitLast) && measures(bytes).parts > limits.parts {
        return Err(3);
    }
    if rules.breaks(RangeAfterReading) && !limits.pass(rules) {
        return Err(25);
    }
    Ok(with_types(bytes, file, rules))
}
