//! Document 02, request (iv): an accepted file's expression nodes, counted by
//! type, equal types together under their lowest number, and by declaration.

use crate::empty::with_types;
use crate::file::{FUNCTION, File, Four, NULLABLE, STRUCT, VOID, listed, name_type, sections};
use crate::mutants::{Exact, Mutant, Mutant::*, Rules};
use crate::types::Types;
use crate::{Answer, Limits, check_under, read_under};

/// The check's number, step and place, or 19, 0 and 0. It carries no sum of pairs.
#[derive(Clone, Copy, Debug, PartialEq, Eq)]
pub struct Tallied {
    pub number: u16,
    pub step: u16,
    pub place: u16,
}

/// Checks a file, with rows and work as the check leaves them, and tallies an
/// accepted one: one number for each type, one for each declaration. Numbers past
/// these stay; under any other number than 0 both tally buffers stay as they are.
pub fn tally(
    file: &[u8],
    limits: Limits,
    rows: &mut [u16],
    work: &mut [u16],
    by_type: &mut [u16],
    by_declaration: &mut [u16],
) -> Tallied {
    tally_under(file, limits, [rows, work], [by_type, by_declaration], Exact)
}

/// The tallies under rules that a mutant may break: rows and work, then the
/// buffers by type and by declaration.
pub fn tally_under<R: Rules>(
    bytes: &[u8],
    limits: Limits,
    [rows, work]: [&mut [u16]; 2],
    mut lent: [&mut [u16]; 2],
    rules: R,
) -> Tallied {
    if let Some(early) = rules.mutant().and_then(|mutant| refused_early(mutant, bytes, limits, &lent)) {
        return early;
    }
    let limits = limits.handed_on(TallyIgnoresLimits, None, rules);
    let answer = check_under(bytes, limits, rows, work, rules);
    let file = match sections(bytes, rules) {
        Ok(file) if answer.number == 0 => with_types(bytes, file, rules),
        _ => return refused(answer, &mut lent, rules),
    };
    let counts = counts(&file, rows, rules);
    if too_short(&lent, &counts, rules) {
        return short(answer, &mut lent, &counts, rules);
    }
    for (buffer, counts) in lent.into_iter().zip(&counts) {
        put(buffer, counts, rules);
    }
    Tallied { place: if rules.breaks(PairsAsPlace) { answer.pairs as u16 } else { answer.place }, ..told(answer) }
}

/// How many types and how many outermost trees a file has, if its sections can be cut.
pub fn tally_lengths(file: &[u8]) -> [usize; 2] {
    sections(file, Exact).map_or([0; 2], |f| [f.types.len(), count_of(&declarations(&f))])
}

fn told(answer: Answer) -> Tallied {
    Tallied { number: answer.number, step: answer.step, place: answer.place }
}

/// What the check refuses keeps its answer and both buffers.
fn refused<R: Rules>(answer: Answer, lent: &mut [&mut [u16]; 2], rules: R) -> Tallied {
    if rules.breaks(RefusedCleared) {
        lent.iter_mut().for_each(|buffer| buffer.fill(0));
    }
    told(answer)
}

/// A buffer of exactly the needed length is long enough.
fn too_short<R: Rules>(lent: &[&mut [u16]; 2], counts: &[Vec<u16>; 2], rules: R) -> bool {
    let more = usize::from(rules.breaks(ExactRefused));
    let [types, declarations] = [0, 1].map(|i| lent[i].len() < counts[i].len() + more);
    types && !rules.breaks(ShortTypesFree) || declarations && !rules.breaks(ShortDeclarationsFree)
}

/// Number 19: neither buffer changes.
fn short<R: Rules>(answer: Answer, lent: &mut [&mut [u16]; 2], counts: &[Vec<u16>; 2], rules: R) -> Tallied {
    for (buffer, counts) in lent.iter_mut().zip(counts) {
        let fits = buffer.len() >= counts.len();
        match rules.mutant() {
            Some(LongEnoughWritten) if fits => put(buffer, counts, rules),
            Some(ClearedFirst) => buffer.fill(0),
            _ => {}
        }
    }
    Tallied { number: 19, step: if rules.breaks(ShortHasSteps) { answer.step } else { 0 }, place: 0 }
}

/// Writes one tally; what lies past it stays.
fn put<R: Rules>(buffer: &mut [u16], counts: &[u16], rules: R) {
    for (slot, &count) in buffer.iter_mut().zip(counts) {
        *slot = match rules.mutant() {
            Some(TallyAdded) => slot.wrapping_add(count),
            Some(ZerosNotWritten) if count == 0 => *slot,
            Some(TallyCut) => count % 256,
            _ => count,
        };
    }
    if rules.breaks(PastZeroed) {
        buffer.iter_mut().skip(counts.len()).for_each(|slot| *slot = 0);
    }
}

/// For each node the number of the outermost tree that it stands in.
fn declarations(file: &File) -> Vec<usize> {
    let (mut next, mut to_come) = (0, 0);
    let number = |record: &[u8; 8]| {
        if to_come == 0 {
            (next, to_come) = (next + 1, 1);
        }
        to_come = to_come - 1 + Four::of(record).children() as usize;
        next - 1
    };
    file.nodes.iter().map(number).collect()
}

/// How many outermost trees there are.
fn count_of(declarations: &[usize]) -> usize {
    declarations.last().map_or(0, |last| last + 1)
}

/// Document 01's expressions: 22, a field initializer, is none.
fn is_expression(kind: u16) -> bool {
    matches!(kind, 10..=21 | 23..=26)
}

/// The two tallies of an accepted file with its rows.
fn counts<R: Rules>(file: &File, rows: &[u16], rules: R) -> [Vec<u16>; 2] {
    let mut types = Types::new(file, rules);
    types.learn_all();
    let counting = Counting { file: *file, rows, types: &types, parents: parents(file, rules), rules };
    let declarations = declarations(file);
    let mut by_type = vec![0; file.types.len()];
    let mut by_declaration = vec![0; count_of(&declarations)];
    for at in (0..file.nodes.len()).filter(|&at| counting.is_counted(at)) {
        by_type[counting.number(at) as usize] += 1;
        by_declaration[declarations[at]] += 1;
    }
    match rules.mutant() {
        None => [by_type, by_declaration],
        Some(mutant) => counting.changed(mutant, &declarations, [by_type, by_declaration]),
    }
}

/// Which nodes are counted, and under which number of a type.
struct Counting<'a, R> {
    file: File<'a>,
    rows: &'a [u16],
    types: &'a Types<'a, R>,
    /// Only under mutants.
    parents: Vec<usize>,
    rules: R,
}

impl<R: Rules> Counting<'_, R> {
    fn kind(&self, at: usize) -> u16 {
        self.file.node(at).kind()
    }

    /// The type in a node's row.
    fn result(&self, at: usize) -> u16 {
        self.rows[2 * at]
    }

    fn is_counted(&self, at: usize) -> bool {
        let right = is_expression(self.kind(at));
        self.rules.mutant().map_or(right, |mutant| right && !self.left_out(mutant, at) || self.added(mutant, at))
    }

    /// The lowest number of an equal type, whether a row has it or not.
    fn number(&self, at: usize) -> u16 {
        let right = self.types.lowest(self.result(at));
        self.rules.mutant().map_or(right, |mutant| self.other_number(mutant, at).unwrap_or(right))
    }

    /// Whether a mutant leaves an expression out.
    fn left_out(&self, mutant: Mutant, at: usize) -> bool {
        let (kind, parent) = (self.kind(at), self.kind(self.parents[at]));
        let first = at == self.parents[at] + 1;
        match mutant {
            NullsLeftOut => kind == 10,
            NamesLeftOut => kind == 15,
            RecordsLeftOut => kind == 21,
            FieldsLeftOut => kind == 23,
            BinariesLeftOut => kind == 26,
            CalleesLeftOut => first && matches!(parent, 24 | 34),
            LeftSidesLeftOut => first && parent == 30,
            RunsLeftOut => parent == 34,
            InitializedLeftOut => parent == 22,
            _ => false,
        }
    }

    /// Whether a mutant takes a node that is no expression for one.
    fn added(&self, mutant: Mutant, at: usize) -> bool {
        match mutant {
            GlobalsTallied => self.kind(at) == 1,
            ParametersTallied => self.kind(at) == 3,
            InitializersTallied => self.kind(at) == 22,
            RunsTallied => self.kind(at) == 34,
            StatementsTallied => matches!(self.kind(at), 30..=38),
            AbsentTallied => self.kind(at) == 40,
            _ => false,
        }
    }

    /// The number that a mutant counts a node under.
    fn other_number(&self, mutant: Mutant, at: usize) -> Option<u16> {
        let t = self.result(at);
        let (all, equal) = (0..self.file.types.len() as u16, |u: &u16| self.types.equal(t, *u));
        let below = |a: u16, b: u16| self.types.below(a, b).holds;
        let nullable = self.file.kind_of(t) == NULLABLE;
        match mutant {
            EqualApart => Some(t),
            EqualUnderHighest => all.rev().find(equal),
            EqualUnderUsed => self.used().filter(equal).min(),
            EqualUnderBefore => (0..t).rev().find(equal),
            EqualRecords => all.into_iter().find(|&u| self.file.types[t as usize] == self.file.types[u as usize]),
            EqualByFields => all.into_iter().find(|&u| self.alike(t, u)),
            EqualByResult => all.into_iter().find(|&u| equal(&u) || self.same_result(t, u)),
            EqualBothWays => all.into_iter().find(|&u| equal(&u) || below(t, u) && below(u, t)),
            UnderAbove => all.into_iter().find(|&u| equal(&u) || below(t, u)),
            NullablesPlain if nullable => Some(self.types.lowest(self.file.ty(t).a())),
            NullsPlain if self.kind(at) == 10 => Some(self.types.lowest(self.file.ty(t).a())),
            RunsTallied if self.kind(at) == 34 => Some(VOID),
            _ => None,
        }
    }

    /// The types that rows of expressions have.
    fn used(&self) -> impl Iterator<Item = u16> {
        (0..self.file.nodes.len()).filter(|&at| is_expression(self.kind(at))).map(|at| self.result(at))
    }

    /// Functions that give the same, whatever they take.
    fn same_result(&self, t: u16, u: u16) -> bool {
        let [t, u] = [t, u].map(|t| self.file.ty(t));
        [t.kind(), u.kind()] == [FUNCTION; 2] && self.types.equal(t.a(), u.a())
    }

    /// Equal as written out, but for structs with equal fields.
    fn alike(&self, a: u16, b: u16) -> bool {
        let (t, u) = (self.file.ty(a), self.file.ty(b));
        match t.kind() {
            kind if kind != u.kind() => false,
            0..=VOID => true,
            STRUCT => self.types.equal(a, b) || self.same_fields(a, b),
            FUNCTION => {
                let (p, q) = (self.file.parameters(t), self.file.parameters(u));
                let pairs = || p.iter().zip(q).all(|(p, q)| self.alike(listed(p), listed(q)));
                p.len() == q.len() && self.alike(t.a(), u.a()) && pairs()
            }
            _ => self.alike(t.a(), u.a()),
        }
    }

    fn same_fields(&self, a: u16, b: u16) -> bool {
        let (Some(s), Some(z)) = (self.types.record(a), self.types.record(b)) else { return false };
        let (f, g) = (self.file.fields_of(s), self.file.fields_of(z));
        let same = |(f, g)| {
            let (f, g) = (name_type(f), name_type(g));
            f.name == g.name && self.types.equal(f.ty, g.ty)
        };
        f.len() == g.len() && f.iter().zip(g).all(same)
    }

    /// What a mutant makes of the two tallies.
    fn changed(&self, mutant: Mutant, declarations: &[usize], [by_type, mut found]: [Vec<u16>; 2]) -> [Vec<u16>; 2] {
        let kind = |d: usize| declarations.iter().position(|&of| of == d).map_or(0, |at| self.kind(at));
        let of_kind = |wanted: u16| (0..found.len()).filter(move |&d| kind(d) == wanted).map(|d| found[d]);
        match mutant {
            FunctionsAlone => found = of_kind(2).collect(),
            GlobalsBeforeFunctions => found = of_kind(1).chain(of_kind(2)).collect(),
            UnderNextDeclaration if !found.is_empty() => found.rotate_right(1),
            StructsAreDeclarations => found.splice(0..0, vec![0; self.file.structs.len()]).for_each(drop),
            DeclarationsCountThemselves => found.iter_mut().for_each(|count| *count += 1),
            TalliesSwapped => return [found, by_type],
            _ => {}
        }
        [by_type, found]
    }
}

/// Only under mutants: each node's parent; an outermost node is its own.
fn parents<R: Rules>(file: &File, rules: R) -> Vec<usize> {
    let (mut open, mut parents): (Vec<[usize; 2]>, Vec<usize>) = (vec![], vec![]);
    let nodes = if rules.mutant().is_some() { file.nodes } else { &[] };
    for (at, record) in nodes.iter().enumerate() {
        parents.push(open.last().map_or(at, |parent| parent[0]));
        if let Some([_, to_come]) = open.last_mut() {
            *to_come -= 1;
        }
        open.push([at, Four::of(record).children() as usize]);
        while open.last().is_some_and(|node| node[1] == 0) {
            open.pop();
        }
    }
    parents
}

/// What a mutant answers before the check is run.
fn refused_early(mutant: Mutant, bytes: &[u8], limits: Limits, lent: &[&mut [u16]; 2]) -> Option<Tallied> {
    let short = || (0..2).any(|i| lent[i].len() < tally_lengths(bytes)[i]);
    let number = match mutant {
        TallyRefusesEmpty if bytes.is_empty() && limits.in_range() => 1,
        ShortBeforeTyping if read_under(bytes, limits, mutant) == 0 && short() => 19,
        ShortBeforeAll if short() => 19,
        _ => return None,
    };
    Some(Tallied { number, step: 0, place: 0 })
}
