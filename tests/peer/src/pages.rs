//! Document 02, request (iii): the rows of an accepted file, printed for a board:
//! a line for each node, then how many full pages and how many rows behind them.

use crate::empty::with_types;
use crate::file::{File, sections};
use crate::mutants::{Exact, Mutant, Mutant::*, Rules};
use crate::{Answer, Limits, check_under, node_count, read_under};

/// The check's number, step and place, or 18, 0 and 0, and how many bytes are
/// written, 0 if refused.
#[derive(Clone, Copy, Debug, PartialEq, Eq)]
pub struct Paged {
    pub number: u16,
    pub step: u16,
    pub place: u16,
    pub bytes: usize,
}

/// The rows of a page.
const ROWS: usize = 50;

/// The bytes of a row's line: 4, 2, 5 and 5 columns, three blanks, the line end.
const LINE: usize = 20;

/// Checks a file, with rows and work as the check leaves them, and prints the rows
/// of an accepted one. Bytes past the page stay; under any other number than 0 the
/// whole buffer stays as it is.
pub fn page(file: &[u8], limits: Limits, rows: &mut [u16], work: &mut [u16], out: &mut [u8]) -> Paged {
    page_under(file, limits, [rows, work], out, Exact)
}

/// The page under rules that a mutant may break: rows and work, then the buffer.
pub fn page_under<R: Rules>(
    bytes: &[u8],
    limits: Limits,
    [rows, work]: [&mut [u16]; 2],
    out: &mut [u8],
    rules: R,
) -> Paged {
    if let Some(early) = rules.mutant().and_then(|mutant| refused_early(mutant, bytes, limits, out)) {
        return early;
    }
    let limits = limits.handed_on(PageIgnoresLimits, None, rules);
    let answer = check_under(bytes, limits, rows, work, rules);
    let file = match sections(bytes, rules) {
        Ok(file) if answer.number == 0 => with_types(bytes, file, rules),
        _ => return refused(bytes, answer, rows, out, rules),
    };
    let page = printed(&file, rows, rules);
    if out.len() < needed(&page, file.nodes.len(), rules) {
        return short(answer, &page, out, rules);
    }
    put(&page, out);
    if let Some(mutant) = rules.mutant() {
        past_changed(mutant, out.iter_mut().skip(page.len()));
    }
    accepted(answer, &page, out.len(), rules)
}

/// How many bytes the page of a file has, if its sections can be cut; else as many
/// as that of a file without nodes.
pub fn page_length(file: &[u8]) -> usize {
    let nodes = node_count(file);
    LINE * nodes + last_line(nodes).len()
}

/// The whole page.
fn printed<R: Rules>(file: &File, rows: &[u16], rules: R) -> String {
    if let Some(mutant) = rules.mutant() {
        return Slip { mutant, file, rows }.page();
    }
    let nodes = 0..file.nodes.len();
    nodes.map(|node| line(row(file, rows, node))).chain([last_line(file.nodes.len())]).collect()
}

/// Node number, kind, result and binder.
fn row(file: &File, rows: &[u16], node: usize) -> [u16; 4] {
    [node as u16, file.node(node).kind(), rows[2 * node], rows[2 * node + 1]]
}

/// A row's line: right aligned with blanks, one blank between.
fn line([node, kind, result, binder]: [u16; 4]) -> String {
    format!("{node:4} {kind:2} {result:5} {binder:5}\n")
}

/// The full pages and the rows behind them, without blanks in front.
fn last_line(nodes: usize) -> String {
    format!("pages {} rows {}\n", nodes / ROWS, nodes % ROWS)
}

/// A buffer of exactly the page's length is long enough.
fn needed<R: Rules>(page: &str, nodes: usize, rules: R) -> usize {
    match rules.mutant() {
        Some(PageExactRefused) => page.len() + 1,
        Some(PageOneShortTaken) => page.len() - 1,
        Some(PageNeverShort) => 0,
        Some(PageMeasuredWithoutEnds) => page.len() - nodes,
        Some(PageMeasuredWithoutLast) => LINE * nodes,
        Some(PageMeasuredInSixteenBits) => page.len() % (1 << 16),
        _ => page.len(),
    }
}

/// Writes the page, under mutants what fits of it; what lies past it stays.
fn put(page: &str, out: &mut [u8]) {
    for (byte, printed) in out.iter_mut().zip(page.bytes()) {
        *byte = printed;
    }
}

fn accepted<R: Rules>(answer: Answer, page: &str, length: usize, rules: R) -> Paged {
    let bytes = match rules.mutant() {
        Some(PageBytesWithoutLast) => page.rfind("pages").unwrap_or(0),
        Some(PageBytesOfBuffer) => length,
        Some(PageBytesCut) => page.len() % (1 << 16),
        _ => page.len(),
    };
    let place = if rules.breaks(PagePairsAsPlace) { answer.pairs as u16 } else { answer.place };
    Paged { number: answer.number, step: answer.step, place, bytes }
}

/// Number 18: the buffer stays.
fn short<R: Rules>(answer: Answer, page: &str, out: &mut [u8], rules: R) -> Paged {
    match rules.mutant() {
        Some(PageShortCleared) => out.fill(b' '),
        Some(PageShortWritten) => put(page, out),
        _ => {}
    }
    Paged {
        number: 18,
        step: if rules.breaks(PageShortHasSteps) { answer.step } else { 0 },
        place: 0,
        bytes: if rules.breaks(PageShortHasBytes) { page.len() } else { 0 },
    }
}

/// What the check refuses keeps its answer, and the buffer stays.
fn refused<R: Rules>(bytes: &[u8], answer: Answer, rows: &[u16], out: &mut [u8], rules: R) -> Paged {
    let told = Paged { number: answer.number, step: answer.step, place: answer.place, bytes: 0 };
    match (rules.mutant(), sections(bytes, rules)) {
        (Some(PageRefusedCleared), _) => out.fill(b' '),
        (Some(PageRefusedHasBytes), _) => return Paged { bytes: page_length(bytes), ..told },
        (Some(PageRefusedPrinted), Ok(file)) if (7..=16).contains(&answer.number) => {
            let page = printed(&file, rows, rules);
            put(&page, out);
            return Paged { bytes: page.len().min(out.len()), ..told };
        }
        _ => {}
    }
    told
}

/// What a mutant answers before the check is run.
fn refused_early(mutant: Mutant, bytes: &[u8], limits: Limits, out: &[u8]) -> Option<Paged> {
    let short = out.len() < page_length(bytes);
    let number = match mutant {
        PageRefusesEmpty if bytes.is_empty() && limits.in_range() => 1,
        PageShortBeforeTyping if short && read_under(bytes, limits, mutant) == 0 => 18,
        PageShortBeforeAll if short => 18,
        _ => return None,
    };
    Some(Paged { number, step: 0, place: 0, bytes: 0 })
}

/// What a mutant does to the bytes past the page.
fn past_changed<'a>(mutant: Mutant, past: impl Iterator<Item = &'a mut u8>) {
    match mutant {
        PagePastBlank => past.for_each(|byte| *byte = b' '),
        PagePastZeroed => past.for_each(|byte| *byte = 0),
        PagePastEnded => past.take(1).for_each(|byte| *byte = b'\n'),
        _ => {}
    }
}

/// How a mutant prints.
struct Slip<'a> {
    mutant: Mutant,
    file: &'a File<'a>,
    rows: &'a [u16],
}

impl Slip<'_> {
    fn page(&self) -> String {
        let nodes = self.file.nodes.len();
        let printed = (0..nodes).filter(|&node| self.is_printed(node));
        let lines: String = printed.map(|node| self.line(node) + &self.behind(node)).collect();
        let last = self.last_line();
        let page = match self.mutant {
            LastLineFirst => last + &lines,
            LastLineMissing => lines,
            LastLineUnlessEmpty if nodes == 0 => lines,
            LastLineOpen => lines + last.trim_end(),
            _ => lines + &last,
        };
        if self.mutant == LinesEndWithTwo { page.replace('\n', "\r\n") } else { page }
    }

    /// Whether a node has a line.
    fn is_printed(&self, node: usize) -> bool {
        match self.mutant {
            FirstPageAlone => node < ROWS,
            FullPagesAlone => node < self.file.nodes.len() / ROWS * ROWS,
            AbsentUnprinted => self.file.node(node).kind() != 40,
            _ => true,
        }
    }

    /// The numbers of a node's line.
    fn numbers(&self, node: usize) -> [u16; 4] {
        let [at, kind, result, binder] = row(self.file, self.rows, node);
        match self.mutant {
            NodesFromOne => [at + 1, kind, result, binder],
            NodesOfPage => [at % ROWS as u16, kind, result, binder],
            KindFromX => [at, self.file.node(node).x(), result, binder],
            KindAndResultSwapped => [at, result, kind, binder],
            ResultAndBinderSwapped => [at, kind, binder, result],
            _ => [at, kind, result, binder],
        }
    }

    fn line(&self, node: usize) -> String {
        let numbers = self.numbers(node);
        let cells: [String; 4] = std::array::from_fn(|column| self.cell(column, numbers[column]));
        let blank = if self.mutant == NoBlankBetween { "" } else { " " };
        let end = if self.mutant == BlankAtEnd { " \n" } else { "\n" };
        cells.join(blank) + end
    }

    fn cell(&self, column: usize, number: u16) -> String {
        let width = self.width(column);
        let unbound = column == 3 && number == 65_535;
        match self.mutant {
            LeftAligned => format!("{number:<width$}"),
            ZerosForBlanks => format!("{number:0width$}"),
            NoBinderBlank if unbound => " ".repeat(width),
            NoBinderDash if unbound => format!("{:>width$}", "-"),
            _ => format!("{number:width$}"),
        }
    }

    fn width(&self, column: usize) -> usize {
        let widths = match self.mutant {
            NodeNarrower => [3, 2, 5, 5],
            NodeWider => [5, 2, 5, 5],
            KindNarrower => [4, 1, 5, 5],
            KindWider => [4, 3, 5, 5],
            ResultNarrower => [4, 2, 4, 5],
            ResultWider => [4, 2, 6, 5],
            BinderNarrower => [4, 2, 5, 4],
            BinderWider => [4, 2, 5, 6],
            NodeColumnToKind => [3, 3, 5, 5],
            ResultColumnToBinder => [4, 2, 4, 6],
            _ => [4, 2, 5, 5],
        };
        widths[column]
    }

    /// What stands behind a node's line.
    fn behind(&self, node: usize) -> String {
        let so_far = node + 1;
        if so_far % ROWS > 0 || so_far == self.file.nodes.len() {
            return String::new();
        }
        match self.mutant {
            LineBetweenPages => "\n".to_string(),
            LastLineOfEachPage => last_line(so_far),
            _ => String::new(),
        }
    }

    fn last_line(&self) -> String {
        let [pages, rows] = self.counts(self.file.nodes.len());
        match self.mutant {
            CountsPadded => format!("pages {pages:4} rows {rows:4}\n"),
            NoRowsUntold if rows == 0 => format!("pages {pages}\n"),
            _ => format!("pages {pages} rows {rows}\n"),
        }
    }

    /// The full pages and the rows behind them.
    fn counts(&self, nodes: usize) -> [usize; 2] {
        let (pages, rows) = (nodes / ROWS, nodes % ROWS);
        match self.mutant {
            PagesOfOneFewer => [nodes / (ROWS - 1), nodes % (ROWS - 1)],
            PagesOfOneMore => [nodes / (ROWS + 1), nodes % (ROWS + 1)],
            RemainderOfOneFewer => [pages, nodes % (ROWS - 1)],
            RemainderOfOneMore => [pages, nodes % (ROWS + 1)],
            PagesRoundedUp => [nodes.div_ceil(ROWS), rows],
            NoRemainderIsFifty if rows == 0 => [pages, ROWS],
            FullPageNotTurned if rows == 0 && pages > 0 => [pages - 1, ROWS],
            RowsOfAllPages => [pages, nodes],
            PagesAndRowsSwapped => [rows, pages],
            _ => [pages, rows],
        }
    }
}
