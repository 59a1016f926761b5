//! Printing: document 01, the program at the end of "Rows and answers". A line
//! ends with byte 10.

use crate::mutants::{Exact, Mutant, Rules};
use crate::{Limits, Paged, check_under, node_count, page_length, page_under, read_under};
use crate::{subtype_under, subtypes, tally_lengths, tally_under};
use std::fmt::Write;

/// A file and the limits that it is asked under.
#[derive(Clone, Copy)]
pub struct Limited<'a> {
    pub file: &'a [u8],
    pub limits: Limits,
}

impl<'a> Limited<'a> {
    /// A file under document 01's limits.
    pub fn widest(file: &'a [u8]) -> Limited<'a> {
        Limited { file, limits: Limits::WIDEST }
    }
}

/// A file under its limits, and the lengths of two more buffers, those of the
/// tallies by type and by declaration. The page has one buffer, the first; other
/// questions have none.
#[derive(Clone, Copy)]
pub struct Lent<'a> {
    pub asked: Limited<'a>,
    pub lengths: [usize; 2],
}

/// Buffers of this length are long enough for any file.
const LONGEST: usize = 8192;

/// What the buffers of the tallies hold before they are lent.
const PAINTS: [u16; 2] = [7777, 8888];

/// What the buffer of the page holds before it is lent.
const PAGE_PAINT: u8 = b'#';

/// The answer, then, if accepted, each node's number and row.
pub fn check(file: &[u8]) -> String {
    check_with(Limited::widest(file), Exact)
}

/// The same under limits, and rules that a mutant may break.
pub fn check_with<R: Rules>(case: Limited, rules: R) -> String {
    check_in(case, 2 * node_count(case.file), rules).0
}

/// The same and, in a line of its own, the sum of pairs.
pub fn pairs_with<R: Rules>(case: Limited, rules: R) -> String {
    with_pairs(check_in(case, 2 * node_count(case.file), rules))
}

fn with_pairs((shown, pairs): (String, u32)) -> String {
    format!("{shown}pairs {pairs}\n")
}

/// What the check shows in buffers of a length, and its sum of pairs.
fn check_in<R: Rules>(Limited { file, limits }: Limited, length: usize, rules: R) -> (String, u32) {
    let (mut rows, mut work) = (vec![0; length], vec![0; length]);
    let answer = check_under(file, limits, &mut rows, &mut work, rules);
    let mut out = String::new();
    put(&mut out, [answer.number, answer.step, answer.place]);
    if answer.number == 0 {
        for (node, row) in rows.chunks(2).take(node_count(file)).enumerate() {
            put(&mut out, [node as u16, row[0], row[1]]);
        }
    }
    (out, answer.pairs)
}

fn put(out: &mut String, line: [u16; 3]) {
    writeln!(out, "{} {} {}", line[0], line[1], line[2]).expect("a string takes every line");
}

/// 0 or the number under which the file cannot be read.
pub fn read_with<R: Rules>(case: Limited, rules: R) -> String {
    format!("{}\n", read_under(case.file, case.limits, rules))
}

/// yes or no and the count of pairs, or the refusing number and 0.
pub fn sub(case: Limited, pair: [usize; 2]) -> String {
    below(case, pair, Exact) + "\n"
}

fn below<R: Rules>(case: Limited, [a, b]: [usize; 2], rules: R) -> String {
    match subtype_under(case.file, case.limits, a, b, rules) {
        Ok(found) => format!("{} {}", if found.holds { "yes" } else { "no" }, found.pairs),
        Err(number) => format!("{number} {}", u32::from(rules.breaks(Mutant::RefusedQuestionCounted))),
    }
}

/// Two lines for each type, a character and a count for each other type, or the
/// refusing number.
pub fn subs_with<R: Rules>(case: Limited, rules: R) -> String {
    let table = match subtypes(case.file, case.limits, rules) {
        Ok(table) => table,
        Err(number) => return format!("{number}\n"),
    };
    let mut out = String::new();
    for row in table {
        out.extend(row.iter().map(|found| if found.holds { '1' } else { '0' }));
        let counts: Vec<String> = row.iter().map(|found| found.pairs.to_string()).collect();
        out += &format!("\n{}\n", counts.join(" "));
    }
    out
}

/// The pairs that every case of limits is asked about; no file has a type 600.
const PAIRS: [[usize; 2]; 4] = [[0, 0], [4, 4], [4, 5], [600, 0]];

/// Every operation that takes limits: reading, the subtype question, the check.
pub fn limits_with<R: Rules>(case: Limited, rules: R) -> String {
    let answers = PAIRS.map(|pair| below(case, pair, rules)).join(" ");
    let checked = with_pairs(check_in(case, LONGEST, rules));
    format!("read {}sub {answers}\n{checked}", read_with(case, rules))
}

/// The answer of the tallies, then all numbers of both buffers after the call.
pub fn tallies_with<R: Rules>(case: Lent, rules: R) -> String {
    tallies_in(case, LONGEST, rules).concat()
}

/// The answer of the tallies and, if accepted, both tallies and nothing more.
pub fn tally(asked: Limited) -> String {
    let case = Lent { asked, lengths: tally_lengths(asked.file) };
    let shown = tallies_in(case, 2 * node_count(asked.file), Exact);
    if shown[0].starts_with("0 ") { shown.concat() } else { shown[0].clone() }
}

/// The three lines of the tallies, with rows and work of a length.
fn tallies_in<R: Rules>(Lent { asked, lengths }: Lent, length: usize, rules: R) -> [String; 3] {
    let [mut rows, mut work] = [vec![0; length], vec![0; length]];
    let [mut by_type, mut by_declaration] = [0, 1].map(|i| vec![PAINTS[i]; lengths[i]]);
    let told =
        tally_under(asked.file, asked.limits, [&mut rows, &mut work], [&mut by_type, &mut by_declaration], rules);
    let mut answer = String::new();
    put(&mut answer, [told.number, told.step, told.place]);
    [answer, numbers("types", &by_type), numbers("declarations", &by_declaration)]
}

/// The answer of the page, then all bytes of its buffer after the call and a line end.
pub fn pages_with<R: Rules>(case: Lent, rules: R) -> String {
    let (told, held) = page_in(case.asked, case.lengths[0], LONGEST, rules);
    format!("{}{held}\n", paged(told))
}

/// The answer of the page and, if accepted, the page.
pub fn page(asked: Limited) -> String {
    let (told, held) = page_in(asked, page_length(asked.file), 2 * node_count(asked.file), Exact);
    if told.number == 0 { paged(told) + &held } else { paged(told) }
}

/// The answer's line: number, step, place and bytes.
fn paged(told: Paged) -> String {
    format!("{} {} {} {}\n", told.number, told.step, told.place, told.bytes)
}

/// The answer of the page and what its buffer of a length then holds, with rows and
/// work of a length.
fn page_in<R: Rules>(asked: Limited, length: usize, numbers: usize, rules: R) -> (Paged, String) {
    let [mut rows, mut work] = [vec![0; numbers], vec![0; numbers]];
    let mut out = vec![PAGE_PAINT; length];
    let told = page_under(asked.file, asked.limits, [&mut rows, &mut work], &mut out, rules);
    (told, String::from_utf8(out).expect("the page is a text"))
}

/// A line of numbers behind a word.
fn numbers(word: &str, numbers: &[u16]) -> String {
    let mut line = word.to_string();
    for number in numbers {
        write!(line, " {number}").expect("a string takes every number");
    }
    line + "\n"
}

/// Splits packed files: 4 length bytes, low first, then the file.
pub fn unpack(mut many: &[u8]) -> Vec<&[u8]> {
    let mut files = Vec::new();
    while let Some((length, rest)) = many.split_first_chunk::<4>() {
        let length = (u32::from_le_bytes(*length) as usize).min(rest.len());
        let (file, rest) = rest.split_at(length);
        files.push(file);
        many = rest;
    }
    files
}

/// Packs files as `unpack` reads them.
pub fn pack<F: AsRef<[u8]>>(files: impl IntoIterator<Item = F>) -> Vec<u8> {
    let mut many = Vec::new();
    for file in files {
        let file = file.as_ref();
        many.extend((file.len() as u32).to_le_bytes());
        many.extend(file);
    }
    many
}

/// Splits packed cases of limits: 4 length bytes of the file, 4 bytes each for
/// parts and depth, all low first, then the file.
pub fn unpack_limited(many: &[u8]) -> Vec<Limited<'_>> {
    let cases = split(many).into_iter();
    cases.map(|([parts, depth], file)| Limited { file, limits: Limits { parts, depth } }).collect()
}

/// Splits packed cases of tallies: the same with 4 bytes each for the lengths of
/// the two buffers, by type and by declaration, behind the depth.
pub fn unpack_tallies(many: &[u8]) -> Vec<Lent<'_>> {
    let cases = split(many).into_iter();
    let lent = |[parts, depth, types, declarations]: [usize; 4], file| Lent {
        asked: Limited { file, limits: Limits { parts, depth } },
        lengths: [types, declarations],
    };
    cases.map(|(numbers, file)| lent(numbers, file)).collect()
}

/// Splits packed cases of pages: as those of limits with 4 bytes for the length of
/// the page's buffer behind the depth.
pub fn unpack_pages(many: &[u8]) -> Vec<Lent<'_>> {
    let cases = split(many).into_iter();
    let lent = |[parts, depth, length]: [usize; 3], file| Lent {
        asked: Limited { file, limits: Limits { parts, depth } },
        lengths: [length, 0],
    };
    cases.map(|(numbers, file)| lent(numbers, file)).collect()
}

/// Splits files that have some numbers behind their length, each of 4 bytes, low first.
fn split<const N: usize>(mut many: &[u8]) -> Vec<([usize; N], &[u8])> {
    let mut cases = Vec::new();
    while let Some((head, rest)) = many.split_at_checked(4 + 4 * N) {
        let head = head.as_chunks().0;
        let number = |k: usize| u32::from_le_bytes(head[k]) as usize;
        let (file, rest) = rest.split_at(number(0).min(rest.len()));
        cases.push((std::array::from_fn(|k| number(k + 1)), file));
        many = rest;
    }
    cases
}

/// Packs cases as `unpack_limited` reads them.
pub fn pack_limited<F: AsRef<[u8]>>(cases: impl IntoIterator<Item = (F, Limits)>) -> Vec<u8> {
    join(cases.into_iter().map(|(file, Limits { parts, depth })| ([parts, depth], file)))
}

/// Packs cases as `unpack_tallies` reads them.
pub fn pack_tallies<F: AsRef<[u8]>>(cases: impl IntoIterator<Item = (F, Limits, [usize; 2])>) -> Vec<u8> {
    let numbers = |(file, limits, [types, declarations]): (F, Limits, [usize; 2])| {
        ([limits.parts, limits.depth, types, declarations], file)
    };
    join(cases.into_iter().map(numbers))
}

/// Packs cases as `unpack_pages` reads them.
pub fn pack_pages<F: AsRef<[u8]>>(cases: impl IntoIterator<Item = (F, Limits, usize)>) -> Vec<u8> {
    let numbers = |(file, limits, length): (F, Limits, usize)| ([limits.parts, limits.depth, length], file);
    join(cases.into_iter().map(numbers))
}

/// Packs cases as `split` reads them.
fn join<const N: usize, F: AsRef<[u8]>>(cases: impl IntoIterator<Item = ([usize; N], F)>) -> Vec<u8> {
    let mut many = Vec::new();
    for (numbers, file) in cases {
        let file = file.as_ref();
        for number in std::iter::once(file.len()).chain(numbers) {
            many.extend((number as u32).to_le_bytes());
        }
        many.extend(file);
    }
    many
}
