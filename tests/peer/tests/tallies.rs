//! Document 02's request (iv): tallies of expressions by type and by declaration.

use oat_peer::cases::{Case, TallyCase, checked, reading, tallies};
use oat_peer::mutants::{ALL, Part};
use oat_peer::print::unpack;
use oat_peer::vectors::{Question, caught, files, hand_written};
use oat_peer::*;
use std::collections::BTreeSet;

mod sections;

const MARK: u16 = 43_690;
const LONGEST: usize = 8192;

/// What a call leaves: its answer, rows, work and both tallies.
#[derive(PartialEq, Debug)]
struct Left {
    told: [u16; 3],
    rows: Vec<u16>,
    work: Vec<u16>,
    tallies: [Vec<u16>; 2],
}

/// Buffers for rows and work of one length each; the tallies are filled with a paint each.
fn run(file: &[u8], limits: Limits, [rows, work]: [usize; 2], lengths: [usize; 2], paints: [u16; 2]) -> Left {
    let (mut rows, mut work) = (vec![MARK; rows], vec![MARK; work]);
    let [mut by_type, mut by_declaration] = painted(lengths, paints);
    let told = tally(file, limits, &mut rows, &mut work, &mut by_type, &mut by_declaration);
    Left { told: [told.number, told.step, told.place], rows, work, tallies: [by_type, by_declaration] }
}

fn painted(lengths: [usize; 2], paints: [u16; 2]) -> [Vec<u16>; 2] {
    [0, 1].map(|i| vec![paints[i]; lengths[i]])
}

/// The check alone: answer, rows and work.
fn checked_alone(file: &[u8], limits: Limits, [rows, work]: [usize; 2]) -> ([u16; 3], Vec<u16>, Vec<u16>) {
    let (mut rows, mut work) = (vec![MARK; rows], vec![MARK; work]);
    let answer = check(file, limits, &mut rows, &mut work);
    ([answer.number, answer.step, answer.place], rows, work)
}

const PAINTS: [u16; 2] = [7777, 8888];

/// Every case written by hand, under each of its lengths.
#[test]
fn hand_cases() {
    for case in tallies() {
        let TallyCase { name, file, limits, answer, exact, .. } = &case;
        for lengths in case.lengths() {
            let left = run(file, *limits, [LONGEST; 2], lengths, PAINTS);
            let mut expected = painted(lengths, PAINTS);
            let long_enough = lengths[0] >= exact[0] && lengths[1] >= exact[1];
            if let (Some(told), true) = (&case.tallies, long_enough) {
                for (buffer, told) in expected.iter_mut().zip(told) {
                    buffer[..told.len()].copy_from_slice(told);
                }
            }
            let short = case.tallies.is_some() && !long_enough;
            assert_eq!(left.told, if short { [19, 0, 0] } else { *answer }, "{name}, {lengths:?}");
            assert_eq!(left.tallies, expected, "{name}, {lengths:?}");
        }
    }
}

/// What is told by hand fits together: as many expressions by type as by
/// declaration, as many numbers as the file has types and outermost trees.
#[test]
fn hand_cases_add_up() {
    let sum = |counts: &[u16]| counts.iter().map(|&c| u32::from(c)).sum::<u32>();
    for TallyCase { name, file, answer, exact, tallies, .. } in tallies() {
        assert_eq!(tallies.is_some(), answer[0] == 0, "{name}");
        if let Some([by_type, by_declaration]) = tallies {
            assert_eq!(sum(&by_type), sum(&by_declaration), "{name}");
            assert_eq!(exact, [by_type.len(), by_declaration.len()], "{name}");
            assert_eq!(by_type[3], 0, "{name}: an expression of type void");
        }
        if !(1..=5).contains(&answer[0]) && answer[0] != 25 {
            assert_eq!(tally_lengths(&file), exact, "{name}");
        }
    }
}

/// Each number but 6 has a case with short buffers; accepted cases use each kind.
#[test]
fn every_number() {
    let cases = tallies();
    assert!(cases.len() >= 100);
    for number in (0..=5).chain(7..=16).chain([25]) {
        assert!(cases.iter().any(|c| c.answer[0] == number && c.lengths().len() >= 4), "{number}");
    }
    let accepted = || cases.iter().filter(|c| c.tallies.is_some());
    for kind in (1..=3).chain(10..=26).chain(30..=40) {
        assert!(accepted().any(|c| Sections::of(&c.file).nodes.iter().any(|n| n[0] == kind)), "{kind}");
    }
}

/// A readable file's sections as numbers, as far as tallies need them.
struct Sections {
    types: Vec<[u16; 4]>,
    list: Vec<u16>,
    nodes: Vec<[u16; 4]>,
}

impl Sections {
    fn of(file: &[u8]) -> Sections {
        let [types, list, _, _, _, nodes] = sections::sections(file);
        Sections { types: types.as_chunks().0.to_vec(), list, nodes: nodes.as_chunks().0.to_vec() }
    }

    /// Each type written out.
    fn all_written(&self) -> Vec<Vec<u16>> {
        (0..self.types.len() as u16).map(|t| sections::written(&self.types, &self.list, t)).collect()
    }

    /// The first node behind a tree.
    fn behind(&self, at: usize) -> usize {
        (0..self.nodes[at][3]).fold(at + 1, |child, _| self.behind(child))
    }

    /// The outermost trees, as ranges of nodes.
    fn trees(&self) -> Vec<std::ops::Range<usize>> {
        let (mut trees, mut at) = (Vec::new(), 0);
        while at < self.nodes.len() {
            trees.push(at..self.behind(at));
            at = self.behind(at);
        }
        trees
    }

    fn is_expression(&self, at: usize) -> bool {
        let kind = self.nodes[at][0];
        (10..=26).contains(&kind) && kind != 22
    }

    /// How many of some nodes are expressions.
    fn expressions(&self, nodes: std::ops::Range<usize>) -> usize {
        nodes.filter(|&at| self.is_expression(at)).count()
    }

    /// Both tallies, type after type and tree after tree, as document 02 has them.
    fn tallies(&self, rows: &[u16]) -> [Vec<u16>; 2] {
        let written = self.all_written();
        let of_type = |t: usize| {
            let lowest = written.iter().position(|w| *w == written[t]) == Some(t);
            let equal = |&at: &usize| self.is_expression(at) && written[rows[2 * at] as usize] == written[t];
            if lowest { (0..self.nodes.len()).filter(equal).count() as u16 } else { 0 }
        };
        let by_type = (0..self.types.len()).map(of_type).collect();
        [by_type, self.trees().into_iter().map(|tree| self.expressions(tree) as u16).collect()]
    }
}

/// The stored files of the check and generated ones of every sort.
fn corpus() -> Vec<Vec<u8>> {
    let many = [
        files(Question::Check),
        generator::programs(32, 1000),
        generator::pairs(33, 400),
        generator::levels(34, 400),
        generator::field_names(35, 200),
        generator::endless(36, 200),
    ];
    let mut all: Vec<Vec<u8>> = many.iter().flat_map(|many| unpack(many)).map(<[u8]>::to_vec).collect();
    let made = generator::tallies(37, 600);
    all.extend(print::unpack_tallies(&made).into_iter().map(|case| case.asked.file.to_vec()));
    all
}

/// More than any file needs.
const ENOUGH: [usize; 2] = [520, 2060];

/// Each accepted file: both tallies add up to the count of expression nodes, are
/// those of the definition, and keep what lies past them, whatever the paint.
#[test]
fn accepted_files() {
    let mut accepted = 0;
    for file in corpus() {
        let need = [2 * node_count(&file); 2];
        let left = run(&file, Limits::WIDEST, need, ENOUGH, PAINTS);
        let (answer, rows, work) = checked_alone(&file, Limits::WIDEST, need);
        assert_eq!((left.told, &left.rows, &left.work), (answer, &rows, &work));
        if answer[0] > 0 {
            assert_eq!(left.tallies, painted(ENOUGH, PAINTS));
            continue;
        }
        accepted += 1;
        let sections = Sections::of(&file);
        let expected = sections.tallies(&rows);
        let all = sections.expressions(0..sections.nodes.len());
        for (i, (found, told)) in left.tallies.iter().zip(&expected).enumerate() {
            let (written, past) = found.split_at(told.len());
            assert_eq!(written, told);
            assert_eq!(written.iter().map(|&c| c as usize).sum::<usize>(), all);
            assert!(past.iter().all(|&n| n == PAINTS[i]));
        }
        let other = run(&file, Limits::WIDEST, need, expected.each_ref().map(Vec::len), [0, 65_535]);
        assert_eq!((other.told, other.tallies), (answer, expected));
    }
    assert!(accepted >= 1500, "{accepted}");
}

/// Lengths of which one at least is too short.
fn too_short([types, declarations]: [usize; 2]) -> Vec<[usize; 2]> {
    let mut all = vec![[0, 0], [0, declarations], [types - 1, declarations], [types - 1, declarations + 9]];
    if declarations > 0 {
        all.extend([
            [types, 0],
            [types, declarations - 1],
            [types + 9, declarations - 1],
            [types - 1, declarations - 1],
        ]);
    }
    all
}

/// 19: neither tally changes, rows and work are those of the accepting check, and
/// past two per node they stay.
#[test]
fn short_buffers() {
    for file in corpus().into_iter().step_by(3) {
        let need = 2 * node_count(&file);
        let (answer, rows, work) = checked_alone(&file, Limits::WIDEST, [need + 5, need + 3]);
        if answer[0] > 0 {
            continue;
        }
        for lengths in too_short(tally_lengths(&file)) {
            let left = run(&file, Limits::WIDEST, [need + 5, need + 3], lengths, PAINTS);
            assert_eq!(left.told, [19, 0, 0]);
            assert_eq!((&left.rows, &left.work), (&rows, &work));
            assert_eq!(left.tallies, painted(lengths, PAINTS));
        }
    }
}

/// Every pair of lengths around those of one file.
#[test]
fn every_length() {
    let case = tallies().into_iter().find(|c| c.name == "a global between two functions").expect("a case");
    let told = case.tallies.expect("an accepted case");
    for (types, declarations) in (0..9).flat_map(|types| (0..6).map(move |declarations| (types, declarations))) {
        let left = run(&case.file, case.limits, [LONGEST; 2], [types, declarations], PAINTS);
        let long_enough = types >= 6 && declarations >= 3;
        assert_eq!(left.told, if long_enough { case.answer } else { [19, 0, 0] });
        let mut expected = painted([types, declarations], PAINTS);
        if long_enough {
            expected[0][..6].copy_from_slice(&told[0]);
            expected[1][..3].copy_from_slice(&told[1]);
        }
        assert_eq!(left.tallies, expected);
    }
}

/// 6 comes before 7 to 16 and before 19, and changes no buffer.
#[test]
fn short_rows_and_work() {
    let with_nodes = |case: &Case| node_count(&case.file) > 0;
    for case in checked().into_iter().filter(with_nodes).step_by(5) {
        let need = 2 * node_count(&case.file);
        let [types, declarations] = tally_lengths(&case.file);
        for lengths in [[types, declarations], [types + 1, declarations + 1], [types - 1, declarations - 1], [0, 0]] {
            for sizes in [[need - 1, need], [need, need - 1], [need - 1, need - 1], [0, need], [need, 0]] {
                let left = run(&case.file, Limits::WIDEST, sizes, lengths, PAINTS);
                assert_eq!(left.told, [6, 0, 0], "{}", case.name);
                assert!(left.rows.iter().chain(&left.work).all(|&n| n == MARK), "{}", case.name);
                assert_eq!(left.tallies, painted(lengths, PAINTS), "{}", case.name);
            }
        }
    }
}

/// 25 comes before everything, 1 to 5 before 6 and 19; no buffer changes.
#[test]
fn unread_files() {
    let outside = [(0, 1), (1, 0), (201, 100), (200, 101), (0, 0), (65_536 + 200, 100)];
    for (name, file, number) in reading() {
        for length in [0, 3, LONGEST] {
            let unchanged = |limits, number| {
                let left = run(&file, limits, [length; 2], [length.min(600); 2], PAINTS);
                assert_eq!(left.told, [number, 0, 0], "{name}, {limits:?}");
                assert!(left.rows.iter().chain(&left.work).all(|&n| n == MARK), "{name}, {limits:?}");
                assert_eq!(left.tallies, painted([length.min(600); 2], PAINTS), "{name}, {limits:?}");
            };
            for (parts, depth) in outside {
                unchanged(Limits { parts, depth }, 25);
            }
            if number > 0 {
                unchanged(Limits::WIDEST, number);
            }
        }
    }
}

/// Whatever the lengths, the answer is the check's, or 19 where that accepts;
/// refused by typing, the rows are filled as by the check.
#[test]
fn answers_are_the_checks() {
    let many = generator::limited(38, 300);
    for case in print::unpack_limited(&many) {
        let (answer, rows, work) = checked_alone(case.file, case.limits, [LONGEST; 2]);
        for lengths in [[0, 0], [4, 0], [1, 5000], [600, 5000]] {
            let left = run(case.file, case.limits, [LONGEST; 2], lengths, PAINTS);
            assert_eq!((&left.rows, &left.work), (&rows, &work));
            let needed = tally_lengths(case.file);
            let short = answer[0] == 0 && (lengths[0] < needed[0] || lengths[1] < needed[1]);
            assert_eq!(left.told, if short { [19, 0, 0] } else { answer });
            if left.told[0] > 0 {
                assert_eq!(left.tallies, painted(lengths, PAINTS));
            }
        }
    }
}

/// What `gentallies` makes: most files are accepted and have an equal type under
/// two numbers in rows, a quarter or more of these are 19.
#[test]
fn generated_cases() {
    let made = generator::tallies(39, 600);
    assert_eq!(made, generator::tallies(39, 600));
    let [mut accepted, mut twice, mut short, mut refused] = [0; 4];
    for case in print::unpack_tallies(&made) {
        let (file, limits) = (case.asked.file, case.asked.limits);
        let left = run(file, limits, [LONGEST; 2], case.lengths, PAINTS);
        if !matches!(left.told[0], 0 | 19) {
            refused += 1;
            continue;
        }
        accepted += 1;
        short += usize::from(left.told[0] == 19);
        let sections = Sections::of(file);
        let expressions = (0..sections.nodes.len()).filter(|&at| sections.is_expression(at));
        let used: BTreeSet<usize> = expressions.map(|at| left.rows[2 * at] as usize).collect();
        let written = sections.all_written();
        let types: BTreeSet<&Vec<u16>> = used.iter().map(|&t| &written[t]).collect();
        twice += usize::from(types.len() < used.len());
    }
    assert!(accepted >= 420 && twice * 10 >= accepted * 7, "{accepted}, {twice}");
    assert!(short * 4 >= accepted && short * 2 <= accepted && refused >= 60, "{short}, {refused}");
}

/// More numbers for equal types change no answer; what is counted stays under
/// the numbers that the types had, and the new numbers have 0.
#[test]
fn doubled_types() {
    let tallied = |file: &[u8]| run(file, Limits::WIDEST, [LONGEST; 2], tally_lengths(file), PAINTS);
    for [file, again] in generator::doubled(40, 400) {
        let [left, more] = [tallied(&file), tallied(&again)];
        assert_eq!(left.told, more.told);
        assert_eq!(left.tallies[1], more.tallies[1]);
        let (same, new) = more.tallies[0].split_at(left.tallies[0].len());
        assert_eq!(left.tallies[0], same);
        assert!(new.len() > 10 && (left.told[0] > 0 || new.iter().all(|&count| count == 0)));
    }
}

/// Each mutant of the tallies is caught by a case written by hand.
#[test]
fn mutants_by_hand() {
    let packed = &hand_written()[4];
    let cases = Question::Tallies.unpack(packed);
    let right: Vec<String> = cases.iter().map(|&case| Question::Tallies.show(case)).collect();
    let of_tallies = ALL.iter().filter(|m| m.1 == Part::Tallies);
    let missed: Vec<_> = of_tallies.filter(|m| caught(Question::Tallies, &cases, &right, (m.0, m.1)) == 0).collect();
    assert!(missed.is_empty(), "{missed:?}");
}
