//! Document 02, request (xi): limits as parameters.

use oat_peer::cases::{LimitCase, checked, limits, reading};
use oat_peer::mutants::Mutant::RangeAfterShort;
use oat_peer::print::{Limited, unpack, unpack_limited};
use oat_peer::vectors::{Question, files};
use oat_peer::*;
use std::collections::BTreeMap;

const MARK: u16 = 43_690;
const LONGEST: usize = 8192;

fn set(parts: usize, depth: usize) -> Limits {
    Limits { parts, depth }
}

/// Settings with one limit, or both, out of range.
fn outside() -> Vec<Limits> {
    let far = [0, 201, 256, 65_535, 65_536 + 50, u32::MAX as usize, usize::MAX];
    let one = far.iter().flat_map(|&n| [set(n, 1), set(n, 100), set(1, n), set(200, n)]);
    one.chain([set(0, 0), set(200, 101), set(101, 200), set(201, 101)]).collect()
}

/// Answer, rows and work of the check in buffers that were filled before.
fn run(file: &[u8], limits: Limits, lengths: [usize; 2]) -> (Answer, Vec<u16>, Vec<u16>) {
    let [mut rows, mut work] = lengths.map(|n| vec![MARK; n]);
    let answer = check(file, limits, &mut rows, &mut work);
    (answer, rows, work)
}

fn untouched(numbers: &[u16]) -> bool {
    numbers.iter().all(|&n| n == MARK)
}

fn refused(number: u16) -> Answer {
    Answer { number, step: 0, place: 0, pairs: 0 }
}

/// Files of every number.
fn some_files() -> Vec<Vec<u8>> {
    let mut files: Vec<Vec<u8>> = checked().into_iter().map(|c| c.file).step_by(7).collect();
    files.extend(reading().into_iter().map(|c| c.1).filter(|f| f.len() < 2000).step_by(7));
    files.extend(unpack(&generator::programs(21, 100)).into_iter().map(<[u8]>::to_vec));
    files.push(vec![]);
    files
}

#[test]
fn ranges() {
    assert!((1..=200).all(|parts| (1..=100).all(|depth| set(parts, depth).in_range())));
    assert!(Limits::WIDEST.in_range() && Limits::WIDEST == set(200, 100));
    assert!(outside().iter().all(|limits| !limits.in_range()));
}

/// Every case written by hand has its answer; reading and the subtype question
/// give the same number where the file cannot be read.
#[test]
fn limit_cases() {
    for LimitCase { name, file, limits, answer } in limits() {
        let (found, ..) = run(&file, limits, [LONGEST; 2]);
        assert_eq!([found.number, found.step, found.place], answer, "{name}, {limits:?}");
        let number = if (6..=16).contains(&answer[0]) { 0 } else { answer[0] };
        assert_eq!(read(&file, limits), number, "{name}, {limits:?}");
        let below = if number == 0 { Ok(Below::one(true)) } else { Err(number) };
        assert_eq!(subtype(&file, limits, 0, 0), below, "{name}, {limits:?}");
    }
}

/// Each number but 6 and 17 has a case; 7 to 16 under a narrow setting too.
#[test]
fn every_number() {
    let numbers = |narrow: usize| -> Vec<u16> {
        limits().iter().filter(|c| c.limits.parts <= narrow && c.limits.depth <= narrow).map(|c| c.answer[0]).collect()
    };
    assert!((0..=5).chain(7..=16).all(|n| numbers(5).contains(&n)));
    assert!((0..=5).chain(7..=16).chain([25]).all(|n| numbers(200).contains(&n)));
}

/// Under 25 no buffer changes, whatever its length.
#[test]
fn buffers_under_25() {
    for file in some_files() {
        let need = 2 * node_count(&file);
        for limits in outside() {
            for lengths in [[0, 0], [need, need], [need.saturating_sub(1), need], [need, 0], [need + 7, need + 9]] {
                let (answer, rows, work) = run(&file, limits, lengths);
                assert_eq!(answer, refused(25), "{limits:?}");
                assert!(untouched(&rows) && untouched(&work), "{limits:?}");
            }
        }
    }
}

/// The same with buffers of every length up to more than enough.
#[test]
fn every_length_under_25() {
    let example = example();
    for (rows, work) in (0..8).flat_map(|rows| (0..8).map(move |work| (rows, work))) {
        let (answer, left, right) = run(&example, set(201, 100), [rows, work]);
        assert_eq!(answer, refused(25), "{rows} and {work}");
        assert!(untouched(&left) && untouched(&right), "{rows} and {work}");
        let number = if rows < 4 || work < 4 { 6 } else { 0 };
        assert_eq!(run(&example, set(1, 2), [rows, work]).0.number, number, "{rows} and {work}");
    }
}

/// The document's example: 1 part, depth 2, 2 nodes.
fn example() -> Vec<u8> {
    program::Program::new().with([program::global(5, program::tru())]).bytes()
}

/// 25 comes before 1 to 5, before 6 and before 17.
#[test]
fn number_25_first() {
    for (name, file, _) in reading() {
        for limits in outside() {
            assert_eq!(read(&file, limits), 25, "{name}");
            assert_eq!(subtype(&file, limits, 0, 0), Err(25), "{name}");
            assert_eq!(subtype(&file, limits, 9999, 9999), Err(25), "{name}");
            assert_eq!(run(&file, limits, [0, 0]).0, refused(25), "{name}");
        }
    }
    let example = example();
    assert_eq!(run(&example, set(1, 2), [3, 4]).0, refused(6));
    assert_eq!(run(&example, set(1, 1), [3, 4]).0, refused(5));
    assert_eq!(run(&example, set(1, 0), [3, 4]).0, refused(25));
    assert_eq!(subtype(&example, set(1, 2), 4, 0), Err(17));
    assert_eq!(subtype(&example, set(1, 1), 4, 0), Err(5));
    assert_eq!(subtype(&example, set(0, 2), 4, 0), Err(25));
    let late = check_under(&example, set(1, 0), &mut [0; 3], &mut [0; 4], RangeAfterShort);
    assert_eq!(late, refused(6));
}

/// A readable file can be read exactly under limits that are at least its
/// measures: 3 comes first, then 5.
#[test]
fn measures_decide() {
    let mut files = some_files();
    files.extend(generator::large_files());
    files.retain(|f| read(f, Limits::WIDEST) == 0);
    assert!(files.len() > 100);
    for file in files {
        let own = measures(&file);
        for limits in
            (1..=200).flat_map(|parts| [1, own.depth.max(2) - 1, own.depth, 100].map(|d| set(parts, d.max(1))))
        {
            let number = match limits {
                l if l.parts < own.parts => 3,
                l if l.depth < own.depth => 5,
                _ => 0,
            };
            assert_eq!(read(&file, limits), number, "{limits:?}, {own:?}");
        }
        assert!((1..=100).all(|d| (read(&file, set(200, d)) == 5) == (d < own.depth)), "{own:?}");
    }
}

/// What is shown of a case, as far as it may not move.
type Shown = (u16, Answer, Vec<u16>, [Result<Below, u16>; 2]);

fn shown(Limited { file, limits }: Limited) -> Shown {
    let (answer, rows, _) = run(file, limits, [LONGEST; 2]);
    let below = [[4, 4], [4, 5]].map(|[a, b]| subtype(file, limits, a, b));
    (read(file, limits), answer, rows, below)
}

/// The request's claim on two settings of one file, the second at least the
/// first: only what is 3 or 5 under the first may differ.
fn claim(file: &[u8], first: Limits, second: Limits) -> u16 {
    let [less, more] = [first, second].map(|limits| shown(Limited { file, limits }));
    let (less_number, more_number) = (less.1.number, more.1.number);
    match less_number {
        3 => assert!(![1, 2, 25].contains(&more_number), "{first:?}, {second:?}"),
        5 => assert!(![1, 2, 3, 4, 25].contains(&more_number), "{first:?}, {second:?}"),
        _ => assert!(less == more, "{first:?}, {second:?}"),
    }
    let short = 2 * node_count(file).max(1) - 1;
    let [few, many] = [first, second].map(|limits| run(file, limits, [short, LONGEST]).0);
    assert!(few.number != 6 || many == few, "{first:?}, {second:?}");
    if [3, 5].contains(&less_number) && less != more { less_number } else { 0 }
}

/// The claim for every pair of settings of each file; how often 3 and 5 moved.
fn claims(packed: &[u8]) -> (usize, [usize; 6]) {
    let mut settings: BTreeMap<&[u8], Vec<Limits>> = BTreeMap::new();
    for case in unpack_limited(packed).into_iter().filter(|c| c.limits.in_range()) {
        settings.entry(case.file).or_default().push(case.limits);
    }
    let (mut pairs, mut moved) = (0, [0; 6]);
    for (file, settings) in settings {
        for (i, &first) in settings.iter().enumerate() {
            let others = settings.iter().enumerate().filter(|&(k, second)| k != i && second.at_least(first));
            for (_, &second) in others {
                pairs += 1;
                moved[claim(file, first, second) as usize] += 1;
            }
        }
    }
    (pairs, moved)
}

#[test]
fn wider_limits_keep_answers() {
    let (pairs, moved) = claims(&generator::limited(22, 600));
    assert!(pairs >= 1800 && moved[3] >= 100 && moved[5] >= 100, "{pairs} pairs, {moved:?}");
    let (pairs, moved) = claims(&files(Question::Limits));
    assert!(pairs >= 1000 && moved[3] >= 100 && moved[5] >= 100, "{pairs} pairs, {moved:?}");
}

/// What `genlimits` makes: each file of `gen` four times, the second setting at
/// least the first, the third the widest, the fourth sometimes out of range.
#[test]
fn generated_settings() {
    let (packed, plain) = (generator::limited(23, 500), generator::programs(23, 500));
    assert_eq!(packed, generator::limited(23, 500));
    let (cases, files) = (unpack_limited(&packed), unpack(&plain));
    let fours = cases.as_chunks::<4>().0;
    assert_eq!(fours.len(), files.len());
    for (four, file) in fours.iter().zip(files) {
        assert!(four.iter().all(|c| c.file == file));
        let [a, b, c, _] = four.map(|c| c.limits);
        assert!(a.in_range() && b.in_range() && b.at_least(a) && c == Limits::WIDEST);
    }
    let outside = fours.iter().filter(|four| !four[3].limits.in_range()).count();
    assert!((100..250).contains(&outside), "{outside}");
}

/// Every generated file of the stored cases has a setting at its measures and a wider one.
#[test]
fn stored_settings() {
    let packed = files(Question::Limits);
    let cases = unpack_limited(&packed);
    let by_hand = limits();
    assert!(cases.iter().zip(&by_hand).all(|(c, h)| c.file == h.file && c.limits == h.limits));
    assert!(cases.iter().all(|c| c.limits.parts < 1 << 32 && c.limits.depth < 1 << 32));
    let mut settings: BTreeMap<&[u8], Vec<Limits>> = BTreeMap::new();
    for case in &cases[by_hand.len()..] {
        settings.entry(case.file).or_default().push(case.limits);
    }
    assert!(settings.len() >= 40);
    for (file, settings) in settings {
        let own = measures(file);
        let wider = |a: Limits| settings.iter().any(|b| a != *b && a.in_range() && b.in_range() && b.at_least(a));
        assert!(settings.iter().any(|&a| wider(a)), "{own:?}");
        assert!(file.len() < 1500 && settings.iter().any(|a| a.parts == own.parts || own.parts > 200), "{own:?}");
    }
}
