//! Document 02's request (iii): a printed page of the rows.

use oat_peer::cases::{Case, PageCase, Told, checked, pages, reading};
use oat_peer::mutants::{ALL, Part};
use oat_peer::print::unpack;
use oat_peer::vectors::{Question, caught, files, hand_written};
use oat_peer::*;

const MARK: u16 = 43_690;
const LONGEST: usize = 8192;

/// What the page's buffer holds before a call; no page has either byte.
const PAINTS: [u8; 2] = [b'#', 0];

/// What a call leaves: its answer, rows, work and the page's buffer.
#[derive(PartialEq, Debug)]
struct Left {
    told: Paged,
    rows: Vec<u16>,
    work: Vec<u16>,
    out: Vec<u8>,
}

/// Buffers for rows and work of one length each; that of the page is painted.
fn run(file: &[u8], limits: Limits, [rows, work]: [usize; 2], length: usize, paint: u8) -> Left {
    let (mut rows, mut work, mut out) = (vec![MARK; rows], vec![MARK; work], vec![paint; length]);
    let told = page(file, limits, &mut rows, &mut work, &mut out);
    Left { told, rows, work, out }
}

/// The check alone: answer, rows and work.
fn checked_alone(file: &[u8], limits: Limits, [rows, work]: [usize; 2]) -> ([u16; 3], Vec<u16>, Vec<u16>) {
    let (mut rows, mut work) = (vec![MARK; rows], vec![MARK; work]);
    let answer = check(file, limits, &mut rows, &mut work);
    ([answer.number, answer.step, answer.place], rows, work)
}

fn told([number, step, place]: [u16; 3], bytes: usize) -> Paged {
    Paged { number, step, place, bytes }
}

const SHORT: Paged = Paged { number: 18, step: 0, place: 0, bytes: 0 };

/// The kinds of a readable file's nodes, which stand last in it.
fn kinds(file: &[u8]) -> Vec<u16> {
    let nodes = &file[file.len() - 8 * node_count(file)..];
    nodes.chunks(8).map(|node| u16::from_le_bytes([node[0], node[1]])).collect()
}

/// A number in so many columns: its digits from the last on, then blanks, turned round.
fn column(mut number: usize, width: usize) -> Vec<u8> {
    let mut turned = vec![b'0' + (number % 10) as u8];
    while number > 9 {
        number /= 10;
        turned.push(b'0' + (number % 10) as u8);
    }
    while turned.len() < width {
        turned.push(b' ');
    }
    turned.reverse();
    turned
}

/// The page of a file with its rows, after the request's words.
fn worded(file: &[u8], rows: &[u16]) -> Vec<u8> {
    let mut page = Vec::new();
    let (mut full, mut behind) = (0, 0);
    for (node, (kind, row)) in kinds(file).into_iter().zip(rows.chunks(2)).enumerate() {
        let columns = [(node, 4), (kind as usize, 2), (row[0] as usize, 5), (row[1] as usize, 5)];
        page.extend(columns.map(|(number, width)| column(number, width)).join(&b' '));
        page.push(10);
        behind += 1;
        if behind == 50 {
            (full, behind) = (full + 1, 0);
        }
    }
    page.extend([&b"pages "[..], &column(full, 1), b" rows ", &column(behind, 1), b"\n"].concat());
    page
}

/// A page with what lies past it.
fn held(page: &[u8], length: usize, paint: u8) -> Vec<u8> {
    let mut out = page.to_vec();
    out.resize(length, paint);
    out
}

/// Every case written by hand, under each of its lengths.
#[test]
fn hand_cases() {
    for case in pages() {
        let PageCase { name, file, limits, answer, .. } = &case;
        let page = by_hand(&case);
        for (&length, paint) in case.lengths.iter().flat_map(|length| PAINTS.map(|paint| (length, paint))) {
            let left = run(file, *limits, [LONGEST; 2], length, paint);
            let (right, out) = match &page {
                Some(page) if length < page.len() => (SHORT, vec![paint; length]),
                Some(page) => (told(*answer, page.len()), held(page, length, paint)),
                None => (told(*answer, 0), vec![paint; length]),
            };
            assert_eq!(left.told, right, "{name}, {length} bytes");
            assert!(left.out == out, "{name}, {length} bytes");
        }
    }
}

/// The page that is told: all lines; or, with the lines told in their places, that
/// of the check's rows; or none.
fn by_hand(case: &PageCase) -> Option<Vec<u8>> {
    let joined = |lines: &[&str]| lines.iter().flat_map(|line| [line.as_bytes(), b"\n"].concat()).collect();
    match &case.told {
        Told::Whole(lines) => Some(joined(lines)),
        Told::Parts { rows, lines, last } => {
            let (_, found, _) = checked_alone(&case.file, case.limits, [2 * rows; 2]);
            let page = worded(&case.file, &found);
            for line in *lines {
                let node: usize = line[..4].trim_start().parse().expect("a node");
                assert_eq!(page[20 * node..][..20], joined(&[line])[..], "{}", case.name);
            }
            assert_eq!(page[20 * rows..], joined(&[last])[..], "{}", case.name);
            Some(page)
        }
        Told::Nothing => None,
    }
}

/// The cases show every number in an empty and in a long buffer, every kind, and
/// results and binders of every number of digits.
#[test]
fn hand_cases_are_complete() {
    let cases = pages();
    assert!(cases.len() >= 90, "{}", cases.len());
    for number in (1..=5).chain(7..=16).chain([25]) {
        let of_number = |c: &&PageCase| c.answer[0] == number;
        let lengths: Vec<usize> = cases.iter().filter(of_number).flat_map(|c| c.lengths.clone()).collect();
        assert!(lengths.contains(&0) && lengths.contains(&300), "{number}");
    }
    let told = |c: &PageCase| match c.told {
        Told::Whole(lines) => lines.to_vec(),
        Told::Parts { lines, last, .. } => [lines, &[last]].concat(),
        Told::Nothing => vec![],
    };
    let lines: Vec<&str> = cases.iter().flat_map(told).collect();
    let rows: Vec<Vec<&str>> =
        lines.iter().filter(|line| line.len() == 19).map(|line| line.split_whitespace().collect()).collect();
    assert!(lines.iter().all(|line| line.len() == 19 || line.starts_with("pages ")));
    for kind in (1..=3).chain(10..=26).chain(30..=40) {
        assert!(rows.iter().any(|row| row[1] == kind.to_string()), "{kind}");
    }
    for (column, most) in [(0, 4), (1, 2), (2, 3), (3, 5)] {
        assert!((1..=most).all(|digits| rows.iter().any(|row| row[column].len() == digits)), "{column}");
    }
    for nodes in [0, 2, 3, 49, 50, 51, 99, 100, 101, 500, 4095, 4096] {
        assert!(cases.iter().any(|c| c.answer[0] == 0 && node_count(&c.file) == nodes), "{nodes}");
    }
}

/// One line of a page as the office counts it: a blank in columns 5, 8 and 14, in
/// each column blanks and then a number without zeros in front.
fn counted(line: &[u8]) -> [u16; 4] {
    assert_eq!(line.len(), 19);
    assert!([4, 7, 13].iter().all(|&at| line[at] == b' '), "{line:?}");
    [(0, 4), (5, 7), (8, 13), (14, 19)].map(|(from, to)| number(&line[from..to]))
}

fn number(column: &[u8]) -> u16 {
    let digits = column.trim_ascii_start();
    assert!(digits == b"0" || digits.first().is_some_and(|&first| first != b'0'), "{column:?}");
    digits.iter().fold(0, |number, digit| {
        assert!(digit.is_ascii_digit(), "{column:?}");
        10 * number + u16::from(digit - b'0')
    })
}

/// The rows of a page, and its full pages and the rows behind them.
fn parsed(page: &[u8]) -> (Vec<[u16; 4]>, [usize; 2]) {
    let mut lines: Vec<&[u8]> = page.split(|&byte| byte == 10).collect();
    assert_eq!(lines.pop(), Some(&b""[..]), "the page ends with a line end");
    let last = lines.pop().expect("a last line");
    let words: Vec<&[u8]> = last.split(|&byte| byte == b' ').collect();
    let [b"pages", full, b"rows", behind] = words[..] else { panic!("{words:?}") };
    (lines.into_iter().map(counted).collect(), [full, behind].map(|column| number(column) as usize))
}

/// The stored files of the check, and generated ones of every sort.
fn corpus() -> Vec<Vec<u8>> {
    let many = [
        files(Question::Check),
        generator::programs(43, 1000),
        generator::pairs(44, 200),
        generator::levels(45, 200),
        generator::field_names(46, 100),
        generator::endless(47, 200),
    ];
    let mut all: Vec<Vec<u8>> = many.iter().flat_map(|many| unpack(many)).map(<[u8]>::to_vec).collect();
    let made = generator::pages(48, 600);
    all.extend(print::unpack_pages(&made).into_iter().map(|case| case.asked.file.to_vec()));
    all
}

/// Each accepted file: the lines are those of the request's words and parse back to
/// the rows of the check, 50 P + Q is the node count, and what lies past the page
/// stays, whatever the paint. Any other file leaves the buffer as it is.
#[test]
fn accepted_files() {
    let mut accepted = 0;
    for file in corpus() {
        let need = [2 * node_count(&file); 2];
        let length = page_length(&file);
        let (answer, rows, work) = checked_alone(&file, Limits::WIDEST, need);
        for (more, paint) in [(0, PAINTS[0]), (7, PAINTS[0]), (7, PAINTS[1])] {
            let left = run(&file, Limits::WIDEST, need, length + more, paint);
            assert_eq!((&left.rows, &left.work), (&rows, &work));
            if answer[0] > 0 {
                assert_eq!(left.told, told(answer, 0));
                assert_eq!(left.out, vec![paint; length + more]);
                continue;
            }
            assert_eq!(left.told, told(answer, length));
            let (page, past) = left.out.split_at(length);
            assert!(past.iter().all(|&byte| byte == paint));
            assert_eq!(page, worded(&file, &rows));
            let (lines, [full, behind]) = parsed(page);
            let expected = kinds(&file).into_iter().zip(rows.as_chunks::<2>().0).zip(0..);
            assert!(lines.iter().copied().eq(expected.map(|((kind, row), node)| [node, kind, row[0], row[1]])));
            assert_eq!(50 * full + behind, node_count(&file));
            assert!(behind < 50);
        }
        accepted += usize::from(answer[0] == 0);
        assert!(answer[0] > 0 || node_count(&file) != 1, "no accepted file has one node");
    }
    assert!(accepted >= 1500, "{accepted}");
}

/// 18: the buffer stays, rows and work are those of the accepting check, and past
/// two per node they stay.
#[test]
fn short_buffers() {
    for file in corpus().into_iter().step_by(3) {
        let need = 2 * node_count(&file);
        let (answer, rows, work) = checked_alone(&file, Limits::WIDEST, [need + 5, need + 3]);
        if answer[0] > 0 {
            continue;
        }
        let exact = page_length(&file);
        for length in [0, 1, 14, exact / 2, exact - 15, exact - 1] {
            for paint in PAINTS {
                let left = run(&file, Limits::WIDEST, [need + 5, need + 3], length, paint);
                assert_eq!(left.told, SHORT);
                assert_eq!((&left.rows, &left.work), (&rows, &work));
                assert_eq!(left.out, vec![paint; length]);
            }
        }
    }
}

/// Every length up to that of a page, and some past it.
#[test]
fn every_length() {
    for name in ["zero bytes", "the example", "51 nodes"] {
        let case = pages().into_iter().find(|c| c.name == name).expect("a case");
        let page = by_hand(&case).expect("an accepted case");
        for length in 0..page.len() + 50 {
            let left = run(&case.file, case.limits, [LONGEST; 2], length, PAINTS[0]);
            let short = length < page.len();
            assert_eq!(left.told, if short { SHORT } else { told(case.answer, page.len()) }, "{name}");
            let out = if short { vec![PAINTS[0]; length] } else { held(&page, length, PAINTS[0]) };
            assert_eq!(left.out, out, "{name}");
        }
    }
}

/// Document 02's numbers: the shortest page has 15 bytes, the longest 81,937.
#[test]
fn page_lengths() {
    let longest = pages().into_iter().map(|case| page_length(&case.file)).max();
    assert_eq!([page_length(&[]), longest.expect("cases")], [15, 81_937]);
    let left = run(&[], Limits::WIDEST, [0; 2], 15, PAINTS[0]);
    assert_eq!((left.told, &left.out[..]), (told([0; 3], 15), &b"pages 0 rows 0\n"[..]));
}

/// 6 comes before 7 to 16 and before 18, and changes no buffer.
#[test]
fn short_rows_and_work() {
    let with_nodes = |case: &Case| node_count(&case.file) > 0;
    for case in checked().into_iter().filter(with_nodes).step_by(5) {
        let need = 2 * node_count(&case.file);
        let exact = page_length(&case.file);
        for length in [exact, exact + 1, exact - 1, 0] {
            for sizes in [[need - 1, need], [need, need - 1], [need - 1, need - 1], [0, need], [need, 0]] {
                let left = run(&case.file, Limits::WIDEST, sizes, length, PAINTS[0]);
                assert_eq!(left.told, told([6, 0, 0], 0), "{}", case.name);
                assert!(left.rows.iter().chain(&left.work).all(|&n| n == MARK), "{}", case.name);
                assert_eq!(left.out, vec![PAINTS[0]; length], "{}", case.name);
            }
        }
    }
}

/// 25 comes before everything, 1 to 5 before 6 and 18; no buffer changes.
#[test]
fn unread_files() {
    let outside = [(0, 1), (1, 0), (201, 100), (200, 101), (0, 0), (65_536 + 200, 100)];
    for (name, file, number) in reading() {
        for (length, paint) in [0, 3, LONGEST].into_iter().flat_map(|length| PAINTS.map(|paint| (length, paint))) {
            let unchanged = |limits, number| {
                let left = run(&file, limits, [length; 2], length, paint);
                assert_eq!(left.told, told([number, 0, 0], 0), "{name}, {limits:?}");
                assert!(left.rows.iter().chain(&left.work).all(|&n| n == MARK), "{name}, {limits:?}");
                assert_eq!(left.out, vec![paint; length], "{name}, {limits:?}");
            };
            for (parts, depth) in outside {
                unchanged(Limits { parts, depth }, 25);
            }
            if number > 0 {
                unchanged(Limits::WIDEST, number);
            }
        }
    }
}

/// Whatever the length, the answer is the check's, or 18 where that accepts;
/// refused by typing, the rows are filled as by the check.
#[test]
fn answers_are_the_checks() {
    let many = generator::limited(49, 300);
    for case in print::unpack_limited(&many) {
        let (answer, rows, work) = checked_alone(case.file, case.limits, [LONGEST; 2]);
        for length in [0, 14, 15, 1000, 90_000] {
            let left = run(case.file, case.limits, [LONGEST; 2], length, PAINTS[0]);
            assert_eq!((&left.rows, &left.work), (&rows, &work));
            let needed = if answer[0] == 0 { page_length(case.file) } else { 0 };
            assert_eq!(left.told, if length < needed { SHORT } else { told(answer, needed) });
            if left.told.number > 0 {
                assert!(left.out.iter().all(|&byte| byte == PAINTS[0]));
            }
        }
    }
}

/// What `genpages` makes: most files are accepted, a third of these or more are 18,
/// half or more have full pages or one row more or fewer; some have thousands of nodes.
#[test]
fn generated_cases() {
    let made = generator::pages(50, 1000);
    assert_eq!(made, generator::pages(50, 1000));
    let [mut accepted, mut short, mut rounded, mut large, mut refused] = [0; 5];
    for case in print::unpack_pages(&made) {
        let (file, limits) = (case.asked.file, case.asked.limits);
        let left = run(file, limits, [LONGEST; 2], case.lengths[0], PAINTS[0]);
        if !matches!(left.told.number, 0 | 18) {
            refused += 1;
            continue;
        }
        let nodes = node_count(file);
        accepted += 1;
        short += usize::from(left.told.number == 18);
        rounded += usize::from(nodes > 40 && matches!(nodes % 50, 49 | 0 | 1));
        large += usize::from(nodes > 3000);
    }
    assert!(accepted >= 800 && short * 3 >= accepted && rounded * 2 >= accepted, "{accepted}, {short}, {rounded}");
    assert!(large >= 2 && refused >= 50, "{large}, {refused}");
}

/// Each mutant of the page is caught by a case written by hand.
#[test]
fn mutants_by_hand() {
    let packed = &hand_written()[5];
    let cases = Question::Pages.unpack(packed);
    let right: Vec<String> = cases.iter().map(|&case| Question::Pages.show(case)).collect();
    let of_pages = ALL.iter().filter(|m| m.1 == Part::Pages);
    let missed: Vec<_> = of_pages.filter(|m| caught(Question::Pages, &cases, &right, (m.0, m.1)) == 0).collect();
    assert!(missed.is_empty(), "{missed:?}");
}
