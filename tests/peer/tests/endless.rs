//! Document 02's request (i): the marks of the cases written by hand, what moved,
//! and what is generated.

use oat_peer::cases::{Marked, TO_VOID, endless, only};
use oat_peer::mutants::Mutant::WhileGoesOn;
use oat_peer::print::{self, Limited};
use oat_peer::program::*;
use oat_peer::{generator, node_count};

/// Kind and number of children of each node of a file without leftover bytes:
/// the nodes are its last section.
fn nodes(file: &[u8]) -> Vec<[u16; 2]> {
    let nodes = file[file.len() - 8 * node_count(file)..].chunks(8);
    nodes.map(|n| [u16::from_le_bytes([n[0], n[1]]), u16::from_le_bytes([n[6], n[7]])]).collect()
}

/// The marks of an accepted file: the results of functions, statements and blocks.
fn marks(file: &[u8]) -> Vec<u16> {
    let shown = print::check(file);
    let result = |row: &str| row.split(' ').nth(1).and_then(|n| n.parse().ok()).expect("a row");
    let marked = |kind: u16| kind == 2 || (30..=39).contains(&kind);
    let rows = nodes(file).into_iter().zip(shown.lines().skip(1));
    rows.filter(|&([kind, _], _)| marked(kind)).map(|(_, row)| result(row)).collect()
}

fn first_line(shown: &str) -> &str {
    shown.lines().next().expect("an answer")
}

/// The answers are tested in `cases.rs`.
#[test]
fn marks_of_the_cases() {
    for Marked { case, marks: told } in endless() {
        assert_eq!(marks(&case.file), told, "{}", case.name);
        assert_eq!(told.is_empty(), case.answer[0] > 0, "{}", case.name);
    }
}

/// The smallest programs that the request accepts and refuses anew.
#[test]
fn before_and_after() {
    let stuck = || during(tru(), vec![]);
    let told = |body| {
        let file = only(TO_VOID, body).bytes();
        let before = print::check_with(Limited::widest(&file), WhileGoesOn);
        [first_line(&before).to_string(), first_line(&print::check(&file)).to_string()]
    };
    assert_eq!(told(vec![stuck()]), ["14 1 0", "0 2 0"]);
    assert_eq!(told(vec![stuck(), done()]), ["0 2 0", "0 2 0"]);
    let arms = || when(tru(), vec![stuck()], vec![done()]);
    assert_eq!(told(vec![arms()]), ["14 1 0", "0 2 0"]);
    assert_eq!(told(vec![arms(), done()]), ["0 2 0", "14 1 2"]);
    let step = repeat(vec![], absent(), arms(), vec![]);
    assert_eq!(told(vec![step, done()]), ["0 2 0", "14 1 4"]);
}

/// There are cases that move each way, and cases that stay.
#[test]
fn cases_move_each_way() {
    let moves = |from: &str, to: &str| {
        let both =
            |m: &Marked| (print::check_with(Limited::widest(&m.case.file), WhileGoesOn), print::check(&m.case.file));
        endless().iter().map(both).filter(|(a, b)| a.starts_with(from) && b.starts_with(to)).count()
    };
    assert!(
        moves("14 ", "0 ") >= 20 && moves("0 ", "14 ") >= 15 && moves("0 ", "0 ") >= 20 && moves("14 ", "14 ") >= 20
    );
}

/// The kind of a node, and of its parent.
fn at(file: &[u8], place: usize) -> [u16; 2] {
    let nodes = nodes(file);
    let mut after = 0;
    for &[kind, children] in nodes[..place].iter().rev() {
        if children > after {
            return [nodes[place][0], kind];
        }
        after = after + 1 - children;
    }
    [nodes[place][0], 0]
}

/// Generated files are accepted or refused under 14: at functions, at ifs, at
/// steps that are ifs, and at returns.
#[test]
fn generated_files() {
    let many = generator::endless(17, 2000);
    assert_eq!(many, generator::endless(17, 2000));
    let counts = generator::numbers(&many);
    assert!(counts[0] >= 600 && counts[14] >= 800 && counts[0] + counts[14] == 2000, "{counts:?}");
    let mut places = [0; 4];
    for file in print::unpack(&many) {
        let shown = print::check(file);
        let Some(rest) = first_line(&shown).strip_prefix("14 ") else { continue };
        let place = rest.split(' ').nth(1).and_then(|n| n.parse().ok()).expect("a place");
        places[match at(file, place) {
            [2, _] => 0,
            [35 | 36, 39] => 1,
            [35 | 36, 37] => 2,
            _ => 3,
        }] += 1;
    }
    assert!(places.iter().all(|&n| n >= 100), "{places:?}");
}
