//! Document 01, "Rows and answers": what happens to rows and work.

use oat_peer::cases::{checked, reading};
use oat_peer::{Answer, Limits, check, node_count};

const MARK: u16 = 43_690;

/// Runs the check with buffers of the given lengths, filled before.
fn run(file: &[u8], rows: usize, work: usize) -> (Answer, Vec<u16>, Vec<u16>) {
    let (mut rows, mut work) = (vec![MARK; rows], vec![MARK; work]);
    let answer = check(file, Limits::WIDEST, &mut rows, &mut work);
    (answer, rows, work)
}

fn untouched(numbers: &[u16]) -> bool {
    numbers.iter().all(|&n| n == MARK)
}

/// Number 6: a buffer is short by one, or empty; no buffer changes.
#[test]
fn short_by_one() {
    for case in checked() {
        let need = 2 * node_count(&case.file);
        if need == 0 {
            continue;
        }
        for (rows, work) in [(need - 1, need), (need, need - 1), (need - 1, need - 1), (0, need), (need, 0)] {
            let (answer, rows, work) = run(&case.file, rows, work);
            assert_eq!(answer, Answer { number: 6, step: 0, place: 0, pairs: 0 }, "{}", case.name);
            assert!(untouched(&rows) && untouched(&work), "{}", case.name);
        }
    }
}

/// The document's example: 2 nodes, 3 numbers.
#[test]
fn two_nodes_three_numbers() {
    let example =
        oat_peer::program::Program::new().with([oat_peer::program::global(5, oat_peer::program::tru())]).bytes();
    assert_eq!(run(&example, 3, 4).0.number, 6);
    assert_eq!(run(&example, 4, 3).0.number, 6);
    assert_eq!(run(&example, 4, 4).0.number, 0);
}

/// F13: 6 is asked only of a readable file; 1 to 5 change no buffer.
#[test]
fn unreadable_files() {
    for (name, file, number) in reading().into_iter().filter(|c| c.2 > 0) {
        for length in [0, 10_000] {
            let (answer, rows, work) = run(&file, length, length);
            assert_eq!(answer, Answer { number, step: 0, place: 0, pairs: 0 }, "{name}");
            assert!(untouched(&rows) && untouched(&work), "{name}");
        }
    }
}

/// D9: 7 to 16 fill exactly two per node; what lies past the rows stays.
#[test]
fn longer_than_needed() {
    for case in checked() {
        let need = 2 * node_count(&case.file);
        let (exact, exact_rows, _) = run(&case.file, need, need);
        for more in [1, 2, 77] {
            let (answer, rows, work) = run(&case.file, need + more, need + 2 * more);
            assert_eq!(answer, exact, "{}", case.name);
            assert_eq!(rows[..need], exact_rows[..], "{}", case.name);
            assert!(untouched(&rows[need..]) && untouched(&work[need..]), "{}", case.name);
            if answer.number > 0 {
                assert!(rows[..need].iter().all(|&n| n == 65_535), "{}", case.name);
            }
        }
    }
}

/// What stood in the buffers before makes no difference.
#[test]
fn filled_before() {
    for case in checked() {
        let need = 2 * node_count(&case.file);
        let (answer, marked, _) = run(&case.file, need, need);
        for fill in [0u16, 1, 65_535] {
            let (mut rows, mut work) = (vec![fill; need], vec![fill; need]);
            assert_eq!(check(&case.file, Limits::WIDEST, &mut rows, &mut work), answer, "{}", case.name);
            assert_eq!(rows, marked, "{}", case.name);
        }
    }
}
