//! Every case written by hand has its answer.

use oat_peer::cases::{self, checked, reading, subtyping};
use oat_peer::{Answer, Below, Limits, check, node_count, read, subtype};

fn answer(file: &[u8]) -> [u16; 3] {
    let size = 2 * node_count(file);
    let Answer { number, step, place, .. } = check(file, Limits::WIDEST, &mut vec![0; size], &mut vec![0; size]);
    [number, step, place]
}

#[test]
fn reading_cases() {
    for (name, file, number) in reading() {
        assert_eq!(read(&file, Limits::WIDEST), number, "{name}");
        if number > 0 {
            assert_eq!(answer(&file), [number, 0, 0], "{name}");
        } else {
            assert!(!(1..=6).contains(&answer(&file)[0]), "{name}");
        }
    }
}

#[test]
fn typing_cases() {
    let wrong: Vec<_> = checked()
        .into_iter()
        .filter(|c| answer(&c.file) != c.answer)
        .map(|c| format!("{}: {:?}, expected {:?}", c.name, answer(&c.file), c.answer))
        .collect();
    assert!(wrong.is_empty(), "{}", wrong.join("\n"));
}

#[test]
fn subtyping_cases() {
    for q in subtyping() {
        let [a, b] = q.pair.map(usize::from);
        assert_eq!(
            subtype(&q.file, Limits::WIDEST, a, b).map(|found| found.holds),
            q.answer,
            "{}, {a} below {b}",
            q.name
        );
    }
}

/// Number 17 comes after 1 to 5.
#[test]
fn types_not_in_the_file() {
    let four = oat_peer::program::Program::new().bytes();
    assert_eq!(subtype(&four, Limits::WIDEST, 4, 0), Err(17));
    assert_eq!(subtype(&four, Limits::WIDEST, 0, 4), Err(17));
    assert_eq!(subtype(&four, Limits::WIDEST, 3, 3), Ok(Below::one(true)));
    assert_eq!(subtype(&[], Limits::WIDEST, 4, 4), Err(17));
    assert_eq!(subtype(&[4], Limits::WIDEST, 4, 4), Err(1));
    for (name, file, number) in reading().into_iter().filter(|c| c.2 > 0) {
        assert_eq!(subtype(&file, Limits::WIDEST, 9999, 0), Err(number), "{name}");
    }
}

/// Each number of document 01's table has a case, each Pan case too.
#[test]
fn every_number_and_pan_case() {
    let read: Vec<u16> = reading().iter().map(|c| c.2).collect();
    let typed: Vec<u16> = checked().iter().map(|c| c.answer[0]).collect();
    assert!((0..=5).all(|n| read.contains(&n)));
    assert!((7..=16).all(|n| typed.contains(&n)));
    let pans = subtyping().iter().filter(|q| q.name.starts_with("Pan: ")).count();
    assert_eq!(pans, 8);
    assert_eq!(checked().iter().filter(|c| c.name.starts_with("Pan: ")).count(), 8);
    assert_eq!(reading().iter().filter(|c| c.0.starts_with("Pan: ")).count(), 4);
}

/// Each reading has a case that shows it; those of rows and buffers are in
/// `rows.rs` and `buffers.rs`.
#[test]
fn every_reading() {
    let mut names: Vec<&str> = reading().iter().map(|c| c.0).collect();
    names.extend(checked().iter().map(|c| c.name));
    names.extend(subtyping().iter().map(|q| q.name));
    let wanted = [("F", 22), ("S", 7), ("E", 17), ("T", 19), ("D", 10), ("P", 1)];
    for (letter, last) in wanted {
        for i in (1..=last).filter(|&i| !matches!((letter, i), ("F", 13) | ("E", 17) | ("D", 9))) {
            let id = format!("{letter}{i} ");
            assert!(names.iter().any(|n| n.starts_with(&id)), "no case for {id}");
        }
    }
}

/// The longest file has 45,068 bytes.
#[test]
fn longest_file() {
    assert!(reading().iter().any(|c| c.0.starts_with("all sections full") && c.1.len() == 45_068));
    assert_eq!(cases::pans().types.len(), 40);
}
