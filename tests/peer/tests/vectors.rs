//! The stored vectors hold what the peer prints, and catch every mutant.

use oat_peer::mutants::{ALL, Part};
use oat_peer::print::Lent;
use oat_peer::vectors::{QUESTIONS, Question, files, table};
use oat_peer::{Limits, generator, print};
use std::fs;
use std::path::PathBuf;

fn path(question: Question, end: &str) -> PathBuf {
    let root = PathBuf::from(env!("CARGO_MANIFEST_DIR"));
    root.join("../vectors").join(format!("{}.{end}", question.name()))
}

fn stored(question: Question) -> Vec<u8> {
    fs::read(path(question, "bin")).expect("a stored vector")
}

#[test]
fn stored_outputs() {
    for question in QUESTIONS {
        let packed = stored(question);
        let shown: String = question.unpack(&packed).into_iter().map(|c| question.show(c)).collect();
        let expected = fs::read_to_string(path(question, "txt")).expect("a stored output");
        assert!(shown == expected, "{} differs", question.name());
    }
}

#[test]
fn stored_inputs_are_what_the_command_makes() {
    for question in QUESTIONS {
        assert!(files(question) == stored(question), "{} differs", question.name());
    }
}

/// The proved programs run over the stored files: reading after vectors of its own, the others over these alone.
#[test]
fn crates_have_the_stored_files() {
    let programs = [
        ("check_vectors", Question::Check),
        ("subtype_vectors", Question::Sub),
        ("read_vectors", Question::Read),
        ("limit_vectors", Question::Limits),
        ("tally_vectors", Question::Tallies),
        ("page_vectors", Question::Pages),
    ];
    for (program, question) in programs {
        for (name, end) in [("stdin", "bin"), ("stdout", "txt")] {
            let crates = PathBuf::from(env!("CARGO_MANIFEST_DIR")).join("../../crates");
            let run = fs::read(crates.join(program).join(name)).expect("what the program is run on");
            let stored = fs::read(path(question, end)).expect("a stored vector");
            let alone = question == Question::Read || run.len() == stored.len();
            assert!(alone && run.ends_with(&stored), "{program}/{name} differs");
        }
    }
}

/// `sets.txt` lists each set with its command and how many cases it has: what `driver.rs` compares.
#[test]
fn sets_are_listed() {
    let root = PathBuf::from(env!("CARGO_MANIFEST_DIR"));
    let sets = fs::read_to_string(root.join("../vectors/sets.txt")).expect("the list of sets");
    for question in QUESTIONS {
        let count = question.unpack(&stored(question)).len();
        let row = |row: &str| row.starts_with(&format!("{} ", question.name())) && row.ends_with(&format!(" {count}"));
        assert!(sets.lines().any(row), "{}: {count} cases", question.name());
    }
}

#[test]
fn sizes() {
    let size = |q, end| fs::metadata(path(q, end)).expect("a stored file").len();
    let others = QUESTIONS.iter().filter(|&&q| !matches!(q, Question::Limits | Question::Tallies | Question::Pages));
    let all: u64 = others.map(|&q| size(q, "bin") + size(q, "txt")).sum();
    assert!(all <= 4_400_000, "{all} bytes");
    assert!(size(Question::Limits, "bin") < 600_000);
    let limited = stored(Question::Limits);
    assert!(Question::Limits.unpack(&limited).iter().all(|c| c.asked.file.len() < 45_200));
    assert!(size(Question::Tallies, "bin") + size(Question::Tallies, "txt") < 3_400_000);
    let tallies = stored(Question::Tallies);
    let within = |c: &Lent| c.asked.file.len() <= 45_068 && c.lengths[0] <= 520 && c.lengths[1] <= 4100;
    assert!(Question::Tallies.unpack(&tallies).iter().all(within));
    assert!(size(Question::Pages, "bin") + size(Question::Pages, "txt") < 1_700_000);
    let pages = stored(Question::Pages);
    assert!(Question::Pages.unpack(&pages).iter().all(|c| c.asked.file.len() <= 45_068 && c.lengths[0] <= 82_000));
    assert!(print::unpack(&stored(Question::Sub)).len() >= 300);
}

#[test]
fn every_mutant_is_caught() {
    let table = table(&QUESTIONS.map(stored));
    let survivors: Vec<_> = table.iter().filter(|(_, _, counts)| counts.iter().sum::<usize>() == 0).collect();
    assert!(survivors.is_empty(), "{survivors:?}");
    assert!(ALL.len() >= 80);
    assert!(ALL.iter().filter(|m| m.1 == Part::Reading).count() >= 20);
    assert!(ALL.iter().filter(|m| m.1 == Part::Limits).count() >= 20);
    assert!(ALL.iter().filter(|m| m.1 == Part::Empty).count() >= 15);
    assert!(ALL.iter().filter(|m| m.1 == Part::Names).count() >= 5);
    assert_eq!(ALL.iter().filter(|m| m.2.starts_with("slip: ")).count(), 5);
    let of_loops = || table.iter().filter(|m| m.1 == Part::Endless);
    assert!(of_loops().count() >= 20);
    assert!(of_loops().all(|m| m.2[0] >= 4), "{:?}", of_loops().filter(|m| m.2[0] < 4).collect::<Vec<_>>());
    let of_levels = || table.iter().filter(|m| m.1 == Part::Levels);
    assert!(of_levels().count() >= 45);
    assert!(of_levels().all(|m| m.2[0] >= 5), "{:?}", of_levels().filter(|m| m.2[0] < 5).collect::<Vec<_>>());
    let of_pairs = || table.iter().filter(|m| m.1 == Part::Pairs);
    let few = of_pairs().filter(|m| m.2.iter().sum::<usize>() < 4).collect::<Vec<_>>();
    assert!(of_pairs().count() >= 70 && few.is_empty(), "{few:?}");
    let of_tallies = || table.iter().filter(|m| m.1 == Part::Tallies);
    let few = of_tallies().filter(|m| m.2[4] < 5).collect::<Vec<_>>();
    assert!(of_tallies().count() >= 40 && few.is_empty(), "{few:?}");
    let of_pages = || table.iter().filter(|m| m.1 == Part::Pages);
    let few = of_pages().filter(|m| m.2[5] < 5).collect::<Vec<_>>();
    assert!(of_pages().count() >= 60 && few.is_empty(), "{few:?}");
}

/// Each number but 6 has at least 2 % of the generator's files.
#[test]
fn generated_numbers() {
    let many = generator::programs(11, 3000);
    assert_eq!(many, generator::programs(11, 3000));
    let counts = generator::numbers(&many);
    for number in (0..=5).chain(7..=16) {
        assert!(counts[number] * 50 >= 3000, "{number}: {counts:?}");
    }
}

/// Files about field names are accepted or refused under 12, a few under 7 or 11.
#[test]
fn generated_names() {
    let counts = generator::numbers(&generator::field_names(14, 2000));
    assert!(counts[0] >= 400 && counts[12] >= 800 && counts[7] >= 40 && counts[11] >= 20, "{counts:?}");
    assert_eq!([0, 7, 11, 12].iter().map(|&n: &usize| counts[n]).sum::<usize>(), 2000, "{counts:?}");
}

/// Generated type tables can all be read.
#[test]
fn generated_tables() {
    let many = generator::type_tables(12, 500);
    assert!(print::unpack(&many).into_iter().all(|f| oat_peer::read(f, Limits::WIDEST) == 0));
}
