//! The examples: each program file has a text beside it with the answer that the peer gives.

use oat_peer::mutants::Exact;
use oat_peer::mutants::Mutant::{FreshAtAllLevels, WhileGoesOn};
use oat_peer::print::{self, Limited};
use std::collections::BTreeSet;
use std::path::{Path, PathBuf};

fn folder() -> PathBuf {
    Path::new(env!("CARGO_MANIFEST_DIR")).join("../../examples")
}

/// The names of the files that end so, without the end.
fn names(end: &str) -> BTreeSet<String> {
    let files = std::fs::read_dir(folder()).expect("the examples can be listed");
    let names = files.map(|f| f.expect("an example").file_name().into_string().expect("a plain name"));
    names.filter_map(|n| n.strip_suffix(end).map(str::to_string)).collect()
}

/// The lines of a text after `Answer:` that stand in from the edge.
fn told(text: &str) -> String {
    let after = text.lines().skip_while(|line| *line != "Answer:").skip(1);
    after.map_while(|line| line.strip_prefix("    ")).map(|line| line.to_string() + "\n").collect()
}

#[test]
fn each_file_has_a_text() {
    assert_eq!(names(".oat"), names(".txt"));
}

#[test]
fn each_text_has_the_answer() {
    for name in names(".oat") {
        let file = std::fs::read(folder().join(name.clone() + ".oat")).expect("an example");
        let text = std::fs::read_to_string(folder().join(name.clone() + ".txt")).expect("its text");
        assert_eq!(told(&text), print::check(&file), "{name}");
    }
}

/// The fourth number, which is not printed, stands last.
#[test]
fn each_text_has_the_pairs() {
    for name in names(".oat") {
        let file = std::fs::read(folder().join(name.clone() + ".oat")).expect("an example");
        let text = std::fs::read_to_string(folder().join(name.clone() + ".txt")).expect("its text");
        let shown = print::pairs_with(Limited::widest(&file), Exact);
        let pairs = shown.lines().last().and_then(|l| l.strip_prefix("pairs ")).expect("the pairs");
        assert_eq!(text.lines().last(), Some(format!("Pairs of types compared: {pairs}.").as_str()), "{name}");
    }
}

#[test]
fn accepted_and_refused_under_each_number_of_typing() {
    let first = |name: &String| {
        let file = std::fs::read(folder().join(name.clone() + ".oat")).expect("an example");
        print::check(&file).split(' ').next().and_then(|n| n.parse::<u16>().ok()).expect("a number")
    };
    let numbers: BTreeSet<u16> = names(".oat").iter().map(first).collect();
    assert!([0, 1, 3, 5].into_iter().chain(7..=16).all(|n| numbers.contains(&n)), "{numbers:?}");
}

/// Document 02's request (i) moved the two examples about loops that never end.
#[test]
fn endless_loops() {
    for (name, before, now) in [("endless", "14 5 0\n", "0 6 0\n"), ("endless_not_last", "0 2 0\n", "14 1 3\n")] {
        let file = std::fs::read(folder().join(name.to_string() + ".oat")).expect("an example");
        assert!(print::check_with(Limited::widest(&file), WhileGoesOn).starts_with(before), "{name}");
        assert!(print::check(&file).starts_with(now), "{name}");
    }
}

/// Document 02's request (vi) moved the examples about names in inner blocks,
/// but for the one whose step binds a variable.
#[test]
fn names_in_inner_blocks() {
    let moved = [
        ("same_name_inner", "7 1 6\n", "0 2 0\n"),
        ("same_name_own_block", "7 1 8\n", "7 1 10\n"),
        ("step_binds_variable", "7 1 8\n", "7 1 8\n"),
        ("index_name_again", "7 1 4\n", "0 2 0\n"),
    ];
    for (name, before, now) in moved {
        let file = std::fs::read(folder().join(name.to_string() + ".oat")).expect("an example");
        assert!(print::check_with(Limited::widest(&file), FreshAtAllLevels).starts_with(before), "{name}");
        assert!(print::check(&file).starts_with(now), "{name}");
    }
}
