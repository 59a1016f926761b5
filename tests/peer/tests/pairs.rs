//! Document 02's request (viii): the counts of subtype questions and the sums of
//! checks.

use oat_peer::cases::{Summed, counted, reading, summed};
use oat_peer::mutants::Exact;
use oat_peer::print::unpack;
use oat_peer::vectors::{Question, files};
use oat_peer::*;
use std::collections::BTreeSet;

fn run(file: &[u8], limits: Limits) -> (Answer, Vec<u16>) {
    let size = 2 * node_count(file);
    let mut rows = vec![0; size];
    (check(file, limits, &mut rows, &mut vec![0; size]), rows)
}

/// A count below 0 is that of a no.
#[test]
fn counts_of_the_tables() {
    for table in counted() {
        for ([a, b], count) in table.questions {
            let found = subtype(&table.file, Limits::WIDEST, a.into(), b.into()).expect("a table can be read");
            let told = if found.holds { found.pairs as i32 } else { -(found.pairs as i32) };
            assert_eq!(told, count, "{}: {a} below {b}", table.name);
        }
    }
}

/// The answers are tested in `cases.rs`.
#[test]
fn sums_of_the_cases() {
    let wrong: Vec<String> = summed()
        .into_iter()
        .map(|Summed { case, pairs }| (case.name, run(&case.file, Limits::WIDEST).0.pairs, pairs))
        .filter(|(_, found, told)| found != told)
        .map(|(name, found, told)| format!("{name}: {found}, expected {told}"))
        .collect();
    assert!(wrong.is_empty(), "{}", wrong.join("\n"));
}

/// 25, 1 to 5 and 6 have the sum 0.
#[test]
fn refused_before_typing() {
    let outside = Limits { parts: 201, depth: 100 };
    for (name, file, number) in reading() {
        assert_eq!(run(&file, outside).0.pairs, 0, "{name}");
        assert!(number == 0 || run(&file, Limits::WIDEST).0.pairs == 0, "{name}");
    }
    for Summed { case, .. } in summed() {
        let size = 2 * node_count(&case.file);
        let refused = |number| Answer { number, step: 0, place: 0, pairs: 0 };
        assert_eq!(run(&case.file, outside).0, refused(25), "{}", case.name);
        let [mut short, mut long] = [vec![0; size.max(1) - 1], vec![0; size]];
        if size > 0 {
            assert_eq!(check(&case.file, Limits::WIDEST, &mut short, &mut long), refused(6), "{}", case.name);
            assert_eq!(check(&case.file, Limits::WIDEST, &mut long, &mut short), refused(6), "{}", case.name);
        }
    }
}

/// A file's sections as numbers, six lists of records.
fn sections(file: &[u8]) -> [Vec<Vec<u16>>; 6] {
    let numbers: Vec<u16> = file.as_chunks::<2>().0.iter().map(|b| u16::from_le_bytes(*b)).collect();
    let mut at = 0;
    [4, 1, 2, 3, 2, 4].map(|width| {
        let count = numbers[at] as usize;
        let records = numbers[at + 1..at + 1 + count * width].chunks(width).map(<[u16]>::to_vec).collect();
        at += 1 + count * width;
        records
    })
}

/// An accepted file, walked with its rows: the questions that its nodes ask.
struct Walk {
    sections: [Vec<Vec<u16>>; 6],
    rows: Vec<u16>,
    next: usize,
    result: u16,
    questions: Vec<[u16; 2]>,
}

impl Walk {
    fn row(&self, node: usize) -> u16 {
        self.rows[2 * node]
    }

    fn ty(&self, t: u16) -> &[u16] {
        &self.sections[0][t as usize]
    }

    /// The type of a struct's field.
    fn field(&self, t: u16, x: u16) -> u16 {
        let name = self.ty(t)[1];
        let strukt = self.sections[3].iter().find(|s| s[0] == name).expect("a declared struct");
        let fields = &self.sections[2][strukt[1] as usize..][..strukt[2] as usize];
        fields.iter().find(|f| f[0] == x).expect("a field")[1]
    }

    fn tree(&mut self) {
        let at = self.next;
        let node = self.sections[5][at].clone();
        self.next += 1;
        if node[0] == 2 {
            self.result = self.ty(node[2])[1];
        }
        let mut kids = Vec::new();
        for _ in 0..node[3] {
            kids.push(self.next);
            self.tree();
        }
        let asked = self.asked(&node, &kids);
        self.questions.extend(asked);
    }

    /// The questions of a node, given its children.
    fn asked(&self, node: &[u16], kids: &[usize]) -> Vec<[u16; 2]> {
        let types: Vec<u16> = kids.iter().map(|&k| self.row(k)).collect();
        match node[0] {
            16 => types.iter().map(|&t| [t, self.ty(node[2])[1]]).collect(),
            18 => vec![[types[1], self.ty(node[2])[1]]],
            21 => {
                let due = kids.iter().map(|&k| self.field(node[2], self.sections[5][k][1]));
                types.iter().zip(due).map(|(&t, due)| [t, due]).collect()
            }
            24 | 34 => {
                let first = self.ty(types[0])[2] as usize;
                types[1..].iter().zip(&self.sections[1][first..]).map(|(&t, due)| [t, due[0]]).collect()
            }
            26 if matches!(node[1], 10 | 11) => vec![[types[0], types[1]], [types[1], types[0]]],
            30 => vec![[types[1], types[0]]],
            32 => vec![[types[0], self.result]],
            36 => vec![[self.ty(types[0])[1], node[2]]],
            _ => vec![],
        }
    }
}

/// The sum of an accepted file is that of the questions at its nodes.
#[test]
fn sums_of_accepted_files() {
    let packed = files(Question::Check);
    let made = [generator::pairs(28, 1000), generator::programs(29, 1000)];
    let mut kinds = BTreeSet::new();
    for file in [&packed, &made[0], &made[1]].into_iter().flat_map(|many| unpack(many)) {
        let (answer, rows) = run(file, Limits::WIDEST);
        if answer.number > 0 || file.is_empty() {
            continue;
        }
        let mut walk = Walk { sections: sections(file), rows, next: 0, result: 3, questions: vec![] };
        while walk.next < walk.sections[5].len() {
            walk.tree();
        }
        let table = subtypes(file, Limits::WIDEST, Exact).expect("an accepted file");
        let counts = walk.questions.iter().map(|[a, b]| table[*a as usize][*b as usize]);
        assert!(counts.clone().all(|found| found.holds));
        assert_eq!(answer.pairs, counts.map(|found| found.pairs).sum::<u32>());
        kinds.extend(walk.sections[5].iter().map(|n| n[0]));
    }
    assert!([16, 18, 21, 24, 26, 30, 32, 34, 36].iter().all(|kind| kinds.contains(kind)));
}

/// Generated files are accepted or refused under 11, some under 8, 9 or 10, and
/// most ask many questions.
#[test]
fn generated_files() {
    let many = generator::pairs(30, 2000);
    assert_eq!(many, generator::pairs(30, 2000));
    let counts = generator::numbers(&many);
    assert!(counts[0] >= 700 && counts[11] >= 500 && counts[..=6] == [counts[0], 0, 0, 0, 0, 0, 0], "{counts:?}");
    assert!([8, 9, 10].iter().all(|&n: &usize| counts[n] >= 20), "{counts:?}");
    let sums: Vec<u32> = unpack(&many).into_iter().map(|file| run(file, Limits::WIDEST).0.pairs).collect();
    let above = |least: u32| sums.iter().filter(|&&sum| sum >= least).count();
    assert!(above(20) >= 1000 && above(100) >= 200, "{} {}", above(20), above(100));
}
