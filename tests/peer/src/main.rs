//! The command: see `USAGE`.

use oat_peer::mutants::Exact;
use oat_peer::print::Limited;
use oat_peer::vectors::{self, QUESTIONS, Question};
use oat_peer::{Limits, check, generator, node_count, print};
use std::hint::black_box;
use std::io::{Read, Write, stdin, stdout};
use std::time::Instant;

const USAGE: &str = "oat_peer check [PARTS DEPTH] | sub A B [PARTS DEPTH] | read [PARTS DEPTH] | tally [PARTS DEPTH] < FILE
oat_peer page [PARTS DEPTH] < FILE
oat_peer batch | readbatch | subbatch | bench N | numbers < MANY
oat_peer limitbatch < CASES
oat_peer tallybatch < TALLIES
oat_peer pagebatch < PAGES
oat_peer gen | gentypes | gennames | genendless | genlevels | genpairs SEED COUNT > MANY
oat_peer genlimits SEED COUNT > CASES
oat_peer gentallies SEED COUNT > TALLIES
oat_peer genpages SEED COUNT > PAGES
oat_peer vectors DIRECTORY | mutants DIRECTORY
PARTS and DEPTH are 200 and 100 where they are left out.
MANY: for each file 4 bytes length, low first, then the file; asked under 200 parts and depth 100.
CASES: for each case 4 bytes length of its file, 4 bytes parts, 4 bytes depth, all low first, then the file.
TALLIES: the same with 4 bytes length of the buffer by type and 4 bytes length of that by declaration behind the depth.
PAGES: as CASES with 4 bytes length of the page's buffer behind the depth.
sub prints the answer and its count of pairs, batch the line `pairs N` behind each answer's rows, subbatch the counts
of a line's pairs in a line behind it. limitbatch prints `read N`, `sub` with answer and count for each of the pairs 0 0,
4 4, 4 5 and 600 0, and what batch prints. tallybatch prints the answer, `types` with all numbers of the buffer by type
after the call, 7777 each before it, and `declarations` with those of the other, 8888 before; tally, for an accepted
file, as many as there are types and declarations. page prints number, step, place and bytes and, for an accepted
file, the page; pagebatch the same line, all bytes of the page's buffer after the call, # each before it, and a line
end. Each answer of a batch but readbatch ends with `--`. numbers prints how many files have each number.";

fn main() {
    let arguments: Vec<String> = std::env::args().skip(1).collect();
    let words: Vec<&str> = arguments.iter().map(String::as_str).collect();
    let Some(out) = run(&words) else {
        eprintln!("{USAGE}");
        std::process::exit(2);
    };
    stdout().write_all(&out).expect("standard output takes the output");
}

/// The output of a command, or nothing if there is no such command.
fn run(words: &[&str]) -> Option<Vec<u8>> {
    let out = match words {
        ["check", limits @ ..] => print::check_with(Limited { limits: set(limits)?, file: &input() }, Exact),
        ["sub", a, b, limits @ ..] => {
            let pair = [a.parse().ok()?, b.parse().ok()?];
            print::sub(Limited { limits: set(limits)?, file: &input() }, pair)
        }
        ["read", limits @ ..] => print::read_with(Limited { limits: set(limits)?, file: &input() }, Exact),
        ["tally", limits @ ..] => print::tally(Limited { limits: set(limits)?, file: &input() }),
        ["page", limits @ ..] => print::page(Limited { limits: set(limits)?, file: &input() }),
        ["batch"] => each(Question::Check),
        ["readbatch"] => each(Question::Read),
        ["subbatch"] => each(Question::Sub),
        ["limitbatch"] => each(Question::Limits),
        ["tallybatch"] => each(Question::Tallies),
        ["pagebatch"] => each(Question::Pages),
        ["bench", n] => bench(n.parse().ok()?),
        ["numbers"] => numbers(),
        ["vectors", directory] => store(directory),
        ["mutants", directory] => mutants(directory),
        ["gen", seed, count] => return Some(generator::programs(seed.parse().ok()?, count.parse().ok()?)),
        ["genlimits", seed, count] => return Some(generator::limited(seed.parse().ok()?, count.parse().ok()?)),
        ["gentallies", seed, count] => return Some(generator::tallies(seed.parse().ok()?, count.parse().ok()?)),
        ["genpages", seed, count] => return Some(generator::pages(seed.parse().ok()?, count.parse().ok()?)),
        ["gentypes", seed, count] => return Some(generator::type_tables(seed.parse().ok()?, count.parse().ok()?)),
        ["genendless", seed, count] => return Some(generator::endless(seed.parse().ok()?, count.parse().ok()?)),
        ["genlevels", seed, count] => return Some(generator::levels(seed.parse().ok()?, count.parse().ok()?)),
        ["genpairs", seed, count] => return Some(generator::pairs(seed.parse().ok()?, count.parse().ok()?)),
        ["gennames", seed, count] => return Some(generator::field_names(seed.parse().ok()?, count.parse().ok()?)),
        _ => return None,
    };
    Some(out.into_bytes())
}

/// The limits that words name, the widest where there are none.
fn set(words: &[&str]) -> Option<Limits> {
    match words {
        [] => Some(Limits::WIDEST),
        [parts, depth] => Some(Limits { parts: parts.parse().ok()?, depth: depth.parse().ok()? }),
        _ => None,
    }
}

fn input() -> Vec<u8> {
    let mut bytes = Vec::new();
    stdin().read_to_end(&mut bytes).expect("standard input can be read");
    bytes
}

/// Answers packed files, or packed cases of limits, of tallies or of pages.
fn each(question: Question) -> String {
    question.unpack(&input()).into_iter().map(|case| question.show(case)).collect()
}

/// How many packed files have each number.
fn numbers() -> String {
    let counts = generator::numbers(&input());
    let all = counts.iter().sum::<usize>().max(1) as f64;
    let line = |(number, &count): (usize, &usize)| format!("{number} {count} {:.1} %\n", 100.0 * count as f64 / all);
    counts.iter().enumerate().map(line).collect()
}

/// Writes the vectors.
fn store(directory: &str) -> String {
    let mut out = String::new();
    for question in QUESTIONS {
        let packed = vectors::files(question);
        let files = question.unpack(&packed);
        let shown: String = files.iter().map(|&f| question.show(f)).collect();
        let path = |end| format!("{directory}/{}.{end}", question.name());
        std::fs::write(path("bin"), &packed).expect("the directory can be written");
        std::fs::write(path("txt"), &shown).expect("the directory can be written");
        out += &format!("{} files {} bytes {} {}\n", question.name(), files.len(), packed.len(), shown.len());
    }
    out
}

/// How many files catch each mutant.
fn mutants(directory: &str) -> String {
    let read = |q: Question| std::fs::read(format!("{directory}/{}.bin", q.name())).expect("a stored vector");
    vectors::mutant_tables(&QUESTIONS.map(read))
}

/// Times the check alone, best of n runs over all files.
fn bench(n: usize) -> String {
    let many = input();
    let files = print::unpack(&many);
    let nodes: usize = files.iter().map(|f| node_count(f)).sum();
    let (mut rows, mut work) = (vec![0u16; 8192], vec![0u16; 8192]);
    let mut best = f64::INFINITY;
    for _ in 0..n.max(1) {
        let start = Instant::now();
        for file in &files {
            black_box(check(black_box(file), black_box(Limits::WIDEST), &mut rows, &mut work));
        }
        best = best.min(start.elapsed().as_nanos() as f64);
    }
    let (per_file, per_node) = (best / files.len().max(1) as f64, best / nodes.max(1) as f64);
    format!("files {} nodes {nodes} ns/file {per_file:.1} ns/node {per_node:.2}\n", files.len())
}
