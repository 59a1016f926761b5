//! The stored vectors, answered by the static library (`tools/build.sh oat_c`).
//!
//!     driver compare tests/vectors     every set that sets.txt lists, case by case
//!     driver COMMAND < CASES           what the library answers, as the peer's command of that name prints it
//!
//! A line of sets.txt is a set's name, the command that asks it, and how many cases it has: NAME.bin has the cases, packed as `oat_peer` packs them, and
//! NAME.txt what is to be printed. A case that differs, a count that differs and a set that is not listed are told, and the status is then 1.

use std::fmt::Write;
use std::io::Read;
use std::process::exit;

/// The functions as `include/oat.h` has them, over slices.
mod oat {
    unsafe extern "C" {
        fn oat_read(file: *const u8, length: usize, parts: usize, depth: usize) -> u16;
        fn oat_subtype(
            file: *const u8,
            length: usize,
            parts: usize,
            depth: usize,
            a: usize,
            b: usize,
            yes: *mut u8,
            pairs: *mut u16,
        ) -> u16;
        fn oat_check(
            file: *const u8,
            length: usize,
            parts: usize,
            depth: usize,
            rows: *mut u16,
            rows_length: usize,
            work: *mut u16,
            work_length: usize,
            step: *mut u16,
            place: *mut u16,
            pairs: *mut u32,
        ) -> u16;
        fn oat_tally(
            file: *const u8,
            length: usize,
            parts: usize,
            depth: usize,
            rows: *mut u16,
            rows_length: usize,
            work: *mut u16,
            work_length: usize,
            by_type: *mut u16,
            by_type_length: usize,
            by_declaration: *mut u16,
            by_declaration_length: usize,
            step: *mut u16,
            place: *mut u16,
        ) -> u16;
        fn oat_page(
            file: *const u8,
            length: usize,
            parts: usize,
            depth: usize,
            rows: *mut u16,
            rows_length: usize,
            work: *mut u16,
            work_length: usize,
            page: *mut u8,
            page_length: usize,
            step: *mut u16,
            place: *mut u16,
            bytes: *mut usize,
        ) -> u16;
    }

    /// A file and its limits, parts and depth.
    #[derive(Clone, Copy)]
    pub struct Asked<'a>(pub &'a [u8], pub [usize; 2]);

    // In each function the pointers and lengths are those of slices, which do not overlap.
    pub fn read(Asked(file, [parts, depth]): Asked) -> u16 {
        unsafe { oat_read(file.as_ptr(), file.len(), parts, depth) }
    }

    /// The number, whether the answer is yes, and the pairs.
    pub fn subtype(Asked(file, [parts, depth]): Asked, [a, b]: [usize; 2]) -> (u16, bool, u16) {
        let (mut yes, mut pairs) = (0, 0);
        let number = unsafe { oat_subtype(file.as_ptr(), file.len(), parts, depth, a, b, &mut yes, &mut pairs) };
        (number, yes == 1, pairs)
    }

    /// A call of a function that checks a file, lent rows and work; what else it takes follows.
    macro_rules! checking {
        ($function:ident, $asked:expr, $rows:expr, $work:expr, $($more:expr),+) => {{
            let Asked(file, [parts, depth]) = $asked;
            let (rows, rows_length) = ($rows.as_mut_ptr(), $rows.len());
            let (work, work_length) = ($work.as_mut_ptr(), $work.len());
            unsafe {
                $function(file.as_ptr(), file.len(), parts, depth, rows, rows_length, work, work_length, $($more),+)
            }
        }};
    }

    /// Number, step and place, and the pairs.
    pub fn check(asked: Asked, rows: &mut [u16], work: &mut [u16]) -> ([u16; 3], u32) {
        let (mut step, mut place, mut pairs) = (0, 0, 0);
        let number = checking!(oat_check, asked, rows, work, &mut step, &mut place, &mut pairs);
        ([number, step, place], pairs)
    }

    /// Number, step and place.
    pub fn tally(asked: Asked, [rows, work]: [&mut [u16]; 2], [types, declarations]: [&mut [u16]; 2]) -> [u16; 3] {
        let (mut step, mut place) = (0, 0);
        let (by_type, types) = (types.as_mut_ptr(), types.len());
        let (by_declaration, declarations) = (declarations.as_mut_ptr(), declarations.len());
        let number = checking!(
            oat_tally,
            asked,
            rows,
            work,
            by_type,
            types,
            by_declaration,
            declarations,
            &mut step,
            &mut place
        );
        [number, step, place]
    }

    /// Number, step and place, and how many bytes the page has.
    pub fn page(asked: Asked, [rows, work]: [&mut [u16]; 2], page: &mut [u8]) -> ([u16; 3], usize) {
        let (mut step, mut place, mut bytes) = (0, 0, 0);
        let (page, length) = (page.as_mut_ptr(), page.len());
        let number = checking!(oat_page, asked, rows, work, page, length, &mut step, &mut place, &mut bytes);
        ([number, step, place], bytes)
    }
}

use oat::Asked;

const WIDEST: [usize; 2] = [200, 100];

/// How many nodes a readable file has, by its six counts; zero bytes have none.
fn node_count(file: &[u8]) -> usize {
    let (mut at, mut count) = (0, 0);
    for size in [4, 1, 2, 3, 2, 4] {
        let Some(low) = file.get(at..at + 2) else { return 0 };
        count = usize::from(low[0]) + 256 * usize::from(low[1]);
        at += 2 + 2 * size * count;
    }
    count
}

/// Rows and work, long enough for every file, as the call before leaves them.
struct Buffers {
    rows: Vec<u16>,
    work: Vec<u16>,
}

fn line<T: std::fmt::Display>(out: &mut String, before: &str, numbers: impl IntoIterator<Item = T>) {
    let words: Vec<String> = numbers.into_iter().map(|n| n.to_string()).collect();
    writeln!(out, "{before}{}", words.join(" ")).expect("a string takes every line");
}

fn show_check(asked: Asked, lent: &mut Buffers) -> String {
    let (answer, pairs) = oat::check(asked, &mut lent.rows, &mut lent.work);
    let mut out = String::new();
    line(&mut out, "", answer);
    if answer[0] == 0 {
        for (node, row) in lent.rows.chunks(2).take(node_count(asked.0)).enumerate() {
            line(&mut out, "", [node as u16, row[0], row[1]]);
        }
    }
    out + &format!("pairs {pairs}\n")
}

fn show_sub(asked: Asked, pair: [usize; 2]) -> String {
    match oat::subtype(asked, pair) {
        (0, yes, pairs) => format!("{} {pairs}", if yes { "yes" } else { "no" }),
        (number, _, pairs) => format!("{number} {pairs}"),
    }
}

/// Every pair of types, up to the first that the file lacks.
fn show_subs(asked: Asked) -> String {
    let number = oat::read(asked);
    if number != 0 {
        return format!("{number}\n");
    }
    let types = (0..).take_while(|&t| oat::subtype(asked, [t, 0]).0 == 0).count();
    let mut out = String::new();
    for a in 0..types {
        let row: Vec<_> = (0..types).map(|b| oat::subtype(asked, [a, b])).collect();
        out.extend(row.iter().map(|found| if found.1 { '1' } else { '0' }));
        line(&mut out, "\n", row.iter().map(|found| found.2));
    }
    out
}

fn show_limits(asked: Asked, lent: &mut Buffers) -> String {
    let said = [[0, 0], [4, 4], [4, 5], [600, 0]].map(|pair| show_sub(asked, pair)).join(" ");
    format!("read {}\nsub {said}\n{}", oat::read(asked), show_check(asked, lent))
}

/// The two tallies are painted before.
fn show_tally(asked: Asked, lent: &mut Buffers, lengths: [usize; 2]) -> String {
    let (mut by_type, mut by_declaration) = (vec![7777; lengths[0]], vec![8888; lengths[1]]);
    let answer = oat::tally(asked, [&mut lent.rows, &mut lent.work], [&mut by_type, &mut by_declaration]);
    let mut out = String::new();
    line(&mut out, "", answer);
    for (word, tally) in [("types", by_type), ("declarations", by_declaration)] {
        out += word;
        tally.iter().for_each(|n| out += &format!(" {n}"));
        out += "\n";
    }
    out
}

/// The page's buffer is painted before.
fn show_page(asked: Asked, lent: &mut Buffers, length: usize) -> String {
    let mut page = vec![b'#'; length];
    let ([number, step, place], bytes) = oat::page(asked, [&mut lent.rows, &mut lent.work], &mut page);
    format!("{number} {step} {place} {bytes}\n{}\n", String::from_utf8_lossy(&page))
}

/// What the check changes in rows and work, found by comparing.
mod buffers {
    use super::{line, node_count, oat, Asked, WIDEST};

    /// Longer than any buffer that is lent here.
    const LENGTH: usize = 512;

    /// Numbers that no row has, another at each place.
    fn painted() -> Vec<u16> {
        (0..LENGTH as u16).map(|i| 20000 + i).collect()
    }

    /// A fact, with NOT before it where it is none.
    fn say(fact: bool, text: &str) -> String {
        format!("{}{text}", if fact { "" } else { "NOT " })
    }

    /// The answer, and rows and work after a call that is lent the first numbers of each.
    fn call(
        asked: Asked,
        lengths: [usize; 2],
        [mut rows, mut work]: [Vec<u16>; 2],
    ) -> (([u16; 3], u32), [Vec<u16>; 2]) {
        let answer = oat::check(asked, &mut rows[..lengths[0]], &mut work[..lengths[1]]);
        (answer, [rows, work])
    }

    fn kept(buffers: &[Vec<u16>; 2]) -> String {
        let [rows, work] = [0, 1].map(|i| buffers[i] == painted());
        format!("{}{}\n", say(rows, "rows as before"), say(work, ", work as before"))
    }

    /// An answer that is a number alone, with nothing changed.
    fn bare(label: &str, number: u16, asked: Asked, lengths: [usize; 2]) -> String {
        let (answer, after) = call(asked, lengths, [painted(), painted()]);
        say(answer == ([number, 0, 0], 0), &format!("{label}: {number} 0 0, ")) + &kept(&after)
    }

    /// What an answer changed in painted buffers that are longer than needed.
    fn changes(number: u16, after: &[Vec<u16>; 2], needed: usize) -> String {
        if (1..7).contains(&number) {
            return kept(after);
        }
        let paint = painted();
        let rows = &after[0];
        let filled = match number {
            0 => say(rows[..needed].iter().zip(&paint).all(|(r, p)| r != p), "every row written"),
            _ => say(rows[..needed].iter().all(|&r| r == 65535), "every row 65535"),
        };
        let [rows, work] = [0, 1].map(|i| after[i][needed..] == paint[needed..]);
        format!("{filled}{}{}\n", say(rows, ", rows past them as before"), say(work, ", work past as many as before"))
    }

    pub fn show(file: &[u8]) -> String {
        let asked = Asked(file, WIDEST);
        let needed = if oat::read(asked) == 0 { 2 * node_count(file) } else { 0 };
        let longer = [needed + 9; 2];
        let (answer, after) = call(asked, longer, [painted(), painted()]);
        let mut out = String::new();
        line(&mut out, "", answer.0);
        out += &format!("longer buffers: {}", changes(answer.0[0], &after, needed));
        if answer.0[0] == 12 {
            let paint = painted();
            let end = (0..LENGTH).rev().find(|&i| after[1][i] != paint[i]).map_or(0, |i| i + 1);
            out += &format!("work as before from {end} on\n");
        }
        let dirty = [
            ("zeroed buffers", [0; 2].map(|n| vec![n; LENGTH])),
            ("buffers of ones", [1; 2].map(|n| vec![n; LENGTH])),
            ("used buffers", after.clone()),
        ];
        for (label, before) in dirty {
            let (again, then) = call(asked, [needed; 2], before);
            let rows = then[0][..needed] == after[0][..needed];
            out += &format!("{}{}\n", say(again == answer, &format!("{label}: same answer")), say(rows, ", same rows"));
        }
        if needed > 0 {
            out += &bare("short rows", 6, asked, [needed - 1, needed]);
            out += &bare("short work", 6, asked, [needed, needed - 1]);
        }
        for (label, limits) in
            [("0 parts", [0, 100]), ("201 parts", [201, 100]), ("depth 0", [200, 0]), ("depth 101", [200, 101])]
        {
            for lengths in [longer, [0; 2]] {
                out += &bare(label, 25, Asked(file, limits), lengths);
            }
        }
        out
    }
}

/// A case: the numbers behind its length, and its file.
struct Case<'a> {
    numbers: Vec<usize>,
    file: &'a [u8],
}

/// How many numbers a command's cases have behind their length: parts and depth, and lengths of buffers.
fn numbers_of(command: &str) -> Option<usize> {
    match command {
        "batch" | "readbatch" | "subbatch" | "bufferbatch" => Some(0),
        "limitbatch" => Some(2),
        "pagebatch" => Some(3),
        "tallybatch" => Some(4),
        _ => None,
    }
}

fn unpack(mut packed: &[u8], numbers: usize) -> Vec<Case<'_>> {
    let mut cases = Vec::new();
    while let Some((head, rest)) = packed.split_at_checked(4 + 4 * numbers) {
        let head: Vec<usize> = head.chunks(4).map(|n| u32::from_le_bytes([n[0], n[1], n[2], n[3]]) as usize).collect();
        let (file, rest) = rest.split_at(head[0].min(rest.len()));
        cases.push(Case { numbers: head[1..].to_vec(), file });
        packed = rest;
    }
    cases
}

/// What the library answers to a case, as the peer prints it.
fn show(command: &str, case: &Case, lent: &mut Buffers) -> String {
    let limits = if case.numbers.is_empty() { WIDEST } else { [case.numbers[0], case.numbers[1]] };
    let asked = Asked(case.file, limits);
    let shown = match command {
        "readbatch" => return format!("{}\n", oat::read(asked)),
        "batch" => show_check(asked, lent),
        "subbatch" => show_subs(asked),
        "limitbatch" => show_limits(asked, lent),
        "tallybatch" => show_tally(asked, lent, [case.numbers[2], case.numbers[3]]),
        "pagebatch" => show_page(asked, lent, case.numbers[2]),
        _ => buffers::show(case.file),
    };
    shown + "--\n"
}

/// Compares a set with what is to be printed; says what differs.
fn compare(directory: &str, name: &str, command: &str, count: usize, lent: &mut Buffers) -> bool {
    let stored = |end: &str| std::fs::read(format!("{directory}/{name}.{end}")).expect("a stored file");
    let (packed, expected) = (stored("bin"), stored("txt"));
    let cases = unpack(&packed, numbers_of(command).expect("a command"));
    let mut rest = &expected[..];
    for (i, case) in cases.iter().enumerate() {
        let shown = show(command, case, lent);
        let Some(left) = rest.strip_prefix(shown.as_bytes()) else {
            let upto = rest.len().min(shown.len() + 40);
            println!(
                "{name}: case {i} differs\nexpected:\n{}\nfound:\n{shown}",
                String::from_utf8_lossy(&rest[..upto])
            );
            return false;
        };
        rest = left;
    }
    if cases.len() != count || !rest.is_empty() {
        println!(
            "{name}: {} cases where {count} are listed, {} bytes of what is expected left",
            cases.len(),
            rest.len()
        );
        return false;
    }
    println!("{name}: {count} cases, every byte as expected");
    true
}

/// Every set of a directory; a set that is not listed is none that is tested.
fn compare_all(directory: &str, lent: &mut Buffers) -> bool {
    let sets = std::fs::read_to_string(format!("{directory}/sets.txt")).expect("the list of sets");
    let mut good = true;
    let mut listed = Vec::new();
    for row in sets.lines() {
        let [name, command, count] = row.split(' ').collect::<Vec<_>>()[..] else {
            panic!("a line of sets.txt: {row}")
        };
        good &= compare(directory, name, command, count.parse().expect("a count"), lent);
        listed.push(format!("{name}.bin"));
    }
    for entry in std::fs::read_dir(directory).expect("the directory") {
        let name = entry.expect("a file").file_name().into_string().expect("a name");
        if name.ends_with(".bin") && !listed.contains(&name) {
            println!("{name} is not listed");
            good = false;
        }
    }
    good
}

fn main() {
    let words: Vec<String> = std::env::args().skip(1).collect();
    let mut lent = Buffers { rows: vec![0; 8192], work: vec![0; 8192] };
    match &words[..] {
        [word, directory] if word == "compare" => exit(if compare_all(directory, &mut lent) { 0 } else { 1 }),
        [command] if numbers_of(command).is_some() => {
            let mut packed = Vec::new();
            std::io::stdin().read_to_end(&mut packed).expect("standard input can be read");
            let shown: String = unpack(&packed, numbers_of(command).expect("a command"))
                .iter()
                .map(|c| show(command, c, &mut lent))
                .collect();
            std::io::Write::write_all(&mut std::io::stdout(), shown.as_bytes())
                .expect("standard output takes the answers");
        }
        _ => {
            eprintln!("usage: driver compare DIRECTORY, or driver COMMAND < CASES");
            exit(2);
        }
    }
}
