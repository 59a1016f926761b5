//! check FILE A B [PARTS DEPTH]: checks a program file, prints the answer and, where it is accepted, each node's number and row, then how many
//! pairs of types were compared, and asks whether the file's type A is below its type B. PARTS and DEPTH are the limits, 200 and 100 where they
//! are left out.
//!
//!     tools/build.sh oat_c
//!     rustc --edition 2021 examples/rust/check.rs -L target/staticlib -l static=oat_c -o check
//!     ./check examples/one_global.oat 0 1
//!     ./check examples/nested_calls.oat 0 1 200 5

use std::process::exit;

/// The functions as `include/oat.h` has them, which says what changes in which buffer.
mod oat {
    /// A type has at most so many parts, 1 to 200, and nodes are at most so deep, 1 to 100.
    #[derive(Clone, Copy)]
    pub struct Limits {
        pub parts: usize,
        pub depth: usize,
    }

    unsafe extern "C" {
        fn oat_check(
            file: *const u8,
            length: usize,
            parts: usize,
            depth: usize,
            rows: *mut u16,
            rows_length: usize,
            work: *mut u16,
            work_length: usize,
            step: *mut u16,
            place: *mut u16,
            pairs: *mut u32,
        ) -> u16;
        fn oat_subtype(
            file: *const u8,
            length: usize,
            parts: usize,
            depth: usize,
            a: usize,
            b: usize,
            yes: *mut u8,
            pairs: *mut u16,
        ) -> u16;
    }

    /// The number, the step and the place, and how many pairs of types were compared.
    pub fn check(file: &[u8], limits: Limits, rows: &mut [u16], work: &mut [u16]) -> ([u16; 3], u32) {
        let (mut step, mut place, mut pairs) = (0, 0, 0);
        // The pointers and lengths are those of slices, which do not overlap.
        let number = unsafe {
            oat_check(
                file.as_ptr(),
                file.len(),
                limits.parts,
                limits.depth,
                rows.as_mut_ptr(),
                rows.len(),
                work.as_mut_ptr(),
                work.len(),
                &mut step,
                &mut place,
                &mut pairs,
            )
        };
        ([number, step, place], pairs)
    }

    /// Whether the type a is below the type b, or the refusing number; and how many pairs of types were compared.
    pub fn subtype(file: &[u8], limits: Limits, a: usize, b: usize) -> (Result<bool, u16>, u16) {
        let (mut yes, mut pairs) = (0, 0);
        match unsafe { oat_subtype(file.as_ptr(), file.len(), limits.parts, limits.depth, a, b, &mut yes, &mut pairs) } {
            0 => (Ok(yes == 1), pairs),
            number => (Err(number), pairs),
        }
    }
}

/// How many nodes an accepted file has: the count of the last section, after five others with records of these sizes. Zero bytes have none.
fn node_count(file: &[u8]) -> usize {
    if file.is_empty() {
        return 0;
    }
    let count = |at: usize| usize::from(u16::from_le_bytes([file[at], file[at + 1]]));
    count([4, 1, 2, 3, 2].iter().fold(0, |at, size| at + 2 + 2 * size * count(at)))
}

/// The file, the two types and the limits that the words of the command name.
fn asked(words: &[String]) -> Option<(Vec<u8>, usize, usize, oat::Limits)> {
    let (path, numbers) = words.split_first()?;
    let numbers: Vec<usize> = numbers.iter().map(|n| n.parse().ok()).collect::<Option<_>>()?;
    let (a, b, parts, depth) = match numbers[..] {
        [a, b] => (a, b, 200, 100),
        [a, b, parts, depth] => (a, b, parts, depth),
        _ => return None,
    };
    Some((std::fs::read(path).ok()?, a, b, oat::Limits { parts, depth }))
}

fn main() {
    let words: Vec<String> = std::env::args().skip(1).collect();
    let Some((file, a, b, limits)) = asked(&words) else {
        eprintln!("usage: check FILE A B [PARTS DEPTH]");
        exit(2);
    };

    let (mut rows, mut work) = ([0; 8192], [0; 8192]);
    let ([number, step, place], sum) = oat::check(&file, limits, &mut rows, &mut work);
    println!("{number} {step} {place}");
    if number == 0 {
        for (node, row) in rows.chunks(2).take(node_count(&file)).enumerate() {
            println!("{node} {} {}", row[0], row[1]);
        }
    }
    println!("pairs {sum}");
    match oat::subtype(&file, limits, a, b) {
        (Ok(yes), pairs) => println!("type {a} below type {b}: {}, pairs {pairs}", if yes { "yes" } else { "no" }),
        (Err(number), pairs) => println!("type {a} below type {b}: refused under {number}, pairs {pairs}"),
    }
}
