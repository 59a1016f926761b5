//! tally FILE [PARTS DEPTH]: checks a program file, prints the answer and, where it is accepted, how many expressions it has of each type and in
//! each declaration. PARTS and DEPTH are the limits, 200 and 100 where they are left out.
//!
//!     tools/build.sh oat_c
//!     rustc --edition 2021 examples/rust/tally.rs -L target/staticlib -l static=oat_c -o tally
//!     ./tally examples/equal_types.oat

use std::process::exit;

/// The function as `include/oat.h` has it, which says what changes in which buffer.
mod oat {
    unsafe extern "C" {
        fn oat_tally(
            file: *const u8,
            length: usize,
            parts: usize,
            depth: usize,
            rows: *mut u16,
            rows_length: usize,
            work: *mut u16,
            work_length: usize,
            by_type: *mut u16,
            by_type_length: usize,
            by_declaration: *mut u16,
            by_declaration_length: usize,
            step: *mut u16,
            place: *mut u16,
        ) -> u16;
    }

    /// The number, the step and the place; rows and work have 8,192 numbers, which are always enough.
    pub fn tally(file: &[u8], limits: [usize; 2], by_type: &mut [u16], by_declaration: &mut [u16]) -> [u16; 3] {
        let (mut rows, mut work) = ([0; 8192], [0; 8192]);
        let (mut step, mut place) = (0, 0);
        // The pointers and lengths are those of slices, which do not overlap.
        let number = unsafe {
            oat_tally(
                file.as_ptr(),
                file.len(),
                limits[0],
                limits[1],
                rows.as_mut_ptr(),
                rows.len(),
                work.as_mut_ptr(),
                work.len(),
                by_type.as_mut_ptr(),
                by_type.len(),
                by_declaration.as_mut_ptr(),
                by_declaration.len(),
                &mut step,
                &mut place,
            )
        };
        [number, step, place]
    }
}

/// How many types and declarations an accepted file has: the count of the first section, and the nodes of kinds 1 and 2 of the last. Zero bytes
/// have types 0 to 3 and nothing else.
fn counts(file: &[u8]) -> [usize; 2] {
    if file.is_empty() {
        return [4, 0];
    }
    let number = |at: usize| usize::from(u16::from_le_bytes([file[at], file[at + 1]]));
    let nodes = [4, 1, 2, 3, 2].iter().fold(0, |at, size| at + 2 + 2 * size * number(at));
    [number(0), (0..number(nodes)).filter(|node| number(nodes + 2 + 8 * node) <= 2).count()]
}

fn print_tally(word: &str, tally: &[u16]) {
    println!("{word}{}", tally.iter().map(|n| format!(" {n}")).collect::<String>());
}

/// The file and the limits that the words of the command name.
fn asked(words: &[String]) -> Option<(Vec<u8>, [usize; 2])> {
    let (path, numbers) = words.split_first()?;
    let numbers: Vec<usize> = numbers.iter().map(|n| n.parse().ok()).collect::<Option<_>>()?;
    let limits = match numbers[..] {
        [] => [200, 100],
        [parts, depth] => [parts, depth],
        _ => return None,
    };
    Some((std::fs::read(path).ok()?, limits))
}

fn main() {
    let words: Vec<String> = std::env::args().skip(1).collect();
    let Some((file, limits)) = asked(&words) else {
        eprintln!("usage: tally FILE [PARTS DEPTH]");
        exit(2);
    };

    let (mut by_type, mut by_declaration) = ([0; 512], [0; 2048]);
    let [number, step, place] = oat::tally(&file, limits, &mut by_type, &mut by_declaration);
    println!("{number} {step} {place}");
    if number == 0 {
        let [types, declarations] = counts(&file);
        print_tally("types", &by_type[..types]);
        print_tally("declarations", &by_declaration[..declarations]);
    }
}
