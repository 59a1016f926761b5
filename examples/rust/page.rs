//! page FILE [PARTS DEPTH]: checks a program file, prints the answer with the number of bytes of its page and, where it is accepted, the page. PARTS
//! and DEPTH are the limits, 200 and 100 where they are left out.
//!
//!     tools/build.sh oat_c
//!     rustc --edition 2021 examples/rust/page.rs -L target/staticlib -l static=oat_c -o page
//!     ./page examples/page_and_two_rows.oat

use std::io::Write;
use std::process::exit;

/// The function as `include/oat.h` has it, which says what changes in which buffer.
mod oat {
    unsafe extern "C" {
        fn oat_page(
            file: *const u8,
            length: usize,
            parts: usize,
            depth: usize,
            rows: *mut u16,
            rows_length: usize,
            work: *mut u16,
            work_length: usize,
            page: *mut u8,
            page_length: usize,
            step: *mut u16,
            place: *mut u16,
            bytes: *mut usize,
        ) -> u16;
    }

    /// The number, the step and the place, and how many bytes the page has; rows and work have 8,192 numbers, which are always enough.
    pub fn page(file: &[u8], limits: [usize; 2], page: &mut [u8]) -> ([u16; 3], usize) {
        let (mut rows, mut work) = ([0; 8192], [0; 8192]);
        let (mut step, mut place, mut bytes) = (0, 0, 0);
        // The pointers and lengths are those of slices, which do not overlap.
        let number = unsafe {
            oat_page(
                file.as_ptr(),
                file.len(),
                limits[0],
                limits[1],
                rows.as_mut_ptr(),
                rows.len(),
                work.as_mut_ptr(),
                work.len(),
                page.as_mut_ptr(),
                page.len(),
                &mut step,
                &mut place,
                &mut bytes,
            )
        };
        ([number, step, place], bytes)
    }
}

/// The file and the limits that the words of the command name.
fn asked(words: &[String]) -> Option<(Vec<u8>, [usize; 2])> {
    let limits = match words {
        [_] => [200, 100],
        [_, parts, depth] => [parts.parse().ok()?, depth.parse().ok()?],
        _ => return None,
    };
    Some((std::fs::read(&words[0]).ok()?, limits))
}

fn main() {
    let words: Vec<String> = std::env::args().skip(1).collect();
    let Some((file, limits)) = asked(&words) else {
        eprintln!("usage: page FILE [PARTS DEPTH]");
        exit(2);
    };

    let mut page = vec![0; 81_937]; // enough for every file
    let ([number, step, place], bytes) = oat::page(&file, limits, &mut page);
    println!("{number} {step} {place} {bytes}");
    std::io::stdout().write_all(&page[..bytes]).expect("standard output takes the page");
}
