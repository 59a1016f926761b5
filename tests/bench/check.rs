//! Times the proved check and the peer's side by side on packed files, one call of each in turn, best of many runs.
//!     check FILE...        a line for each size of file: nanoseconds per node of both, and the ratio
//!     check -each FILE...  a line for each file, the slowest against the peer first
//!     check -read FILE...  a line for each size of file, of reading alone
//!     check -tally FILE... a line for each size of file, of the tallies, which check the file first
//!     check -page FILE...  the same of the page
use std::cell::RefCell;
use std::fs;
use std::hint::black_box;
use std::time::Instant;

extern "C" {
    fn oat_read(file: *const u8, length: usize, parts: usize, depth: usize) -> u16;
    fn oat_check(file: *const u8, length: usize, parts: usize, depth: usize, rows: *mut u16, rows_length: usize, work: *mut u16, work_length: usize, step: &mut u16, place: &mut u16, pairs: &mut u32) -> u16;
    fn oat_page(file: *const u8, length: usize, parts: usize, depth: usize, rows: *mut u16, rows_length: usize, work: *mut u16, work_length: usize, page: *mut u8, page_length: usize, step: &mut u16, place: &mut u16, bytes: &mut usize) -> u16;
    fn oat_tally(file: *const u8, length: usize, parts: usize, depth: usize, rows: *mut u16, rows_length: usize, work: *mut u16, work_length: usize, by_type: *mut u16, by_type_length: usize, by_declaration: *mut u16, by_declaration_length: usize, step: &mut u16, place: &mut u16) -> u16;
}

const NUMBERS: usize = 8192;
const TALLIES: (usize, usize) = (512, 2048);
const PAGE: usize = 81_937;
const WIDEST: oat_peer::Limits = oat_peer::Limits::WIDEST;

fn proved(file: &[u8], rows: &mut [u16], work: &mut [u16]) -> u16 {
    let (mut step, mut place, mut pairs) = (0, 0, 0);
    // SAFETY: every pointer points to as many elements as its length says, and none overlap
    unsafe { oat_check(file.as_ptr(), file.len(), WIDEST.parts, WIDEST.depth, rows.as_mut_ptr(), rows.len(), work.as_mut_ptr(), work.len(), &mut step, &mut place, &mut pairs) }
}

fn proved_read(file: &[u8]) -> u16 {
    // SAFETY: the pointer points to as many bytes as the length says
    unsafe { oat_read(file.as_ptr(), file.len(), WIDEST.parts, WIDEST.depth) }
}

fn proved_tally(file: &[u8], rows: &mut [u16], work: &mut [u16]) -> u16 {
    let (mut by_type, mut by_declaration) = ([0; TALLIES.0], [0; TALLIES.1]);
    let (mut step, mut place) = (0, 0);
    // SAFETY: every pointer points to as many elements as its length says, and none overlap
    unsafe { oat_tally(file.as_ptr(), file.len(), WIDEST.parts, WIDEST.depth, rows.as_mut_ptr(), rows.len(), work.as_mut_ptr(), work.len(), by_type.as_mut_ptr(), by_type.len(), by_declaration.as_mut_ptr(), by_declaration.len(), &mut step, &mut place) }
}

fn peers_tally(file: &[u8], rows: &mut [u16], work: &mut [u16]) -> u16 {
    let (mut by_type, mut by_declaration) = ([0; TALLIES.0], [0; TALLIES.1]);
    oat_peer::tally(file, WIDEST, rows, work, &mut by_type, &mut by_declaration).number
}

fn proved_page(file: &[u8], rows: &mut [u16], work: &mut [u16], page: &mut [u8]) -> u16 {
    let (mut step, mut place, mut bytes) = (0, 0, 0);
    // SAFETY: every pointer points to as many elements as its length says, and none overlap
    unsafe { oat_page(file.as_ptr(), file.len(), WIDEST.parts, WIDEST.depth, rows.as_mut_ptr(), rows.len(), work.as_mut_ptr(), work.len(), page.as_mut_ptr(), page.len(), &mut step, &mut place, &mut bytes) }
}

/// What is timed.
#[derive(Clone, Copy, PartialEq)]
enum Asked {
    Check,
    Read,
    Tally,
    Page,
}

/// Nanoseconds of one call: `calls` calls are timed together.
fn time(calls: usize, mut call: impl FnMut()) -> f64 {
    let start = Instant::now();
    for _ in 0..calls {
        call();
    }
    start.elapsed().as_nanos() as f64 / calls as f64
}

struct Timed {
    name: String,
    nodes: usize,
    number: u16,
    proved: f64,
    peer: f64,
}

/// The best times of two operations that take turns, each on the file and the same buffers.
fn race(file: &[u8], rows: &mut [u16], work: &mut [u16], one: impl Fn(&[u8], &mut [u16], &mut [u16]), other: impl Fn(&[u8], &mut [u16], &mut [u16])) -> (f64, f64) {
    let once = time(1, || one(file, rows, work)).max(50.0);
    let calls = (20_000.0 / once).ceil() as usize;
    let (mut ours, mut theirs) = (f64::INFINITY, f64::INFINITY);
    for _ in 0..100 {
        ours = ours.min(time(calls, || one(black_box(file), rows, work)));
        theirs = theirs.min(time(calls, || other(black_box(file), rows, work)));
    }
    (ours, theirs)
}

fn measure(name: String, file: &[u8], rows: &mut [u16], work: &mut [u16], asked: Asked) -> Timed {
    let pages = [RefCell::new(vec![0; PAGE]), RefCell::new(vec![0; PAGE])];
    let number = proved(file, rows, work);
    let nodes = oat_peer::node_count(file);
    let (proved, peer) = match asked {
        Asked::Check => race(file, rows, work, |f, r, w| { black_box(proved(f, r, w)); }, |f, r, w| { black_box(oat_peer::check(f, WIDEST, r, w)); }),
        Asked::Read => race(file, rows, work, |f, _, _| { black_box(proved_read(f)); }, |f, _, _| { black_box(oat_peer::read(f, WIDEST)); }),
        Asked::Tally => race(file, rows, work, |f, r, w| { black_box(proved_tally(f, r, w)); }, |f, r, w| { black_box(peers_tally(f, r, w)); }),
        Asked::Page => race(file, rows, work, |f, r, w| { black_box(proved_page(f, r, w, &mut pages[0].borrow_mut())); }, |f, r, w| { black_box(oat_peer::page(f, WIDEST, r, w, &mut pages[1].borrow_mut())); }),
    };
    Timed { name, nodes, number, proved, peer }
}

fn unpack(many: &[u8]) -> Vec<&[u8]> {
    let mut files = Vec::new();
    let mut at = 0;
    while at + 4 <= many.len() {
        let length = u32::from_le_bytes([many[at], many[at + 1], many[at + 2], many[at + 3]]) as usize;
        files.push(&many[at + 4..at + 4 + length]);
        at += 4 + length;
    }
    files
}

fn total(label: &str, timed: &[&Timed]) {
    let nodes: usize = timed.iter().map(|t| t.nodes).sum();
    let (ours, theirs): (f64, f64) = (timed.iter().map(|t| t.proved).sum(), timed.iter().map(|t| t.peer).sum());
    let per = nodes.max(1) as f64;
    println!("{label}: {} files, {nodes} nodes, proved {:.1} ns/node, peer {:.1} ns/node, ratio {:.2}", timed.len(), ours / per, theirs / per, ours / theirs);
}

fn main() {
    let mut paths: Vec<String> = std::env::args().skip(1).collect();
    let each = paths.first().is_some_and(|p| p == "-each");
    let asked = match paths.first().map(String::as_str) {
        Some("-read") => Asked::Read,
        Some("-tally") => Asked::Tally,
        Some("-page") => Asked::Page,
        _ => Asked::Check,
    };
    if each || asked != Asked::Check {
        paths.remove(0);
    }
    let (mut rows, mut work) = (vec![0u16; NUMBERS], vec![0u16; NUMBERS]);
    let mut timed = Vec::new();
    for path in &paths {
        let many = fs::read(path).expect("the file can be read");
        for (i, file) in unpack(&many).into_iter().enumerate() {
            timed.push(measure(format!("{path}:{i}"), file, &mut rows, &mut work, asked));
        }
    }
    if each {
        timed.sort_by(|a, b| (b.proved / b.peer).total_cmp(&(a.proved / a.peer)));
        for t in &timed {
            println!("{}: {} nodes, number {}, proved {:.0} ns, peer {:.0} ns, ratio {:.2}", t.name, t.nodes, t.number, t.proved, t.peer, t.proved / t.peer);
        }
        return;
    }
    for (label, from, to) in [("no nodes", 0, 1), ("small, 1 to 63", 1, 64), ("medium, 64 to 511", 64, 512), ("large, 512 to 4096", 512, 4097)] {
        let part: Vec<&Timed> = timed.iter().filter(|t| from <= t.nodes && t.nodes < to).collect();
        if !part.is_empty() {
            total(label, &part);
        }
    }
    total("all", &timed.iter().collect::<Vec<_>>());
    let over = timed.iter().filter(|t| t.proved > 2.0 * t.peer).count();
    println!("files with more than twice the peer's time: {over} of {}", timed.len());
}
