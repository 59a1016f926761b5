//! The generator: well-typed programs, near misses, damaged files, files of the
//! largest sizes, files about field names, about endless loops, about names in
//! inner blocks, about compared pairs of types, for tallies and for pages, from a
//! seed.

mod bodies;
mod damage;
mod endless;
mod large;
mod levels;
mod limits;
mod misses;
mod names;
mod pages;
mod pairs;
mod rng;
mod tables;
mod tallies;

use crate::mutants::{Document01, Exact, Rules};
use crate::print::{pack, pack_limited, pack_pages, pack_tallies, unpack};
use crate::{Limits, check_under, node_count};
pub use limits::settings_around;
use rng::Rng;

/// The numbers asked for in turn; 0 stands more often.
const WANTED: [u16; 20] = [0, 7, 8, 9, 10, 11, 12, 13, 14, 15, 16, 1, 2, 3, 4, 5, 0, 11, 8, 5];

/// How often a file is changed before the number asked for is given up.
const TRIES: usize = 400;

/// Packed files of all kinds.
pub fn programs(seed: u64, count: usize) -> Vec<u8> {
    let mut rng = Rng::new(seed);
    pack((0..count).map(|i| program(&mut rng, WANTED[i % WANTED.len()])))
}

/// Packed readable files with rich type tables and without nodes.
pub fn type_tables(seed: u64, count: usize) -> Vec<u8> {
    let mut rng = Rng::new(seed ^ 0x7479_7065);
    pack((0..count).map(|_| tables::rich(&mut rng).bytes()))
}

/// Packed files about the names of struct literals.
pub fn field_names(seed: u64, count: usize) -> Vec<u8> {
    let mut rng = Rng::new(seed ^ 0x6E61_6D65);
    pack((0..count).map(|_| names::file(&mut rng)))
}

/// Packed files about loops that never end.
pub fn endless(seed: u64, count: usize) -> Vec<u8> {
    let mut rng = Rng::new(seed ^ 0x6C6F_6F70);
    pack((0..count).map(|_| endless::file(&mut rng)))
}

/// Packed files about names in inner blocks.
pub fn levels(seed: u64, count: usize) -> Vec<u8> {
    let mut rng = Rng::new(seed ^ 0x6C65_7665);
    pack((0..count).map(|_| levels::file(&mut rng)))
}

/// Packed files that ask many subtype questions about large types.
pub fn pairs(seed: u64, count: usize) -> Vec<u8> {
    let mut rng = Rng::new(seed ^ 0x7061_6972);
    pack((0..count).map(|_| pairs::file(&mut rng)))
}

/// Packed cases of limits: the files of `programs`, each under four settings in a row.
pub fn limited(seed: u64, count: usize) -> Vec<u8> {
    let many = programs(seed, count);
    let mut rng = Rng::new(seed ^ 0x6C69_6D69);
    let cases = unpack(&many).into_iter().flat_map(|file| limits::four(&mut rng, file).map(|limits| (file, limits)));
    pack_limited(cases)
}

/// Packed cases of tallies: most files are accepted and have equal types under
/// several numbers; lengths are exact, longer and too short in turn.
pub fn tallies(seed: u64, count: usize) -> Vec<u8> {
    let mut rng = Rng::new(seed ^ 0x7461_6C6C);
    pack_tallies((0..count).map(|k| {
        let file = match rng.below(8) {
            0 => program(&mut rng, WANTED[k % WANTED.len()]),
            1 => pairs::file(&mut rng),
            _ => tallies::pair(&mut rng)[1].bytes(),
        };
        let limits = tallies::limits(&mut rng, &file);
        let lengths = tallies::lengths(&mut rng, k, &file);
        (file, limits, lengths)
    }))
}

/// Packed cases of pages: most files are accepted, many with as many nodes as some
/// full pages have or one more or fewer; lengths are exact, longer and too short in turn.
pub fn pages(seed: u64, count: usize) -> Vec<u8> {
    let mut rng = Rng::new(seed ^ 0x7061_6765);
    pack_pages((0..count).map(|k| {
        let file = match rng.below(250) {
            0 => pages::large(&mut rng).bytes(),
            1..25 => program(&mut rng, WANTED[k % WANTED.len()]),
            25..35 => levels::file(&mut rng),
            35..75 => pages::small(&mut rng).bytes(),
            75..120 => tallies::pair(&mut rng)[1].bytes(),
            _ => pages::rounded(&mut rng).bytes(),
        };
        let limits = tallies::limits(&mut rng, &file);
        let length = pages::length(&mut rng, k, &file);
        (file, limits, length)
    }))
}

/// Well-typed files, each as it was made and with its types under more numbers.
pub fn doubled(seed: u64, count: usize) -> Vec<[Vec<u8>; 2]> {
    let mut rng = Rng::new(seed ^ 0x646F_7562);
    (0..count).map(|_| tallies::pair(&mut rng).map(|p| p.bytes())).collect()
}

/// One accepted file of each large sort.
pub fn large_files() -> [Vec<u8>; 4] {
    large::each()
}

/// How many packed files have each answer number from 0 to 16.
pub fn numbers(many: &[u8]) -> [usize; 17] {
    let mut counts = [0; 17];
    for file in unpack(many) {
        counts[number(file, Exact) as usize] += 1;
    }
    counts
}

fn number<R: Rules>(file: &[u8], rules: R) -> u16 {
    let size = 2 * node_count(file);
    check_under(file, Limits::WIDEST, &mut vec![0; size], &mut vec![0; size], rules).number
}

/// One file, with the number asked for if it can be had in some tries. It has
/// that number under document 01's typing, so that a seed gives the files that it
/// gave before document 02's requests (i) and (vi). A file for 1 that is cut down
/// to zero bytes is kept, though it is accepted.
fn program(rng: &mut Rng, wanted: u16) -> Vec<u8> {
    if rng.below(250) == 0 {
        return large::file(rng, wanted);
    }
    for _ in 0..TRIES {
        let file = attempt(rng, wanted);
        if number(&file, Document01) == wanted || file.is_empty() {
            return file;
        }
    }
    bodies::typed(rng).bytes()
}

fn attempt(rng: &mut Rng, wanted: u16) -> Vec<u8> {
    let p = bodies::typed(rng);
    match wanted {
        0 => p.bytes(),
        1..=5 => damage::damaged(rng, p, wanted),
        _ => misses::near(rng, p, wanted),
    }
}
