//! A readable file read for tests, apart from the peer's own reader.

use oat_peer::program::Program;

/// The numbers of each of the six sections. Zero bytes have types 0 to 3 and nothing else.
pub fn sections(file: &[u8]) -> [Vec<u16>; 6] {
    if file.is_empty() {
        return sections(&Program::new().bytes());
    }
    let numbers: Vec<u16> = file.as_chunks::<2>().0.iter().map(|b| u16::from_le_bytes(*b)).collect();
    let mut at = 0;
    [4, 1, 2, 3, 2, 4].map(|width| {
        let (from, size) = (at + 1, numbers[at] as usize * width);
        at = from + size;
        numbers[from..at].to_vec()
    })
}

/// Document 01: a type written out is its kind, a struct's name or a function's
/// number of parameters, then what it refers to.
pub fn written(types: &[[u16; 4]], list: &[u16], t: u16) -> Vec<u16> {
    let [kind, a, first, count] = types[t as usize];
    let out = |front: &[u16], parts: &[u16]| {
        let parts = parts.iter().flat_map(|&p| written(types, list, p));
        front.iter().copied().chain(parts).collect()
    };
    match kind {
        4 => out(&[kind, a], &[]),
        5 | 7 => out(&[kind], &[a]),
        6 => out(&[kind, count], &[&[a], &list[first as usize..][..count as usize]].concat()),
        _ => out(&[kind], &[]),
    }
}
