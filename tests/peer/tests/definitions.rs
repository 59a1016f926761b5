//! Subtyping against document 001's rules, written down as they stand there:
//! no table of equal types, every type written out. Counts of compared pairs
//! against document 02's words: pairs that wait, one taken after the other.

use oat_peer::mutants::Exact;
use oat_peer::vectors::{Question, files};
use oat_peer::{Below, Limits, print, subtypes};

mod sections;

/// A readable file's types and structs as numbers.
struct Sections {
    types: Vec<[u16; 4]>,
    list: Vec<u16>,
    fields: Vec<[u16; 2]>,
    structs: Vec<[u16; 3]>,
}

fn sections(file: &[u8]) -> Sections {
    let [types, list, fields, structs, ..] = sections::sections(file);
    Sections {
        types: types.as_chunks().0.to_vec(),
        list,
        fields: fields.as_chunks().0.to_vec(),
        structs: structs.as_chunks().0.to_vec(),
    }
}

impl Sections {
    fn parameters(&self, t: u16) -> &[u16] {
        let [_, _, first, count] = self.types[t as usize];
        &self.list[first as usize..][..count as usize]
    }

    fn equal(&self, a: u16, b: u16) -> bool {
        let written = |t| sections::written(&self.types, &self.list, t);
        written(a) == written(b)
    }

    fn fields_of(&self, name: u16) -> Option<&[[u16; 2]]> {
        let [_, first, count] = self.structs.iter().find(|s| s[0] == name)?;
        Some(&self.fields[*first as usize..][..*count as usize])
    }

    fn struct_below(&self, a: u16, b: u16) -> bool {
        let (Some(s), Some(z)) = (self.fields_of(a), self.fields_of(b)) else { return false };
        z.len() <= s.len() && z.iter().zip(s).all(|(g, f)| f[0] == g[0] && self.equal(f[1], g[1]))
    }

    fn parts(&self, t: u16) -> u32 {
        let refers = match self.types[t as usize] {
            [5 | 7, a, ..] => self.parts(a),
            [6, a, ..] => self.parts(a) + self.parameters(t).iter().map(|&p| self.parts(p)).sum::<u32>(),
            _ => 0,
        };
        1 + refers
    }

    /// Every struct in a type is declared.
    fn declared(&self, t: u16) -> bool {
        match self.types[t as usize] {
            [4, name, ..] => self.fields_of(name).is_some(),
            [5 | 7, a, ..] => self.declared(a),
            [6, a, ..] => self.declared(a) && self.parameters(t).iter().all(|&p| self.declared(p)),
            _ => true,
        }
    }

    /// How many pairs are compared: each may lead to others, which are compared
    /// before those that wait, until one fails.
    fn count(&self, a: u16, b: u16) -> u32 {
        let mut waiting = vec![(false, a, b)];
        let mut count = 0;
        while let Some(pair) = waiting.pop() {
            count += 1;
            let Some(next) = self.leads_to(pair) else { break };
            waiting.extend(next.into_iter().rev());
        }
        count
    }

    /// The pairs that a pair leads to, in order, or nothing if it fails. The first
    /// of the three tells whether the two types are to be equal.
    fn leads_to(&self, (equal, a, b): (bool, u16, u16)) -> Option<Vec<(bool, u16, u16)>> {
        let ([kind, inside, ..], [other, within, ..]) = (self.types[a as usize], self.types[b as usize]);
        let holds = match (kind, other) {
            (5, 5) => return Some(vec![(true, inside, within)]),
            (7, 7) => return Some(vec![(equal, inside, within)]),
            (2 | 4 | 5 | 6, 7) if !equal => return Some(vec![(false, a, within)]),
            (6, 6) => {
                let (p, q) = (self.parameters(a), self.parameters(b));
                let turned = p.iter().zip(q).map(|(&p, &q)| (equal, q, p));
                return (p.len() == q.len()).then(|| turned.chain([(equal, inside, within)]).collect());
            }
            (4, 4) if equal => inside == within,
            (4, 4) => self.struct_below(inside, within),
            _ => kind == other,
        };
        holds.then(Vec::new)
    }

    fn below(&self, a: u16, b: u16) -> bool {
        let ([kind, inside, ..], [other, within, ..]) = (self.types[a as usize], self.types[b as usize]);
        match (kind, other) {
            (0, 0) | (1, 1) | (2, 2) | (3, 3) => true,
            (7, 7) => self.below(inside, within),
            (2 | 4 | 5 | 6, 7) => self.below(a, within),
            (4, 4) => self.struct_below(inside, within),
            (5, 5) => self.equal(inside, within),
            (6, 6) => {
                let (p, q) = (self.parameters(a), self.parameters(b));
                p.len() == q.len() && p.iter().zip(q).all(|(&p, &q)| self.below(q, p)) && self.below(inside, within)
            }
            _ => false,
        }
    }
}

/// One byte is no file; all other stored files can be read.
#[test]
fn subtyping_is_as_written() {
    let packed = files(Question::Sub);
    let (mut at_most, mut of_parts) = (0, 0);
    for file in print::unpack(&packed).into_iter().filter(|f| f.len() != 1) {
        let plain = sections(file);
        let all = 0..plain.types.len() as u16;
        let parts: Vec<u32> = all.clone().map(|t| plain.parts(t)).collect();
        let table = subtypes(file, Limits::WIDEST, Exact).expect("a readable file");
        for (a, b) in all.clone().flat_map(|a| all.clone().map(move |b| (a, b))) {
            let found = table[a as usize][b as usize];
            assert_eq!(found, Below { holds: plain.below(a, b), pairs: plain.count(a, b) }, "{a} below {b}");
            let most = parts[a as usize] + parts[b as usize] - 1;
            assert!((1..=most).contains(&found.pairs), "{a} below {b}: {} of {most}", found.pairs);
            at_most += usize::from(found.pairs == most);
            if plain.equal(a, b) && plain.declared(a) {
                assert_eq!(found, Below { holds: true, pairs: parts[a as usize] }, "{a} below {b}");
                of_parts += usize::from(found.pairs > 4);
            }
        }
    }
    assert!(at_most > 1000 && of_parts > 1000, "{at_most}, {of_parts}");
}
