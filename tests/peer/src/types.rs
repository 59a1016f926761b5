//! Types of a readable file: document 01, "Subtyping and well-formed types",
//! and document 001, sections 2 and 3.
//!
//! Every type gets the lowest number that is equal as written out, so that the
//! types of fields are compared at once, and every struct type the record it means.
//! The subtype question goes from pair to pair of types and counts them: document
//! 02, (viii).

use crate::Below;
use crate::file::{ARRAY, FUNCTION, File, Four, MOST, NULLABLE, STRING, STRUCT, Struct, listed, name_type};
use crate::mutants::{Mutant, Mutant::*, Rules};

/// No struct record, no binder, no link.
pub const NONE: u16 = 65_535;

/// How two types are compared: is one below the other, or are they equal as
/// written out.
#[derive(Clone, Copy, PartialEq, Eq)]
pub(crate) enum How {
    Below,
    Equal,
}

const STRUCT_SLOTS: usize = 512;
const TYPE_SLOTS: usize = 1024;

/// What is known of one type.
#[derive(Clone, Copy, Default)]
struct Known {
    /// The lowest number of an equal type.
    lowest: u16,
    /// Of a struct type: its struct's number, or `NONE`.
    record: u16,
}

/// The table of a file's types.
pub struct Types<'a, R> {
    pub(crate) file: File<'a>,
    known: [Known; MOST[0]],
    /// Every struct in it is declared.
    formed: [bool; MOST[0]],
    /// The first struct whose name an earlier struct has.
    pub doubled: Option<u16>,
    pub(crate) rules: R,
}

impl<'a, R: Rules> Types<'a, R> {
    /// The empty table; `learn_all` fills it in its place.
    #[inline(always)]
    pub fn new(file: &File<'a>, rules: R) -> Self {
        Types { file: *file, known: [Known::default(); MOST[0]], formed: [false; MOST[0]], doubled: None, rules }
    }

    pub fn learn_all(&mut self) {
        let mut names = [NONE; STRUCT_SLOTS];
        self.struct_names(&mut names);
        let mut slots = [NONE; TYPE_SLOTS];
        for i in 0..self.file.types.len() as u16 {
            self.known[i as usize] = self.learn(i, &names, &mut slots);
            self.formed[i as usize] = self.is_formed(i);
        }
    }

    #[inline(always)]
    pub(crate) fn breaks(&self, m: Mutant) -> bool {
        self.rules.breaks(m)
    }

    /// Struct names to struct numbers; a name declared twice means its first record.
    fn struct_names(&mut self, slots: &mut [u16; STRUCT_SLOTS]) {
        for i in 0..self.file.structs.len() {
            let slot = self.struct_slot(slots, self.file.strukt(i).name);
            if slots[slot] == NONE {
                slots[slot] = i as u16;
            } else {
                self.doubled.get_or_insert(i as u16);
                if self.breaks(LastRecordCounts) {
                    slots[slot] = i as u16;
                }
            }
        }
    }

    /// The slot that holds a struct name, or the empty one where it would be.
    fn struct_slot(&self, slots: &[u16; STRUCT_SLOTS], name: u16) -> usize {
        let mut slot = name as usize % STRUCT_SLOTS;
        while slots[slot] != NONE && self.file.strukt(slots[slot] as usize).name != name {
            slot = (slot + 1) % STRUCT_SLOTS;
        }
        slot
    }

    /// Type i, when all lower types are known.
    fn learn(&self, i: u16, names: &[u16; STRUCT_SLOTS], slots: &mut [u16; TYPE_SLOTS]) -> Known {
        let t = self.file.ty(i);
        let mut known = Known { lowest: i, record: NONE };
        if t.kind() < STRUCT {
            return known;
        }
        if t.kind() == STRUCT {
            known.record = names[self.struct_slot(names, t.a())];
        }
        known.lowest = if self.breaks(NumbersCompared) { i } else { self.lowest_equal(i, t, slots) };
        known
    }

    /// Every struct in type i is declared, when that is known of all lower types.
    fn is_formed(&self, i: u16) -> bool {
        let t = self.file.ty(i);
        match t.kind() {
            STRUCT => self.known[i as usize].record != NONE,
            ARRAY => self.well_formed(t.a()) || self.breaks(ElementsNotFormed),
            FUNCTION => self.function_formed(t),
            NULLABLE => self.well_formed(t.a()) || self.breaks(NullableNotFormed),
            _ => true,
        }
    }

    fn function_formed(&self, t: Four) -> bool {
        let mut formed = self.well_formed(t.a()) || self.breaks(ReturnNotFormed);
        for p in self.file.parameters(t) {
            formed &= self.well_formed(listed(p)) || self.breaks(ParametersNotFormed);
        }
        formed
    }

    /// Finds an equal type among the lower ones, or enters i.
    fn lowest_equal(&self, i: u16, t: Four, slots: &mut [u16; TYPE_SLOTS]) -> u16 {
        let mut slot = self.hash(t) % TYPE_SLOTS;
        loop {
            let other = slots[slot];
            if other == NONE {
                slots[slot] = i;
                return i;
            }
            if self.written_equal(t, self.file.ty(other)) {
                return other;
            }
            slot = (slot + 1) % TYPE_SLOTS;
        }
    }

    /// A hash of the type as written out.
    fn hash(&self, t: Four) -> usize {
        let mix = |h: u32, v: u16| (h.rotate_left(5) ^ u32::from(v)).wrapping_mul(0x9E37_79B1);
        let head = match t.kind() {
            STRUCT => t.a(),
            FUNCTION if self.breaks(EqualWithoutReturn) => 0,
            _ => self.known[t.a() as usize].lowest,
        };
        let mut h = mix(mix(0, t.kind()), head);
        if t.kind() == FUNCTION {
            for p in self.file.parameters(t) {
                h = mix(h, self.known[listed(p) as usize].lowest);
            }
        }
        (h >> 16) as usize
    }

    /// Equality of two types whose parts are known.
    fn written_equal(&self, t: Four, u: Four) -> bool {
        if t.kind() != u.kind() {
            return false;
        }
        match t.kind() {
            STRUCT => t.a() == u.a(),
            FUNCTION => {
                let (p, q) = (self.file.parameters(t), self.file.parameters(u));
                let equal = |(p, q): (&[u8; 2], &[u8; 2])| self.equal(listed(p), listed(q));
                p.len() == q.len()
                    && (self.equal(t.a(), u.a()) || self.breaks(EqualWithoutReturn))
                    && p.iter().zip(q).all(equal)
            }
            _ => self.equal(t.a(), u.a()),
        }
    }

    /// Equal as written out.
    #[inline(always)]
    pub fn equal(&self, a: u16, b: u16) -> bool {
        self.known[a as usize].lowest == self.known[b as usize].lowest
    }

    /// The lowest number of an equal type.
    pub fn lowest(&self, a: u16) -> u16 {
        self.known[a as usize].lowest
    }

    /// Document 001, section 3.
    #[inline(always)]
    pub fn well_formed(&self, t: u16) -> bool {
        self.formed[t as usize]
    }

    /// The struct that a struct type means, if it is declared.
    pub fn record(&self, t: u16) -> Option<Struct> {
        let record = self.known[t as usize].record;
        (record != NONE).then(|| self.file.strukt(record as usize))
    }

    /// Document 001, section 2: a is below b.
    #[inline]
    pub fn below(&self, a: u16, b: u16) -> Below {
        let found = self.compare(How::Below, a, b);
        self.other_count(a, b, found).unwrap_or(found)
    }

    /// One pair of types and all that it leads to.
    #[inline]
    pub(crate) fn compare(&self, how: How, a: u16, b: u16) -> Below {
        match self.rules.mutant() {
            None => self.pair(how, a, b),
            Some(mutant) => self.pair_under(mutant, how, a, b),
        }
    }

    /// The pair counts 1. A reference is below a nullable if it is below what that
    /// refers to; arrays are below each other if their elements are equal.
    pub(crate) fn pair(&self, how: How, a: u16, b: u16) -> Below {
        let (t, u) = (self.file.ty(a), self.file.ty(b));
        match (t.kind(), u.kind()) {
            (NULLABLE, NULLABLE) => Below::one(true).then(|| self.compare(how, t.a(), u.a())),
            (STRING | STRUCT | ARRAY | FUNCTION, NULLABLE) if how == How::Below => {
                Below::one(true).then(|| self.compare(how, a, u.a()))
            }
            (STRUCT, STRUCT) => Below::one(if how == How::Below { self.struct_below(a, b) } else { t.a() == u.a() }),
            (ARRAY, ARRAY) => Below::one(true).then(|| self.compare(How::Equal, t.a(), u.a())),
            (FUNCTION, FUNCTION) => self.functions(how, t, u),
            (kind, other) => Below::one(kind == other),
        }
    }

    /// Functions turn round in parameters, of equal number; return types come last.
    fn functions(&self, how: How, t: Four, u: Four) -> Below {
        let (p, q) = (self.file.parameters(t), self.file.parameters(u));
        let mut found = Below::one(p.len() == q.len());
        let parameters = p.iter().zip(q).map(|(p, q)| (listed(q), listed(p)));
        for (a, b) in parameters.chain([(t.a(), u.a())]) {
            if !found.holds {
                break;
            }
            found = found.then(|| self.compare(how, a, b));
        }
        found
    }

    /// Both are declared and b's fields, name and type each, begin a's.
    fn struct_below(&self, a: u16, b: u16) -> bool {
        let (Some(s), Some(z)) = (self.record(a), self.record(b)) else { return false };
        if s.name == z.name {
            return true;
        }
        let (s, z) = if self.breaks(PrefixTurned) { (z, s) } else { (s, z) };
        let least = z.count + usize::from(self.breaks(PrefixProper));
        let count_ok = s.count >= least || self.breaks(PrefixCommon);
        let pairs = self.file.fields_of(s).iter().zip(self.file.fields_of(z));
        count_ok && pairs.enumerate().all(|(i, (f, g))| self.field_same(i, f, g))
    }

    fn field_same(&self, i: usize, f: &[u8; 4], g: &[u8; 4]) -> bool {
        let (f, g) = (name_type(f), name_type(g));
        let name = f.name == g.name || self.breaks(FieldNamesFree) || i > 0 && self.breaks(LaterFieldNamesFree);
        let ty = self.equal(f.ty, g.ty) || self.breaks(FieldTypesFree) || self.widened(f.ty, g.ty);
        name && ty
    }

    /// Only under a mutant: a field's type is a nullable of the other's.
    fn widened(&self, a: u16, b: u16) -> bool {
        let u = self.file.ty(b);
        self.breaks(FieldTypesBelow) && u.kind() == NULLABLE && self.equal(a, u.a())
    }
}
