//! Reading a program file: document 01, "The program file", and the order of
//! the numbers 1 to 4 in "Rows and answers". Number 5 is in `tree`.

use crate::empty::meant;
use crate::limits::Limits;
use crate::mutants::{Mutant::*, Rules};

/// Type kinds.
pub const VOID: u16 = 3;
pub const STRING: u16 = 2;
pub const STRUCT: u16 = 4;
pub const ARRAY: u16 = 5;
pub const FUNCTION: u16 = 6;
pub const NULLABLE: u16 = 7;

/// The most records of each section.
pub const MOST: [usize; 6] = [512, 1024, 1024, 256, 128, 4096];

/// The six sections, cut into records, still as bytes.
#[derive(Clone, Copy)]
pub struct File<'a> {
    pub types: &'a [[u8; 8]],
    pub list: &'a [[u8; 2]],
    pub fields: &'a [[u8; 4]],
    pub structs: &'a [[u8; 6]],
    pub builtins: &'a [[u8; 4]],
    pub nodes: &'a [[u8; 8]],
}

/// A record of four numbers: a type (kind, a, b, c) or a node (kind, x, t, child count).
#[derive(Clone, Copy)]
pub struct Four(u64);

impl Four {
    #[inline(always)]
    pub fn of(bytes: &[u8; 8]) -> Four {
        Four(u64::from_le_bytes(*bytes))
    }
    #[inline(always)]
    pub fn kind(self) -> u16 {
        self.0 as u16
    }
    /// A type's a, a node's x.
    #[inline(always)]
    pub fn a(self) -> u16 {
        (self.0 >> 16) as u16
    }
    /// A type's b, a node's t.
    #[inline(always)]
    pub fn b(self) -> u16 {
        (self.0 >> 32) as u16
    }
    /// A type's c, a node's child count.
    #[inline(always)]
    pub fn c(self) -> u16 {
        (self.0 >> 48) as u16
    }
    #[inline(always)]
    pub fn x(self) -> u16 {
        self.a()
    }
    #[inline(always)]
    pub fn t(self) -> u16 {
        self.b()
    }
    #[inline(always)]
    pub fn children(self) -> u16 {
        self.c()
    }
}

/// A record of two numbers: a field or a built-in (name, type).
#[derive(Clone, Copy)]
pub struct Named {
    pub name: u16,
    pub ty: u16,
}

/// A struct record.
#[derive(Clone, Copy)]
pub struct Struct {
    pub name: u16,
    pub first: usize,
    pub count: usize,
}

fn named(b: &[u8; 4]) -> Named {
    Named { name: u16::from_le_bytes([b[0], b[1]]), ty: u16::from_le_bytes([b[2], b[3]]) }
}

impl<'a> File<'a> {
    #[inline(always)]
    pub fn ty(&self, i: u16) -> Four {
        Four::of(&self.types[i as usize])
    }
    #[inline(always)]
    pub fn kind_of(&self, i: u16) -> u16 {
        self.ty(i).kind()
    }
    #[inline(always)]
    pub fn node(&self, i: usize) -> Four {
        Four::of(&self.nodes[i])
    }
    #[inline(always)]
    pub fn builtin(&self, i: usize) -> Named {
        named(&self.builtins[i])
    }
    pub fn strukt(&self, i: usize) -> Struct {
        let b = &self.structs[i];
        let number = |k: usize| u16::from_le_bytes([b[k], b[k + 1]]);
        Struct { name: number(0), first: number(2) as usize, count: number(4) as usize }
    }
    /// The field records of a struct.
    pub fn fields_of(&self, s: Struct) -> &'a [[u8; 4]] {
        &self.fields[s.first..s.first + s.count]
    }
    /// The parameters of a function type, as records of the type list.
    #[inline(always)]
    pub fn parameters(&self, f: Four) -> &'a [[u8; 2]] {
        &self.list[f.b() as usize..][..f.c() as usize]
    }
}

/// Field and parameter records, decoded.
#[inline(always)]
pub fn name_type(record: &[u8; 4]) -> Named {
    named(record)
}
#[inline(always)]
pub fn listed(record: &[u8; 2]) -> u16 {
    u16::from_le_bytes(*record)
}

/// Cuts the sections of what the bytes mean: numbers 1 and 2.
pub fn sections<R: Rules>(bytes: &[u8], rules: R) -> Result<File<'_>, u16> {
    let mut rest = meant(bytes, rules);
    let mut most = MOST;
    for (k, (over, under)) in SECTION_MUTANTS.iter().enumerate() {
        most[k] += usize::from(rules.breaks(*over));
        most[k] -= usize::from(rules.breaks(*under));
    }
    let file = File {
        types: section(&mut rest, most[0], rules)?,
        list: section(&mut rest, most[1], rules)?,
        fields: section(&mut rest, most[2], rules)?,
        structs: section(&mut rest, most[3], rules)?,
        builtins: section(&mut rest, most[4], rules)?,
        nodes: section(&mut rest, most[5], rules)?,
    };
    if !rest.is_empty() && !rules.breaks(LeftoverAllowed) {
        return Err(if rules.breaks(LeftoverIsTwo) { 2 } else { 1 });
    }
    Ok(file)
}

const SECTION_MUTANTS: [(crate::mutants::Mutant, crate::mutants::Mutant); 6] = [
    (TypesOneMore, TypesOneFewer),
    (ListOneMore, ListOneFewer),
    (FieldsOneMore, FieldsOneFewer),
    (StructsOneMore, StructsOneFewer),
    (BuiltinsOneMore, BuiltinsOneFewer),
    (NodesOneMore, NodesOneFewer),
];

/// One section: a missing count is 1, too large a count 2, cut records 1.
fn section<'a, const N: usize, R: Rules>(rest: &mut &'a [u8], most: usize, rules: R) -> Result<&'a [[u8; N]], u16> {
    let Some((count, tail)) = rest.split_first_chunk::<2>() else {
        if rules.breaks(MissingCountIsNone) && rest.is_empty() {
            return Ok(&[]);
        }
        return Err(1);
    };
    let count = u16::from_le_bytes(*count) as usize;
    let cut = tail.len() < count * N;
    if count > most && !(cut && rules.breaks(CutBeforeTooLarge)) {
        return Err(2);
    }
    if cut {
        return Err(if rules.breaks(CutIsTwo) { 2 } else { 1 });
    }
    let (records, tail) = tail.split_at(count * N);
    *rest = tail;
    Ok(records.as_chunks::<N>().0)
}

/// Types and type list: number 3.
pub fn types_broken<R: Rules>(file: &File, limits: Limits, rules: R) -> bool {
    let most = limits.most_parts(rules);
    let mut parts = [1u8; MOST[0] + 1];
    let mut taken = 0usize;
    if fixed_types_broken(file, rules) {
        return true;
    }
    for i in 4..file.types.len() {
        let t = Four::of(&file.types[i]);
        let size = match t.kind() {
            STRUCT => struct_parts(t, rules),
            ARRAY => array_parts(t, i, &parts, rules),
            FUNCTION => function_parts(file, t, i, &mut taken, &parts, rules),
            NULLABLE => nullable_parts(file, t, i, &parts, rules),
            0..=3 if rules.breaks(FixedKindsAgain) => Some(1),
            _ => None,
        };
        match size {
            Some(size) if size <= most || not_measured(file, i, size, rules) => parts[i] = size as u8,
            _ => return true,
        }
    }
    taken != file.list.len() && !rules.breaks(ListLeftOver)
}

/// Only under a mutant: a type of up to 200 parts that no field, built-in or node has.
fn not_measured<R: Rules>(file: &File, i: usize, size: u32, rules: R) -> bool {
    if !rules.breaks(UnusedNotMeasured) || size > Limits::WIDEST.parts as u32 {
        return false;
    }
    let records = file.fields.iter().chain(file.builtins).map(|r| named(r).ty);
    let mut used = records.chain(file.nodes.iter().map(|n| Four::of(n).t()));
    !used.any(|t| t as usize == i)
}

/// Types 0 to 3 are of kinds 0 to 3, without operands.
fn fixed_types_broken<R: Rules>(file: &File, rules: R) -> bool {
    if file.types.len() < 4 {
        return true;
    }
    file.types[..4].iter().enumerate().any(|(i, record)| {
        let t = Four::of(record);
        let operands = t.a() != 0 || t.b() != 0 || t.c() != 0;
        (t.kind() != i as u16 && !rules.breaks(FixedKindsFree)) || (operands && !rules.breaks(FixedOperandsFree))
    })
}

fn struct_parts<R: Rules>(t: Four, rules: R) -> Option<u32> {
    (t.b() == 0 && t.c() == 0 || rules.breaks(StructOperandsFree)).then_some(1)
}

fn array_parts<R: Rules>(t: Four, i: usize, parts: &[u8], rules: R) -> Option<u32> {
    let a = t.a() as usize;
    let lower = a < i || a == i && rules.breaks(ArrayOfItself);
    let void = t.a() == VOID && !rules.breaks(ArrayOfVoid);
    let unnamed = (t.b() | t.c()) != 0 && !rules.breaks(ArrayOperandsFree);
    (lower && !void && !unnamed).then(|| 1 + u32::from(parts[a]))
}

fn nullable_parts<R: Rules>(file: &File, t: Four, i: usize, parts: &[u8], rules: R) -> Option<u32> {
    let a = t.a() as usize;
    if a >= i || (t.b() | t.c()) != 0 && !rules.breaks(NullableOperandsFree) {
        return None;
    }
    let reference = match Four::of(&file.types[a]).kind() {
        STRING | STRUCT | ARRAY => true,
        FUNCTION => !rules.breaks(NullableFunctionRefused),
        NULLABLE => rules.breaks(NullableOfNullable),
        0 => rules.breaks(NullableOfInt),
        _ => false,
    };
    reference.then(|| 1 + u32::from(parts[a]))
}

/// A function's parameters follow those of the functions before it in the list.
fn function_parts<R: Rules>(file: &File, t: Four, i: usize, taken: &mut usize, parts: &[u8], rules: R) -> Option<u32> {
    let (first, count) = (t.b() as usize, t.c() as usize);
    let first_ok = first == *taken || count == 0 && first <= file.list.len() && rules.breaks(FirstParameterIfAny);
    if t.a() as usize >= i || !first_ok {
        return None;
    }
    let void_free = t.a() == VOID && rules.breaks(VoidIsNoPart);
    let mut size = 1 + u32::from(parts[t.a() as usize]) - u32::from(void_free);
    for record in file.list.get(first..first + count)? {
        let p = listed(record);
        if p as usize >= i && !later_struct(file, p, rules) || p == VOID && !rules.breaks(VoidParameter) {
            return None;
        }
        size += u32::from(parts[p as usize]);
    }
    *taken = first.max(*taken) + count;
    Some(size)
}

/// Only under a mutant: a parameter whose type stands later.
fn later_struct<R: Rules>(file: &File, p: u16, rules: R) -> bool {
    rules.breaks(ParameterLater) && (p as usize) < file.types.len() && file.kind_of(p) == STRUCT
}

/// Fields, structs and built-ins: number 4.
pub fn records_broken<R: Rules>(file: &File, rules: R) -> bool {
    let in_file = |t: u16| (t as usize) < file.types.len();
    let field_ok = |t: u16| in_file(t) && (t != VOID || rules.breaks(FieldOfVoid));
    if !file.fields.iter().all(|f| field_ok(named(f).ty)) || structs_broken(file, rules) {
        return true;
    }
    let function = |t: u16| in_file(t) && (file.kind_of(t) == FUNCTION || rules.breaks(BuiltinOfAnyType));
    !file.builtins.iter().all(|b| function(named(b).ty))
}

/// Each struct's fields follow those of the structs before it.
fn structs_broken<R: Rules>(file: &File, rules: R) -> bool {
    let mut taken = 0;
    for i in 0..file.structs.len() {
        let s = file.strukt(i);
        let free = s.count == 0 && s.first <= file.fields.len() && rules.breaks(FirstFieldIfAny);
        if s.first != taken && !free {
            return true;
        }
        taken += s.count;
    }
    taken > file.fields.len() || taken < file.fields.len() && !rules.breaks(FieldsLeftOver)
}
