//! Expressions: document 01, "Typing, and where the print is damaged", and
//! document 001, section 4, up to the rule of unary operators. The order of
//! premises is that of document 01, "Steps and the order of premises".

use crate::Below;
use crate::file::{ARRAY, FUNCTION, Four, NULLABLE, STRUCT, VOID, listed, name_type};
use crate::mutants::{Mutant, Mutant::*, Rules};
use crate::types::NONE;
use crate::typing::{BUILTIN, Checker, Judged, fault};

pub(crate) const INT: u16 = 0;
pub(crate) const BOOL: u16 = 1;
const STRING: u16 = 2;

/// What a binary operator takes and gives.
enum Operator {
    /// Both operands of one fixed type, and the result.
    Fixed(u16, u16),
    /// `==` and `!=`: both subtype directions.
    Equality,
}

impl<R: Rules> Checker<'_, R> {
    /// Types the expression at `next` and moves past its tree.
    pub(crate) fn expression(&mut self) -> Judged<u16> {
        let at = self.next;
        self.next += 1;
        self.turn_comes(at);
        let n = self.file.node(at);
        let t = match n.kind() {
            11 | 12 => BOOL,
            13 => INT,
            14 => STRING,
            15 => return self.name(at, n.x()),
            10 => self.null(at, n.t())?,
            16 => self.array_literal(at, n)?,
            17 => self.default_array(at, n.t())?,
            18 => self.filled_array(at, n)?,
            19 => self.index(at)?,
            20 => self.length(at)?,
            21 => self.struct_literal(at, n)?,
            23 => self.field(at, n.x())?,
            24 => self.call(at, n, false)?,
            25 => self.unary(at, n.x())?,
            _ => self.binary(at, n.x())?,
        };
        self.rows[at] = [t, NONE];
        Ok(t)
    }

    /// An expression that must be of one fixed type; if not, 10 at its parent.
    pub(crate) fn expression_of(&mut self, t: u16, parent: usize) -> Judged<()> {
        let child = self.next;
        let found = self.expression()?;
        self.pairs += u32::from(self.breaks(SortsCounted));
        if found != t {
            return fault(10, if self.breaks(SortPlace) { child } else { parent });
        }
        Ok(())
    }

    fn name(&mut self, at: usize, x: u16) -> Judged<u16> {
        let binder = self.other_meaning(x).unwrap_or_else(|| self.find(x));
        if binder == NONE {
            return fault(8, at);
        }
        let t = self.type_of(self.hidden_by(binder, x, HiddenTypeMeant));
        let wrong = self.breaks(BuiltinBinderPlain) && binder >= BUILTIN;
        let told = self.hidden_by(binder, x, HiddenBinderTold);
        self.rows[at] = [t, if wrong { binder - BUILTIN } else { told }];
        if self.breaks(NameBinderNone) && self.is_local(binder) {
            self.rows[at][1] = NONE;
        }
        Ok(t)
    }

    /// A type that an expression mentions must be well-formed.
    fn formed(&self, at: usize, t: u16, free: Mutant) -> Judged<()> {
        if self.types.well_formed(t) || self.breaks(free) { Ok(()) } else { fault(9, at) }
    }

    fn null(&mut self, at: usize, t: u16) -> Judged<u16> {
        self.formed(at, t, NullTypeFree)?;
        Ok(if self.breaks(NullResultPlain) { self.file.ty(t).a() } else { t })
    }

    /// Element type, all elements, all subtypes.
    fn array_literal(&mut self, at: usize, n: Four) -> Judged<u16> {
        let element = self.file.ty(n.t()).a();
        self.formed(at, element, LiteralTypeFree)?;
        let mut asked = Below::START;
        for _ in 0..n.children() {
            let t = self.expression()?;
            asked = self.also(asked, [t, element], ElementsEarly);
            if !asked.holds && self.breaks(ElementsOneByOne) {
                break;
            }
        }
        if !self.count(at, asked, ElementsUncounted) && !self.breaks(ElementsFree) {
            return fault(11, at);
        }
        Ok(if self.breaks(ArrayResultLowest) { self.types.lowest(n.t()) } else { n.t() })
    }

    /// Element type, length, then the element's default.
    fn default_array(&mut self, at: usize, t: u16) -> Judged<u16> {
        let element = self.file.ty(t).a();
        if self.breaks(DefaultTypeLast) {
            self.expression_of(INT, at)?;
        }
        self.formed(at, element, DefaultTypeFree)?;
        let default = element == INT
            || element == BOOL && !self.breaks(NoDefaultBool)
            || self.file.kind_of(element) == NULLABLE && !self.breaks(NoDefaultNullable)
            || element == STRING && self.breaks(DefaultString)
            || self.file.kind_of(element) == ARRAY && self.breaks(DefaultArray);
        if !default && self.breaks(DefaultBeforeLength) {
            return fault(16, at);
        }
        if !self.breaks(DefaultTypeLast) {
            self.expression_of(INT, at)?;
        }
        if default { Ok(t) } else { fault(16, at) }
    }

    /// Element type, length, value under the index name, subtype. The index name
    /// is a block of its own, so that nothing is asked of it: document 02, (vi).
    fn filled_array(&mut self, at: usize, n: Four) -> Judged<u16> {
        let element = self.file.ty(n.t()).a();
        self.formed(at, element, FilledTypeFree)?;
        let scope = self.scope;
        self.index_asks(at, n.x(), &[IndexNameFreshFirst])?;
        if self.breaks(IndexNameInLength) {
            self.bind(n.x(), at);
        }
        self.expression_of(INT, at)?;
        self.index_asks(at, n.x(), &[FreshAtAllLevels, IndexNameFresh, IndexNameFreshInBlock, IndexNamesDiffer])?;
        if !self.breaks(IndexNameUnbound) && !self.breaks(IndexNameInLength) {
            self.bind(n.x(), at);
        }
        let value = self.expression()?;
        if !self.breaks(IndexNameStays) {
            self.leave(scope);
        }
        if !self.ask(at, [value, element], FilledUncounted) && !self.breaks(FilledValueFree) {
            return fault(11, at);
        }
        Ok(n.t())
    }

    fn index(&mut self, at: usize) -> Judged<u16> {
        let array = self.array(at, !self.breaks(IndexSortLate))?;
        if self.breaks(IndexFree) {
            self.expression()?;
        } else {
            self.expression_of(INT, at)?;
        }
        if self.file.kind_of(array) != ARRAY {
            return fault(10, at);
        }
        let element = self.file.ty(array).a();
        Ok(if self.breaks(ElementLowest) { self.types.lowest(element) } else { element })
    }

    /// An expression of an array type, the sort tested directly after it.
    fn array(&mut self, at: usize, test: bool) -> Judged<u16> {
        let t = self.expression()?;
        let kind = self.file.kind_of(t);
        let inside = self.file.ty(t).a();
        if kind == NULLABLE && self.breaks(NullableIndexed) && self.file.kind_of(inside) == ARRAY {
            return Ok(inside);
        }
        if kind != ARRAY && test { fault(10, at) } else { Ok(t) }
    }

    fn length(&mut self, at: usize) -> Judged<u16> {
        let t = self.array(at, false)?;
        let string = t == STRING && self.breaks(LengthOfString);
        if self.file.kind_of(t) != ARRAY && !string {
            return fault(10, at);
        }
        Ok(INT)
    }

    /// Declared struct, names, values, subtypes.
    fn struct_literal(&mut self, at: usize, n: Four) -> Judged<u16> {
        let Some(record) = self.types.record(n.t()) else { return fault(9, at) };
        let fields = self.file.fields_of(record);
        if self.breaks(LiteralFieldsFormed) && !fields.iter().all(|f| self.types.well_formed(name_type(f).ty)) {
            return fault(9, at);
        }
        let mut named = self.field_names(at, n.children(), fields);
        if !self.breaks(NamesAfterValues) {
            std::mem::replace(&mut named, Ok(()))?;
        }
        let mut asked = Below::START;
        for _ in 0..n.children() {
            let child = self.next;
            self.next += 1;
            self.turn_comes(child);
            let t = self.expression()?;
            self.rows[child] = [if self.breaks(InitializerRowNone) { 0 } else { t }, NONE];
            let field = self.work[child][0] as usize;
            asked = match fields.get(field) {
                Some(f) => self.also(asked, [t, name_type(f).ty], InitializersEarly),
                None => Below { holds: false, ..asked },
            };
            if !asked.holds && self.breaks(InitializersOneByOne) {
                return fault(11, at);
            }
        }
        named?;
        let below = self.count(at, asked, InitializersUncounted);
        if below || self.breaks(InitializersFree) { Ok(n.t()) } else { fault(11, at) }
    }

    /// Every field is named once. Leaves each child's field in `work`. The
    /// first field of a name counts, so a struct that declares a name twice
    /// has a field that no child can name.
    fn field_names(&mut self, at: usize, children: u16, fields: &[[u8; 4]]) -> Judged<()> {
        let mut seen = [0u64; 16];
        let mut child = self.next;
        let fewer = self.breaks(FieldsMayMiss) && (children as usize) < fields.len();
        if children as usize != fields.len() && !fewer {
            return fault(12, at);
        }
        let mut before = None;
        for k in 0..children as usize {
            let x = self.file.node(child).x();
            let by_name = |f: &[u8; 4]| self.same_name(name_type(f).name, x);
            let unseen = |field: usize| seen[field / 64] >> (field % 64) & 1 == 0;
            let free = self.breaks(FirstNameFree) && k == 0
                || self.breaks(LastNameFree) && k + 1 == children as usize
                || self.breaks(FarNamesFree) && k >= 32;
            let place = if self.breaks(NoPermutation) && name_type(&fields[k]).name != x {
                None
            } else if self.breaks(DoubledFieldNamed) && name_type(&fields[k]).name == x {
                Some(k)
            } else if self.breaks(DeclaredNeighboursOnly) && !neighbours_alike(fields) {
                (0..fields.len()).find(|&i| unseen(i) && by_name(&fields[i]))
            } else {
                fields.iter().position(by_name)
            };
            let Some(field) = place.or(free.then_some(k)) else {
                return fault(if self.breaks(UnknownFieldIsEight) { 8 } else { 12 }, at);
            };
            let apart = self.breaks(NamedNeighboursOnly) && before != Some(field);
            if !unseen(field) && !free && !apart && !self.breaks(FieldNamedTwice) {
                return fault(12, at);
            }
            if !free {
                seen[field / 64] |= 1 << (field % 64);
            }
            before = Some(field);
            self.work[child][0] = field as u16;
            child = if self.breaks(InnerNamesCounted) { self.next_initializer(child) } else { self.past_tree(child) };
        }
        Ok(())
    }

    fn same_name(&self, a: u16, b: u16) -> bool {
        if self.breaks(NamesLowByte) { a as u8 == b as u8 } else { a == b }
    }

    /// The next node that is a field initializer, or the end.
    fn next_initializer(&self, after: usize) -> usize {
        let end = self.file.nodes.len();
        (after + 1..end).find(|&at| self.file.node(at).kind() == 22).unwrap_or(end)
    }

    /// The first node after a tree.
    pub(crate) fn past_tree(&self, root: usize) -> usize {
        let (mut at, mut open) = (root, 1usize);
        while open > 0 {
            open += self.file.node(at).children() as usize;
            open -= 1;
            at += 1;
        }
        at
    }

    fn field(&mut self, at: usize, x: u16) -> Judged<u16> {
        let t = self.expression()?;
        let inside = self.file.ty(t).a();
        let t = match self.file.kind_of(t) {
            STRUCT => t,
            NULLABLE if self.breaks(FieldOfNullable) && self.file.kind_of(inside) == STRUCT => inside,
            _ => return fault(10, at),
        };
        let found =
            self.types.record(t).and_then(|r| self.file.fields_of(r).iter().map(name_type).find(|f| f.name == x));
        let Some(field) = found else {
            return fault(if self.breaks(UnknownFieldIsTwelve) { 12 } else { 8 }, at);
        };
        Ok(if self.breaks(FieldLowest) { self.types.lowest(field.ty) } else { field.ty })
    }

    /// Callee, sort, void, count, arguments, subtypes: 24, and 34 with `void`.
    pub(crate) fn call(&mut self, at: usize, n: Four, void: bool) -> Judged<u16> {
        let f = self.callee(at)?;
        let result = f.a();
        let value_ok =
            (result == VOID) == void || void && self.breaks(CallStatementOfValue) || !void && self.breaks(CallOfVoid);
        let count_ok = f.c() == n.children() - 1;
        if !value_ok && !self.breaks(VoidAfterCount) && !self.breaks(VoidAfterArguments) {
            return fault(13, at);
        }
        let fewer_ok = self.breaks(FewerArguments) && f.c() > n.children() - 1;
        if !count_ok && !fewer_ok && !self.breaks(CountAfterArguments) {
            return fault(12, at);
        }
        if !value_ok && self.breaks(VoidAfterCount) {
            return fault(13, at);
        }
        self.arguments(at, f, n.children() - 1, if void { RunUncounted } else { CallUncounted })?;
        if !value_ok {
            return fault(13, at);
        }
        if !count_ok && !fewer_ok {
            return fault(12, at);
        }
        Ok(if self.breaks(CallLowest) { self.types.lowest(result) } else { result })
    }

    fn callee(&mut self, at: usize) -> Judged<Four> {
        let t = self.expression()?;
        let f = self.file.ty(t);
        match f.kind() {
            FUNCTION => Ok(f),
            NULLABLE if self.breaks(NullableCalled) && self.file.kind_of(f.a()) == FUNCTION => Ok(self.file.ty(f.a())),
            _ => fault(10, at),
        }
    }

    /// All arguments, then all subtypes.
    fn arguments(&mut self, at: usize, f: Four, count: u16, free: Mutant) -> Judged<()> {
        let parameters = self.file.parameters(f);
        let mut asked = Below::START;
        for k in 0..count as usize {
            let t = self.expression()?;
            if let Some(p) = parameters.get(k) {
                asked = self.also(asked, [t, listed(p)], ArgumentsEarly);
            }
            if !asked.holds && self.breaks(ArgumentsOneByOne) {
                break;
            }
        }
        if self.count(at, asked, free) || self.breaks(ArgumentsFree) { Ok(()) } else { fault(11, at) }
    }

    fn unary(&mut self, at: usize, x: u16) -> Judged<u16> {
        let t = match x {
            1 => BOOL,
            2 if self.breaks(BitNotOfBool) => BOOL,
            _ => INT,
        };
        self.expression_of(t, at)?;
        Ok(t)
    }

    fn operator(&self, x: u16) -> Operator {
        match x {
            5 if self.breaks(ShiftGivesBool) => Operator::Fixed(INT, BOOL),
            9 if self.breaks(AtLeastGivesInt) => Operator::Fixed(INT, INT),
            12 | 13 if self.breaks(AndTakesInts) => Operator::Fixed(INT, INT),
            14 | 15 if self.breaks(BitAndTakesBools) => Operator::Fixed(BOOL, BOOL),
            11 if self.breaks(UnequalTakesInts) => Operator::Fixed(INT, BOOL),
            0..=5 | 14 | 15 => Operator::Fixed(INT, INT),
            6..=9 => Operator::Fixed(INT, BOOL),
            12 | 13 => Operator::Fixed(BOOL, BOOL),
            _ => Operator::Equality,
        }
    }

    fn binary(&mut self, at: usize, x: u16) -> Judged<u16> {
        match self.operator(x) {
            Operator::Equality => self.equality(at, if x == 10 { EqualUncounted } else { UnequalUncounted }),
            Operator::Fixed(takes, gives) => {
                if self.breaks(SortsAfterBoth) {
                    let (a, b) = (self.expression()?, self.expression()?);
                    return if a == takes && b == takes { Ok(gives) } else { fault(10, at) };
                }
                self.expression_of(takes, at)?;
                if self.breaks(SecondOperandFree) {
                    self.expression()?;
                } else {
                    self.expression_of(takes, at)?;
                }
                Ok(gives)
            }
        }
    }

    /// Both children, then both directions, the second if the first holds.
    fn equality(&mut self, at: usize, free: Mutant) -> Judged<u16> {
        let a = self.expression()?;
        let b = self.expression()?;
        let asked = self.other_both(a, b).unwrap_or_else(|| self.question(a, b).then(|| self.question(b, a)));
        if !self.count(at, asked, free) {
            return fault(if self.breaks(EqualityIsSort) { 10 } else { 11 }, at);
        }
        Ok(BOOL)
    }
}

/// Whether a field has the name of the one before it.
fn neighbours_alike(fields: &[[u8; 4]]) -> bool {
    fields.windows(2).any(|pair| name_type(&pair[0]).name == name_type(&pair[1]).name)
}
