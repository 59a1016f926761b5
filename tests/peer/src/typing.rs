//! The steps of a check: document 01, "Steps and the order of premises" and
//! "Rows and answers".
//!
//! Bindings, global and local, are one list per bucket of names, latest first.
//! `work` holds at [node][0] the link of a binder to the one before it in its
//! bucket, and at [k][1] the k-th local binder in scope, so that a scope is
//! left by cutting the stack. A row is written when its node is typed.

use crate::Answer;
use crate::Below;
use crate::file::{File, Four, VOID, listed, name_type};
use crate::mutants::{Mutant, Mutant::*, Rules};
use crate::tree::Declarations;
use crate::types::{NONE, Types};

/// What is added to a built-in's number to make it a binder.
pub const BUILTIN: u16 = 40_000;

const BUCKETS: usize = 512;

/// A broken premise: its number and place.
#[derive(Debug)]
pub(crate) struct Fault {
    pub number: u16,
    pub place: u16,
}

pub(crate) type Judged<T> = Result<T, Fault>;

pub(crate) fn fault<T>(number: u16, place: usize) -> Judged<T> {
    Err(Fault { number, place: place as u16 })
}

/// One check of a readable file.
pub(crate) struct Checker<'a, R> {
    pub file: File<'a>,
    pub types: &'a Types<'a, R>,
    pub rows: &'a mut [[u16; 2]],
    pub work: &'a mut [[u16; 2]],
    heads: [u16; BUCKETS],
    builtin_links: [u16; 128],
    /// How many local bindings are in scope.
    pub scope: usize,
    /// The node that opens the innermost block. Nodes stand parent first, so a
    /// local binder before it is of an outer block: document 02, (vi).
    pub own: usize,
    /// The node that is typed next.
    pub next: usize,
    /// The return type of the function.
    pub result: u16,
    /// How many pairs of types the questions so far compared: document 02, (viii).
    pub pairs: u32,
    /// Only under mutants: the sum where each node's turn came, and the step's.
    pub sums: Vec<u32>,
    step: u16,
    pub rules: R,
}

impl<'a, R: Rules> Checker<'a, R> {
    pub fn new(file: &File<'a>, types: &'a Types<'a, R>, rows: &'a mut [u16], work: &'a mut [u16], rules: R) -> Self {
        let size = 2 * file.nodes.len();
        Checker {
            file: *file,
            types,
            rows: rows[..size].as_chunks_mut().0,
            work: work[..size].as_chunks_mut().0,
            heads: [NONE; BUCKETS],
            builtin_links: [NONE; 128],
            scope: 0,
            own: 0,
            next: 0,
            result: VOID,
            pairs: 0,
            sums: Vec::new(),
            step: 0,
            rules,
        }
    }

    #[inline(always)]
    pub fn breaks(&self, m: Mutant) -> bool {
        self.rules.breaks(m)
    }

    /// All steps in order, then the answer.
    pub fn run(&mut self, declarations: &Declarations) -> Answer {
        let Fault { number, place } = match self.steps(declarations.starts()) {
            Ok(()) => Fault { number: 0, place: 0 },
            Err(fault) => {
                self.rows.fill([NONE; 2]);
                fault
            }
        };
        Answer { number, step: self.step, place, pairs: self.other_sum(number).unwrap_or(self.pairs) }
    }

    fn steps(&mut self, starts: &[u16]) -> Judged<()> {
        self.struct_names()?;
        self.builtins()?;
        if self.breaks(GlobalsBeforeHeadings) {
            self.each(starts, 1, Self::global)?;
            self.each(starts, 2, Self::heading)?;
        } else {
            self.each(starts, 2, Self::heading)?;
            if self.breaks(FieldsBeforeGlobals) {
                self.struct_fields()?;
            }
            self.each(starts, 1, Self::global)?;
        }
        if self.breaks(BodiesBeforeFields) {
            self.each(starts, 2, Self::body)?;
        }
        if !self.breaks(FieldsBeforeGlobals) {
            self.struct_fields()?;
        }
        if !self.breaks(BodiesBeforeFields) {
            self.each(starts, 2, Self::body)?;
        }
        Ok(())
    }

    /// One step for each declaration of a kind, in file order.
    fn each(&mut self, starts: &[u16], kind: u16, step: fn(&mut Self, usize, Four) -> Judged<()>) -> Judged<()> {
        for &at in starts {
            let n = self.file.node(at as usize);
            if n.kind() == kind {
                self.step_begins(kind);
                step(self, at as usize, n)?;
                self.step += 1;
            }
        }
        Ok(())
    }

    /// Struct names: the name is new.
    fn struct_names(&mut self) -> Judged<()> {
        if let Some(i) = self.types.doubled.filter(|_| !self.breaks(StructNamesMayRepeat)) {
            self.step = i;
            let place = if self.breaks(DoubledStructPlaceFirst) { self.first_struct(i) } else { i as usize };
            return fault(7, place);
        }
        self.step = self.file.structs.len() as u16;
        Ok(())
    }

    fn first_struct(&self, i: u16) -> usize {
        let name = self.file.strukt(i as usize).name;
        (0..i as usize).find(|&j| self.file.strukt(j).name == name).unwrap_or(0)
    }

    /// Built-ins: type, then name.
    fn builtins(&mut self) -> Judged<()> {
        for i in 0..self.file.builtins.len() {
            let b = self.file.builtin(i);
            let formed = self.types.well_formed(b.ty) || self.breaks(BuiltinTypeFree);
            let new = self.find(b.name) == NONE || self.breaks(BuiltinNamesMayRepeat);
            if !new && self.breaks(BuiltinNameFirst) {
                return fault(7, i);
            }
            if !formed {
                return fault(if self.breaks(BuiltinTypeIsFour) { 4 } else { 9 }, i);
            }
            if !new {
                return fault(7, i);
            }
            let struct_clash = self.breaks(StructNameClashes) && self.is_struct_name(b.name);
            if struct_clash {
                return fault(7, i);
            }
            self.enter(b.name, BUILTIN + i as u16);
            self.step += 1;
        }
        Ok(())
    }

    fn is_struct_name(&self, name: u16) -> bool {
        (0..self.file.structs.len()).any(|i| self.file.strukt(i).name == name)
    }

    /// A function heading: type, then name.
    fn heading(&mut self, at: usize, n: Four) -> Judged<()> {
        let formed = self.types.well_formed(n.t()) || self.breaks(HeadingTypeFree);
        let new = self.find(n.x()) == NONE || self.breaks(FunctionNamesMayRepeat);
        if !new && self.breaks(HeadingNameFirst) {
            return fault(7, at);
        }
        if !formed {
            return fault(9, at);
        }
        if !new {
            return fault(7, at);
        }
        self.enter(n.x(), at as u16);
        Ok(())
    }

    /// A global: its initializer, then its name.
    fn global(&mut self, at: usize, n: Four) -> Judged<()> {
        if self.breaks(GlobalNameFirst) && self.find(n.x()) != NONE {
            return fault(7, at);
        }
        let early = self.breaks(GlobalSeesItself);
        if early {
            self.rows[at + 1][0] = 0;
            self.enter(n.x(), at as u16);
        }
        self.next = at + 1;
        let t = self.expression()?;
        self.rows[at] = [if self.breaks(GlobalRowNone) { 0 } else { t }, NONE];
        let seen = self.find(n.x());
        let hides = seen >= BUILTIN && self.breaks(GlobalMayHideBuiltin);
        if seen != NONE && !early && !hides && !self.breaks(GlobalNamesMayRepeat) {
            return fault(7, if self.breaks(GlobalNamePlace) { at + 1 } else { at });
        }
        if !early {
            self.enter(n.x(), at as u16);
        }
        Ok(())
    }

    /// Struct fields: types, then distinct names.
    fn struct_fields(&mut self) -> Judged<()> {
        for i in 0..self.file.structs.len() {
            let fields = self.file.fields_of(self.file.strukt(i));
            let formed = fields.iter().all(|f| self.types.well_formed(name_type(f).ty));
            let doubled = doubled_field(fields) && !self.breaks(FieldNamesMayRepeat);
            if doubled && self.breaks(FieldNamesFirst) {
                return fault(7, i);
            }
            if !formed && !self.breaks(FieldTypesNotFormed) {
                return fault(9, i);
            }
            if doubled {
                return fault(7, i);
            }
            self.step += 1;
        }
        Ok(())
    }

    /// A function body: distinct parameters, block, mark. Parameters and the
    /// body's block are one block.
    fn body(&mut self, at: usize, n: Four) -> Judged<()> {
        let parameters = self.file.parameters(self.file.ty(n.t()));
        let mut distinct = Ok(());
        for (k, p) in parameters.iter().enumerate() {
            let node = at + 1 + k;
            let t = if self.breaks(ParameterRowLowest) { self.types.lowest(listed(p)) } else { listed(p) };
            self.rows[node] = [t, NONE];
            let bound = self.is_local(self.find(self.file.node(node).x()));
            if bound && distinct.is_ok() && !self.breaks(ParametersMayRepeat) {
                distinct = fault(7, if self.breaks(ParameterPlace) { node } else { at });
            }
            self.bind(self.file.node(node).x(), node);
        }
        if !self.breaks(ParametersAfterBlock) {
            std::mem::replace(&mut distinct, Ok(()))?;
        }
        self.next = at + 1 + parameters.len();
        self.result = self.file.ty(n.t()).a();
        self.own = if self.breaks(BodyApart) { self.next } else { at };
        let mark = self.statements()?;
        self.leave(if self.breaks(ParametersStayBound) { self.scope } else { 0 });
        distinct?;
        let may_go_on = self.breaks(BodyMayGoOn) || self.breaks(VoidBodyMayGoOn) && self.result == VOID;
        if !mark && !may_go_on {
            return fault(14, if self.breaks(BodyMarkPlace) { at + 1 + parameters.len() } else { at });
        }
        self.rows[at] = [u16::from(mark && !self.breaks(FunctionRowNone)), NONE];
        Ok(())
    }

    /// One subtype question of a rule.
    #[inline(always)]
    pub fn question(&self, a: u16, b: u16) -> Below {
        let found = self.types.below(a, b);
        Below { pairs: self.other_question(found).unwrap_or(found.pairs), ..found }
    }

    /// Adds to the sum what the questions at a node took; whether they hold. A
    /// mutant leaves them out.
    #[inline(always)]
    pub fn count(&mut self, at: usize, asked: Below, free: Mutant) -> bool {
        self.pairs += self.other_addend(at, asked, free).unwrap_or(asked.pairs);
        asked.holds
    }

    /// A node's only question.
    #[inline(always)]
    pub fn ask(&mut self, at: usize, [a, b]: [u16; 2], free: Mutant) -> bool {
        let asked = self.question(a, b);
        self.count(at, asked, free)
    }

    /// A list's questions with one more, asked if those before it hold. They come
    /// after all children, so the sum gets them when all of these are typed.
    #[inline(always)]
    pub fn also(&mut self, asked: Below, [a, b]: [u16; 2], early: Mutant) -> Below {
        let more = asked.then(|| self.question(a, b));
        self.other_also(asked, more, [a, b], early).unwrap_or(more)
    }

    /// The latest binder of a name, or `NONE`.
    #[inline]
    pub fn find(&self, name: u16) -> u16 {
        let mut binder = self.heads[name as usize % BUCKETS];
        while binder != NONE && self.name_of(binder) != name {
            binder = self.link_of(binder);
        }
        binder
    }

    #[inline(always)]
    fn name_of(&self, binder: u16) -> u16 {
        if binder >= BUILTIN {
            return self.file.builtin((binder - BUILTIN) as usize).name;
        }
        self.file.node(binder as usize).x()
    }

    #[inline(always)]
    fn link_of(&self, binder: u16) -> u16 {
        if binder >= BUILTIN {
            return self.builtin_links[(binder - BUILTIN) as usize];
        }
        self.work[binder as usize][0]
    }

    /// The type of a bound name.
    pub fn type_of(&self, binder: u16) -> u16 {
        if binder >= BUILTIN {
            return self.file.builtin((binder - BUILTIN) as usize).ty;
        }
        let at = binder as usize;
        let n = self.file.node(at);
        match n.kind() {
            2 | 36 => n.t(),
            18 => 0,
            1 | 31 => self.rows[at + 1][0],
            _ => self.rows[at][0],
        }
    }

    /// A parameter, index name, var or if? name.
    pub fn is_local(&self, binder: u16) -> bool {
        binder < BUILTIN && self.file.node(binder as usize).kind() > 2
    }

    /// A function's or a built-in's name.
    pub fn is_function(&self, binder: u16) -> bool {
        if binder >= BUILTIN {
            return binder != NONE && !self.breaks(BuiltinAssignable);
        }
        self.file.node(binder as usize).kind() == 2
    }

    /// Puts a binding first in its bucket.
    fn enter(&mut self, name: u16, binder: u16) {
        let head = &mut self.heads[name as usize % BUCKETS];
        let before = std::mem::replace(head, binder);
        if binder >= BUILTIN {
            self.builtin_links[(binder - BUILTIN) as usize] = before;
        } else {
            self.work[binder as usize][0] = before;
        }
    }

    /// Makes a local binding.
    pub fn bind(&mut self, name: u16, node: usize) {
        self.enter(name, node as u16);
        self.work[self.scope][1] = node as u16;
        self.scope += 1;
    }

    /// Leaves all local bindings past the first `scope`.
    pub fn leave(&mut self, scope: usize) {
        while self.scope > scope {
            self.scope -= 1;
            let node = self.work[self.scope][1] as usize;
            let name = self.file.node(node).x();
            self.heads[name as usize % BUCKETS] = self.work[node][0];
            if self.breaks(HiddenLost) {
                self.lose(name);
            }
        }
    }

    /// Only under a mutant: a local that was hidden is lost.
    fn lose(&mut self, name: u16) {
        let head = self.heads[name as usize % BUCKETS];
        if self.is_local(head) && self.name_of(head) == name {
            self.heads[name as usize % BUCKETS] = self.link_of(head);
        }
    }

    /// All local binders of a name, the nearest first; asked under mutants alone.
    pub fn locals(&self, name: u16) -> Vec<u16> {
        let mut binder = self.heads[name as usize % BUCKETS];
        let mut found = Vec::new();
        while self.is_local(binder) {
            if self.name_of(binder) == name {
                found.push(binder);
            }
            binder = self.link_of(binder);
        }
        found
    }
}

/// Whether two fields of a struct have one name.
fn doubled_field(fields: &[[u8; 4]]) -> bool {
    let name = |f: &[u8; 4]| name_type(f).name;
    if fields.len() <= 16 {
        return fields.iter().enumerate().any(|(i, f)| fields[..i].iter().any(|g| name(g) == name(f)));
    }
    let mut seen = [0u64; 1024];
    fields.iter().any(|f| {
        let (word, bit) = (name(f) as usize / 64, 1u64 << (name(f) % 64));
        let again = seen[word] & bit != 0;
        seen[word] |= bit;
        again
    })
}
