//! Well-typed programs that use every node kind, operator and type former.

use super::rng::Rng;
use super::tables;
use crate::mutants::Exact;
use crate::program::*;
use crate::{Below, Limits, subtypes};

/// What a name means where it stands.
#[derive(Clone, Copy)]
struct Bound {
    name: u16,
    ty: u16,
    assignable: bool,
}

/// A program under construction.
struct Maker<'r> {
    rng: &'r mut Rng,
    p: Program,
    below: Vec<Vec<Below>>,
    formed: Vec<bool>,
    globals: Vec<Bound>,
    locals: Vec<Bound>,
    /// Inside a global's initializer.
    constant: bool,
    /// How many more nodes may be made freely.
    fuel: usize,
}

/// A well-typed program.
pub fn typed(rng: &mut Rng) -> Program {
    let p = table(rng);
    let below = subtypes(&p.bytes(), Limits::WIDEST, Exact).expect("a generated table can be read");
    let formed = (0..p.types.len() as u16).map(|t| formed(&p, t)).collect();
    let fuel = 30 + rng.below(150);
    let mut maker = Maker { rng, p, below, formed, globals: vec![], locals: vec![], constant: false, fuel };
    maker.build();
    maker.p
}

/// Types, structs and built-ins: a built-in for every function type.
fn table(rng: &mut Rng) -> Program {
    let mut p = Program::new();
    let names: Vec<u16> = (0..2 + rng.below(4) as u16).collect();
    for &name in &names {
        p.struct_type(name);
    }
    let undeclared = p.struct_type(tables::UNDECLARED);
    for t in [INT, 4, STRING] {
        p.array(t);
    }
    p.nullable(4);
    p.nullable(undeclared);
    p.array(undeclared);
    p.function(VOID, &[]);
    p.function(INT, &[INT]);
    p.function(VOID, &[undeclared]);
    for _ in 0..5 + rng.below(14) {
        tables::grow(rng, &mut p);
    }
    tables::declare(rng, &mut p, &names, constructible);
    for t in 4..p.types.len() as u16 {
        if p.types[t as usize][0] == 6 && formed(&p, t) {
            p.builtins.push([100 + t, t]);
        }
    }
    p
}

/// A field type whose values can be made: structs only of lower numbers.
fn constructible(rng: &mut Rng, p: &Program, strukt: usize) -> u16 {
    loop {
        let t = rng.below(p.types.len()) as u16;
        let [kind, a, ..] = p.types[t as usize];
        let lower = kind != 4 || (a as usize) < strukt;
        if t != VOID && lower && formed(p, t) {
            return t;
        }
    }
}

/// No undeclared struct in it.
fn formed(p: &Program, t: u16) -> bool {
    match p.types[t as usize] {
        [4, name, ..] => name != tables::UNDECLARED,
        [5 | 7, a, ..] => formed(p, a),
        [6, result, ..] => formed(p, result) && p.parameters(t).iter().all(|&q| formed(p, q)),
        _ => true,
    }
}

impl Maker<'_> {
    fn kind(&self, t: u16) -> u16 {
        self.p.types[t as usize][0]
    }

    fn inside(&self, t: u16) -> u16 {
        self.p.types[t as usize][1]
    }

    fn is_below(&self, a: u16, b: u16) -> bool {
        self.below[a as usize][b as usize].holds
    }

    /// The well-formed types that satisfy a test.
    fn types(&self, test: impl Fn(u16) -> bool) -> Vec<u16> {
        (0..self.p.types.len() as u16).filter(|&t| t != VOID && self.formed[t as usize] && test(t)).collect()
    }

    fn build(&mut self) {
        self.globals = self.p.builtins.iter().map(|&[name, ty]| Bound { name, ty, assignable: false }).collect();
        let headings = self.headings();
        let mut globals = Vec::new();
        for i in 0..self.rng.below(4) as u16 {
            globals.extend(self.global(40 + i));
        }
        let functions: Vec<Tree> = headings.into_iter().map(|(name, t)| self.function(name, t)).collect();
        self.interleave(globals, functions);
    }

    /// Names and types of the functions, entered before the globals.
    fn headings(&mut self) -> Vec<(u16, u16)> {
        let functions = self.types(|t| self.kind(t) == 6);
        let mut headings = Vec::new();
        for i in 0..1 + self.rng.below(4) as u16 {
            let t = self.rng.pick(&functions).expect("every table has a function type");
            self.globals.push(Bound { name: 20 + i, ty: t, assignable: false });
            headings.push((20 + i, t));
        }
        headings
    }

    /// Globals keep their order among functions.
    fn interleave(&mut self, globals: Vec<Tree>, functions: Vec<Tree>) {
        let mut queues = [globals.into_iter().peekable(), functions.into_iter().peekable()];
        while queues.iter_mut().any(|q| q.peek().is_some()) {
            let side = self.rng.below(2);
            self.p.declarations.extend(queues[side].next());
        }
    }

    fn global(&mut self, name: u16) -> Option<Tree> {
        self.constant = true;
        let want = self.rng.pick(&self.types(|_| true))?;
        let made = self.expression(want, 3);
        self.constant = false;
        let (tree, ty) = made?;
        self.globals.push(Bound { name, ty, assignable: true });
        Some(global(name, tree))
    }

    fn function(&mut self, x: u16, t: u16) -> Tree {
        let types = self.p.parameters(t).to_vec();
        let names: Vec<u16> = (0..types.len() as u16).map(|i| self.parameter_name(i)).collect();
        self.locals = names.iter().zip(&types).map(|(&name, &ty)| Bound { name, ty, assignable: true }).collect();
        let body = self.block(self.inside(t), 4, true);
        func(x, t, &names, body)
    }

    /// Parameters sometimes hide functions or globals.
    fn parameter_name(&mut self, i: u16) -> u16 {
        if self.rng.chance(10) { 20 + i } else { 60 + i }
    }

    /// What can be seen: the latest binding of each name.
    fn visible(&self) -> Vec<Bound> {
        let mut seen: Vec<Bound> = Vec::new();
        for bound in self.locals.iter().rev().chain(&self.globals) {
            if seen.iter().all(|s| s.name != bound.name) {
                seen.push(*bound);
            }
        }
        seen
    }

    /// A name that no local has.
    fn fresh(&mut self) -> u16 {
        loop {
            let x = [0, 20, 40, 60, 100][self.rng.below(5)] + self.rng.below(20) as u16;
            if self.locals.iter().all(|b| b.name != x) {
                return x;
            }
        }
    }

    fn spend(&mut self, depth: usize) -> bool {
        self.fuel = self.fuel.saturating_sub(1);
        self.fuel > 0 && depth > 0
    }

    /// An expression whose type is below `want`, with its type.
    fn expression(&mut self, want: u16, depth: usize) -> Option<(Tree, u16)> {
        let rich = self.spend(depth);
        if self.rng.chance(if rich { 40 } else { 25 })
            && let Some(made) = self.by_name(want, depth)
        {
            return Some(made);
        }
        let lower = self.types(|t| self.is_below(t, want));
        let t = if rich { self.rng.pick(&lower)? } else { want };
        self.made(t, if rich { depth } else { 0 })
    }

    /// A visible name, a field or element of it, or a call.
    fn by_name(&mut self, want: u16, depth: usize) -> Option<(Tree, u16)> {
        let visible = self.visible();
        let mut ways: Vec<(Bound, u16, u16)> = Vec::new();
        for b in visible {
            if self.is_below(b.ty, want) {
                ways.push((b, 15, b.ty));
            }
            if self.constant || depth == 0 {
                continue;
            }
            match self.kind(b.ty) {
                4 => ways.extend(self.fields_below(b.ty, want).into_iter().map(|x| (b, 23, x))),
                5 if self.is_below(self.inside(b.ty), want) => ways.push((b, 19, 0)),
                6 if self.is_below(self.inside(b.ty), want) => ways.push((b, 24, 0)),
                _ => {}
            }
        }
        let (b, kind, detail) = self.rng.pick(&ways)?;
        match kind {
            15 => Some((name(b.name), b.ty)),
            23 => Some((field(name(b.name), detail), self.field_type(b.ty, detail)?)),
            19 => {
                let (at, _) = self.expression(INT, depth - 1)?;
                Some((index(name(b.name), at), self.inside(b.ty)))
            }
            _ => {
                let arguments = self.arguments(b.ty, depth - 1)?;
                Some((call(name(b.name), arguments), self.inside(b.ty)))
            }
        }
    }

    fn record_of(&self, t: u16) -> Option<usize> {
        self.p.structs.iter().position(|s| s[0] == self.inside(t))
    }

    fn fields_below(&self, t: u16, want: u16) -> Vec<u16> {
        let fields = self.record_of(t).map_or(&[][..], |s| self.p.fields_of(s));
        fields.iter().filter(|f| self.is_below(f[1], want)).map(|f| f[0]).collect()
    }

    fn field_type(&self, t: u16, x: u16) -> Option<u16> {
        self.p.fields_of(self.record_of(t)?).iter().find(|f| f[0] == x).map(|f| f[1])
    }

    fn arguments(&mut self, f: u16, depth: usize) -> Option<Vec<Tree>> {
        let types = self.p.parameters(f).to_vec();
        types.into_iter().map(|t| self.expression(t, depth).map(|made| made.0)).collect()
    }

    /// A literal or operator of type t.
    fn made(&mut self, t: u16, depth: usize) -> Option<(Tree, u16)> {
        let tree = match self.kind(t) {
            0 => self.int(depth)?,
            1 => self.bool(depth)?,
            2 => text(self.rng.below(9) as u16),
            4 => self.record(t, depth)?,
            5 => self.array(t, depth)?,
            6 => return self.pointer(t),
            _ => return self.nullable(t, depth),
        };
        Some((tree, t))
    }

    fn int(&mut self, depth: usize) -> Option<Tree> {
        let literal = int(self.rng.below(1 << 16) as u16);
        if depth == 0 || self.constant {
            return Some(literal);
        }
        Some(match self.rng.below(6) {
            0 | 1 => literal,
            2 => unary([0, 2][self.rng.below(2)], self.expression(INT, depth - 1)?.0),
            3 => {
                let arrays = self.types(|t| self.kind(t) == 5);
                let t = self.rng.pick(&arrays)?;
                length(self.expression(t, depth - 1)?.0)
            }
            _ => {
                let x = [0, 1, 2, 3, 4, 5, 14, 15][self.rng.below(8)];
                binary(x, self.expression(INT, depth - 1)?.0, self.expression(INT, depth - 1)?.0)
            }
        })
    }

    fn bool(&mut self, depth: usize) -> Option<Tree> {
        if depth == 0 || self.constant || self.rng.chance(25) {
            return Some(if self.rng.chance(50) { tru() } else { fls() });
        }
        Some(match self.rng.below(4) {
            0 => unary(1, self.expression(BOOL, depth - 1)?.0),
            1 => binary(
                12 + self.rng.below(2) as u16,
                self.expression(BOOL, depth - 1)?.0,
                self.expression(BOOL, depth - 1)?.0,
            ),
            2 => binary(
                6 + self.rng.below(4) as u16,
                self.expression(INT, depth - 1)?.0,
                self.expression(INT, depth - 1)?.0,
            ),
            _ => self.equality(depth)?,
        })
    }

    /// Two expressions whose types are below each other.
    fn equality(&mut self, depth: usize) -> Option<Tree> {
        let t = self.rng.pick(&self.types(|_| true))?;
        let (a, ta) = self.expression(t, depth - 1)?;
        let (b, tb) = self.expression(ta, depth - 1)?;
        let (b, _) =
            if self.is_below(ta, tb) { (b, tb) } else { self.made(ta, 0).filter(|m| self.is_below(ta, m.1))? };
        Some(binary(10 + self.rng.below(2) as u16, a, b))
    }

    /// A struct literal, its fields in any order.
    fn record(&mut self, t: u16, depth: usize) -> Option<Tree> {
        let mut fields = self.p.fields_of(self.record_of(t)?).to_vec();
        self.rng.shuffle(&mut fields);
        let values: Option<Vec<_>> =
            fields.into_iter().map(|[x, ty]| Some((x, self.expression(ty, depth.saturating_sub(1))?.0))).collect();
        Some(record(t, values?))
    }

    fn array(&mut self, t: u16, depth: usize) -> Option<Tree> {
        let element = self.inside(t);
        if depth == 0 {
            return Some(list(t, vec![]));
        }
        let defaults = [0, 1, 7].contains(&self.kind(element));
        match self.rng.below(3) {
            1 if defaults && !self.constant => Some(blank(t, self.expression(INT, depth - 1)?.0)),
            2 if !self.constant => self.filled(t, element, depth),
            _ => {
                let elements: Option<Vec<Tree>> =
                    (0..self.rng.below(4)).map(|_| Some(self.expression(element, depth - 1)?.0)).collect();
                Some(list(t, elements?))
            }
        }
    }

    fn filled(&mut self, t: u16, element: u16, depth: usize) -> Option<Tree> {
        let (size, _) = self.expression(INT, depth - 1)?;
        let x = self.fresh();
        self.locals.push(Bound { name: x, ty: INT, assignable: true });
        let value = self.expression(element, depth - 1);
        self.locals.pop();
        Some(fill(t, x, size, value?.0))
    }

    /// A visible function of a type below t.
    fn pointer(&mut self, t: u16) -> Option<(Tree, u16)> {
        let fitting: Vec<Bound> = self.visible().into_iter().filter(|b| self.is_below(b.ty, t)).collect();
        self.rng.pick(&fitting).map(|b| (name(b.name), b.ty))
    }

    fn nullable(&mut self, t: u16, depth: usize) -> Option<(Tree, u16)> {
        if depth == 0 || self.rng.chance(50) {
            return Some((null(t), t));
        }
        self.expression(self.inside(t), depth - 1)
    }

    /// Statements; the last one returns if it must.
    fn block(&mut self, result: u16, depth: usize, returns: bool) -> Vec<Tree> {
        let scope = self.locals.len();
        let mut statements = Vec::new();
        for _ in 0..self.rng.below(5) {
            if self.fuel == 0 {
                break;
            }
            statements.extend(self.statement(result, depth));
        }
        if returns || self.rng.chance(15) {
            statements.push(self.returning(result, depth));
        }
        self.locals.truncate(scope);
        statements
    }

    /// A statement that returns.
    fn returning(&mut self, result: u16, depth: usize) -> Tree {
        if depth > 0 && self.rng.chance(25) {
            let condition = self.expression(BOOL, 2).map_or(tru(), |made| made.0);
            let yes = self.block(result, depth - 1, true);
            let no = self.block(result, depth - 1, true);
            return when(condition, yes, no);
        }
        if result == VOID {
            return done();
        }
        let value = (0..8).find_map(|_| self.expression(result, 3)).or_else(|| self.plain(result));
        ret(value.map_or(int(0), |made| made.0))
    }

    /// A value under no hiding name: functions come from built-ins.
    fn plain(&mut self, t: u16) -> Option<(Tree, u16)> {
        let hidden = std::mem::take(&mut self.locals);
        let made = self.made(t, 0);
        self.locals = hidden;
        made
    }

    fn statement(&mut self, result: u16, depth: usize) -> Option<Tree> {
        self.fuel = self.fuel.saturating_sub(1);
        match self.rng.below(if depth > 0 { 12 } else { 6 }) {
            0 | 1 => self.var(),
            2 | 3 => self.assignment(),
            4 | 5 => self.call_statement(),
            6 | 7 => {
                let (condition, _) = self.expression(BOOL, 2)?;
                let yes = self.block(result, depth - 1, false);
                let no = self.other_block(result, depth, &yes);
                Some(when(condition, yes, no))
            }
            8 | 9 => self.null_test(result, depth),
            10 => self.for_loop(result, depth),
            _ => {
                let (condition, _) = self.expression(BOOL, 2)?;
                Some(during(condition, self.block(result, depth - 1, false)))
            }
        }
    }

    /// The second block of an if that goes on: empty if the first may return. A
    /// while counts as one that goes on, so a few of these ifs return after all.
    fn other_block(&mut self, result: u16, depth: usize, first: &[Tree]) -> Vec<Tree> {
        let last = first.last().map_or(0, |s| s.kind);
        if [32, 33, 35, 36].contains(&last) { vec![] } else { self.block(result, depth - 1, false) }
    }

    fn var(&mut self) -> Option<Tree> {
        let want = self.rng.pick(&self.types(|_| true))?;
        let (tree, ty) = self.expression(want, 3)?;
        let x = self.fresh();
        self.locals.push(Bound { name: x, ty, assignable: true });
        Some(var(x, tree))
    }

    fn assignment(&mut self) -> Option<Tree> {
        let visible: Vec<Bound> =
            self.visible().into_iter().filter(|b| b.assignable || [4, 5].contains(&self.kind(b.ty))).collect();
        let b = self.rng.pick(&visible)?;
        let (left, t) = match self.kind(b.ty) {
            4 if !self.fields_of_type(b.ty).is_empty() => {
                let [x, t] = self.rng.pick(&self.fields_of_type(b.ty))?;
                (field(name(b.name), x), t)
            }
            5 => (index(name(b.name), self.expression(INT, 1)?.0), self.inside(b.ty)),
            _ => (name(b.name), b.ty),
        };
        let (left, t) = if b.assignable && self.rng.chance(40) { (name(b.name), b.ty) } else { (left, t) };
        let (value, _) = self.expression(t, 3)?;
        Some(set(left, value))
    }

    fn fields_of_type(&self, t: u16) -> Vec<[u16; 2]> {
        self.record_of(t).map_or(vec![], |s| self.p.fields_of(s).to_vec())
    }

    fn call_statement(&mut self) -> Option<Tree> {
        let void: Vec<Bound> =
            self.visible().into_iter().filter(|b| self.kind(b.ty) == 6 && self.inside(b.ty) == VOID).collect();
        let b = self.rng.pick(&void)?;
        let arguments = self.arguments(b.ty, 3)?;
        Some(run(name(b.name), arguments))
    }

    fn null_test(&mut self, result: u16, depth: usize) -> Option<Tree> {
        let nullables = self.types(|t| self.kind(t) == 7);
        let want = self.rng.pick(&nullables)?;
        let (value, ty) =
            (0..4).find_map(|_| self.expression(want, 3).filter(|m| self.kind(m.1) == 7)).unwrap_or((null(want), want));
        let above = self.types(|t| [2, 4, 5, 6].contains(&self.kind(t)) && self.is_below(self.inside(ty), t));
        let t = self.rng.pick(&above)?;
        let x = if self.rng.chance(30) { self.rng.pick(&self.visible())?.name } else { self.fresh() };
        self.locals.push(Bound { name: x, ty: t, assignable: true });
        let yes = self.block(result, depth - 1, false);
        self.locals.pop();
        let no = self.other_block(result, depth, &yes);
        Some(when_null(x, t, value, yes, no))
    }

    fn for_loop(&mut self, result: u16, depth: usize) -> Option<Tree> {
        let scope = self.locals.len();
        let vars: Vec<Tree> = (0..self.rng.below(3)).filter_map(|_| self.var()).collect();
        let condition = if self.rng.chance(70) { self.expression(BOOL, 2) } else { None };
        let inner = self.locals.len();
        let step = if self.rng.chance(75) { self.statement(result, depth - 1) } else { None };
        self.locals.truncate(inner);
        let body = self.block(result, depth - 1, false);
        self.locals.truncate(scope);
        Some(repeat(vars, condition.map_or_else(absent, |made| made.0), step.unwrap_or_else(absent), body))
    }
}
