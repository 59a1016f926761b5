//! Files that ask many subtype questions about large types: families of types
//! that differ in a few places, built-ins and parameters of these types, lists of
//! them one within another, with values that fit or fail somewhere deep.

use super::rng::Rng;
use super::tables::UNDECLARED;
use crate::mutants::Exact;
use crate::program::*;
use crate::{Below, Limits, subtypes};

/// Names: built-ins and globals, functions, parameters and vars. `UNBOUND` is
/// bound nowhere.
const BUILTIN: u16 = 100;
const GLOBAL: u16 = 60;
const FUNCTION: u16 = 10;
const LOCAL: u16 = 20;
const UNBOUND: u16 = 999;
/// Structs: the second begins with the first's field. The third has fields of
/// the families.
const FIRST: u16 = 1;
const SECOND: u16 = 2;
const THIRD: u16 = 3;

/// A type as written out.
#[derive(Clone, PartialEq)]
enum Type {
    Plain(u16),
    Struct(u16),
    Array(Box<Type>),
    Function(Vec<Type>, Box<Type>),
    Nullable(Box<Type>),
}
use Type::*;

/// A random type of some depth.
fn any(rng: &mut Rng, depth: usize) -> Type {
    match rng.below(if depth == 0 { 6 } else { 16 }) {
        0 => Plain(INT),
        1 => Plain(BOOL),
        2 => Plain(STRING),
        3 => Struct(FIRST),
        4 => Struct(SECOND),
        5 => Nullable(Box::new([Plain(STRING), Struct(FIRST), Struct(SECOND)][rng.below(3)].clone())),
        6..=8 => Array(Box::new(any(rng, depth - 1))),
        9 => reference(any(rng, depth - 1)),
        _ => function(rng, depth - 1),
    }
}

fn function(rng: &mut Rng, depth: usize) -> Type {
    let parameters = (0..rng.below(4)).map(|_| any(rng, depth)).collect();
    Function(parameters, Box::new(if rng.chance(40) { Plain(VOID) } else { any(rng, depth) }))
}

/// The nullable of a type that has one, or the type.
fn reference(t: Type) -> Type {
    if matches!(t, Plain(INT | BOOL | VOID) | Nullable(_)) { t } else { Nullable(Box::new(t)) }
}

/// A type that is above or below another one, but for a few places.
fn moved(rng: &mut Rng, t: &Type, up: bool) -> Type {
    if rng.chance(4) {
        return any(rng, 1);
    }
    match t {
        Function(parameters, result) => {
            let mut turned: Vec<Type> = parameters.iter().map(|p| moved(rng, p, !up)).collect();
            if rng.chance(4) {
                turned.pop();
            }
            Function(turned, Box::new(moved(rng, result, up)))
        }
        Array(element) if rng.chance(12) => Array(Box::new(moved(rng, element, up))),
        Nullable(inside) if !up && rng.chance(40) => moved(rng, inside, up),
        Nullable(inside) => reference(moved(rng, inside, up)),
        Struct(FIRST) if !up && rng.chance(40) => Struct(SECOND),
        Struct(SECOND) if up && rng.chance(40) => Struct(FIRST),
        _ if up && rng.chance(30) => reference(t.clone()),
        _ => t.clone(),
    }
}

/// A file under construction.
struct Maker<'r> {
    rng: &'r mut Rng,
    p: Program,
    known: Vec<(Type, u16)>,
    /// The types of the families.
    family: Vec<u16>,
    below: Vec<Vec<Below>>,
    /// What can be seen: name and type.
    seen: Vec<[u16; 2]>,
    /// Inside a global's initializer.
    constant: bool,
    /// How often, of a hundred times, a value is any value.
    slips: usize,
}

/// One file.
pub fn file(rng: &mut Rng) -> Vec<u8> {
    let slips = [0, 0, 0, 2, 5, 10][rng.below(6)];
    let (p, seen) = (Program::new(), vec![]);
    let mut maker = Maker { rng, p, known: vec![], family: vec![], below: vec![], seen, constant: false, slips };
    maker.table();
    let types = maker.heading_types();
    maker.below = subtypes(&maker.p.bytes(), Limits::WIDEST, Exact).unwrap_or_default();
    if maker.below.is_empty() {
        return file(rng);
    }
    maker.globals();
    for (k, t) in types.into_iter().enumerate() {
        let declared = maker.function(FUNCTION + k as u16, t);
        maker.p.declarations.push(declared);
    }
    maker.p.bytes()
}

impl Maker<'_> {
    /// The number of a type; sometimes a new one.
    fn number(&mut self, t: &Type) -> u16 {
        let known = self.known.iter().find(|k| k.0 == *t).map(|k| k.1);
        if let (Some(number), false) = (known, self.rng.chance(8)) {
            return number;
        }
        let number = match t {
            Plain(kind) => *kind,
            Struct(name) => self.p.struct_type(*name),
            Array(element) => {
                let element = self.number(element);
                self.p.array(element)
            }
            Nullable(inside) => {
                let inside = self.number(inside);
                self.p.nullable(inside)
            }
            Function(parameters, result) => {
                let parameters: Vec<u16> = parameters.iter().map(|p| self.number(p)).collect();
                let result = self.number(result);
                self.p.function(result, &parameters)
            }
        };
        self.known.push((t.clone(), number));
        number
    }

    /// Families, arrays of some of their types, structs, and a built-in for every
    /// function type.
    fn table(&mut self) {
        for _ in 0..1 + self.rng.below(2) {
            let depth = 1 + self.rng.below(3);
            let mut t = if self.rng.chance(70) { function(self.rng, depth) } else { any(self.rng, depth) };
            for _ in 0..2 + self.rng.below(2) {
                let number = self.number(&t);
                self.family.push(number);
                let up = self.rng.chance(50);
                t = moved(self.rng, &t, up);
            }
            let array = self.number(&Array(Box::new(t)));
            self.family.push(array);
        }
        self.number(&Array(Box::new(Plain(BOOL))));
        self.number(&Struct(THIRD));
        let undeclared = Array(Box::new(Struct(UNDECLARED)));
        let undeclared = if self.rng.chance(10) { self.number(&undeclared) } else { INT };
        self.p.declare(FIRST, &[[1, INT]]);
        self.p.declare(SECOND, &[[1, INT], [2, BOOL]]);
        let fields: Vec<[u16; 2]> = (1..3).map(|x| [x, self.any_of_family()]).collect();
        self.p.declare(THIRD, &[&fields[..], &[[3, undeclared]]].concat());
        for t in self.p.types.len() as u16 / 2..self.p.types.len() as u16 {
            if self.kind(t) == 6 && self.p.builtins.len() < 5 {
                self.p.builtins.push([BUILTIN + t, t]);
                self.seen.push([BUILTIN + t, t]);
            }
        }
    }

    fn any_of_family(&mut self) -> u16 {
        self.family[self.rng.below(self.family.len())]
    }

    /// Types of the functions: they take types of the families.
    fn heading_types(&mut self) -> Vec<u16> {
        let count = 1 + self.rng.below(2);
        let mut types = Vec::new();
        for k in 0..count as u16 {
            let parameters: Vec<u16> = (0..3 + self.rng.below(3)).map(|_| self.any_of_family()).collect();
            let result = if self.rng.chance(50) { VOID } else { self.any_of_family() };
            types.push(self.p.function(result, &parameters));
            self.seen.push([FUNCTION + k, types[k as usize]]);
        }
        types
    }

    fn kind(&self, t: u16) -> u16 {
        self.p.types[t as usize][0]
    }

    fn inside(&self, t: u16) -> u16 {
        self.p.types[t as usize][1]
    }

    fn globals(&mut self) {
        self.constant = true;
        for k in 0..self.rng.below(3) as u16 {
            let t = self.rng.below(self.p.types.len()) as u16;
            let t = if t == VOID { BOOL } else { t };
            let value = self.value(t, 2);
            self.p.declarations.push(global(GLOBAL + k, value));
        }
        self.constant = false;
    }

    fn function(&mut self, x: u16, t: u16) -> Tree {
        let types = self.p.parameters(t).to_vec();
        let before = self.seen.len();
        let names: Vec<u16> = (LOCAL..LOCAL + types.len() as u16).collect();
        self.seen.extend(names.iter().zip(&types).map(|(&x, &t)| [x, t]));
        let mut body: Vec<Tree> = (0..2 + self.rng.below(4) as u16).map(|k| self.statement(LOCAL + 10 + k)).collect();
        let result = self.inside(t);
        body.push(if result == VOID { done() } else { ret(self.value(result, 2)) });
        self.seen.truncate(before);
        func(x, t, &names, body)
    }

    /// One of the parameters.
    fn parameter(&mut self) -> [u16; 2] {
        let locals: Vec<[u16; 2]> = self.seen.iter().copied().filter(|s| (LOCAL..GLOBAL).contains(&s[0])).collect();
        locals[self.rng.below(locals.len())]
    }

    fn statement(&mut self, free: u16) -> Tree {
        match self.rng.below(10) {
            0..=2 => {
                let [x, t] = self.parameter();
                set(name(x), self.value(t, 2))
            }
            3..=5 => {
                let t = [self.any_of_family(), BOOL][self.rng.below(2)];
                var(free, self.made(t, 2))
            }
            6 => when(self.value(BOOL, 2), vec![self.simple()], vec![self.simple()]),
            7 => self.null_test(free),
            _ => self.used(),
        }
    }

    fn simple(&mut self) -> Tree {
        let [x, t] = self.parameter();
        set(name(x), self.value(t, 1))
    }

    fn null_test(&mut self, free: u16) -> Tree {
        let nullables: Vec<[u16; 2]> = self.seen.iter().copied().filter(|s| self.kind(s[1]) == 7).collect();
        let Some([x, t]) = self.rng.pick(&nullables) else { return self.used() };
        let types = 0..self.p.types.len() as u16;
        let fits = |&u: &u16| [2, 4, 5, 6].contains(&self.kind(u)) && self.holds(self.inside(t), u);
        let all: Vec<u16> =
            types.filter(|u| fits(u) || [2, 4, 5, 6].contains(&self.kind(*u)) && self.slips > 4).collect();
        let t = self.rng.pick(&all).unwrap_or(STRING);
        when_null(free, t, name(x), vec![self.simple()], vec![])
    }

    /// A call statement of a function that gives nothing.
    fn used(&mut self) -> Tree {
        let void = |s: &[u16; 2]| self.kind(s[1]) == 6 && self.inside(s[1]) == VOID;
        let fitting: Vec<[u16; 2]> = self.seen.iter().copied().filter(void).collect();
        match self.rng.pick(&fitting) {
            Some([x, t]) => run(name(x), self.arguments(t, 2)),
            None => self.simple(),
        }
    }

    fn arguments(&mut self, t: u16, depth: usize) -> Vec<Tree> {
        let types = self.p.parameters(t).to_vec();
        types.into_iter().map(|t| self.value(t, depth - 1)).collect()
    }

    fn holds(&self, a: u16, b: u16) -> bool {
        let known = |t: u16| (t as usize) < self.below.len();
        known(a) && known(b) && self.below[a as usize][b as usize].holds
    }

    /// A value of a type: a name that fits, or made, or sometimes any value.
    fn value(&mut self, t: u16, depth: usize) -> Tree {
        if self.rng.chance(self.slips) {
            return self.slip();
        }
        let fits = |s: &[u16; 2]| self.holds(s[1], t) && (!self.constant || s[0] >= GLOBAL || s[0] < LOCAL);
        let fitting: Vec<[u16; 2]> = self.seen.iter().copied().filter(fits).collect();
        match self.rng.pick(&fitting) {
            Some([x, _]) if depth == 0 || self.rng.chance(60) => name(x),
            _ => self.made(t, depth),
        }
    }

    /// A value that seldom fits, or that is refused by itself.
    fn slip(&mut self) -> Tree {
        let any = self.seen[self.rng.below(self.seen.len())][0];
        match self.rng.below(8) {
            0 => name(UNBOUND),
            1 if !self.constant => unary(0, tru()),
            2 if !self.constant => binary(10, name(any), int(1)),
            3 => [int(1), tru(), text(1)][self.rng.below(3)].clone(),
            _ => name(any),
        }
    }

    /// A literal, a list, a call, or an equality.
    fn made(&mut self, t: u16, depth: usize) -> Tree {
        let deep = depth > 0;
        match self.kind(t) {
            0 => int(1),
            1 if deep && !self.constant => self.equality(depth - 1),
            1 => tru(),
            2 => text(1),
            4 if deep => self.record(t, depth - 1),
            5 => self.array(t, depth),
            7 if !deep || self.rng.chance(40) => null(t),
            7 => self.value(self.inside(t), depth - 1),
            _ => self.called(t, depth),
        }
    }

    fn equality(&mut self, depth: usize) -> Tree {
        let [x, t] = self.seen[self.rng.below(self.seen.len())];
        let other = if self.rng.chance(15) { self.value(t, depth) } else { name(x) };
        let sides = if self.rng.chance(50) { [name(x), other] } else { [other, name(x)] };
        let [a, b] = sides;
        binary(10 + self.rng.below(2) as u16, a, b)
    }

    fn record(&mut self, t: u16, depth: usize) -> Tree {
        let s = self.p.structs.iter().position(|s| s[0] == self.inside(t)).unwrap_or(0);
        let mut fields = self.p.fields_of(s).to_vec();
        self.rng.shuffle(&mut fields);
        record(t, fields.into_iter().map(|[x, t]| (x, self.value(t, depth))).collect())
    }

    fn array(&mut self, t: u16, depth: usize) -> Tree {
        let element = self.inside(t);
        if depth > 0 && !self.constant && self.rng.chance(20) {
            return fill(t, LOCAL + 30, int(1), self.value(element, depth - 1));
        }
        let count = if depth > 0 { 1 + self.rng.below(4) } else { 0 };
        list(t, (0..count).map(|_| self.value(element, depth.saturating_sub(1))).collect())
    }

    /// A call whose result fits, or any name.
    fn called(&mut self, t: u16, depth: usize) -> Tree {
        let gives = |s: &[u16; 2]| self.kind(s[1]) == 6 && self.holds(self.inside(s[1]), t);
        let fitting: Vec<[u16; 2]> = self.seen.iter().copied().filter(gives).collect();
        match self.rng.pick(&fitting) {
            Some([x, f]) if depth > 0 && !self.constant => call(name(x), self.arguments(f, depth)),
            _ => self.named(t),
        }
    }

    /// A name that fits if there is one.
    fn named(&mut self, t: u16) -> Tree {
        let usable: Vec<[u16; 2]> =
            self.seen.iter().copied().filter(|s| !self.constant || s[0] >= GLOBAL || s[0] < LOCAL).collect();
        let fitting: Vec<[u16; 2]> = usable.iter().copied().filter(|s| self.holds(s[1], t)).collect();
        let chosen = self.rng.pick(&fitting).or(self.rng.pick(&usable));
        chosen.map_or(int(1), |[x, _]| name(x))
    }
}
