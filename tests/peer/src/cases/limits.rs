//! Cases of document 02's request (xi): number 25, and 3 and 5 under limits;
//! with its request (v), zero bytes under limits.

use super::*;
use crate::Limits;
use crate::program::*;

/// A file, the limits it is checked under, and the answer.
pub struct LimitCase {
    pub name: &'static str,
    pub file: Vec<u8>,
    pub limits: Limits,
    pub answer: [u16; 3],
}

pub fn limits() -> Vec<LimitCase> {
    let mut cases = Vec::new();
    settings(&mut cases);
    typing_numbers(&mut cases);
    parts(&mut cases);
    written_types(&mut cases);
    least_settings(&mut cases);
    depths(&mut cases);
    orders(&mut cases);
    turned(&mut cases);
    nearly_empty(&mut cases);
    cases
}

type Cases = Vec<LimitCase>;

/// A file with its measures, told by hand, and its answer where the limits allow them.
#[derive(Clone)]
struct Measured {
    name: &'static str,
    file: Vec<u8>,
    parts: usize,
    depth: usize,
    answer: [u16; 3],
}

impl Measured {
    fn of(name: &'static str, p: &Program, [parts, depth]: [usize; 2], answer: [u16; 3]) -> Measured {
        Measured { name, file: p.bytes(), parts, depth, answer }
    }

    /// A file that has no measures of its own.
    fn bytes(name: &'static str, file: &[u8], number: u16) -> Measured {
        Measured { name, file: file.to_vec(), parts: 1, depth: 0, answer: [number, 0, 0] }
    }

    /// The answer under a setting: 25, 1 and 2, then 3, 4, 5, then the rest.
    fn answer(&self, parts: usize, depth: usize) -> [u16; 3] {
        match self.answer[0] {
            _ if parts == 0 || parts > 200 || depth == 0 || depth > 100 => [25, 0, 0],
            1 | 2 => self.answer,
            _ if parts < self.parts => [3, 0, 0],
            3 | 4 => self.answer,
            _ if depth < self.depth => [5, 0, 0],
            _ => self.answer,
        }
    }

    fn put(&self, cases: &mut Cases, parts: usize, depth: usize) {
        let (name, file, answer) = (self.name, self.file.clone(), self.answer(parts, depth));
        cases.push(LimitCase { name, file, limits: Limits { parts, depth }, answer });
    }

    /// One part fewer, as many, one more.
    fn put_parts(&self, cases: &mut Cases) {
        for parts in self.parts - 1..=self.parts + 1 {
            self.put(cases, parts, self.depth.max(1));
        }
    }

    /// One level fewer, as many, one more.
    fn put_depths(&self, cases: &mut Cases) {
        for depth in self.depth - 1..=self.depth + 1 {
            self.put(cases, self.parts, depth);
        }
    }
}

/// Parts and depths at and past the ends, and alike in their low bits.
const PARTS: [usize; 9] = [0, 1, 2, 199, 200, 201, 65_535, 65_536, 70_000];
const DEPTHS: [usize; 7] = [0, 1, 2, 99, 100, 101, 65_536 + 100];

/// Every pair of these, on broken files, files without nodes and with some.
fn settings(cases: &mut Cases) {
    for file in short_files() {
        for (parts, depth) in PARTS.iter().flat_map(|&parts| DEPTHS.map(|depth| (parts, depth))) {
            file.put(cases, parts, depth);
        }
    }
}

fn short_files() -> Vec<Measured> {
    let bytes = Measured::bytes;
    let four = Program::new();
    let mut broken_type = Program::new();
    broken_type.types[0][0] = 1;
    let mut broken_field = Program::new();
    broken_field.fields.push([1, VOID]);
    let function = |body| {
        let mut p = Program::new();
        let f = p.function(INT, &[]);
        p.with([func(F, f, &[], body)])
    };
    vec![
        bytes("zero bytes", &[], 0),
        bytes("one byte", &[4], 1),
        bytes("1: a byte cut off", &four.bytes()[..43], 1),
        bytes("1: a byte left over", &[four.bytes(), vec![0]].concat(), 1),
        bytes("2: types 513", &513u16.to_le_bytes(), 2),
        Measured::of("3: type 0 of kind 1", &broken_type, [1, 0], [3, 0, 0]),
        Measured::of("4: a field of type 3", &broken_field, [1, 0], [4, 0, 0]),
        Measured::of("5: kind 99", &four.clone().with([node(99, 0, 0, vec![])]), [1, 1], [5, 0, 0]),
        Measured::of("types 0 to 3 and nothing else", &four, [1, 0], [0, 0, 0]),
        Measured::of("the example", &four.clone().with([global(5, tru())]), [1, 2], [0, 1, 0]),
        Measured::of("a function", &function(vec![ret(int(1))]), [2, 4], [0, 2, 0]),
        Measured::of("8 in a global", &four.with([global(5, name(Y))]), [1, 2], [8, 0, 1]),
        Measured::of("8 in a function", &function(vec![ret(name(Y))]), [2, 4], [8, 1, 3]),
    ]
}

/// One file for each number from 7 to 16, at its measures, below either and at the widest.
fn typing_numbers(cases: &mut Cases) {
    for file in refused_files() {
        file.put(cases, file.parts, file.depth.max(1));
        file.put(cases, 200, 100);
        file.put(cases, file.parts - 1, 100);
        file.put(cases, 200, file.depth.max(1) - 1);
        file.put(cases, file.parts, 100);
        file.put(cases, 200, file.depth.max(1));
    }
}

fn refused_files() -> Vec<Measured> {
    let four = Program::new;
    let function = |result, body| {
        let mut p = Program::new();
        let f = p.function(result, &[]);
        p.array(STRING);
        p.with([func(F, f, &[], body)])
    };
    let mut doubled = Program::new();
    doubled.declare(1, &[]);
    doubled.declare(1, &[]);
    let mut unknown = Program::new();
    let q = unknown.struct_type(9);
    unknown.declare(1, &[[P, q]]);
    let mut none_named = Program::new();
    let a = none_named.struct_type(1);
    none_named.declare(1, &[[P, INT]]);
    let mut null_of_q = Program::new();
    let q = null_of_q.struct_type(9);
    let q_null = null_of_q.nullable(q);
    let of = Measured::of;
    vec![
        of("7 without nodes", &doubled, [1, 0], [7, 1, 1]),
        of("7 a global twice", &four().with([global(G, tru()), global(G, tru())]), [1, 2], [7, 1, 2]),
        of("8 a name unknown", &four().with([global(G, name(Y))]), [1, 2], [8, 0, 1]),
        of("9 without nodes", &unknown, [1, 0], [9, 1, 0]),
        of("9 Q null", &null_of_q.with([global(G, null(q_null))]), [2, 2], [9, 0, 1]),
        of("10 if(1)", &function(VOID, vec![when(int(1), vec![], vec![])]), [2, 4], [10, 1, 2]),
        of("11 return true for int", &function(INT, vec![ret(tru())]), [2, 4], [11, 1, 2]),
        of("12 a field not named", &none_named.with([global(G, record(a, vec![]))]), [1, 2], [12, 1, 1]),
        of("12 f(1), f takes none", &function(VOID, vec![run(name(F), vec![int(1)])]), [2, 4], [12, 1, 2]),
        of("13 return 1 in void", &function(VOID, vec![ret(int(1))]), [2, 4], [13, 1, 2]),
        of("14 an empty body", &function(VOID, vec![]), [2, 2], [14, 1, 0]),
        of("15 f = f", &function(VOID, vec![set(name(F), name(F))]), [2, 4], [15, 1, 2]),
        of("16 new string[3]", &function(VOID, vec![var(X, blank(5, int(3)))]), [2, 5], [16, 1, 3]),
    ]
}

/// A table whose last type is some arrays of arrays of int, one part more each.
fn arrays(count: usize) -> (Program, u16) {
    let mut p = Program::new();
    let t = (0..count).fold(INT, |t, _| p.array(t));
    (p, t)
}

/// Types of exactly k parts: used by no node, by a node, by a built-in, by a field.
fn parts(cases: &mut Cases) {
    for k in (2..=7).chain([199, 200, 201]) {
        let (p, t) = arrays(k - 1);
        used_or_not(cases, k, p, |p| p.with([global(G, list(t, vec![]))]));
        let (mut p, t) = arrays(k - 2);
        let t = p.nullable(if k == 2 { STRING } else { t });
        used_or_not(cases, k, p, |p| p.with([global(G, null(t))]));
        for (result, last) in [(INT, ret(int(1))), (VOID, done())] {
            let mut p = Program::new();
            let t = p.function(result, &vec![INT; k - 2]);
            let names: Vec<u16> = (100..100 + k as u16 - 2).collect();
            functions(cases, k, p, t, func(F, t, &names, vec![last]));
        }
    }
}

/// The last type is used by nothing, and by a global: one step.
fn used_or_not(cases: &mut Cases, k: usize, p: Program, used: impl Fn(Program) -> Program) {
    Measured::of("k parts, used by nothing", &p, [k, 0], [0, 0, 0]).put_parts(cases);
    Measured::of("k parts, used by a node", &used(p), [k, 2], [0, 1, 0]).put_parts(cases);
}

fn functions(cases: &mut Cases, k: usize, p: Program, t: u16, used: Tree) {
    let (depth, mut built_in, mut field) = (used.depth(), p.clone(), p.clone());
    Measured::of("a function of k parts, used by nothing", &p, [k, 0], [0, 0, 0]).put_parts(cases);
    Measured::of("a function of k parts, declared", &p.with([used]), [k, depth], [0, 2, 0]).put_parts(cases);
    built_in.builtins.push([H, t]);
    Measured::of("a function of k parts, built in", &built_in, [k, 0], [0, 1, 0]).put_parts(cases);
    field.declare(1, &[[P, t]]);
    Measured::of("a function of k parts, a field's", &field, [k, 0], [0, 2, 0]).put_parts(cases);
}

/// Tables with the parts of their largest type counted by hand.
fn written_types(cases: &mut Cases) {
    let mut table = |name, parts, make: &dyn Fn(&mut Program) -> u16| {
        let mut p = Program::new();
        make(&mut p);
        Measured::of(name, &p, [parts, 0], [0, 0, 0]).put_parts(cases);
    };
    table("A", 1, &|p| p.struct_type(1));
    table("A, B and A again", 1, &|p| [1, 2, 1].map(|name| p.struct_type(name))[2]);
    table("A?", 2, &|p| {
        let a = p.struct_type(1);
        p.nullable(a)
    });
    table("()->void: a void result is a part", 2, &|p| p.function(VOID, &[]));
    table("(A, A)->A", 4, &|p| {
        let a = p.struct_type(1);
        p.function(a, &[a, a])
    });
    table("(int[])->void", 4, &|p| {
        let ints = p.array(INT);
        p.function(VOID, &[ints])
    });
    table("((int)->int)?", 4, &|p| {
        let f = p.function(INT, &[INT]);
        p.nullable(f)
    });
    table("((int)->int)?[]", 5, &|p| {
        let f = p.function(INT, &[INT]);
        let f = p.nullable(f);
        p.array(f)
    });
    table("(()->int)->(()->int): twice is two", 5, &|p| {
        let f = p.function(INT, &[]);
        p.function(f, &[f])
    });
    table("(int[], int[])->int", 6, &|p| {
        let ints = p.array(INT);
        p.function(INT, &[ints, ints])
    });
    table("(string?, int[], bool)->string?", 8, &|p| {
        let (text, ints) = (p.nullable(STRING), p.array(INT));
        p.function(text, &[text, ints, BOOL])
    });
    table("the largest stands first", 4, &|p| {
        p.function(INT, &[INT, INT]);
        p.struct_type(1);
        p.array(INT)
    });
    table("the largest stands between", 5, &|p| {
        p.array(INT);
        p.function(INT, &[INT, INT, INT]);
        p.function(INT, &[INT])
    });
    for (doublings, parts) in [(3, 15), (6, 127), (7, 255)] {
        table("(T)->T of (T)->T", parts, &|p| (0..doublings).fold(INT, |t, _| p.function(t, &[t])));
    }
}

/// What parts 1 and depth 1 admit: types 0 to 3 and struct types, and no declaration.
fn least_settings(cases: &mut Cases) {
    let structs = || {
        let mut p = Program::new();
        let a = p.struct_type(1);
        p.struct_type(2);
        p.declare(1, &[[P, INT], [DRY, STRING]]);
        p.declare(2, &[[P, a], [DRY, BOOL]]);
        p
    };
    let inner = || record(4, vec![(DRY, text(1)), (P, int(1))]);
    let outer = record(5, vec![(P, inner()), (DRY, tru())]);
    let mut built_in = structs();
    let f = built_in.function(VOID, &[]);
    built_in.builtins.push([H, f]);
    let mut unused = structs();
    unused.array(INT);
    let files = [
        Measured::of("struct types alone", &structs(), [1, 0], [0, 4, 0]),
        Measured::of("struct types and a global", &structs().with([global(G, inner())]), [1, 4], [0, 5, 0]),
        Measured::of("struct types, one inside another", &structs().with([global(G, outer)]), [1, 6], [0, 5, 0]),
        Measured::of("struct types and a name of 8", &structs().with([global(G, name(Y))]), [1, 2], [8, 2, 1]),
        Measured::of("a built-in and no node", &built_in, [2, 0], [0, 5, 0]),
        Measured::of("an unused int[]", &unused, [2, 0], [0, 4, 0]),
        Measured::of("an unused int[] and a global", &unused.clone().with([global(G, inner())]), [2, 4], [0, 5, 0]),
    ];
    for file in files {
        for (parts, depth) in (1..=2).flat_map(|parts| (1..=7).map(move |depth| (parts, depth))) {
            file.put(cases, parts, depth);
        }
    }
}

/// Trees of exactly k levels.
fn depths(cases: &mut Cases) {
    let function = |body: Vec<Tree>| {
        let mut p = Program::new();
        let f = p.function(INT, &[]);
        p.with([func(F, f, &[], body)])
    };
    let wrap = |times: usize| (0..times).fold(int(0), |t, _| unary(0, t));
    for k in (4..=8).chain([99, 100, 101]) {
        let p = function(vec![ret(wrap(k - 4))]);
        Measured::of("k levels of operators", &p, [2, k], [0, 2, 0]).put_depths(cases);
        let p = function(vec![var(X, wrap(k - 4)), ret(int(1))]);
        Measured::of("k levels, not the last node", &p, [2, k], [0, 2, 0]).put_depths(cases);
        let first = p.with([global(G, tru())]);
        Measured::of("k levels in the first declaration", &first, [2, k], [0, 3, 0]).put_depths(cases);
    }
    for k in (2..=8).chain([99, 100, 101]) {
        let (p, t) = arrays(k - 1);
        let value = (5..=t).fold(list(4, vec![]), |inner, t| list(t, vec![inner]));
        let p = p.with([global(G, tru()), global(H, value)]);
        Measured::of("k levels of literals in a global", &p, [k, k], [0, 2, 0]).put_depths(cases);
    }
    for k in [4, 6, 8, 98, 100, 102] {
        let body = (0..k / 2 - 1).fold(vec![], |body, _| vec![during(tru(), body)]);
        let p = function([body, vec![ret(int(1))]].concat());
        Measured::of("k levels of blocks", &p, [2, k], [0, 2, 0]).put_depths(cases);
    }
    every_node_counts(cases);
}

/// Document 01's F20: 3, 22, 39 and 40 are levels too.
fn every_node_counts(cases: &mut Cases) {
    let mut p = Program::new();
    let a = p.struct_type(1);
    let to_void = p.function(VOID, &[]);
    let of_int = p.function(VOID, &[INT]);
    let ints = p.array(INT);
    p.declare(1, &[[P, INT]]);
    let body = |body| func(F, to_void, &[], body);
    let mut put = |name, parts, depth, answer, tree: Tree| {
        Measured::of(name, &p.clone().with([tree]), [parts, depth], answer).put_depths(cases);
    };
    put("a global", 3, 2, [0, 3, 0], global(G, tru()));
    put("an element", 3, 3, [0, 3, 0], global(G, list(ints, vec![int(1)])));
    put("a field initializer", 3, 4, [0, 3, 0], global(G, record(a, vec![(P, int(1))])));
    put("a body's block", 3, 2, [14, 3, 0], body(vec![]));
    put("a parameter and a block", 3, 2, [14, 3, 0], func(F, of_int, &[X], vec![]));
    put("a statement", 3, 3, [0, 4, 0], body(vec![done()]));
    put("an absent part", 3, 4, [0, 4, 0], body(vec![repeat(vec![], absent(), absent(), vec![]), done()]));
    put("a step", 3, 5, [0, 4, 0], body(vec![repeat(vec![], absent(), var(X, int(1)), vec![]), done()]));
    put("the arms of an if", 3, 5, [0, 4, 0], body(vec![when(tru(), vec![done()], vec![done()])]));
}

/// 3 before 4 before 5, whichever reads its limit.
fn orders(cases: &mut Cases) {
    let (types, t) = arrays(3);
    let value = (4..=t).fold(int(1), |inner, t| list(t, vec![inner]));
    let measured = |name, p: &Program, answer| Measured::of(name, p, [4, 5], answer);
    let whole = types.clone().with([global(G, value)]);
    let mut records = whole.clone();
    records.fields.push([1, INT]);
    let mut list_left = whole.clone();
    list_left.list.push(INT);
    let wrong_kind = whole.clone().with([node(99, 0, 0, vec![])]);
    let mut all = wrong_kind.clone();
    all.fields.push([1, VOID]);
    let left_over = Measured { file: [all.bytes(), vec![0]].concat(), ..measured("1 before all", &all, [1, 0, 0]) };
    let mut nodes = all.bytes();
    nodes.truncate(types.bytes().len() + 4 - 2);
    nodes.extend(4097u16.to_le_bytes());
    let many = Measured { file: nodes, ..measured("2 before all", &all, [2, 0, 0]) };
    let files = [
        measured("4 parts, depth 5", &whole, [0, 1, 0]),
        measured("4 parts, depth 5, records broken", &records, [4, 0, 0]),
        measured("4 parts, depth 5, a list left over", &list_left, [3, 0, 0]),
        measured("4 parts, depth 5, a node of kind 99", &wrong_kind, [5, 0, 0]),
        measured("4 parts, depth 5, records and a node broken", &all, [4, 0, 0]),
        left_over,
        many,
    ];
    for file in files {
        for (parts, depth) in [(3, 4), (3, 5), (4, 4), (4, 5), (1, 1), (200, 4), (3, 100), (200, 100), (0, 4), (4, 0)] {
            file.put(cases, parts, depth);
        }
    }
}

/// Files of more parts than levels and the other way, under settings turned round.
fn turned(cases: &mut Cases) {
    for (parts, depth) in [(3, 5), (5, 4), (3, 90), (90, 5), (12, 13), (13, 12), (100, 99), (99, 100), (150, 50)] {
        let mut p = Program::new();
        let large = p.function(INT, &vec![INT; parts - 2]);
        p.builtins.push([H, large]);
        let f = p.function(INT, &[]);
        for (last, answer) in [(int(1), [0, 3, 0]), (name(Y), [8, 2, depth as u16 + 1])] {
            let deep = (0..depth - 4).fold(int(0), |t, _| unary(0, t));
            let p = p.clone().with([func(F, f, &[], vec![var(X, deep), ret(last)])]);
            let file = Measured::of("settings turned round", &p, [parts, depth], answer);
            file.put(cases, parts, depth);
            file.put(cases, depth, parts);
            file.put(cases, parts.max(depth), parts.max(depth));
        }
    }
}

/// Zero bytes under more settings, and bytes 0, which are something else.
fn nearly_empty(cases: &mut Cases) {
    for (parts, depth) in [(1, 50), (3, 4), (37, 12), (100, 50), (150, 1), (200, 3), (100, 200), (0, 50), (37, 101)] {
        Measured::bytes("zero bytes", &[], 0).put(cases, parts, depth);
    }
    let files = [
        Measured::bytes("a byte 0", &[0], 1),
        Measured::bytes("two bytes 0", &[0; 2], 1),
        Measured::bytes("six zero counts", &[0; 12], 3),
        Measured::bytes("six zero counts and a byte", &[0; 13], 1),
    ];
    for file in files {
        for (parts, depth) in [(1, 1), (200, 100), (37, 12), (0, 1), (1, 0), (201, 100), (200, 101)] {
            file.put(cases, parts, depth);
        }
    }
}
