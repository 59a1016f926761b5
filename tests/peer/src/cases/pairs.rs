//! Cases of document 02's request (viii): how many pairs of types a subtype
//! question compared, and the sum of these counts for a check.
//!
//! Types are written as text. A count below 0 is that of a no.

use super::{Case, F, G, H, I, X, Y, Z};
use crate::program::*;
use std::collections::BTreeMap;

/// A readable file with its answer and its sum of pairs.
pub struct Summed {
    pub case: Case,
    pub pairs: u32,
}

/// A table of types with questions: two types, and their count.
pub struct Counted {
    pub name: &'static str,
    pub file: Vec<u8>,
    pub questions: Vec<([u16; 2], i32)>,
}

/// A program whose types are known by their text.
#[derive(Default)]
struct Table {
    p: Program,
    known: BTreeMap<String, u16>,
}

impl Table {
    fn new() -> Table {
        Table { p: Program::new(), ..Table::default() }
    }

    /// A{int, int}, B of these and one more, C of the first and the third of them,
    /// E without fields; S and T alike. K has 20 fields, L one more, M another last
    /// one than K. Q and R are declared nowhere.
    fn of_structs() -> Table {
        let mut table = Table::new();
        let twenty: Vec<(u16, &str)> = (1..=20).map(|x| (x, "int")).collect();
        table.declare('A', &[(1, "int"), (2, "int")]);
        table.declare('B', &[(1, "int"), (2, "int"), (3, "int")]);
        table.declare('C', &[(1, "int"), (3, "int")]);
        table.declare('E', &[]);
        table.declare('S', &[(1, "int[]")]);
        table.declare('T', &[(1, "int[]")]);
        table.declare('K', &twenty);
        table.declare('L', &[&twenty[..], &[(21, "A?")]].concat());
        table.declare('M', &[&twenty[..19], &[(20, "bool")]].concat());
        table
    }

    fn declare(&mut self, name: char, fields: &[(u16, &str)]) {
        let fields: Vec<[u16; 2]> = fields.iter().map(|&(x, t)| [x, self.ty(t)]).collect();
        self.p.declare(name as u16, &fields);
    }

    /// The number of a type: a struct is a letter. A type behind a `'` gets a new
    /// number, and so do its parts.
    fn ty(&mut self, text: &str) -> u16 {
        if let Some(again) = text.strip_prefix('\'') {
            let known = std::mem::take(&mut self.known);
            let t = self.ty(again);
            self.known = known;
            return t;
        }
        if let Some(&t) = self.known.get(text) {
            return t;
        }
        let t = self.made(text);
        self.known.insert(text.to_string(), t);
        t
    }

    fn made(&mut self, text: &str) -> u16 {
        if let Some((parameters, result)) = as_function(text) {
            let parameters: Vec<u16> = listed(parameters).into_iter().map(|p| self.ty(p)).collect();
            let result = self.ty(result);
            return self.p.function(result, &parameters);
        }
        if let Some(element) = text.strip_suffix("[]") {
            let element = self.ty(element);
            return self.p.array(element);
        }
        if let Some(inside) = text.strip_suffix('?') {
            let inside = self.ty(inside);
            return self.p.nullable(inside);
        }
        match text {
            "int" => 0,
            "bool" => 1,
            "string" => 2,
            "void" => 3,
            _ if text.starts_with('(') => self.ty(&text[1..text.len() - 1]),
            _ => self.p.struct_type(text.as_bytes()[0].into()),
        }
    }

    /// With a function of named parameters. Its parameters follow its node, then
    /// comes its block: of n parameters the first statement is node n + 2 of it.
    fn func(mut self, x: u16, parameters: &[(u16, &str)], result: &str, body: Vec<Tree>) -> Table {
        let types: Vec<&str> = parameters.iter().map(|p| p.1).collect();
        let t = self.ty(&format!("({})->{result}", types.join(",")));
        let names: Vec<u16> = parameters.iter().map(|p| p.0).collect();
        self.with(func(x, t, &names, body))
    }

    fn with(mut self, declaration: Tree) -> Table {
        self.p.declarations.push(declaration);
        self
    }
}

/// The parameters and the result of a function's text.
fn as_function(text: &str) -> Option<(&str, &str)> {
    let mut open = 0;
    for (i, c) in text.char_indices() {
        match c {
            '(' => open += 1,
            ')' => open -= 1,
            _ => {}
        }
        if open == 0 {
            return Some((text.get(1..i)?, text[i + 1..].strip_prefix("->")?));
        }
    }
    None
}

/// The types between the outermost commas.
fn listed(text: &str) -> Vec<&str> {
    let (mut open, mut from, mut parts) = (0, 0, Vec::new());
    for (i, c) in text.char_indices() {
        match c {
            '(' => open += 1,
            ')' => open -= 1,
            ',' if open == 0 => {
                parts.push(&text[from..i]);
                from = i + 1;
            }
            _ => {}
        }
    }
    if !text.is_empty() {
        parts.push(&text[from..]);
    }
    parts
}

/// Tables of types with the counts of questions.
pub fn counted() -> Vec<Counted> {
    let mut tables = vec![kinds()];
    structs(&mut tables);
    nullables(&mut tables);
    nullables_of_large(&mut tables);
    arrays(&mut tables);
    arrays_of_functions(&mut tables);
    arrays_within_functions(&mut tables);
    functions(&mut tables);
    turning(&mut tables);
    undeclared(&mut tables);
    bounds(&mut tables);
    large(&mut tables);
    deep(&mut tables);
    tables
}

fn asked(mut table: Table, name: &'static str, questions: &[(&str, &str, i32)]) -> Counted {
    let questions = questions.iter().map(|&(a, b, count)| ([table.ty(a), table.ty(b)], count)).collect();
    Counted { name, file: table.p.bytes(), questions }
}

fn put(tables: &mut Vec<Counted>, name: &'static str, questions: &[(&str, &str, i32)]) {
    tables.push(asked(Table::of_structs(), name, questions));
}

/// Every kind against every kind.
fn kinds() -> Counted {
    let types = ["int", "bool", "string", "void", "A", "int[]", "()->void", "string?", "A?", "int[]?", "(()->void)?"];
    let counts = [
        [1, -1, -1, -1, -1, -1, -1, -1, -1, -1, -1],
        [-1, 1, -1, -1, -1, -1, -1, -1, -1, -1, -1],
        [-1, -1, 1, -1, -1, -1, -1, 2, -2, -2, -2],
        [-1, -1, -1, 1, -1, -1, -1, -1, -1, -1, -1],
        [-1, -1, -1, -1, 1, -1, -1, -2, 2, -2, -2],
        [-1, -1, -1, -1, -1, 2, -1, -2, -2, 3, -2],
        [-1, -1, -1, -1, -1, -1, 2, -2, -2, -2, 3],
        [-1, -1, -1, -1, -1, -1, -1, 2, -2, -2, -2],
        [-1, -1, -1, -1, -1, -1, -1, -2, 2, -2, -2],
        [-1, -1, -1, -1, -1, -1, -1, -2, -2, 3, -2],
        [-1, -1, -1, -1, -1, -1, -1, -2, -2, -2, 3],
    ];
    let mut questions = Vec::new();
    for (a, row) in types.into_iter().zip(counts) {
        questions.extend(types.into_iter().zip(row).map(|(b, count)| (a, b, count)));
    }
    asked(Table::of_structs(), "every kind against every kind", &questions)
}

/// A pair of structs counts 1, whatever their fields, declared or not.
fn structs(tables: &mut Vec<Counted>) {
    put(
        tables,
        "structs",
        &[
            ("A", "A", 1),
            ("A", "'A", 1),
            ("B", "A", 1),
            ("A", "B", -1),
            ("C", "A", -1),
            ("E", "E", 1),
            ("B", "E", 1),
            ("E", "B", -1),
            ("S", "T", 1),
            ("T", "S", 1),
            ("K", "K", 1),
            ("L", "K", 1),
            ("K", "L", -1),
            ("M", "K", -1),
            ("Q", "Q", -1),
            ("Q", "R", -1),
            ("A", "Q", -1),
            ("Q", "A", -1),
        ],
    );
}

/// A reference against a nullable goes on; int, bool and void fail at once.
fn nullables(tables: &mut Vec<Counted>) {
    put(
        tables,
        "nullables",
        &[
            ("string", "string?", 2),
            ("string?", "string?", 2),
            ("string?", "string", -1),
            ("A", "A?", 2),
            ("B", "A?", 2),
            ("A", "B?", -2),
            ("B?", "A?", 2),
            ("A?", "B?", -2),
            ("A?", "A", -1),
            ("A?", "B", -1),
            ("Q", "Q?", -2),
            ("Q?", "Q?", -2),
            ("Q?", "Q", -1),
            ("A?", "Q?", -2),
            ("void", "A?", -1),
        ],
    );
}

fn nullables_of_large(tables: &mut Vec<Counted>) {
    put(
        tables,
        "nullables of arrays and functions",
        &[
            ("int[]?", "int[]?", 3),
            ("int[]", "int[]?", 3),
            ("int[]?", "int[]", -1),
            ("int[]", "bool[]?", -3),
            ("int[]?", "bool[]?", -3),
            ("B[]", "A[]?", -3),
            ("Q[]", "Q[]?", 3),
            ("string?[]?", "string?[]?", 4),
            ("string[]", "string?[]?", -3),
            ("()->int", "(()->int)?", 3),
            ("(()->int)?", "(()->int)?", 3),
            ("(()->int)?", "()->int", -1),
            ("()->int", "(()->bool)?", -3),
            ("((int)->void)?", "((int)->void)?", 4),
            ("(int)->void", "(()->void)?", -2),
            ("int", "int[]?", -1),
            ("bool", "(()->int)?", -1),
            ("void", "int[]?", -1),
        ],
    );
}

/// The equality test of elements: structs by name, all the way down.
fn arrays(tables: &mut Vec<Counted>) {
    put(
        tables,
        "arrays",
        &[
            ("int[]", "int[]", 2),
            ("int[]", "'int[]", 2),
            ("int[]", "bool[]", -2),
            ("int[][]", "int[][]", 3),
            ("int[][]", "int[]", -2),
            ("int[]", "int[][]", -2),
            ("int[][][]", "int[][][]", 4),
            ("int[][][]", "bool[][][]", -4),
            ("int[][][]", "int[][]", -3),
            ("A[]", "A[]", 2),
            ("A[]", "'A[]", 2),
            ("B[]", "A[]", -2),
            ("S[]", "T[]", -2),
            ("Q[]", "Q[]", 2),
            ("Q[]", "R[]", -2),
            ("A?[]", "A?[]", 3),
            ("A[]", "A?[]", -2),
            ("A?[]", "A[]", -2),
            ("B?[]", "A?[]", -3),
            ("string[]", "string?[]", -2),
            ("A[]?[]", "A[]?[]", 4),
            ("A[]?[]", "B[]?[]", -4),
            ("Q[]?[]", "Q[]?[]", 4),
        ],
    );
}

fn arrays_of_functions(tables: &mut Vec<Counted>) {
    put(
        tables,
        "arrays of functions",
        &[
            ("(()->int)[]", "(()->int)[]", 3),
            ("(()->int)[]", "(()->bool)[]", -3),
            ("(()->void)[]", "(()->int)[]", -3),
            ("((int)->int)[]", "((int)->int)[]", 4),
            ("((int)->int)[]", "((bool)->int)[]", -3),
            ("((int)->int)[]", "((int)->bool)[]", -4),
            ("((int)->int)[]", "((bool)->bool)[]", -3),
            ("((int)->int)[]", "((int,int)->int)[]", -2),
            ("((int)->int)[]", "((bool,int)->int)[]", -2),
            ("((A)->B)[]", "((B)->A)[]", -3),
            ("((A)->B)[]", "((A)->A)[]", -4),
            ("((Q)->R)[]", "((Q)->R)[]", 4),
            ("((Q)->R)[]", "((Q)->Q)[]", -4),
            ("((int,bool,string)->void)[]", "((int,bool,string)->void)[]", 6),
            ("((int,bool,string)->void)[]", "((bool,bool,string)->void)[]", -3),
            ("((int,bool,string)->void)[]", "((int,bool,A)->void)[]", -5),
            ("((int,bool,string)->void)[]", "((int,bool,A)->int)[]", -5),
            ("((int,bool,string)->void)[]", "((bool,bool,A)->int)[]", -3),
            ("((int,bool,string)->void)[]", "((int,bool)->void)[]", -2),
            ("((int[][])->A?)[]", "((int[][])->A?)[]", 7),
            ("((int[][])->A?)[]", "((int[][])->B?)[]", -7),
            ("((int[][])->A?)[]", "((bool[][])->A?)[]", -5),
            ("(((int)->int)->int)[]", "(((int)->int)->int)[]", 6),
            ("(((int)->int)->int)[]", "(((int)->bool)->int)[]", -5),
            ("(((int)->int)->int)[]", "(((int,int)->int)->int)[]", -3),
            ("((string?)->void)[]", "((string)->void)[]", -3),
        ],
    );
}

/// Equality tests inside of a subtype question.
fn arrays_within_functions(tables: &mut Vec<Counted>) {
    let taking = "(((int,bool)->A)[])->void";
    let giving = "(A)->((int,bool)->A)?[]";
    put(
        tables,
        "arrays of functions within functions",
        &[
            (taking, taking, 7),
            (taking, "(((bool,bool)->A)[])->void", -4),
            (taking, "(((int,int)->A)[])->void", -5),
            (taking, "(((int,bool)->B)[])->void", -6),
            (taking, "(((int,bool)->A)[])->int", -7),
            (taking, "(((int)->A)[])->void", -3),
            (taking, "(((bool,int)->B)[])->int", -4),
            (giving, giving, 8),
            (giving, "(B)->((int,bool)->A)?[]", 8),
            (giving, "(A)->((bool,int)->A)?[]", -6),
            (giving, "(A)->((int,bool)->A)[]", -4),
            (giving, "(A)->((int,bool)->Q)?[]", -8),
        ],
    );
}

/// Numbers of parameters, then parameters in order, then return types.
fn functions(tables: &mut Vec<Counted>) {
    put(
        tables,
        "functions",
        &[
            ("()->void", "()->void", 2),
            ("()->void", "()->int", -2),
            ("()->int", "()->void", -2),
            ("()->int", "()->bool", -2),
            ("()->int", "(int)->int", -1),
            ("(int)->int", "()->int", -1),
            ("(int,int)->int", "(int)->int", -1),
            ("(int)->int", "(bool,int)->bool", -1),
            ("(int)->int", "(int)->int", 3),
            ("(int)->int", "'(int)->int", 3),
            ("(int)->int", "(bool)->int", -2),
            ("(int)->int", "(int)->bool", -3),
            ("(int)->int", "(bool)->bool", -2),
            ("(int)->void", "(int)->void", 3),
            ("(int)->void", "(int)->int", -3),
            ("(int)->void", "(bool)->int", -2),
            ("(int,bool,string)->void", "(int,bool,string)->void", 5),
            ("(int,bool,string)->void", "(bool,bool,string)->void", -2),
            ("(int,bool,string)->void", "(int,int,string)->void", -3),
            ("(int,bool,string)->void", "(int,bool,int)->void", -4),
            ("(int,bool,string)->void", "(int,bool,string)->int", -5),
            ("(int,bool,string)->void", "(bool,int,int)->int", -2),
            ("(int)->(int)->int", "(int)->(int)->int", 5),
            ("(int)->(int)->int", "(int)->(int)->bool", -5),
            ("(int)->(int)->int", "(int)->(int,int)->int", -3),
            ("(int[],A?)->string?[]", "(int[],A?)->string?[]", 8),
            ("(int[],A?)->string?[]", "(int[],A?)->string[]", -7),
        ],
    );
}

/// Parameters turn round, and those of parameters turn back.
fn turning(tables: &mut Vec<Counted>) {
    put(
        tables,
        "parameters turn round",
        &[
            ("(A)->B", "(B)->A", 3),
            ("(B)->A", "(A)->B", -2),
            ("(int,A)->string", "(int,B)->A", -4),
            ("(int,B)->string", "(int,A)->string", -3),
            ("(string?)->void", "(string)->void", 4),
            ("(string)->void", "(string?)->void", -2),
            ("()->string", "()->string?", 3),
            ("()->string?", "()->string", -2),
            ("(string?)->string", "(string)->string?", 5),
            ("(string)->string?", "(string?)->string", -2),
            ("(string?)->void", "(int)->void", -2),
            ("(int)->void", "(string?)->void", -2),
            ("()->int", "()->string?", -2),
            ("(int[]?)->void", "(int[])->void", 5),
            ("(int[])->void", "(int[]?)->void", -2),
            ("((string)->void)->void", "((string?)->void)->void", 6),
            ("((string?)->void)->void", "((string)->void)->void", -3),
            ("(((string?)->void)->void)->void", "(((string)->void)->void)->void", 8),
            ("(((string)->void)->void)->void", "(((string?)->void)->void)->void", -4),
            ("()->(A)->B", "()->(B)->A", 4),
            ("()->(B)->A", "()->(A)->B", -3),
            ("(()->A)->()->B", "(()->B)->()->A", 5),
            ("(()->B)->()->A", "(()->A)->()->B", -3),
            ("((A?)->B)?", "((A)->B?)?", 6),
            ("((A)->B)?", "((A?)->B)?", -3),
            ("((A?)->B,int)->A[]", "((A)->B?,int)->A[]", -3),
            ("((A)->B?,int)->A[]", "((A?)->B,int)->A[]", 9),
        ],
    );
}

/// A type with an undeclared struct against itself stops there, if not in an array.
fn undeclared(tables: &mut Vec<Counted>) {
    put(
        tables,
        "undeclared structs",
        &[
            ("Q", "Q", -1),
            ("Q?", "Q?", -2),
            ("(Q)->void", "(Q)->void", -2),
            ("()->Q", "()->Q", -2),
            ("(int)->Q", "(int)->Q", -3),
            ("(int,Q,int)->void", "(int,Q,int)->void", -3),
            ("(int,Q?,int)->void", "(int,Q?,int)->void", -4),
            ("(int,(A)->Q)->A", "(int,(A)->Q)->A", -5),
            ("(Q[])->Q[]", "(Q[])->Q[]", 5),
            ("(Q[],A)->B", "(Q[],A)->B", 5),
            ("((Q)->void)[]", "((Q)->void)[]", 4),
            ("(Q?[])->R[]", "(Q?[])->R[]", 6),
            ("(Q[])->Q", "(Q[])->Q", -4),
        ],
    );
}

/// The count is L + R - 1: of two types of one part, and of such a reference
/// against the nullable of one.
fn bounds(tables: &mut Vec<Counted>) {
    put(
        tables,
        "as many as L + R - 1",
        &[
            ("int", "int", 1),
            ("int", "bool", -1),
            ("void", "void", 1),
            ("A", "B", -1),
            ("Q", "Q", -1),
            ("string", "A", -1),
            ("string", "string?", 2),
            ("string", "A?", -2),
            ("string", "Q?", -2),
            ("A", "A?", 2),
            ("B", "A?", 2),
            ("A", "B?", -2),
            ("A", "string?", -2),
            ("Q", "Q?", -2),
        ],
    );
}

fn times(part: &str, count: usize) -> String {
    vec![part; count].join(",")
}

/// Two types of 199 parts with n = 65: one takes a function of n strings and n
/// nullables, the other one of n nullables and n strings. 1 for the pair, 1 + 2 n
/// + 1 for the functions they take, 2 n for the others, and what they return.
fn widest(result: &str) -> [String; 2] {
    let (plain, null) = (times("string", 65), times("string?", 65));
    [format!("(({plain})->void,{null})->{result}"), format!("(({null})->void,{plain})->{result}")]
}

const WIDEST: i32 = 264;

fn large(tables: &mut Vec<Counted>) {
    let ints = |count: usize, last: &str, result: &str| format!("({},{last})->{result}", times("int", count - 1));
    let full = &ints(198, "int", "int")[..];
    let (again, fewer) = (format!("'{full}"), ints(197, "int", "int"));
    let (last, result) = (ints(198, "bool", "int"), ints(198, "int", "bool"));
    let (first, array) = (format!("(bool,{})->int", times("int", 197)), format!("({fewer})[]"));
    put(
        tables,
        "200 parts, 198 parameters",
        &[(full, full, 200), (full, &again, 200), (full, &last, -199), (full, &result, -200)],
    );
    put(
        tables,
        "200 parts, 197 parameters",
        &[(full, full, 200), (full, &first, -2), (full, &fewer, -1), (&array, &array, 200)],
    );
    let strings = &format!("({})->void", times("string", 198))[..];
    let nulls = &format!("({})->void", times("string?", 99))[..];
    let fewer = &format!("({})->void", times("string", 99))[..];
    put(
        tables,
        "200 parts, nullables",
        &[(strings, strings, 200), (nulls, nulls, 200), (nulls, fewer, 200), (fewer, nulls, -2)],
    );
    let mut put_widest = |name, [result, other]: [&str; 2], count: i32, own: i32| {
        let ([a, _], [b, c]) = (widest(result), widest(other));
        put(tables, name, &[(&a, &c, count), (&c, &a, -3), (&a, &a, own), (&a, &b, count.signum() * 199)]);
    };
    put_widest("199 parts, more than 255 pairs", ["void", "void"], WIDEST, 199);
    put_widest("199 parts, more than 255 pairs, the last fails", ["void", "int"], -WIDEST, 199);
    put_widest("199 parts, more than 255 pairs, structs", ["B", "A"], WIDEST, 199);
    put_widest("199 parts, more than 255 pairs, an undeclared struct", ["Q", "Q"], -WIDEST, -199);
}

/// Functions of functions of functions: the direction turns 98 times.
fn deep(tables: &mut Vec<Counted>) {
    let nested = |inner: &str| (0..98).fold(inner.to_string(), |inside, _| format!("({inside})->void"));
    let [plain, null] = [nested("(string)->void"), nested("(string?)->void")];
    let questions: [(&str, &str, i32); 4] =
        [(&null, &plain, 200), (&plain, &null, -100), (&plain, &plain, 199), (&null, &null, 200)];
    tables.push(asked(Table::new(), "98 functions within each other", &questions));
}

/// Programs with their sums.
pub fn summed() -> Vec<Summed> {
    let mut cases = Vec::new();
    single_places(&mut cases);
    array_places(&mut cases);
    literal_places(&mut cases);
    call_places(&mut cases);
    equality_places(&mut cases);
    null_places(&mut cases);
    refused_children(&mut cases);
    refused_calls(&mut cases);
    refused_fields(&mut cases);
    inner_lists(&mut cases);
    first_failing(&mut cases);
    orders(&mut cases);
    children(&mut cases);
    blocks(&mut cases);
    no_questions(&mut cases);
    later_refusals(&mut cases);
    late_orders(&mut cases);
    steps(&mut cases);
    steps_refused(&mut cases);
    struct_steps(&mut cases);
    undeclared_types(&mut cases);
    large_sums(&mut cases);
    cases
}

type Cases = Vec<Summed>;

fn sum(cases: &mut Cases, answer: [u16; 3], pairs: u32, name: &'static str, table: Table) {
    cases.push(Summed { case: Case { name, file: table.p.bytes(), answer }, pairs });
}

/// LOW is below HIGH: 4 pairs. HIGH is not below LOW: 2 pairs. LOW has 4 parts,
/// HIGH 3.
const LOW: &str = "(string?)->void";
const HIGH: &str = "(string)->void";

/// `f` is the only function, void: x is a LOW and z a HIGH, its block is node 3,
/// its first statement 4, its step 1. A return stands behind the body.
fn low_high(table: Table, body: Vec<Tree>) -> Table {
    table.func(F, &[(X, LOW), (Z, HIGH)], "void", [body, vec![done()]].concat())
}

fn passes(cases: &mut Cases, pairs: u32, name: &'static str, table: Table, body: Vec<Tree>) {
    sum(cases, [0, 2, 0], pairs, name, low_high(table, body));
}

fn refused(
    cases: &mut Cases,
    [number, place]: [u16; 2],
    pairs: u32,
    name: &'static str,
    table: Table,
    body: Vec<Tree>,
) {
    sum(cases, [number, 1, place], pairs, name, low_high(table, body));
}

/// A table with some types, and their numbers.
fn knowing<const N: usize>(texts: [&str; N]) -> (Table, [u16; N]) {
    let mut table = Table::new();
    let numbers = texts.map(|text| table.ty(text));
    (table, numbers)
}

/// 4 pairs.
fn four() -> Tree {
    set(name(Z), name(X))
}

fn x() -> Tree {
    name(X)
}

fn z() -> Tree {
    name(Z)
}

const K: u16 = 30;
const W: u16 = 31;

/// Assignments and returned values.
fn single_places(cases: &mut Cases) {
    passes(cases, 4, "assignment", Table::new(), vec![four()]);
    passes(cases, 7, "assignments of equal types", Table::new(), vec![set(x(), x()), set(z(), z())]);
    refused(cases, [11, 4], 2, "assignment refused", Table::new(), vec![set(x(), z())]);
    refused(cases, [11, 7], 6, "second assignment refused", Table::new(), vec![four(), set(x(), z())]);
    let returns = |low: &str, high: &str| Table::new().func(F, &[(X, low)], high, vec![ret(x())]);
    sum(cases, [0, 2, 0], 4, "returned value", returns(LOW, HIGH));
    sum(cases, [11, 1, 3], 2, "returned value refused", returns(HIGH, LOW));
    sum(cases, [0, 2, 0], 1, "returned int", returns("int", "int"));
    sum(cases, [11, 1, 3], 1, "returned int for a nullable", returns("int", "string?"));
    sum(cases, [0, 2, 0], 2, "returned string for a nullable", returns("string", "string?"));
    sum(cases, [11, 1, 3], 1, "returned nullable for a string", returns("string?", "string"));
    sum(cases, [11, 1, 3], 3, "returned array", returns("int[][]", "bool[][]"));
    sum(cases, [11, 1, 3], 1, "fewer parameters", returns("(int)->int", "()->int"));
}

/// Elements, and the value of an array with initializer.
fn array_places(cases: &mut Cases) {
    let (lows, highs) = (format!("({LOW})[]"), format!("({HIGH})[]"));
    let both = || knowing([&lows[..], &highs[..]]);
    let (table, [_, highs]) = both();
    passes(cases, 7, "elements", table, vec![var(W, list(highs, vec![x(), z()]))]);
    let (table, [_, highs]) = both();
    passes(cases, 0, "no elements", table, vec![var(W, list(highs, vec![]))]);
    let (table, [lows, _]) = both();
    refused(cases, [11, 5], 6, "second element refused", table, vec![var(W, list(lows, vec![x(), z()]))]);
    let (table, [lows, _]) = both();
    refused(cases, [11, 5], 2, "first element refused", table, vec![var(W, list(lows, vec![z(), x(), x()]))]);
    let (table, [_, highs]) = both();
    passes(cases, 4, "value of an initializer", table, vec![var(W, fill(highs, I, int(3), x()))]);
    let (table, [lows, _]) = both();
    refused(cases, [11, 5], 2, "value of an initializer refused", table, vec![var(W, fill(lows, I, int(3), z()))]);
    let (table, [ints]) = knowing(["int[]"]);
    passes(cases, 1, "the index as value", table, vec![var(W, fill(ints, I, int(3), name(I)))]);
    let (table, [bools]) = knowing(["bool[]"]);
    refused(cases, [11, 5], 1, "the index as value refused", table, vec![var(W, fill(bools, I, int(3), name(I)))]);
    let (table, [nulls]) = knowing(["string?[]"]);
    let texts = list(nulls, vec![text(1), null(nulls - 1), text(2)]);
    passes(cases, 6, "strings for nullables", table, vec![var(W, texts)]);
}

/// A struct D{1: HIGH, 2: int}: its name's step is 0, `f` 1, its fields' 2, the
/// body's 3 of 4.
fn with_d() -> (Table, u16) {
    let mut table = Table::new();
    table.declare('D', &[(1, HIGH), (2, "int")]);
    let d = table.ty("D");
    (table, d)
}

/// Field initializers, which are asked in the order of the literal.
fn literal_places(cases: &mut Cases) {
    let mut put = |answer, pairs, name, values: Vec<(u16, Tree)>| {
        let (table, d) = with_d();
        sum(cases, answer, pairs, name, low_high(table, vec![var(W, record(d, values))]));
    };
    put([0, 4, 0], 5, "field initializers", vec![(1, x()), (2, int(1))]);
    put([0, 4, 0], 5, "field initializers in another order", vec![(2, int(1)), (1, x())]);
    put([0, 4, 0], 4, "field initializers of equal types", vec![(1, z()), (2, int(1))]);
    put([11, 3, 5], 1, "first initializer refused", vec![(1, int(1)), (2, int(1))]);
    put([11, 3, 5], 5, "second initializer refused", vec![(1, x()), (2, tru())]);
    put([11, 3, 5], 1, "second field's initializer refused first", vec![(2, tru()), (1, x())]);
    put([11, 3, 5], 2, "first field's initializer refused last", vec![(2, int(1)), (1, int(1))]);
    put([11, 3, 5], 1, "both initializers refused", vec![(1, tru()), (2, tru())]);
    put([12, 3, 5], 0, "names of initializers refused", vec![(1, x()), (1, x())]);
    put([8, 3, 9], 0, "an initializer unknown", vec![(1, int(1)), (2, name(Y))]);
}

/// Arguments of calls and of call statements. k takes a HIGH and an int.
fn call_places(cases: &mut Cases) {
    let with_k = |result: &str, body: Vec<Tree>| {
        let k = format!("({HIGH},int)->{result}");
        let parameters: [(u16, &str); 3] = [(X, LOW), (Z, HIGH), (K, &k)];
        Table::new().func(F, &parameters, "void", [body, vec![done()]].concat())
    };
    let mut put = |answer: [u16; 3], pairs, names: [&'static str; 2], arguments: Vec<Tree>| {
        let [number, step, place] = answer;
        let inner = if number == 0 { answer } else { [number, step, place + 1] };
        sum(cases, inner, pairs, names[0], with_k("int", vec![var(W, call(name(K), arguments.clone()))]));
        sum(cases, answer, pairs, names[1], with_k("void", vec![run(name(K), arguments)]));
    };
    put([0, 2, 0], 5, ["arguments", "arguments of a statement"], vec![x(), int(1)]);
    put([0, 2, 0], 4, ["equal arguments", "equal arguments of a statement"], vec![z(), int(1)]);
    put([11, 1, 5], 1, ["first argument refused", "first argument of a statement refused"], vec![tru(), tru()]);
    put([11, 1, 5], 5, ["second argument refused", "second argument of a statement refused"], vec![x(), tru()]);
    put([8, 1, 8], 0, ["an argument unknown", "an argument of a statement unknown"], vec![tru(), name(Y)]);
    put([12, 1, 5], 0, ["too few arguments", "too few arguments of a statement"], vec![x()]);
    sum(cases, [13, 1, 6], 0, "a call of void as a value", with_k("void", vec![var(W, call(name(K), vec![x()]))]));
    sum(cases, [13, 1, 5], 0, "a call of a value as a statement", with_k("int", vec![run(name(K), vec![x()])]));
}

/// Both directions, the second if the first holds.
fn equality_places(cases: &mut Cases) {
    for (sign, names) in [
        (10, ["x == x", "z == z", "x == z", "z == x", "1 == 1", "1 == true", "(x == x) == (z == z)", "1 == (x == x)"]),
        (11, ["x != x", "z != z", "x != z", "z != x", "1 != 1", "1 != true", "(x != x) != (z != z)", "1 != (x != x)"]),
    ] {
        let mut put = |number: u16, pairs, name, a, b| {
            let answer = if number == 0 { [0, 2, 0] } else { [number, 1, 5] };
            sum(cases, answer, pairs, name, low_high(Table::new(), vec![var(W, binary(sign, a, b))]));
        };
        let same = |tree: fn() -> Tree| binary(sign, tree(), tree());
        put(0, 8, names[0], x(), x());
        put(0, 6, names[1], z(), z());
        put(11, 6, names[2], x(), z());
        put(11, 2, names[3], z(), x());
        put(0, 2, names[4], int(1), int(1));
        put(11, 1, names[5], int(1), tru());
        put(0, 16, names[6], same(x), same(z));
        put(11, 9, names[7], int(1), same(x));
    }
    let texts = |a, b| Table::new().func(F, &[(X, a), (Z, b)], "bool", vec![ret(binary(10, x(), z()))]);
    sum(cases, [11, 1, 5], 1, "string? == string", texts("string?", "string"));
    sum(cases, [11, 1, 5], 3, "string == string?", texts("string", "string?"));
    sum(cases, [0, 2, 0], 5, "string? == string?", texts("string?", "string?"));
    sum(cases, [0, 2, 0], 7, "int[][] == int[][]", texts("int[][]", "int[][]"));
    sum(cases, [11, 1, 5], 3, "int[][] == bool[][]", texts("int[][]", "bool[][]"));
}

/// `if?`: what the nullable refers to against t.
fn null_places(cases: &mut Cases) {
    let mut put = |number: u16, pairs, name: &'static str, nullable: &str, t: &str| {
        let mut table = Table::new();
        let t = table.ty(t);
        let body = vec![when_null(W, t, x(), vec![], vec![]), done()];
        let answer = if number == 0 { [0, 2, 0] } else { [number, 1, 3] };
        sum(cases, answer, pairs, name, table.func(F, &[(X, nullable)], "void", body));
    };
    put(0, 4, "if? with a function", &format!("({LOW})?"), HIGH);
    put(11, 2, "if? with a function refused", &format!("({HIGH})?"), LOW);
    put(0, 1, "if? with a string", "string?", "string");
    put(0, 3, "if? with an array", "int[][]?", "int[][]");
    put(11, 3, "if? with an array refused", "int[][]?", "bool[][]");
    put(11, 1, "if? with another kind", "string?", "int[]");
    put(11, 2, "if? with an array of an undeclared struct", "int[]?", "Q[]");
    put(10, 0, "if? without a nullable", "string", "string");
}

/// 8, 9, 10, 11, 12, 13 and 16 of a later child: none of the list's own pairs.
fn refused_children(cases: &mut Cases) {
    let mut put = |number: u16, place: u16, pairs, name: &'static str, later: fn(&mut Table) -> Tree| {
        let (mut table, [nested, ints]) = knowing(["int[][]", "int[]"]);
        let later = later(&mut table);
        let elements = vec![list(ints, vec![int(1), int(2)]), tru(), later];
        refused(cases, [number, place], pairs, name, table, vec![four(), var(W, list(nested, elements))]);
    };
    put(8, 13, 6, "8 behind an element that is no subtype", |_| name(Y));
    put(9, 13, 6, "9 behind an element that is no subtype", |table| null(table.ty("Q?")));
    put(10, 13, 6, "10 behind an element that is no subtype", |_| unary(0, tru()));
    put(11, 13, 7, "11 behind an element that is no subtype", |_| binary(10, int(1), tru()));
    put(12, 13, 6, "12 behind an element that is no subtype", too_few);
    put(16, 13, 6, "16 behind an element that is no subtype", |table| blank(table.ty("string[]"), int(1)));
    put(13, 13, 6, "13 behind an element that is no subtype", |_| call(x(), vec![text(1)]));
    put(11, 13, 8, "11 of an inner list", |table| list(table.ty("int[]"), vec![int(1), tru(), int(1)]));
    put(11, 8, 9, "no child is refused, the second element fails", |table| list(table.ty("int[]"), vec![]));
}

/// A call of a function of one int, without arguments; nothing is asked.
fn too_few(table: &mut Table) -> Tree {
    call(index(list(table.ty("((int)->int)[]"), vec![]), int(0)), vec![])
}

/// The same among arguments; k takes an int, an int[] and a bool.
fn refused_calls(cases: &mut Cases) {
    for (result, more, names) in [
        (
            "void",
            0,
            ["8 behind an argument", "11 behind an argument", "10 behind an argument", "12 behind an argument"],
        ),
        (
            "int",
            1,
            ["8 behind one of a call", "11 behind one of a call", "10 behind one of a call", "12 behind one of a call"],
        ),
    ] {
        let mut put = |number, place: u16, pairs, name, later: fn(&mut Table) -> Tree| {
            let (mut table, [ints]) = knowing(["int[]"]);
            let (k, later) = (format!("(int,int[],bool)->{result}"), later(&mut table));
            let arguments = vec![tru(), list(ints, vec![int(1)]), later];
            let tree = if more == 0 { run(k_itself(), arguments) } else { var(W, call(k_itself(), arguments)) };
            let parameters: [(u16, &str); 3] = [(X, LOW), (Z, HIGH), (K, &k)];
            let table = table.func(F, &parameters, "void", vec![four(), tree, done()]);
            sum(cases, [number, 1, place + more], pairs, name, table);
        };
        put(8, 13, 5, names[0], |_| name(Y));
        put(11, 13, 6, names[1], |_| binary(10, x(), int(1)));
        put(10, 13, 13, names[2], |_| binary(1, binary(10, x(), x()), int(1)));
        put(12, 13, 5, names[3], too_few);
    }
}

fn k_itself() -> Tree {
    name(K)
}

/// The same among field initializers, in a body and in a global.
fn refused_fields(cases: &mut Cases) {
    let mut put = |number, place, pairs, name, first, second: fn(&mut Table) -> Tree| {
        let (mut table, d) = with_d();
        let second = second(&mut table);
        let body = vec![four(), var(W, record(d, vec![(1, first), (2, second)]))];
        sum(cases, [number, 3, place], pairs, name, low_high(table, body));
    };
    put(8, 12, 4, "8 behind an initializer that is no subtype", int(1), |_| name(Y));
    put(10, 12, 4, "10 behind an initializer that is no subtype", int(1), |_| binary(1, tru(), int(1)));
    put(11, 12, 10, "11 behind an initializer that is no subtype", int(1), |_| binary(10, x(), z()));
    put(12, 12, 4, "12 behind an initializer that is no subtype", int(1), too_few);
    put(11, 8, 11, "11 of the literal behind a child's questions", x(), |_| binary(10, int(1), int(1)));
    put(11, 8, 11, "11 of the literal's first question", binary(10, z(), z()), |_| tru());
    let mut table = Table::new();
    table.declare('D', &[(1, "int[]"), (2, "int")]);
    let (d, ints) = (table.ty("D"), table.ty("int[]"));
    let values = vec![(1, list(ints, vec![int(1), int(2)])), (2, name(Y))];
    sum(cases, [8, 1, 7], 2, "8 in a global's literal", table.with(global(G, record(d, values))));
}

/// Lists in lists: the inner questions come first.
fn inner_lists(cases: &mut Cases) {
    let kinds = || knowing(["int[][]", "int[]", "bool[]"]);
    let (table, [outer, ints, _]) = kinds();
    let elements = vec![list(ints, vec![int(1)]), list(ints, vec![int(1), int(2)])];
    passes(cases, 7, "lists in a list", table, vec![var(W, list(outer, elements))]);
    let (table, [outer, ints, bools]) = kinds();
    let elements = vec![list(bools, vec![tru()]), list(ints, vec![tru()])];
    refused(
        cases,
        [11, 8],
        2,
        "11 of an inner list behind one of a wrong type",
        table,
        vec![var(W, list(outer, elements))],
    );
    let (table, [outer, ints, bools]) = kinds();
    let elements = vec![list(bools, vec![tru()]), list(ints, vec![int(1)])];
    refused(cases, [11, 5], 4, "11 of the outer list", table, vec![var(W, list(outer, elements))]);
    let (table, [outer, ints, bools]) = kinds();
    let elements = vec![list(ints, vec![]), list(bools, vec![]), list(bools, vec![])];
    refused(cases, [11, 5], 4, "the second of three inner lists", table, vec![var(W, list(outer, elements))]);
    let (table, [outer, ints, _]) = kinds();
    let elements = vec![fill(ints, I, int(1), int(2)), fill(ints, I, int(1), tru())];
    refused(cases, [11, 9], 2, "11 of a filled array in a list", table, vec![var(W, list(outer, elements))]);
}

/// Comparing stops at the first element, argument or initializer that fails; the
/// later ones are typed.
fn first_failing(cases: &mut Cases) {
    let (table, [ints]) = knowing(["int[]"]);
    let later = vec![int(1), tru(), int(2), x(), int(3)];
    refused(cases, [11, 5], 2, "elements up to the first that fails", table, vec![var(W, list(ints, later))]);
    let (table, [ints]) = knowing(["int[]"]);
    let later = vec![tru(), binary(10, x(), x()), int(2)];
    refused(cases, [11, 5], 9, "the later elements' own questions", table, vec![var(W, list(ints, later))]);
    let (table, [ints]) = knowing(["int[]"]);
    refused(cases, [11, 5], 3, "the last element fails", table, vec![var(W, list(ints, vec![int(1), int(1), z()]))]);
    let with_k = |arguments| {
        let k = format!("(int,{HIGH},bool,{HIGH})->void");
        let parameters: [(u16, &str); 3] = [(X, LOW), (Z, HIGH), (K, &k)];
        Table::new().func(F, &parameters, "void", vec![run(name(K), arguments), done()])
    };
    sum(cases, [11, 1, 5], 6, "arguments up to the first that fails", with_k(vec![int(1), x(), int(1), x()]));
    sum(cases, [11, 1, 5], 1, "the first of several that fail", with_k(vec![tru(), tru(), int(1), tru()]));
    sum(cases, [0, 2, 0], 9, "no argument fails", with_k(vec![int(1), x(), tru(), z()]));
    let mut table = Table::new();
    table.declare('D', &[(1, "int"), (2, HIGH), (3, LOW), (4, "int")]);
    let d = table.ty("D");
    let values = vec![(4, int(1)), (3, z()), (2, x()), (1, tru())];
    let body = vec![var(W, record(d, values))];
    sum(cases, [11, 3, 5], 3, "initializers up to the first that fails", low_high(table, body));
}

/// What a question compares first shows where two pairs fail.
fn orders(cases: &mut Cases) {
    let mut put = |answer, pairs, name, low: &str, high: &str| {
        let mut table = Table::new();
        table.declare('A', &[(1, "int")]);
        table.declare('B', &[(1, "int"), (2, "int")]);
        sum(cases, answer, pairs, name, table.func(F, &[(X, low)], high, vec![ret(x())]));
    };
    put([0, 6, 0], 3, "(A)->B for (B)->A", "(A)->B", "(B)->A");
    put([11, 5, 3], 2, "(B)->A for (A)->B", "(B)->A", "(A)->B");
    put([11, 5, 3], 2, "(int,A)->int for (bool,B)->bool", "(int,A)->int", "(bool,B)->bool");
    put([11, 5, 3], 4, "(int,A)->int for (int,B)->bool", "(int,A)->int", "(int,B)->bool");
    put([11, 5, 3], 1, "(int,A)->int for (bool)->bool", "(int,A)->int", "(bool)->bool");
    put([0, 6, 0], 1, "B for A", "B", "A");
    put([11, 5, 3], 1, "A for B", "A", "B");
    put([11, 5, 3], 2, "B[] for A[]", "B[]", "A[]");
    put([0, 6, 0], 3, "A[] for A[]?", "A[]", "A[]?");
    put([11, 5, 3], 4, "((A)->int)[] for ((A)->bool)[]", "((A)->int)[]", "((A)->bool)[]");
    put([11, 5, 3], 3, "((A)->int)[] for ((B)->bool)[]", "((A)->int)[]", "((B)->bool)[]");
    put([11, 5, 3], 2, "((A)->int)[] for ((A,A)->int)[]", "((A)->int)[]", "((A,A)->int)[]");
    put([11, 5, 3], 3, "((int,A)->int)[] for ((bool,A)->int)[]", "((int,A)->int)[]", "((bool,A)->int)[]");
    put([11, 5, 3], 4, "((int,A)->int)[] for ((int,B)->int)[]", "((int,A)->int)[]", "((int,B)->int)[]");
    put([11, 5, 3], 5, "((int,A,int)->B)[] for ((int,A,A)->B)[]", "((int,A,int)->B)[]", "((int,A,A)->B)[]");
    put([11, 5, 3], 4, "(A?,B)->B for (A,A)->A", "(A?,B)->B", "(A,A)->A");
}

/// Sums of several children add up.
fn children(cases: &mut Cases) {
    let equal = |tree: fn() -> Tree| binary(10, tree(), tree());
    passes(cases, 14, "both operands", Table::new(), vec![var(W, binary(12, equal(x), equal(z)))]);
    refused(cases, [10, 5], 8, "10 behind the first operand", Table::new(), vec![var(W, binary(12, equal(x), int(1)))]);
    refused(cases, [8, 9], 8, "8 behind the first operand", Table::new(), vec![var(W, binary(13, equal(x), name(Y)))]);
    let (table, [bools, ints]) = knowing(["bool[]", "int[]"]);
    let array = list(ints, vec![int(1), int(2)]);
    let at = index(array.clone(), length(list(bools, vec![equal(z)])));
    passes(cases, 9, "array and index", table, vec![var(W, at)]);
    let (table, [_, ints]) = knowing(["bool[]", "int[]"]);
    let left = index(list(ints, vec![int(1), int(2), int(3)]), int(1));
    let right = index(list(ints, vec![int(1)]), int(1));
    passes(cases, 5, "both sides of an assignment", table, vec![set(left, right)]);
    let (table, [bools, _]) = knowing(["bool[]", "int[]"]);
    let filled = fill(bools, I, length(list(bools, vec![equal(x)])), equal(z));
    passes(cases, 16, "length and value of a filled array", table, vec![var(W, filled)]);
    let (table, [bools, _]) = knowing(["bool[]", "int[]"]);
    let three = list(bools, vec![equal(x), tru(), equal(z)]);
    passes(cases, 17, "elements with questions of their own", table, vec![var(W, three)]);
    let callee = || {
        let (table, [functions]) = knowing([&format!("({HIGH})[]")[..]]);
        (table, index(list(functions, vec![x(), z()]), int(0)))
    };
    let (table, tree) = callee();
    passes(cases, 8, "the callee's questions", table, vec![run(tree, vec![text(1)])]);
    let (table, tree) = callee();
    refused(cases, [11, 4], 8, "11 behind the callee's questions", table, vec![run(tree, vec![int(1)])]);
    let (table, tree) = callee();
    refused(cases, [12, 4], 7, "12 behind the callee's questions", table, vec![run(tree, vec![])]);
    let (table, tree) = callee();
    refused(cases, [13, 5], 7, "13 behind the callee's questions", table, vec![var(W, call(tree, vec![text(1)]))]);
}

/// Statements, arms and loops add up.
fn blocks(cases: &mut Cases) {
    let equal = |tree: fn() -> Tree| binary(10, tree(), tree());
    passes(cases, 12, "statements", Table::new(), vec![four(), four(), four()]);
    let arms = when(equal(x), vec![four()], vec![four(), four()]);
    passes(cases, 20, "condition and arms", Table::new(), vec![arms]);
    passes(cases, 10, "a while", Table::new(), vec![during(equal(z), vec![four()])]);
    let each = repeat(vec![var(K, equal(x)), var(W, equal(z))], equal(z), four(), vec![set(z(), z())]);
    passes(cases, 8 + 6 + 6 + 4 + 3, "a for", Table::new(), vec![each]);
    let each = repeat(vec![], absent(), done(), vec![four()]);
    refused(cases, [14, 6], 0, "14 of a step, before the block", Table::new(), vec![each]);
    let nested = when(tru(), vec![during(tru(), vec![four()]), four()], vec![when(tru(), vec![four()], vec![])]);
    passes(cases, 12, "nested blocks", Table::new(), vec![nested]);
    let (table, [string, null]) = knowing(["string", "string?"]);
    let test = when_null(W, string, self::null(null), vec![set(z(), z())], vec![four()]);
    passes(cases, 8, "an if? and its arms", table, vec![test]);
    let arms = when(tru(), vec![four()], vec![set(x(), z())]);
    refused(cases, [11, 11], 6, "11 in the second arm", Table::new(), vec![arms]);
}

/// Sorts, vars, default arrays, lengths and void returns ask nothing.
fn no_questions(cases: &mut Cases) {
    let (table, [ints]) = knowing(["int[]"]);
    let body = vec![
        var(K, blank(ints, int(3))),
        var(W, binary(1, length(name(K)), index(name(K), int(0)))),
        when(unary(1, tru()), vec![], vec![]),
        during(binary(6, int(1), int(2)), vec![]),
        var(I, x()),
    ];
    passes(cases, 0, "nothing is asked", table, body);
    let (table, [ints]) = knowing(["int[]"]);
    let body = vec![var(K, blank(ints, int(3))), set(index(name(K), int(0)), int(1)), four()];
    passes(cases, 5, "an element assigned", table, body);
    sum(cases, [0, 2, 0], 0, "a bare return", Table::new().func(F, &[], "void", vec![done()]));
    sum(cases, [0, 1, 0], 0, "a global without questions", Table::new().with(global(G, int(1))));
    sum(cases, [0, 0, 0], 0, "nothing at all", Table::new());
}

/// Each number of typing behind 4 pairs; the second statement is node 7.
fn later_refusals(cases: &mut Cases) {
    let mut put = |number, place, name, make: fn(&mut Table) -> Vec<Tree>| {
        let mut table = Table::new();
        let body = make(&mut table);
        refused(cases, [number, place], 4, name, table, [vec![four()], body].concat());
    };
    put(7, 7, "7 a var", |_| vec![var(X, int(1))]);
    put(8, 8, "8 a name", |_| vec![var(W, name(Y))]);
    put(9, 8, "9 a null", |table| vec![var(W, null(table.ty("Q?")))]);
    put(9, 8, "9 an array", |table| vec![var(W, list(table.ty("Q[]"), vec![x()]))]);
    put(10, 7, "10 a condition", |_| vec![when(int(1), vec![], vec![])]);
    put(10, 8, "10 an index", |_| vec![var(W, index(x(), int(1)))]);
    put(12, 7, "12 a call", |_| vec![run(x(), vec![])]);
    put(13, 7, "13 a return", |_| vec![ret(int(1))]);
    put(13, 8, "13 a void value", |_| vec![var(W, call(x(), vec![text(1)]))]);
    put(14, 7, "14 dead code", |_| vec![done(), four()]);
    put(15, 7, "15 a function assigned", |_| vec![set(name(F), z())]);
    put(16, 8, "16 a default", |table| vec![var(W, blank(table.ty("string[]"), int(1)))]);
    let table = Table::new().func(F, &[(X, LOW), (Z, HIGH)], "void", vec![four()]);
    sum(cases, [14, 1, 0], 4, "14 a body that may go on", table);
    let table = Table::new().func(F, &[(X, LOW), (X, HIGH)], "void", vec![four(), done()]);
    sum(cases, [7, 1, 0], 0, "7 parameters, before the block", table);
}

/// What is tested before and after a question.
fn late_orders(cases: &mut Cases) {
    let equal = |tree: fn() -> Tree| binary(10, tree(), tree());
    refused(cases, [7, 4], 8, "7 behind the var's expression", Table::new(), vec![var(X, equal(x))]);
    refused(cases, [13, 4], 0, "13 before the returned value", Table::new(), vec![ret(equal(x))]);
    refused(cases, [15, 4], 0, "15 before the assigned value", Table::new(), vec![set(name(F), equal(x))]);
    refused(cases, [10, 5], 8, "10 behind the array", Table::new(), vec![set(index(equal(x), name(Y)), z())]);
    let (table, [ints, bools, strings]) = knowing(["int[]", "bool[]", "string[]"]);
    let size = || length(list(bools, vec![equal(z)]));
    let (wrong, right) = (blank(strings, size()), fill(ints, I, size(), tru()));
    refused(cases, [16, 5], 7, "16 behind the length", table, vec![var(W, wrong)]);
    let (table, _) = knowing(["int[]", "bool[]", "string[]"]);
    refused(cases, [11, 5], 8, "11 behind the length", table, vec![var(W, right)]);
    let (table, [string, _]) = knowing(["string", "string?"]);
    let body = vec![when_null(W, string, equal(x), vec![four()], vec![])];
    refused(cases, [10, 4], 8, "10 of an if? behind its expression", table, body);
}

/// Globals come before bodies, wherever they stand; every step adds to the sum.
fn steps(cases: &mut Cases) {
    let bodies = |table: Table| {
        let parameters: [(u16, &str); 2] = [(X, LOW), (Z, HIGH)];
        let table = table.func(F, &parameters, "void", vec![four(), done()]);
        table.func(H, &parameters, "void", vec![four(), four(), done()])
    };
    sum(cases, [0, 4, 0], 12, "two bodies", bodies(Table::new()));
    let (table, [nulls, null]) = knowing(["string?[]", "string?"]);
    let table = table.with(global(G, list(nulls, vec![text(1), self::null(null)])));
    let table = table.with(global(I, list(nulls, vec![text(1)])));
    sum(cases, [0, 6, 0], 4 + 2 + 12, "two globals and two bodies", bodies(table));
    let ints = |second| {
        let (table, [ints]) = knowing(["int[]"]);
        (table, global(G, list(ints, vec![int(1), second, int(3)])))
    };
    let (table, g) = ints(int(2));
    sum(cases, [0, 5, 0], 3 + 12, "a global and two bodies", bodies(table.with(g)));
    let (table, g) = ints(int(2));
    sum(cases, [0, 5, 0], 3 + 12, "a global behind two bodies", bodies(table).with(g));
    let (table, g) = ints(tru());
    sum(cases, [11, 2, 1], 2, "11 in a global", bodies(table.with(g)));
    let (table, g) = ints(tru());
    sum(cases, [11, 2, 20], 2, "11 in a global behind two bodies", bodies(table).with(g));
}

/// Refusals in late steps have the sum of all steps so far.
fn steps_refused(cases: &mut Cases) {
    let ints = |count| move |t| list(t, vec![int(1); count]);
    let globals = |first: u16, second: u16| {
        let (table, [t]) = knowing(["int[]"]);
        table.with(global(first, ints(3)(t))).with(global(second, ints(2)(t)))
    };
    sum(cases, [0, 2, 0], 5, "two globals", globals(G, H));
    sum(cases, [7, 1, 5], 5, "7 of the second global", globals(G, G));
    let body = |table: Table, body| table.func(F, &[(X, LOW), (Z, HIGH)], "void", body);
    sum(cases, [0, 4, 0], 9, "globals, then a body", body(globals(G, H), vec![four(), done()]));
    sum(cases, [7, 2, 5], 5, "7 of a global that has the function's name", body(globals(G, F), vec![four(), done()]));
    sum(cases, [14, 3, 9], 9, "14 of a body behind globals", body(globals(G, H), vec![four()]));
    sum(
        cases,
        [8, 3, 18],
        9,
        "8 of a body behind globals",
        body(globals(G, H), vec![four(), set(z(), name(Y)), done()]),
    );
    sum(
        cases,
        [11, 3, 16],
        11,
        "11 of a body behind globals",
        body(globals(G, H), vec![four(), set(x(), z()), done()]),
    );
    sum(
        cases,
        [15, 3, 16],
        9,
        "15 of a body behind globals",
        body(globals(G, H), vec![four(), set(name(F), z()), done()]),
    );
    let twice = |last| body(Table::new(), vec![four(), done()]).func(H, &[(X, LOW), (Z, HIGH)], "void", last);
    sum(cases, [11, 3, 12], 6, "11 of the second body", twice(vec![set(x(), z()), done()]));
    sum(cases, [10, 3, 12], 4, "10 of the second body", twice(vec![when(int(1), vec![], vec![]), done()]));
    sum(cases, [14, 3, 8], 8, "14 of the second body", twice(vec![four()]));
    sum(cases, [9, 0, 0], 0, "9 of a heading", Table::new().func(F, &[(X, "Q")], "void", vec![done()]));
}

/// A struct D, a global of four ints, 4 pairs, and another global, node 6.
fn behind_global(fields: &[(u16, &str)], value: impl Fn(&mut Table) -> Tree) -> Table {
    let mut table = Table::new();
    table.declare('D', fields);
    let (ints, value) = (table.ty("int[]"), value(&mut table));
    table.with(global(G, list(ints, vec![int(1); 4]))).with(global(H, value))
}

/// Field types and names are tested behind the globals: the struct's name is step
/// 0, the globals 1 and 2, the fields 3.
fn struct_steps(cases: &mut Cases) {
    let ints = |table: &mut Table, count| list(table.ty("int[]"), vec![int(1); count]);
    let literal = |table: &mut Table| {
        let values = vec![(1, ints(table, 1)), (2, ints(table, 2))];
        record(table.ty("D"), values)
    };
    let table = behind_global(&[(1, "int[]"), (2, "int[]")], literal);
    sum(cases, [0, 4, 0], 4 + 3 + 4, "a global's literal", table);
    let table = behind_global(&[(1, "int[]"), (2, "int[]?")], literal);
    sum(cases, [0, 4, 0], 4 + 3 + 5, "a global's literal with a nullable", table);
    let table = behind_global(&[(1, "int[]?"), (2, "bool[]?")], literal);
    sum(cases, [11, 2, 7], 4 + 3 + 6, "11 of a global's literal", table);
    let table = behind_global(&[(1, "int"), (1, "int")], literal);
    sum(cases, [12, 2, 7], 4, "12 of a global's literal", table);
    let table = behind_global(&[(1, "int"), (2, "Q?")], |table| ints(table, 2));
    sum(cases, [9, 3, 0], 4 + 2, "9 of a field behind globals", table);
    let table = behind_global(&[(1, "int"), (1, "int")], |table| ints(table, 2));
    sum(cases, [7, 3, 0], 4 + 2, "7 of a field behind globals", table);
}

/// An undeclared struct in a field's type, which is tested behind the globals: the
/// literal is node 7.
fn undeclared_types(cases: &mut Cases) {
    let mut put = |pairs: u32, name, due: &str, value: fn(&mut Table) -> Tree| {
        let literal = |table: &mut Table| {
            let value = value(table);
            record(table.ty("D"), vec![(1, value)])
        };
        sum(cases, [11, 2, 7], 4 + pairs, name, behind_global(&[(1, due)], literal));
    };
    put(1, "int for Q", "Q", |_| int(1));
    put(1, "int for Q?", "Q?", |_| int(1));
    put(2, "string for Q?", "Q?", |_| text(1));
    put(2, "string? for Q?", "Q?", |table| null(table.ty("string?")));
    put(2, "D? for Q?", "Q?", |table| null(table.ty("D?")));
    put(1, "D? for Q", "Q", |table| null(table.ty("D?")));
    put(2, "int[] for Q[]", "Q[]", |table| list(table.ty("int[]"), vec![]));
    put(3, "D?[] for Q[]?", "Q[]?", |table| list(table.ty("D?[]"), vec![]));
    let functions = |due: &str| {
        let mut table = Table::new();
        table.declare('D', &[(1, due)]);
        let d = table.ty("D");
        table.func(F, &[(X, "int")], "int", vec![ret(x())]).with(global(G, record(d, vec![(1, name(F))])))
    };
    sum(cases, [11, 2, 6], 2, "a function for (Q)->int", functions("(Q)->int"));
    sum(cases, [11, 2, 6], 3, "a function for (int)->Q", functions("(int)->Q"));
    sum(cases, [11, 2, 6], 1, "a function for (Q,Q)->int", functions("(Q,Q)->int"));
    sum(cases, [11, 2, 6], 3, "a function for ((Q)->int)?", functions("((Q)->int)?"));
}

/// x is a built-in of a type that has up to 200 parts; `f` takes nothing. The
/// built-in's step is 0, the body's 2, the first statement node 2.
fn with_builtin(mut table: Table, t: &str, body: Vec<Tree>) -> Table {
    let t = table.ty(t);
    table.p.builtins.push([X, t]);
    table.func(F, &[], "void", body)
}

/// `f` makes an array of a built-in of 199 parts at another type of 199 parts: 264
/// pairs for each element. The array is node 3.
fn widest_elements(elements: Vec<Tree>, rest: impl Fn(&mut Table) -> Vec<Tree>) -> Table {
    let [low, high] = widest("void");
    let (mut table, [highs]) = knowing([&format!("({high})[]")[..]]);
    let body = [vec![var(W, list(highs, elements))], rest(&mut table)].concat();
    with_builtin(table, &low, body)
}

/// Sums of more than 16 bits; the largest has 4,096 nodes.
fn large_sums(cases: &mut Cases) {
    let xs = |count| vec![x(); count];
    sum(cases, [0, 3, 0], 66_000, "250 elements of 199 parts", widest_elements(xs(250), |_| vec![done()]));
    let table = widest_elements([xs(300), vec![tru()]].concat(), |_| vec![done()]);
    sum(cases, [11, 2, 3], 79_201, "the 301st element fails", table);
    let table = widest_elements(xs(250), |_| vec![var(K, name(Y)), done()]);
    sum(cases, [8, 2, 255], 66_000, "8 behind 250 elements", table);
    let ints = |table: &mut Table| vec![var(K, list(table.ty("int[]"), vec![int(1); 64])), done()];
    sum(cases, [0, 3, 0], 65_536, "a sum of 65,536", widest_elements(xs(248), ints));
    let full = format!("({})->int", times("int", 198));
    let (table, [bools]) = knowing(["bool[]"]);
    let tests = list(bools, vec![binary(10, x(), x()); 165]);
    let table = with_builtin(table, &full, vec![var(W, tests), done()]);
    sum(cases, [0, 3, 0], 165 * 401, "165 equalities of 200 parts", table);
    sum(cases, [14, 2, 0], 1_080_288, "4,092 elements of 199 parts", widest_elements(xs(4092), |_| vec![]));
}
