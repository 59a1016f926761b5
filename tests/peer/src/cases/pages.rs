//! Cases of document 02's request (iii): the page of an accepted file, written out
//! by hand, and refusals that leave its buffer as it is.

use super::rows::every_kind;
use super::{F, G, H, I, P, X, Y, Z, function_of};
use crate::Limits;
use crate::program::*;

/// What is told by hand of a file's page.
pub enum Told {
    /// Every line.
    Whole(&'static [&'static str]),
    /// Of a long page how many rows it has, some of their lines, and the last line.
    Parts { rows: usize, lines: &'static [&'static str], last: &'static str },
    /// A refused file has no page.
    Nothing,
}

impl Told {
    /// The bytes of the page: a line end behind each line.
    fn bytes(&self) -> usize {
        match self {
            Told::Whole(lines) => lines.iter().map(|line| line.len() + 1).sum(),
            Told::Parts { rows, last, .. } => 20 * rows + last.len() + 1,
            Told::Nothing => 0,
        }
    }
}

/// A file under limits with its answer where the buffer is long enough, what is
/// told of its page, and the lengths of the buffer that it is asked with.
pub struct PageCase {
    pub name: &'static str,
    pub file: Vec<u8>,
    pub limits: Limits,
    pub answer: [u16; 3],
    pub told: Told,
    pub lengths: Vec<usize>,
}

pub fn pages() -> Vec<PageCase> {
    let mut cases = Vec::new();
    without_nodes(&mut cases);
    zero_bytes(&mut cases);
    one_node(&mut cases);
    two_nodes(&mut cases);
    functions(&mut cases);
    binders(&mut cases);
    builtin_binders(&mut cases);
    hidden_names(&mut cases);
    marks(&mut cases);
    absent_parts(&mut cases);
    all_kinds(&mut cases);
    around_one_page(&mut cases);
    around_two_pages(&mut cases);
    around_more_pages(&mut cases);
    chains(&mut cases);
    deepest(&mut cases);
    over_sixteen_bits(&mut cases);
    most_nodes(&mut cases);
    refused_unread(&mut cases);
    refused_by_typing(&mut cases);
    refused_by_limits(&mut cases);
    cases
}

type Cases = Vec<PageCase>;
type Lines = &'static [&'static str];

/// Lengths around the page's: exact, longer, one short, a line short without and
/// with its line end, and none.
fn around(exact: usize) -> Vec<usize> {
    let short = [1, 19, 20, exact].into_iter().filter_map(|less| exact.checked_sub(less));
    [exact, exact + 3].into_iter().chain(short).collect()
}

fn accepted(limits: Limits, name: &'static str, p: &Program, steps: u16, told: Told) -> PageCase {
    let lengths = around(told.bytes());
    PageCase { name, file: p.bytes(), limits, answer: [0, steps, 0], told, lengths }
}

/// A page that is told line by line.
fn whole(cases: &mut Cases, name: &'static str, p: Program, steps: u16, lines: Lines) {
    cases.push(accepted(Limits::WIDEST, name, &p, steps, Told::Whole(lines)));
}

/// A long page, some lines of which are told.
fn long(cases: &mut Cases, name: &'static str, p: Program, steps: u16, lines: Lines, last: &'static str) {
    let told = Told::Parts { rows: p.size(), lines, last };
    cases.push(accepted(Limits::WIDEST, name, &p, steps, told));
}

fn limits(parts: usize, depth: usize) -> Limits {
    Limits { parts, depth }
}

/// A refused case, in a long buffer, in shorter ones and in none.
fn refuse(cases: &mut Cases, limits: Limits, name: &'static str, file: Vec<u8>, answer: [u16; 3]) {
    cases.push(PageCase { name, file, limits, answer, told: Told::Nothing, lengths: vec![300, 35, 14, 0] });
}

/// Type 4 is ()->void.
fn plain() -> Program {
    let mut p = Program::new();
    p.function(VOID, &[]);
    p
}

/// `void f()` with a return behind some statements: two steps.
fn body(cases: &mut Cases, name: &'static str, statements: Vec<Tree>, lines: Lines) {
    let p = plain().with([func(F, 4, &[], [statements, vec![done()]].concat())]);
    whole(cases, name, p, 2, lines);
}

/// A global of one value: one step.
fn constant(cases: &mut Cases, name: &'static str, p: Program, value: Tree, lines: Lines) {
    whole(cases, name, p.with([global(G, value)]), 1, lines);
}

/// int[] under so many numbers, from 4 on.
fn int_arrays(last: u16) -> Program {
    let mut p = Program::new();
    while p.array(INT) < last {}
    p
}

const NO_ROWS: Lines = &["pages 0 rows 0"];

/// The last line alone.
fn without_nodes(cases: &mut Cases) {
    whole(cases, "types alone", int_arrays(20), 0, NO_ROWS);
    let mut p = plain();
    p.declare(1, &[[P, INT]]);
    p.declare(2, &[]);
    p.builtins.extend([[50, 4], [51, 4]]);
    whole(cases, "structs and built-ins alone", p, 6, NO_ROWS);
}

/// Zero bytes have no nodes, under any limits.
fn zero_bytes(cases: &mut Cases) {
    for (parts, depth) in [(200, 100), (1, 1), (37, 12)] {
        let held = accepted(limits(parts, depth), "the 44 bytes", &Program::new(), 0, Told::Whole(NO_ROWS));
        cases.push(PageCase { name: "zero bytes", file: vec![], ..held });
        cases.push(accepted(limits(parts, depth), "the 44 bytes", &Program::new(), 0, Told::Whole(NO_ROWS)));
    }
    for (parts, depth) in [(0, 1), (1, 0), (201, 100), (200, 101)] {
        refuse(cases, limits(parts, depth), "zero bytes, limits out of range", vec![], [25, 0, 0]);
    }
}

/// No file with exactly one node can be read: a global has its initializer, a
/// function its block, and nothing else is a declaration.
fn one_node(cases: &mut Cases) {
    let mut alone = |name, record| {
        refuse(cases, Limits::WIDEST, name, plain().with([record]).bytes(), [5, 0, 0]);
    };
    alone("one node: a global", node(1, G, 0, vec![]));
    alone("one node: a function", node(2, F, 4, vec![]));
    alone("one node: true", tru());
    alone("one node: a return", done());
}

fn two_nodes(cases: &mut Cases) {
    let example = Program::new().with([global(5, tru())]);
    whole(cases, "the example", example, 1, &["   0  1     1 65535", "   1 11     1 65535", "pages 0 rows 2"]);
    let is_false = &["   0  1     1 65535", "   1 12     1 65535", "pages 0 rows 2"];
    constant(cases, "false", Program::new(), fls(), is_false);
    let of_int = &["   0  1     0 65535", "   1 13     0 65535", "pages 0 rows 2"];
    constant(cases, "a large literal number", Program::new(), int(65_534), of_int);
    let of_string = &["   0  1     2 65535", "   1 14     2 65535", "pages 0 rows 2"];
    constant(cases, "a string", Program::new(), text(9), of_string);
    let mut p = Program::new();
    p.nullable(STRING);
    constant(cases, "null", p, null(4), &["   0  1     4 65535", "   1 10     4 65535", "pages 0 rows 2"]);
    let of_9 = &["   0  1     9 65535", "   1 16     9 65535", "pages 0 rows 2"];
    constant(cases, "type 9", int_arrays(9), list(9, vec![]), of_9);
    let of_10 = &["   0  1    10 65535", "   1 16    10 65535", "pages 0 rows 2"];
    constant(cases, "type 10", int_arrays(10), list(10, vec![]), of_10);
    let of_99 = &["   0  1    99 65535", "   1 16    99 65535", "pages 0 rows 2"];
    constant(cases, "type 99", int_arrays(99), list(99, vec![]), of_99);
    let of_100 = &["   0  1   100 65535", "   1 16   100 65535", "pages 0 rows 2"];
    constant(cases, "type 100", int_arrays(100), list(100, vec![]), of_100);
    let of_511 = &["   0  1   511 65535", "   1 16   511 65535", "pages 0 rows 2"];
    constant(cases, "type 511", int_arrays(511), list(511, vec![]), of_511);
}

/// Three nodes and a few more.
fn functions(cases: &mut Cases) {
    let lines = &["   0  2     1 65535", "   1 39     1 65535", "   2 33     1 65535", "pages 0 rows 3"];
    body(cases, "three nodes: a body that returns", vec![], lines);
    let both = plain().with([func(F, 4, &[], vec![done()]), global(G, tru())]);
    let lines = &[
        "   0  2     1 65535",
        "   1 39     1 65535",
        "   2 33     1 65535",
        "   3  1     1 65535",
        "   4 11     1 65535",
        "pages 0 rows 5",
    ];
    whole(cases, "a function before a global", both, 3, lines);
    let both = plain().with([global(G, name(F)), func(F, 4, &[], vec![run(name(F), vec![]), done()])]);
    let lines = &[
        "   0  1     4 65535",
        "   1 15     4     2",
        "   2  2     1 65535",
        "   3 39     1 65535",
        "   4 34     0 65535",
        "   5 15     4     2",
        "   6 33     1 65535",
        "pages 0 rows 7",
    ];
    whole(cases, "a global that holds the function behind it", both, 3, lines);
}

/// Binders that are nodes: globals, functions, parameters, vars.
fn binders(cases: &mut Cases) {
    let two = Program::new().with([global(G, int(1)), global(H, name(G))]);
    let lines =
        &["   0  1     0 65535", "   1 13     0 65535", "   2  1     0 65535", "   3 15     0     0", "pages 0 rows 4"];
    whole(cases, "binder 0", two, 2, lines);
    let seven = chain(14);
    let lines = &[
        "   0  1     1 65535",
        "   1 11     1 65535",
        "   2  1     1 65535",
        "   3 15     1     0",
        "   4  1     1 65535",
        "   5 15     1     2",
        "   6  1     1 65535",
        "   7 15     1     4",
        "   8  1     1 65535",
        "   9 15     1     6",
        "  10  1     1 65535",
        "  11 15     1     8",
        "  12  1     1 65535",
        "  13 15     1    10",
        "pages 0 rows 14",
    ];
    whole(cases, "binders of one digit and of two", seven, 7, lines);
    let mut p = Program::new();
    p.function(INT, &[INT]);
    let lines = &[
        "   0  2     1 65535",
        "   1  3     0 65535",
        "   2 39     1 65535",
        "   3 32     1 65535",
        "   4 15     0     1",
        "pages 0 rows 5",
    ];
    whole(cases, "a parameter's binder", p.with([func(F, 4, &[X], vec![ret(name(X))])]), 2, lines);
    let mut p = Program::new();
    p.function(INT, &[]);
    let lines = &[
        "   0  2     1 65535",
        "   1 39     1 65535",
        "   2 32     1 65535",
        "   3 24     0 65535",
        "   4 15     4     0",
        "pages 0 rows 5",
    ];
    whole(cases, "a function that calls itself", p.with([func(F, 4, &[], vec![ret(call(name(F), vec![]))])]), 2, lines);
    let lines = &[
        "   0  2     1 65535",
        "   1 39     1 65535",
        "   2 31     0 65535",
        "   3 13     0 65535",
        "   4 30     0 65535",
        "   5 15     0     2",
        "   6 25     0 65535",
        "   7 15     0     2",
        "   8 33     1 65535",
        "pages 0 rows 9",
    ];
    body(cases, "a var's binder", vec![var(X, int(1)), set(name(X), unary(0, name(X)))], lines);
}

/// So many built-ins of type 4, and a global that names one.
fn naming(count: u16, named: u16) -> Program {
    let mut p = plain();
    p.builtins = (0..count).map(|k| [100 + k, 4]).collect();
    p.with([global(G, name(100 + named))])
}

/// Binders that are 40,000 and a built-in's number.
fn builtin_binders(cases: &mut Cases) {
    let lines = &["   0  1     4 65535", "   1 15     4 40000", "pages 0 rows 2"];
    whole(cases, "the first built-in", naming(1, 0), 2, lines);
    let lines = &["   0  1     4 65535", "   1 15     4 40007", "pages 0 rows 2"];
    whole(cases, "built-in 7 of 9", naming(9, 7), 10, lines);
    let lines = &["   0  1     4 65535", "   1 15     4 40127", "pages 0 rows 2"];
    whole(cases, "the last of 128 built-ins", naming(128, 127), 129, lines);
    let mut p = plain();
    p.builtins.push([H, 4]);
    let statements = vec![var(X, name(H)), run(name(X), vec![]), run(name(H), vec![]), done()];
    let lines = &[
        "   0  2     1 65535",
        "   1 39     1 65535",
        "   2 31     0 65535",
        "   3 15     4 40000",
        "   4 34     0 65535",
        "   5 15     4     2",
        "   6 34     0 65535",
        "   7 15     4 40000",
        "   8 33     1 65535",
        "pages 0 rows 9",
    ];
    whole(cases, "a var that holds a built-in", p.with([func(F, 4, &[], statements)]), 3, lines);
}

/// A name means its nearest binding.
fn hidden_names(cases: &mut Cases) {
    let inner = vec![var(X, tru()), set(name(X), name(X))];
    let lines = &[
        "   0  2     1 65535",
        "   1 39     1 65535",
        "   2 31     0 65535",
        "   3 13     0 65535",
        "   4 38     0 65535",
        "   5 12     1 65535",
        "   6 39     0 65535",
        "   7 31     0 65535",
        "   8 11     1 65535",
        "   9 30     0 65535",
        "  10 15     1     7",
        "  11 15     1     7",
        "  12 30     0 65535",
        "  13 15     0     2",
        "  14 13     0 65535",
        "  15 33     1 65535",
        "pages 0 rows 16",
    ];
    let statements = vec![var(X, int(1)), during(fls(), inner), set(name(X), int(2))];
    body(cases, "a name that is hidden for a while", statements, lines);
    let lines = &[
        "   0  2     1 65535",
        "   1 39     1 65535",
        "   2 31     0 65535",
        "   3 18     5 65535",
        "   4 13     0 65535",
        "   5 18     4 65535",
        "   6 13     0 65535",
        "   7 15     0     5",
        "   8 33     1 65535",
        "pages 0 rows 9",
    ];
    let mut p = Program::new();
    p.array(INT);
    p.array(4);
    p.function(VOID, &[]);
    let value = fill(5, I, int(2), fill(4, I, int(3), name(I)));
    whole(cases, "an index name within another", p.with([func(F, 6, &[], vec![var(X, value), done()])]), 2, lines);
}

/// Marks 0 and 1.
fn marks(cases: &mut Cases) {
    let lines = &[
        "   0  2     1 65535",
        "   1 39     1 65535",
        "   2 35     0 65535",
        "   3 11     1 65535",
        "   4 39     1 65535",
        "   5 33     1 65535",
        "   6 39     0 65535",
        "   7 33     1 65535",
        "pages 0 rows 8",
    ];
    body(cases, "an if with one arm returning", vec![when(tru(), vec![done()], vec![])], lines);
    let both = plain().with([func(F, 4, &[], vec![when(fls(), vec![done()], vec![done()])])]);
    let lines = &[
        "   0  2     1 65535",
        "   1 39     1 65535",
        "   2 35     1 65535",
        "   3 12     1 65535",
        "   4 39     1 65535",
        "   5 33     1 65535",
        "   6 39     1 65535",
        "   7 33     1 65535",
        "pages 0 rows 8",
    ];
    whole(cases, "an if with both arms returning", both, 2, lines);
    let endless = plain().with([func(F, 4, &[], vec![during(tru(), vec![])])]);
    let lines = &[
        "   0  2     1 65535",
        "   1 39     1 65535",
        "   2 38     1 65535",
        "   3 11     1 65535",
        "   4 39     0 65535",
        "pages 0 rows 5",
    ];
    whole(cases, "a loop that never ends", endless, 2, lines);
}

/// Kind 40 has a line, its result is 0.
fn absent_parts(cases: &mut Cases) {
    let lines = &[
        "   0  2     1 65535",
        "   1 39     1 65535",
        "   2 37     0 65535",
        "   3 40     0 65535",
        "   4 40     0 65535",
        "   5 39     0 65535",
        "   6 33     1 65535",
        "pages 0 rows 7",
    ];
    body(cases, "a for without parts", vec![repeat(vec![], absent(), absent(), vec![])], lines);
    let lines = &[
        "   0  2     1 65535",
        "   1 39     1 65535",
        "   2 37     0 65535",
        "   3 31     0 65535",
        "   4 13     0 65535",
        "   5 26     1 65535",
        "   6 15     0     3",
        "   7 13     0 65535",
        "   8 40     0 65535",
        "   9 39     0 65535",
        "  10 33     1 65535",
        "pages 0 rows 11",
    ];
    let condition = binary(6, name(Z), int(9));
    let without_step = repeat(vec![var(Z, int(0))], condition, absent(), vec![]);
    body(cases, "a for without a step", vec![without_step], lines);
}

/// The program of the cases about rows, which has every kind of node.
fn all_kinds(cases: &mut Cases) {
    whole(cases, "every kind of node", every_kind(), 14, EVERY_KIND);
}

const EVERY_KIND: Lines = &[
    "   0  1    23 65535",
    "   1 16    23 65535",
    "   2 10     7 65535",
    "   3 21     5 65535",
    "   4 22     0 65535",
    "   5 13     0 65535",
    "   6 22     0 65535",
    "   7 13     0 65535",
    "   8 22     0 65535",
    "   9 13     0 65535",
    "  10  1     2 65535",
    "  11 14     2 65535",
    "  12  1    23 65535",
    "  13 15    23     0",
    "  14  2     1 65535",
    "  15  3    22 65535",
    "  16 39     1 65535",
    "  17 31     0 65535",
    "  18 17    21 65535",
    "  19 13     0 65535",
    "  20 30     0 65535",
    "  21 19     0 65535",
    "  22 15    21    17",
    "  23 13     0 65535",
    "  24 25     0 65535",
    "  25 23     0 65535",
    "  26 15    22    15",
    "  27 30     0 65535",
    "  28 23     0 65535",
    "  29 15    22    15",
    "  30 20     0 65535",
    "  31 15    21    17",
    "  32 34     0 65535",
    "  33 15    28 40000",
    "  34 13     0 65535",
    "  35 26     1 65535",
    "  36 11     1 65535",
    "  37 12     1 65535",
    "  38 35     0 65535",
    "  39 26     1 65535",
    "  40 15    23     0",
    "  41 15    23     0",
    "  42 39     1 65535",
    "  43 32     1 65535",
    "  44 24    11 65535",
    "  45 15    36    14",
    "  46 15    22    15",
    "  47 39     0 65535",
    "  48 36     0 65535",
    "  49 19     7 65535",
    "  50 15    23     0",
    "  51 13     0 65535",
    "  52 39     0 65535",
    "  53 30     0 65535",
    "  54 15    22    15",
    "  55 15     4    48",
    "  56 39     0 65535",
    "  57 37     0 65535",
    "  58 31     0 65535",
    "  59 13     0 65535",
    "  60 40     0 65535",
    "  61 40     0 65535",
    "  62 39     0 65535",
    "  63 30     0 65535",
    "  64 15     0    58",
    "  65 26     0 65535",
    "  66 15     0    58",
    "  67 13     0 65535",
    "  68 38     0 65535",
    "  69 12     1 65535",
    "  70 39     0 65535",
    "  71 32     1 65535",
    "  72 18    11 65535",
    "  73 13     0 65535",
    "  74 15     0    72",
    "  75  2     1 65535",
    "  76 39     1 65535",
    "  77 33     1 65535",
    "pages 1 rows 28",
];

/// Globals that are true and, where the number is odd, a function behind them.
fn trues(nodes: usize) -> Program {
    let function = (nodes % 2 == 1).then(|| func(F, 4, &[], vec![done()]));
    let globals = (0..nodes / 2 - nodes % 2).map(|k| global(1000 + k as u16, tru()));
    plain().with(globals.chain(function))
}

/// A global that is true, and as many that each name the one before as make so many
/// nodes.
fn chain(nodes: u16) -> Program {
    let value = |k: u16| if k == 0 { tru() } else { name(999 + k) };
    plain().with((0..nodes / 2).map(|k| global(1000 + k, value(k))))
}

fn around_one_page(cases: &mut Cases) {
    let lines = &[
        "   0  1     1 65535",
        "   9 11     1 65535",
        "  10  1     1 65535",
        "  45 11     1 65535",
        "  46  2     1 65535",
        "  47 39     1 65535",
        "  48 33     1 65535",
    ];
    long(cases, "49 nodes", trues(49), 25, lines, "pages 0 rows 49");
    let lines = &["   0  1     1 65535", "  48  1     1 65535", "  49 11     1 65535"];
    long(cases, "50 nodes", trues(50), 25, lines, "pages 1 rows 0");
    let lines = &["  47 11     1 65535", "  48  2     1 65535", "  49 39     1 65535", "  50 33     1 65535"];
    long(cases, "51 nodes", trues(51), 26, lines, "pages 1 rows 1");
    let lines = &["  49 15     1    46", "  50  1     1 65535", "  51 15     1    48"];
    long(cases, "52 nodes", chain(52), 26, lines, "pages 1 rows 2");
}

fn around_two_pages(cases: &mut Cases) {
    let lines = &["  96  2     1 65535", "  97 39     1 65535", "  98 33     1 65535"];
    long(cases, "99 nodes", trues(99), 50, lines, "pages 1 rows 49");
    let lines = &["   0  1     1 65535", "  50  1     1 65535", "  99 11     1 65535"];
    long(cases, "100 nodes", trues(100), 50, lines, "pages 2 rows 0");
    let lines = &["  97 11     1 65535", "  98  2     1 65535", "  99 39     1 65535", " 100 33     1 65535"];
    long(cases, "101 nodes", trues(101), 51, lines, "pages 2 rows 1");
}

fn around_more_pages(cases: &mut Cases) {
    let lines = &["  99 11     1 65535", " 100  1     1 65535", " 148 33     1 65535"];
    long(cases, "149 nodes", trues(149), 75, lines, "pages 2 rows 49");
    let lines = &[" 100  1     1 65535", " 149 15     1   146"];
    long(cases, "150 nodes", chain(150), 75, lines, "pages 3 rows 0");
}

/// A page of so many rows that is asked for in buffers of a few lengths.
fn few_lengths(
    cases: &mut Cases,
    name: &'static str,
    p: Program,
    steps: u16,
    lengths: &[usize],
    (lines, last): (Lines, &'static str),
) {
    let told = Told::Parts { rows: p.size(), lines, last };
    cases.push(PageCase { lengths: lengths.to_vec(), ..accepted(Limits::WIDEST, name, &p, steps, told) });
}

/// Binders of three digits and of four.
fn chains(cases: &mut Cases) {
    let lines = &["   3 15     1     0", " 101 15     1    98", " 103 15     1   100", " 499 15     1   496"];
    few_lengths(cases, "500 nodes", chain(500), 250, &[10_016, 10_019, 10_015, 0], (lines, "pages 10 rows 0"));
    let lines = &[" 497 11     1 65535", " 498  2     1 65535", " 499 39     1 65535", " 500 33     1 65535"];
    few_lengths(cases, "501 nodes", trues(501), 251, &[10_036, 0], (lines, "pages 10 rows 1"));
    let lines = &[" 999 15     1   996", "1000  1     1 65535", "1001 15     1   998", "1003 15     1  1000"];
    few_lengths(cases, "1,004 nodes", chain(1004), 502, &[20_096, 0], (lines, "pages 20 rows 4"));
}

/// Depth 100: function, block, return and 97 expressions are two full pages.
fn deepest(cases: &mut Cases) {
    let value = (0..96).fold(int(1), |inner, _| unary(0, inner));
    let mut p = Program::new();
    p.function(INT, &[]);
    let p = p.with([func(F, 4, &[], vec![ret(value)])]);
    for (parts, depth) in [(200, 100), (2, 100)] {
        let lines = &["   2 32     1 65535", "  49 25     0 65535", "  98 25     0 65535", "  99 13     0 65535"];
        let told = Told::Parts { rows: 100, lines, last: "pages 2 rows 0" };
        cases.push(accepted(limits(parts, depth), "depth 100", &p, 2, told));
    }
    refuse(cases, limits(200, 99), "depth 100 under 99", p.bytes(), [5, 0, 0]);
}

/// The fewest nodes whose page has more than 65,535 bytes: 65,537. Of the other
/// buffers most are long enough only if 16 bits are kept of that.
fn over_sixteen_bits(cases: &mut Cases) {
    let lines = &[" 999 11     1 65535", "1000  1     1 65535", "3274  1     1 65535", "3275 11     1 65535"];
    let lengths = [65_537, 65_540, 100, 50, 20, 2, 1];
    few_lengths(cases, "3,276 nodes", trues(3276), 1638, &lengths, (lines, "pages 65 rows 26"));
}

/// 4,095 and 4,096 nodes: 81,917 and 81,937 bytes.
fn most_nodes(cases: &mut Cases) {
    let mut p = int_arrays(510);
    let f = p.function(VOID, &[]);
    let globals = (0..2046).map(|k| global(1000 + k, list(4 + k % 507, vec![])));
    let p = p.with(globals).with([func(F, f, &[], vec![done()])]);
    let lines = &[
        "   1 16     4 65535",
        "  12  1    10 65535",
        " 193 16   100 65535",
        "1012  1   510 65535",
        "1013 16   510 65535",
        "1014  1     4 65535",
        "4091 16    21 65535",
        "4092  2     1 65535",
        "4093 39     1 65535",
        "4094 33     1 65535",
    ];
    few_lengths(cases, "4,095 nodes", p, 2048, &[81_917], (lines, "pages 81 rows 45"));
    let lines = &[
        "   3 15     1     0",
        " 999 15     1   996",
        "1003 15     1  1000",
        "2049 15     1  2046",
        "4094  1     1 65535",
        "4095 15     1  4092",
    ];
    let lengths = [81_937, 81_940, 81_936];
    few_lengths(cases, "4,096 nodes", chain(4096), 2048, &lengths, (lines, "pages 81 rows 46"));
}

/// 1 to 5 come before 18.
fn refused_unread(cases: &mut Cases) {
    let mut unread = |name, file: Vec<u8>, number| refuse(cases, Limits::WIDEST, name, file, [number, 0, 0]);
    let four = || Program::new().bytes();
    unread("one byte", vec![4], 1);
    unread("one byte 0", vec![0], 1);
    unread("a byte cut off", four()[..43].to_vec(), 1);
    unread("a byte left over", [trues(50).bytes(), vec![0]].concat(), 1);
    unread("types 513", 513u16.to_le_bytes().to_vec(), 2);
    unread("six zero counts", vec![0; 12], 3);
    let mut broken = trues(4);
    broken.types[0][0] = 1;
    unread("type 0 of kind 1", broken.bytes(), 3);
    let mut broken = trues(5);
    broken.fields.push([1, VOID]);
    unread("a field of type 3", broken.bytes(), 4);
    unread("kind 99", Program::new().with([node(99, 0, 0, vec![])]).bytes(), 5);
    unread("a true behind two globals", trues(4).with([tru()]).bytes(), 5);
}

/// 7 to 16 come before 18.
fn refused_by_typing(cases: &mut Cases) {
    let mut typed = |name, file, answer| refuse(cases, Limits::WIDEST, name, file, answer);
    let mut doubled = Program::new();
    doubled.declare(1, &[]);
    doubled.declare(1, &[]);
    typed("7 a struct twice, no nodes", doubled.bytes(), [7, 1, 1]);
    let twice = Program::new().with([global(G, tru()), global(G, tru())]);
    typed("7 a global twice", twice.bytes(), [7, 1, 2]);
    typed("8 a name unknown", Program::new().with([global(G, name(Y))]).bytes(), [8, 0, 1]);
    let mut p = Program::new();
    let unknown = p.struct_type(9);
    let nullable = p.nullable(unknown);
    typed("9 Q null", p.with([global(G, null(nullable))]).bytes(), [9, 0, 1]);
    typed("10 if(1)", function_of(VOID, vec![when(int(1), vec![], vec![])]), [10, 1, 2]);
    typed("11 return true for int", function_of(INT, vec![ret(tru())]), [11, 1, 2]);
    typed("12 f(1), f takes none", function_of(VOID, vec![run(name(F), vec![int(1)])]), [12, 1, 2]);
    typed("13 return 1 in void", function_of(VOID, vec![ret(int(1))]), [13, 1, 2]);
    typed("14 an empty body", function_of(VOID, vec![]), [14, 1, 0]);
    typed("15 f = f", function_of(VOID, vec![set(name(F), name(F))]), [15, 1, 2]);
    typed("16 new string[3]", function_of(VOID, vec![var(X, blank(5, int(3)))]), [16, 1, 3]);
    let late = trues(50).with([global(G, name(Y))]);
    typed("8 behind a full page", late.bytes(), [8, 25, 51]);
    let late = trues(101).with([func(H, 4, &[], vec![])]);
    typed("14 behind two full pages", late.bytes(), [14, 52, 101]);
}

/// 25 comes before everything, 3 and 5 read the limits.
fn refused_by_limits(cases: &mut Cases) {
    let mut p = int_arrays(4);
    p.array(4);
    let nested = p.with([global(G, list(5, vec![list(4, vec![int(1)])]))]);
    for (parts, depth) in [(3, 4), (200, 4), (3, 100), (4, 5)] {
        let lines = &[
            "   0  1     5 65535",
            "   1 16     5 65535",
            "   2 16     4 65535",
            "   3 13     0 65535",
            "pages 0 rows 4",
        ];
        cases.push(accepted(limits(parts, depth), "3 parts and depth 4", &nested, 1, Told::Whole(lines)));
    }
    let mut nested_under = |parts, depth, number| {
        refuse(cases, limits(parts, depth), "3 parts and depth 4", nested.bytes(), [number, 0, 0]);
    };
    for (parts, depth) in [(2, 4), (1, 4), (2, 3), (1, 1)] {
        nested_under(parts, depth, 3);
    }
    for (parts, depth) in [(3, 3), (3, 1), (200, 3)] {
        nested_under(parts, depth, 5);
    }
    for (parts, depth) in [(0, 4), (3, 0), (201, 4), (3, 101), (0, 0), (65_536 + 3, 4), (3, 65_536 + 4)] {
        nested_under(parts, depth, 25);
    }
    let unknown = Program::new().with([global(G, name(Y))]).bytes();
    refuse(cases, limits(1, 2), "8 under narrow limits", unknown.clone(), [8, 0, 1]);
    refuse(cases, limits(1, 1), "8 is 5 under depth 1", unknown.clone(), [5, 0, 0]);
    refuse(cases, limits(0, 2), "8 is 25 under parts 0", unknown, [25, 0, 0]);
    refuse(cases, limits(0, 100), "one byte, limits out of range", vec![4], [25, 0, 0]);
    refuse(cases, limits(200, 0), "types 513, limits out of range", vec![1, 2], [25, 0, 0]);
}
