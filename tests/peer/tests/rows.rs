//! The row table of one program that uses every node kind, written out by
//! hand, and the readings about rows: R1 to R5, M1, E17, P1.

use oat_peer::cases::rows::every_kind;
use oat_peer::cases::*;
use oat_peer::print;
use oat_peer::program::*;

const NONE: u16 = 65_535;
/// Kind, result and binder of each node.
const ROWS: [[u16; 3]; 78] = [
    // global G
    [1, A_NULLS, NONE],
    [16, A_NULLS, NONE],
    [10, A_NULL, NONE],
    [21, B, NONE],
    [22, INT, NONE],
    [13, INT, NONE],
    [22, INT, NONE],
    [13, INT, NONE],
    [22, INT, NONE],
    [13, INT, NONE],
    // global NAME
    [1, STRING, NONE],
    [14, STRING, NONE],
    // global ALIAS
    [1, A_NULLS, NONE],
    [15, A_NULLS, 0],
    // function F, node 14
    [2, 1, NONE],
    [3, A_AGAIN, NONE],
    [39, 1, NONE],
    // var I, node 17
    [31, 0, NONE],
    [17, INTS_AGAIN, NONE],
    [13, INT, NONE],
    // i[0] = -x.p
    [30, 0, NONE],
    [19, INT, NONE],
    [15, INTS_AGAIN, 17],
    [13, INT, NONE],
    [25, INT, NONE],
    [23, INT, NONE],
    [15, A_AGAIN, 15],
    // x.dry = length(i)
    [30, 0, NONE],
    [23, INT, NONE],
    [15, A_AGAIN, 15],
    [20, INT, NONE],
    [15, INTS_AGAIN, 17],
    // h(1, true | false), node 32
    [34, 0, NONE],
    [15, INT_BOOL_TO_VOID, 40_000],
    [13, INT, NONE],
    [26, BOOL, NONE],
    [11, BOOL, NONE],
    [12, BOOL, NONE],
    // if (g == g) return f(x);
    [35, 0, NONE],
    [26, BOOL, NONE],
    [15, A_NULLS, 0],
    [15, A_NULLS, 0],
    [39, 1, NONE],
    [32, 1, NONE],
    [24, INTS, NONE],
    [15, A_TO_INTS, 14],
    [15, A_AGAIN, 15],
    [39, 0, NONE],
    // if? (A z = g[0]) x = z; node 48
    [36, 0, NONE],
    [19, A_NULL, NONE],
    [15, A_NULLS, 0],
    [13, INT, NONE],
    [39, 0, NONE],
    [30, 0, NONE],
    [15, A_AGAIN, 15],
    [15, A, 48],
    [39, 0, NONE],
    // for (var z = 0; ; ) z = z + 1; node 57
    [37, 0, NONE],
    [31, 0, NONE],
    [13, INT, NONE],
    [40, 0, NONE],
    [40, 0, NONE],
    [39, 0, NONE],
    [30, 0, NONE],
    [15, INT, 58],
    [26, INT, NONE],
    [15, INT, 58],
    [13, INT, NONE],
    // while (false) { }
    [38, 0, NONE],
    [12, BOOL, NONE],
    [39, 0, NONE],
    // return new int[5]{z -> z}; node 71
    [32, 1, NONE],
    [18, INTS, NONE],
    [13, INT, NONE],
    [15, INT, 72],
    // function K, node 75
    [2, 1, NONE],
    [39, 1, NONE],
    [33, 1, NONE],
];

#[test]
fn every_node_kind() {
    let p = every_kind();
    let mut expected = String::from("0 14 0\n");
    for (i, [_, result, binder]) in ROWS.iter().enumerate() {
        expected += &format!("{i} {result} {binder}\n");
    }
    assert_eq!(print::check(&p.bytes()), expected);
    assert_eq!(kinds(&p), ROWS.map(|r| r[0]));
    let all = (1..=3).chain(10..=26).chain(30..=40);
    assert!(all.clone().all(|kind| kinds(&p).contains(&kind)));
}

/// The kinds of all nodes in file order.
fn kinds(p: &Program) -> Vec<u16> {
    fn walk(tree: &Tree, out: &mut Vec<u16>) {
        out.push(tree.kind);
        tree.kids.iter().for_each(|kid| walk(kid, out));
    }
    let mut out = Vec::new();
    p.declarations.iter().for_each(|d| walk(d, &mut out));
    out
}

/// The results of the nodes of an accepted file.
fn results(p: Program) -> Vec<u16> {
    let shown = print::check(&p.bytes());
    assert!(shown.starts_with("0 "), "{shown}");
    let number = |line: &str| line.split(' ').nth(1).and_then(|n| n.parse().ok()).expect("a row");
    shown.lines().skip(1).map(number).collect()
}

/// R1 the very numbers from the callee's, the array's and the field's record.
#[test]
fn very_numbers() {
    assert_eq!(results(rows::called()), [1, 1, 1, INTS_AGAIN, TO_INTS]);
    assert_eq!(results(rows::element()), [1, 1, 1, INTS_AGAIN, 40, INT]);
    assert_eq!(results(rows::projected()), [1, 1, 1, INTS_AGAIN, A, INTS, INTS]);
}

/// R2, M1: marks, and the results of globals and field initializers.
#[test]
fn marks_and_children() {
    assert_eq!(results(bare().with([global(G, list(INTS_AGAIN, vec![]))])), [INTS_AGAIN, INTS_AGAIN]);
    let arms = when(tru(), vec![done()], vec![done()]);
    assert_eq!(results(only(TO_VOID, vec![arms])), [1, 1, 1, BOOL, 1, 1, 1, 1]);
}

/// R4 a parameter's type number stands in the type list, and a name has it too.
#[test]
fn parameters() {
    assert_eq!(results(rows::parameter()), [1, INTS_AGAIN, 1, 1, INTS_AGAIN]);
}

/// R3 an if? name has the if?'s t, E17 null has its own t.
#[test]
fn null_tests() {
    assert_eq!(results(rows::null_test()), [1, 1, 0, B_NULL, 0, 0, A_AGAIN, A_AGAIN, 0, 1]);
}

/// P1 a line ends with byte 10; the document's example and its refusals.
#[test]
fn printed() {
    let example = Program::new().with([global(5, tru())]).bytes();
    assert_eq!(example.len(), 60);
    assert_eq!(print::check(&example), "0 1 0\n0 1 65535\n1 1 65535\n");
    assert_eq!(print::check(&Program::new().bytes()), "0 0 0\n");
    assert_eq!(print::check(&[]), "0 0 0\n");
    assert_eq!(print::check(&[4]), "1 0 0\n");
    assert_eq!(print::sub(print::Limited::widest(&example), [0, 0]), "yes 1\n");
    assert_eq!(print::sub(print::Limited::widest(&example), [0, 1]), "no 1\n");
    assert_eq!(print::sub(print::Limited::widest(&example), [4, 0]), "17 0\n");
    assert_eq!(print::sub(print::Limited::widest(&[]), [4, 0]), "17 0\n");
    assert_eq!(print::sub(print::Limited::widest(&[4]), [4, 0]), "1 0\n");
}
