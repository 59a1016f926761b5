//! Cases of "The program file": numbers 1 to 5, with a file on each side.

use super::*;
use crate::program::*;

/// Files with the number under which they cannot be read, or 0.
pub fn reading() -> Vec<(&'static str, Vec<u8>, u16)> {
    let mut cases = Vec::new();
    lengths(&mut cases);
    counts(&mut cases);
    orders(&mut cases);
    fixed_types(&mut cases);
    later_types(&mut cases);
    functions(&mut cases);
    parts(&mut cases);
    records(&mut cases);
    depths(&mut cases);
    declarations(&mut cases);
    expressions(&mut cases);
    globals(&mut cases);
    statements(&mut cases);
    nearly_empty(&mut cases);
    cases
}

type Cases = Vec<(&'static str, Vec<u8>, u16)>;

fn put(cases: &mut Cases, number: u16, name: &'static str, p: Program) {
    cases.push((name, p.bytes(), number));
}

/// A program with changed types.
fn typed(records: &[[u16; 4]], list: &[u16]) -> Program {
    let mut p = Program::new();
    p.types.extend(records);
    p.list.extend(list);
    p
}

/// The document's example, 60 bytes.
fn example() -> Vec<u8> {
    Program::new().with([global(5, tru())]).bytes()
}

/// Number 1, and document 02's request (v): zero bytes are a file.
fn lengths(cases: &mut Cases) {
    cases.push(("zero bytes", vec![], 0));
    cases.push(("one byte", vec![4], 1));
    cases.push(("the example", example(), 0));
    cases.push(("P1 a leftover byte", [example(), vec![0]].concat(), 1));
    cases.push(("leftover bytes like a section", [example(), vec![0, 0]].concat(), 1));
    for cut in 1..60 {
        cases.push(("the example, cut", example()[..60 - cut].to_vec(), 1));
    }
    cases.push(("P1 longer than the longest file", [full().bytes(), vec![7; 9]].concat(), 1));
    cases.push(("all sections full, 45,068 bytes", full().bytes(), 0));
    let mut record_cut = pans().bytes();
    record_cut.truncate(2 + 8 * 40 + 1);
    cases.push(("half a count", record_cut, 1));
}

/// All sections at their most.
pub fn full() -> Program {
    let mut p = Program::new();
    for _ in 0..128 {
        p.function(INT, &[INT; 8]);
    }
    while p.types.len() < 512 {
        p.array(INT);
    }
    for i in 0..256 {
        p.declare(i, &[[0, INT], [1, BOOL], [2, STRING], [3, 4]]);
    }
    p.builtins = (0..128).map(|i| [i, 4]).collect();
    p.with((0..2048).map(|i| global(1000 + i, int(i))))
}

/// Numbers 1 and 2 at each count.
fn counts(cases: &mut Cases) {
    let mut more = |name, change: fn(&mut Program)| {
        let mut p = full();
        change(&mut p);
        cases.push((name, p.bytes(), 2));
    };
    more("types 513", |p| p.types.push([5, 0, 0, 0]));
    more("list 1,025", |p| p.list.push(0));
    more("fields 1,025", |p| p.fields.push([9, 0]));
    more("structs 257", |p| p.structs.push([9, 1024, 0]));
    more("built-ins 129", |p| p.builtins.push([999, 4]));
    more("nodes 4,097", |p| p.declarations[0].kids.push(int(0)));
    let empty = |sections: &[u16]| -> Vec<u8> {
        let types: Vec<u16> = (0..4).flat_map(|k| [k, 0, 0, 0]).collect();
        [&[4], &types[..], sections].concat().iter().flat_map(|n| n.to_le_bytes()).collect()
    };
    cases.push(("F16 types 513, nothing behind", 513u16.to_le_bytes().to_vec(), 2));
    cases.push(("F16 list 1,025, nothing behind", empty(&[1025]), 2));
    cases.push(("F16 fields 1,025, nothing behind", empty(&[0, 1025]), 2));
    cases.push(("F16 structs 257, nothing behind", empty(&[0, 0, 257]), 2));
    cases.push(("F16 built-ins 129, nothing behind", empty(&[0, 0, 0, 129]), 2));
    cases.push(("F16 nodes 4,097, nothing behind", empty(&[0, 0, 0, 0, 4097]), 2));
    cases.push(("P1 nodes 65,535, nothing behind", empty(&[0, 0, 0, 0, 65535]), 2));
    for sections in 0..5 {
        cases.push(("a missing count", empty(&vec![0; sections]), 1));
    }
    cases.push(("list 1,024, nothing behind", empty(&[1024]), 1));
    cases.push(("types 0 to 3 and nothing else", empty(&[0; 5]), 0));
    cases.push(("F1 six zero counts", vec![0; 12], 3));
    cases.push(("a cut section before too large a count", empty(&[1, 0, 1025])[..36].to_vec(), 1));
}

/// The order of the numbers.
fn orders(cases: &mut Cases) {
    let mut three = Program::new();
    three.types[0][0] = 1;
    let mut three_four = three.clone();
    three_four.fields.push([1, VOID]);
    let mut four = Program::new();
    four.fields.push([1, VOID]);
    let five = [node(99, 0, 0, vec![])];
    cases.push(("F16 leftover before 3", [three.bytes(), vec![0]].concat(), 1));
    cases.push(("F16 leftover before 4", [four.bytes(), vec![0]].concat(), 1));
    cases.push(("F16 leftover before 5", [Program::new().with(five.clone()).bytes(), vec![0]].concat(), 1));
    put(cases, 3, "3 before 4", three_four.clone());
    put(cases, 3, "3 before 5", three.clone().with(five.clone()));
    put(cases, 3, "3 before 4 and 5", three_four.with(five.clone()));
    put(cases, 4, "4 before 5", four.with(five.clone()));
    put(cases, 5, "kind 99", Program::new().with(five));
    let mut many = three.bytes();
    let end = many.len();
    many.truncate(end - 2);
    many.extend(4097u16.to_le_bytes());
    cases.push(("F16 nodes 4,097 before 3", many, 2));
}

/// Types 0 to 3.
fn fixed_types(cases: &mut Cases) {
    for missing in 1..=4 {
        let mut p = Program::new();
        p.types.truncate(4 - missing);
        put(cases, 3, "F1 fewer than four types", p);
    }
    for i in 0..4 {
        for (operand, value) in [(0, (i as u16 + 1) % 4), (0, 4), (1, 1), (2, 1), (3, 1)] {
            let mut p = Program::new();
            p.types[i][operand] = value;
            put(cases, 3, "F2 a fixed type of another kind or with an operand", p);
        }
        put(cases, 3, "a later type of a fixed kind", typed(&[[i as u16, 0, 0, 0]], &[]));
    }
}

/// Struct, array, nullable and unknown kinds.
fn later_types(cases: &mut Cases) {
    put(cases, 0, "F17 a struct type that no struct has", typed(&[[4, 9, 0, 0]], &[]));
    put(cases, 0, "a struct type of name 65,535", typed(&[[4, 65535, 0, 0]], &[]));
    put(cases, 3, "F2 struct type, b", typed(&[[4, 9, 1, 0]], &[]));
    put(cases, 3, "F2 struct type, c", typed(&[[4, 9, 0, 1]], &[]));
    put(cases, 0, "array of int", typed(&[[5, 0, 0, 0]], &[]));
    put(cases, 3, "F2 array, b", typed(&[[5, 0, 1, 0]], &[]));
    put(cases, 3, "F2 array, c", typed(&[[5, 0, 0, 1]], &[]));
    put(cases, 3, "F14 array of void", typed(&[[5, 3, 0, 0]], &[]));
    put(cases, 3, "array of itself", typed(&[[5, 4, 0, 0]], &[]));
    put(cases, 3, "array of a later type", typed(&[[5, 5, 0, 0], [4, 1, 0, 0]], &[]));
    put(cases, 3, "F14 array of a type out of range", typed(&[[5, 600, 0, 0]], &[]));
    put(cases, 0, "array of an array", typed(&[[5, 0, 0, 0], [5, 4, 0, 0]], &[]));
    put(cases, 3, "kind 8", typed(&[[8, 0, 0, 0]], &[]));
    put(cases, 3, "kind 65,535", typed(&[[65535, 0, 0, 0]], &[]));
    for (number, inside) in [(0, 2), (3, 0), (3, 1), (3, 3), (0, 4), (0, 5), (0, 6), (3, 7), (3, 8), (3, 9), (3, 10)] {
        let records = [[4, 1, 0, 0], [5, 0, 0, 0], [6, 3, 0, 0], [7, 2, 0, 0], [7, inside, 0, 0], [4, 1, 0, 0]];
        put(cases, number, "nullable of each kind", typed(&records, &[]));
    }
    put(cases, 3, "F2 nullable, b", typed(&[[7, 2, 1, 0]], &[]));
    put(cases, 3, "F2 nullable, c", typed(&[[7, 2, 0, 1]], &[]));
}

/// Function types and the type list.
fn functions(cases: &mut Cases) {
    put(cases, 0, "F21 a function without parameters", typed(&[[6, 3, 0, 0]], &[]));
    put(cases, 3, "F3 b is the total also without parameters", typed(&[[6, 3, 1, 0]], &[]));
    put(cases, 3, "F3 b of a later one", typed(&[[6, 3, 0, 1], [6, 3, 0, 0]], &[0]));
    put(cases, 0, "F3 b of a later one, right", typed(&[[6, 3, 0, 1], [6, 3, 1, 0]], &[0]));
    put(cases, 3, "b begins again", typed(&[[6, 3, 0, 1], [6, 3, 0, 1]], &[0]));
    put(cases, 0, "b goes on", typed(&[[6, 3, 0, 1], [6, 3, 1, 2]], &[0, 1, 2]));
    put(cases, 3, "b leaves one out", typed(&[[6, 3, 0, 1], [6, 3, 2, 1]], &[0, 1, 2]));
    put(cases, 3, "the list is not used up", typed(&[[6, 3, 0, 1]], &[0, 0]));
    put(cases, 3, "a list without functions", typed(&[], &[0]));
    put(cases, 3, "the list is too short", typed(&[[6, 3, 0, 2]], &[0]));
    put(cases, 3, "c far too large", typed(&[[6, 3, 0, 65535]], &[0]));
    put(cases, 0, "a string returned", typed(&[[6, 2, 0, 0]], &[]));
    put(cases, 3, "it returns itself", typed(&[[6, 4, 0, 0]], &[]));
    put(cases, 3, "it returns a later type", typed(&[[6, 5, 0, 0], [4, 1, 0, 0]], &[]));
    put(cases, 3, "F14 it returns a type out of range", typed(&[[6, 512, 0, 0]], &[]));
    put(cases, 3, "F14 a void parameter", typed(&[[6, 0, 0, 1]], &[3]));
    put(cases, 3, "F14 a void parameter, second", typed(&[[6, 0, 0, 2]], &[0, 3]));
    put(cases, 3, "F15 a parameter of its own type", typed(&[[6, 0, 0, 1]], &[4]));
    put(cases, 3, "F15 a parameter of a later type", typed(&[[6, 0, 0, 1], [4, 1, 0, 0]], &[5]));
    put(cases, 0, "F15 a parameter of a lower type", typed(&[[4, 1, 0, 0], [6, 0, 0, 1]], &[4]));
    put(cases, 3, "F14 a parameter out of range", typed(&[[6, 0, 0, 1]], &[65535]));
}

/// The 200 parts.
fn parts(cases: &mut Cases) {
    let mut ints = |number, name, result: u16, count: usize| {
        put(cases, number, name, typed(&[[6, result, 0, count as u16]], &vec![0; count]));
    };
    ints(0, "Pan: 200 parts: 198 ints to int", 0, 198);
    ints(3, "Pan: 201 parts: 199 ints to int", 0, 199);
    ints(0, "F4 198 ints to void", 3, 198);
    ints(3, "F4 199 ints to void", 3, 199);
    ints(3, "1,000 ints to int", 0, 1000);
    for (number, name, count) in [(0, "200 parts: an array of 199", 197), (3, "201 parts: an array of 200", 198)] {
        put(cases, number, name, typed(&[[6, 0, 0, count], [5, 4, 0, 0]], &vec![0; count as usize]));
        put(cases, number, name, typed(&[[6, 0, 0, count], [7, 4, 0, 0]], &vec![0; count as usize]));
        put(
            cases,
            number,
            name,
            typed(&[[5, 0, 0, 0], [6, 4, 0, count - 1], [5, 5, 0, 0]], &vec![0; count as usize - 1]),
        );
    }
    let twice = |count: u16| typed(&[[6, 0, 0, count], [6, 4, count, 1]], &[vec![0; count as usize], vec![4]].concat());
    put(cases, 3, "F5 a type mentioned twice counts twice: 201 parts", twice(98));
    put(cases, 0, "F5 a type mentioned twice counts twice: 199 parts", twice(97));
    let mut deep = Program::new();
    let mut t = 0;
    for _ in 0..199 {
        t = deep.array(t);
    }
    put(cases, 0, "200 parts: arrays of arrays", deep.clone());
    deep.array(t);
    put(cases, 3, "201 parts: arrays of arrays", deep);
    let mut strukt = typed(&[[4, 1, 0, 0], [6, 4, 0, 198]], &[4; 198]);
    strukt.declare(1, &[[1, 0], [2, 0], [3, 0]]);
    put(cases, 0, "a struct has 1 part", strukt);
}

/// Fields, structs and built-ins: number 4.
fn records(cases: &mut Cases) {
    let with = |fields: &[[u16; 2]], structs: &[[u16; 3]], builtins: &[[u16; 2]]| {
        let mut p = typed(&[[6, 3, 0, 0], [4, 1, 0, 0], [4, 9, 0, 0], [6, 6, 0, 0]], &[]);
        p.fields.extend(fields);
        p.structs.extend(structs);
        p.builtins.extend(builtins);
        p
    };
    put(cases, 0, "fields of each type but void", with(&[[1, 0], [2, 1], [3, 2], [4, 4], [5, 5]], &[[1, 0, 5]], &[]));
    put(cases, 4, "F14 a field of type 3", with(&[[1, 3]], &[[1, 0, 1]], &[]));
    put(cases, 4, "F14 a later field of type 3", with(&[[1, 0], [2, 3]], &[[1, 0, 2]], &[]));
    put(cases, 4, "F14 a field out of range", with(&[[1, 8]], &[[1, 0, 1]], &[]));
    put(cases, 0, "a field of the last type", with(&[[1, 7]], &[[1, 0, 1]], &[]));
    put(cases, 4, "a field without struct", with(&[[1, 0]], &[], &[]));
    put(cases, 4, "fields not used up", with(&[[1, 0], [2, 0]], &[[1, 0, 1]], &[]));
    put(cases, 4, "fields too few", with(&[[1, 0]], &[[1, 0, 2]], &[]));
    put(cases, 4, "a field count far too large", with(&[[1, 0]], &[[1, 0, 65535]], &[]));
    put(cases, 0, "F21 a struct without fields", with(&[], &[[1, 0, 0]], &[]));
    put(cases, 4, "F3 first field without fields", with(&[], &[[1, 1, 0]], &[]));
    put(cases, 4, "F3 first field of the second", with(&[[1, 0]], &[[1, 0, 1], [2, 0, 0]], &[]));
    put(cases, 0, "F3 first field of the second, right", with(&[[1, 0]], &[[1, 0, 1], [2, 1, 0]], &[]));
    put(cases, 4, "first field begins again", with(&[[1, 0]], &[[1, 0, 1], [2, 0, 1]], &[]));
    put(cases, 4, "first field leaves one out", with(&[[1, 0], [2, 0]], &[[1, 1, 1]], &[]));
    put(cases, 0, "a struct declared twice can be read", with(&[], &[[1, 0, 0], [1, 0, 0]], &[]));
    put(cases, 0, "a doubled field can be read", with(&[[1, 0], [1, 0]], &[[1, 0, 2]], &[]));
    put(cases, 0, "a built-in", with(&[], &[], &[[1, 4]]));
    put(cases, 0, "a built-in of name 65,535", with(&[], &[], &[[65535, 4]]));
    for t in [0, 1, 2, 3, 5] {
        put(cases, 4, "a built-in that is no function", with(&[], &[], &[[1, t]]));
    }
    put(cases, 4, "F14 a built-in out of range", with(&[], &[], &[[1, 8]]));
    put(cases, 4, "a second built-in that is no function", with(&[], &[], &[[1, 4], [2, 0]]));
    put(cases, 0, "F12 an undeclared struct in a built-in's type", with(&[], &[], &[[1, 7]]));
}

/// The 100 levels: every node counts.
fn depths(cases: &mut Cases) {
    let wrap = |times: usize, tree: Tree| (0..times).fold(tree, |t, _| unary(0, t));
    let both = |cases: &mut Cases, name, make: &dyn Fn(usize) -> Program| {
        for (number, over) in [(0, 0), (5, 1)] {
            let p = make(over);
            let depth = p.declarations.iter().map(Tree::depth).max().unwrap_or(0);
            assert_eq!(depth, 100 + over, "{name}");
            put(cases, number, name, p);
        }
    };
    both(cases, "Pan: depth 100 and 101", &|over| only(TO_INT, vec![ret(wrap(96 + over, int(0)))]));
    let whiles = |times: usize, body: Vec<Tree>| (0..times).fold(body, |b, _| vec![during(tru(), b)]);
    both(cases, "F20 depth of a block", &|over| {
        let step = repeat(vec![], tru(), during(tru(), vec![]), vec![]);
        only(TO_VOID, if over == 0 { whiles(49, vec![]) } else { whiles(48, vec![step]) })
    });
    both(cases, "F20 depth of a statement", &|over| {
        only(TO_VOID, if over == 0 { whiles(48, vec![set(name(X), int(0))]) } else { whiles(49, vec![done()]) })
    });
    both(cases, "F20 depth of an absent part", &|over| {
        let inner = repeat(vec![], absent(), absent(), vec![]);
        only(TO_VOID, whiles(48, vec![if over == 0 { inner } else { repeat(vec![], tru(), inner, vec![]) }]))
    });
    both(cases, "F20 depth of a field initializer", &|over| {
        let inner = (0..1 + over).fold(list(INTS, vec![]), |t, _| list(INTSS, vec![t]));
        let tree = (0..48).fold(inner, |t, _| record(A, vec![(P, t)]));
        bare().with([global(G, list(INTSS, vec![tree]))])
    });
    both(cases, "depth in a global", &|over| {
        bare().with([global(G, (0..98 + over).fold(int(0), |t, _| list(INTS, vec![t])))])
    });
}

/// Outermost trees, functions and parameters.
fn declarations(cases: &mut Cases) {
    put(cases, 0, "no declarations", bare());
    put(cases, 0, "a global and a function", bare().with([global(G, int(1)), func(F, TO_VOID, &[], vec![done()])]));
    for tree in [
        node(3, 5, 0, vec![]),
        int(1),
        ret(int(1)),
        done(),
        block(vec![]),
        absent(),
        node(0, 0, 0, vec![]),
        node(22, 1, 0, vec![int(1)]),
    ] {
        put(cases, 5, "F6 another outermost tree", bare().with([tree]));
    }
    put(cases, 5, "a global without initializer", bare().with([node(1, G, 0, vec![])]));
    put(cases, 5, "a global with two", bare().with([node(1, G, 0, vec![int(1), int(2)])]));
    put(cases, 5, "F2 a global's t", bare().with([node(1, G, 1, vec![int(1)])]));
    let body = || block(vec![done()]);
    let parameter = |t| node(3, X, t, vec![]);
    put(cases, 0, "one parameter", bare().with([node(2, F, INT_TO_INT, vec![parameter(0), body()])]));
    put(cases, 5, "F10 no parameter for one", bare().with([node(2, F, INT_TO_INT, vec![body()])]));
    put(
        cases,
        5,
        "F10 two parameters for one",
        bare().with([node(2, F, INT_TO_INT, vec![parameter(0), parameter(0), body()])]),
    );
    put(cases, 5, "F10 one parameter for none", bare().with([node(2, F, TO_VOID, vec![parameter(0), body()])]));
    put(cases, 5, "no block", bare().with([node(2, F, INT_TO_INT, vec![parameter(0)])]));
    put(cases, 5, "no children", bare().with([node(2, F, TO_VOID, vec![])]));
    put(cases, 5, "two blocks", bare().with([node(2, F, TO_VOID, vec![body(), body()])]));
    put(cases, 5, "F2 a parameter's t", bare().with([node(2, F, INT_TO_INT, vec![parameter(1), body()])]));
    put(
        cases,
        5,
        "a parameter with a child",
        bare().with([node(2, F, INT_TO_INT, vec![node(3, X, 0, vec![int(0)]), body()])]),
    );
    put(cases, 5, "a name for a parameter", bare().with([node(2, F, INT_TO_INT, vec![name(X), body()])]));
    put(cases, 5, "a statement for the block", bare().with([node(2, F, TO_VOID, vec![done()])]));
    for t in [INT, STRING, VOID, A, AS, A_NULL, 40, 65535] {
        put(cases, 5, "F14 a function of no function type", bare().with([node(2, F, t, vec![body()])]));
    }
    let mut cut = only(TO_VOID, vec![done()]).bytes();
    let end = cut.len();
    cut[end - 10] = 2;
    cases.push(("F22 a child count too large", cut.clone(), 5));
    cut[end - 10] = 0;
    cases.push(("F22 a child count too small", cut, 5));
}

/// Expressions, each right and with each operand or child wrong.
fn expressions(cases: &mut Cases) {
    let mut put_expression = |number, name, tree: Tree| put(cases, number, name, only(TO_INT, vec![ret(tree)]));
    let right = [
        null(A_NULL),
        tru(),
        fls(),
        int(7),
        int(65535),
        text(9),
        text(65535),
        name(X),
        name(65535),
        list(INTS, vec![]),
        list(INTS, vec![int(1), tru()]),
        blank(INTS, int(1)),
        fill(INTS, I, int(1), int(2)),
        index(name(X), int(1)),
        length(name(X)),
        record(A, vec![]),
        record(A, vec![(1, int(1)), (9, int(2))]),
        field(name(X), 5),
        call(name(X), vec![]),
        call(name(X), vec![int(1), int(2)]),
        unary(0, int(1)),
        unary(1, tru()),
        unary(2, int(1)),
    ];
    for tree in &right {
        put_expression(0, "F21 an expression", tree.clone());
        put_expression(5, "a child more or less", extra_child(tree));
        let named = |operand: usize| match tree.kind {
            13 | 14 | 15 | 23 => operand == 0,
            18 => true,
            10 | 16 | 17 | 21 => operand == 1,
            25 => operand == 0,
            _ => false,
        };
        if !named(0) {
            put_expression(5, "F2 an unnamed x", Tree { x: 1, ..tree.clone() });
        }
        if !named(1) {
            put_expression(5, "F2 an unnamed t", Tree { t: 1, ..tree.clone() });
        }
    }
    for x in 0..=17 {
        put_expression(if x <= 15 { 0 } else { 5 }, "F9 binary operators", binary(x, int(1), int(2)));
    }
    put_expression(5, "F2 a binary's t", Tree { t: 1, ..binary(0, int(1), int(2)) });
    put_expression(5, "one operand", node(26, 0, 0, vec![int(1)]));
    put_expression(5, "three operands", node(26, 0, 0, vec![int(1), int(1), int(1)]));
    put_expression(5, "F9 unary operator 3", unary(3, int(1)));
    put_expression(5, "F9 unary operator 65,535", unary(65535, int(1)));
    put_expression(5, "F19 a call without a callee", node(24, 0, 0, vec![]));
    for t in [INT, STRING, VOID, A, AS, TO_VOID, A_NULL, 40, 65535] {
        put_expression(if t == A_NULL { 0 } else { 5 }, "F14 null's type", null(t));
        put_expression(if t == AS { 0 } else { 5 }, "F14 an array literal's type", list(t, vec![]));
        put_expression(if t == AS { 0 } else { 5 }, "F14 a default array's type", blank(t, int(1)));
        put_expression(if t == AS { 0 } else { 5 }, "F14 a filled array's type", fill(t, I, int(1), int(1)));
        put_expression(if t == A { 0 } else { 5 }, "F14 a struct literal's type", record(t, vec![]));
    }
    let initializer = node(22, P, 0, vec![int(1)]);
    put_expression(5, "an initializer as an expression", initializer.clone());
    put_expression(5, "an initializer in an array", list(INTS, vec![initializer.clone()]));
    put_expression(5, "an initializer as an argument", call(name(X), vec![initializer]));
    put_expression(5, "an expression in a struct literal", node(21, 0, A, vec![int(1)]));
    put_expression(5, "F2 an initializer's t", node(21, 0, A, vec![node(22, P, 1, vec![int(1)])]));
    put_expression(5, "an initializer without value", node(21, 0, A, vec![node(22, P, 0, vec![])]));
    put_expression(5, "an initializer with two", node(21, 0, A, vec![node(22, P, 0, vec![int(1), int(1)])]));
    for kind in [0, 1, 2, 3, 9, 22, 27, 29, 30, 33, 39, 40, 41, 65535] {
        put_expression(5, "no expression", node(kind, 0, 0, vec![]));
    }
    put_expression(5, "a statement as an operand", unary(0, done()));
}

/// One child more, of a kind that does not belong there.
fn extra_child(tree: &Tree) -> Tree {
    with_more(tree, if [16, 24].contains(&tree.kind) { done() } else { int(1) })
}

/// A global's tree.
fn globals(cases: &mut Cases) {
    let inner = [null(A_NULL), tru(), fls(), int(1), text(1), name(X), list(INTS, vec![]), record(A, vec![])];
    let outer = [
        blank(INTS, int(1)),
        fill(INTS, I, int(1), int(1)),
        index(name(X), int(1)),
        length(name(X)),
        field(name(X), 1),
        call(name(X), vec![]),
        unary(0, int(1)),
        binary(0, int(1), int(1)),
    ];
    let all = inner.into_iter().map(|t| (0, t)).chain(outer.into_iter().map(|t| (5, t)));
    for (number, tree) in all {
        put(cases, number, "F11 a global's initializer", bare().with([global(G, tree.clone())]));
        put(cases, number, "F11 in a global's array", bare().with([global(G, list(INTS, vec![int(1), tree.clone()]))]));
        put(cases, number, "F11 in a global's struct", bare().with([global(G, record(A, vec![(P, tree.clone())]))]));
        let nested = list(INTSS, vec![record(A, vec![(P, list(INTS, vec![tree.clone()]))])]);
        put(cases, number, "F11 deep in a global", bare().with([global(G, nested)]));
        put(
            cases,
            0,
            "a function after a global is free",
            bare().with([global(G, int(1)), func(F, TO_INT, &[], vec![ret(tree)])]),
        );
    }
}

/// Statements and blocks.
fn statements(cases: &mut Cases) {
    let mut put_statement = |number, name, tree: Tree| put(cases, number, name, only(TO_VOID, vec![tree]));
    let right = [
        set(name(X), int(1)),
        set(index(name(X), int(0)), int(1)),
        set(field(name(X), 1), int(1)),
        ret(int(1)),
        done(),
        run(name(X), vec![]),
        run(name(X), vec![int(1)]),
        when(tru(), vec![], vec![]),
        during(tru(), vec![]),
        repeat(vec![], absent(), absent(), vec![]),
        repeat(vec![var(X, int(1))], tru(), done(), vec![done()]),
        repeat(vec![var(X, int(1)), var(Z, int(1))], absent(), set(name(X), int(1)), vec![]),
    ];
    for tree in &right {
        put_statement(0, "F7 a statement", tree.clone());
        put_statement(5, "F2 a statement's x", Tree { x: 1, ..tree.clone() });
        put_statement(5, "F2 a statement's t", Tree { t: 1, ..tree.clone() });
        put_statement(5, "a statement with a block more", with_more(tree, block(vec![])));
        put_statement(5, "a statement with an absent part more", with_more(tree, absent()));
        put_statement(5, "a statement with a child less", with_less(tree));
    }
    put_statement(0, "a var", var(65535, int(1)));
    put_statement(5, "F2 a var's t", Tree { t: 1, ..var(X, int(1)) });
    put_statement(5, "a var without value", node(31, X, 0, vec![]));
    put_statement(5, "a var with two", node(31, X, 0, vec![int(1), int(1)]));
    put_statement(5, "return with two", node(32, 0, 0, vec![int(1), int(1)]));
    put_statement(5, "F19 a call statement without a callee", node(34, 0, 0, vec![]));
    for left in [
        int(1),
        tru(),
        null(A_NULL),
        call(name(X), vec![]),
        length(name(X)),
        list(INTS, vec![]),
        unary(0, int(1)),
        done(),
    ] {
        put_statement(5, "another left side", set(left, int(1)));
    }
    for t in [INT, BOOL, STRING, VOID, A, AS, TO_VOID, A_NULL, 40, 65535] {
        let number = if [STRING, A, AS, TO_VOID].contains(&t) { 0 } else { 5 };
        put_statement(number, "F14 an if?'s type", when_null(X, t, name(Z), vec![], vec![]));
    }
    for (kind, t) in [(35, 0), (36, A)] {
        let arms = |first, second| node(kind, 0, t, vec![name(X), first, second]);
        put_statement(0, "two blocks", arms(block(vec![]), block(vec![done()])));
        put_statement(5, "F18 an absent else", arms(block(vec![]), absent()));
        put_statement(5, "F18 an else that is an if", arms(block(vec![]), when(tru(), vec![], vec![])));
        put_statement(5, "F18 an absent arm", arms(absent(), block(vec![])));
        put_statement(5, "an arm that is a statement", arms(done(), block(vec![])));
        put_statement(5, "no second arm", node(kind, 0, t, vec![name(X), block(vec![])]));
        put_statement(5, "an absent condition", node(kind, 0, t, vec![absent(), block(vec![]), block(vec![])]));
    }
    let steps = [
        (0, set(name(X), int(1))),
        (0, var(X, int(1))),
        (0, ret(int(1))),
        (0, done()),
        (0, run(name(X), vec![])),
        (0, when(tru(), vec![], vec![])),
        (0, when_null(X, A, name(Z), vec![], vec![])),
        (0, repeat(vec![], absent(), absent(), vec![])),
        (0, during(tru(), vec![])),
        (5, block(vec![])),
        (0, absent()),
        (5, int(1)),
        (5, call(name(X), vec![])),
    ];
    for (number, step) in steps {
        put_statement(number, "F8 a for's step", repeat(vec![], absent(), step.clone(), vec![]));
        let as_var = if step.kind == 31 { 0 } else { 5 };
        put_statement(as_var, "a for's var", repeat(vec![step.clone()], absent(), absent(), vec![]));
        let as_statement = if step.kind == 40 { 5 } else { number };
        put_statement(as_statement, "a statement in a block", during(tru(), vec![step]));
    }
    put_statement(5, "a for without block", node(37, 0, 0, vec![absent(), absent()]));
    put_statement(5, "a for whose block is absent", node(37, 0, 0, vec![absent(), absent(), absent()]));
    put_statement(5, "a for's condition is a statement", repeat(vec![], done(), absent(), vec![]));
    put_statement(5, "a while whose condition is absent", during(absent(), vec![]));
    put_statement(5, "F2 an absent part's x", repeat(vec![], node(40, 1, 0, vec![]), absent(), vec![]));
    put_statement(5, "F2 an absent part's t", repeat(vec![], absent(), node(40, 0, 1, vec![]), vec![]));
    put_statement(5, "an absent part's child", repeat(vec![], node(40, 0, 0, vec![int(1)]), absent(), vec![]));
    for (x, t) in [(1, 0), (0, 1)] {
        put_statement(5, "F2 a block's operands", during(tru(), vec![]).with_second(node(39, x, t, vec![])));
    }
    for kind in [0, 1, 2, 3, 15, 22, 24, 29, 39, 40, 41, 65535] {
        put_statement(5, "no statement", node(kind, 0, 0, vec![]));
    }
}

/// Request (v): nothing but zero bytes means types 0 to 3 without holding them.
fn nearly_empty(cases: &mut Cases) {
    let four = Program::new().bytes();
    for byte in [0, 1, 2, 44, 255] {
        cases.push(("one byte", vec![byte], 1));
    }
    for number in [0u16, 1, 4, 512] {
        cases.push(("two bytes, a count of types", number.to_le_bytes().to_vec(), 1));
        cases.push(("three bytes, a count of types and a byte", [&number.to_le_bytes()[..], &[0]].concat(), 1));
    }
    for number in [513u16, 65_535] {
        cases.push(("two bytes, too large a count", number.to_le_bytes().to_vec(), 2));
        cases.push(("three bytes, too large a count and a byte", [&number.to_le_bytes()[..], &[0]].concat(), 2));
    }
    cases.push(("eleven bytes 0", vec![0; 11], 1));
    cases.push(("six zero counts and a byte", vec![0; 13], 1));
    cases.push(("types 0 to 3, 43 bytes", four[..43].to_vec(), 1));
    cases.push(("types 0 to 3, 44 bytes", four.clone(), 0));
    cases.push(("types 0 to 3, 45 bytes", [four, vec![0]].concat(), 1));
}

fn with_more(tree: &Tree, kid: Tree) -> Tree {
    let mut tree = tree.clone();
    tree.kids.push(kid);
    tree
}

/// Too few children; a node that has none gets one.
fn with_less(tree: &Tree) -> Tree {
    let mut tree = tree.clone();
    if tree.kind == 34 {
        tree.kids.clear();
    } else if tree.kids.pop().is_none() {
        tree.kids.push(int(1));
    }
    tree
}

impl Tree {
    fn with_second(mut self, kid: Tree) -> Tree {
        self.kids[1] = kid;
        self
    }
}
