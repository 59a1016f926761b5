//! Cases of "Subtyping and well-formed types".

use super::*;

/// A subtype question with its answer: yes or no, or the refusing number.
pub struct Question {
    pub name: &'static str,
    pub file: Vec<u8>,
    pub pair: [u16; 2],
    pub answer: Result<bool, u16>,
}

fn asked(name: &'static str, file: Vec<u8>, pair: [u16; 2], yes: bool) -> Question {
    Question { name, file, pair, answer: Ok(yes) }
}

pub fn subtyping() -> Vec<Question> {
    let mut all = Vec::new();
    for (name, a, b, yes) in pan_pairs() {
        all.push(asked(name, pans().bytes(), [a, b], yes));
    }
    for (name, a, b, yes) in undeclared_pairs() {
        all.push(asked(name, bare().bytes(), [a, b], yes));
    }
    prefixes(&mut all);
    functions(&mut all);
    doubled(&mut all);
    zero_bytes(&mut all);
    all
}

type Pairs = Vec<(&'static str, u16, u16, bool)>;

fn pan_pairs() -> Pairs {
    vec![
        ("Pan: B below A", B, A, true),
        ("Pan: A not below B", A, B, false),
        ("Pan: C not below A", C, A, false),
        ("Pan: A below A?", A, A_NULL, true),
        ("Pan: A? not below A", A_NULL, A, false),
        ("Pan: B[] not below A[]", BS, AS, false),
        ("Pan: (A)->B below (B)->A", A_TO_B, B_TO_A, true),
        ("Pan: (B)->A not below (A)->B", B_TO_A, A_TO_B, false),
        ("A below A under another number", A, A_AGAIN, true),
        ("int[] below int[] under another number", INTS_AGAIN, INTS, true),
        ("B? below A?", B_NULL, A_NULL, true),
        ("B below A?", B, A_NULL, true),
        ("A? not below B?", A_NULL, B_NULL, false),
        ("int below int", INT, INT, true),
        ("int not below bool", INT, BOOL, false),
        ("int not below string?", INT, STRING_NULL, false),
        ("string below string?", STRING, STRING_NULL, true),
        ("string? not below string", STRING_NULL, STRING, false),
        ("string not below A?", STRING, A_NULL, false),
        ("S2 void below void", VOID, VOID, true),
        ("S2 void not below int", VOID, INT, false),
        ("S2 int not below void", INT, VOID, false),
        ("void not below string?", VOID, STRING_NULL, false),
        ("()->int not below ()->void", TO_INT, TO_VOID, false),
        ("()->void not below ()->int", TO_VOID, TO_INT, false),
        ("()->int not below (int)->int", TO_INT, INT_TO_INT, false),
        ("(int)->int not below ()->int", INT_TO_INT, TO_INT, false),
        ("()->int below (()->int)?", TO_INT, TO_INT_NULL, true),
        ("(int, int)->void not below (int, bool)->void", INT_INT_TO_VOID, INT_BOOL_TO_VOID, false),
        ("A?[] below itself", A_NULLS, A_NULLS, true),
        ("A?[] not below A[]", A_NULLS, AS, false),
        ("A[] not below A?[]", AS, A_NULLS, false),
    ]
}

fn undeclared_pairs() -> Pairs {
    vec![
        ("S1 Q not below itself", Q, Q, false),
        ("S1 Q? not below itself", Q_NULL, Q_NULL, false),
        ("S1 Q not below Q?", Q, Q_NULL, false),
        ("S1 (Q)->void not below itself", Q_TO_VOID, Q_TO_VOID, false),
        ("S1 ()->Q not below itself", TO_Q, TO_Q, false),
        ("S1 Q[] below itself", QS, QS, true),
        ("S1 Q[]? below itself", QS_NULL, QS_NULL, true),
        ("S1 Q[] below Q[]?", QS, QS_NULL, true),
        ("S1 (Q[])->Q[] below itself", QS_TO_QS, QS_TO_QS, true),
        ("S1 A under two numbers, undeclared", A, A_AGAIN, false),
        ("S1 B not below A, both undeclared", B, A, false),
    ]
}

/// A file with two structs, types 4 and 5, and helper types 6 to 11: their
/// arrays and nullables, int[] twice.
fn two(first: &[[u16; 2]], second: &[[u16; 2]]) -> Vec<u8> {
    let mut p = Program::new();
    p.struct_type(1);
    p.struct_type(2);
    p.array(4);
    p.array(5);
    p.array(0);
    p.array(0);
    p.nullable(4);
    p.nullable(8);
    p.struct_type(9);
    p.array(12);
    p.declare(1, first);
    p.declare(2, second);
    p.bytes()
}

fn prefixes(all: &mut Vec<Question>) {
    let mut put = |name, pair, yes, first: &[[u16; 2]], second: &[[u16; 2]]| {
        all.push(asked(name, two(first, second), pair, yes));
    };
    put("S7 S below T with equal fields", [4, 5], true, &[[1, 0]], &[[1, 0]]);
    put("S7 T below S with equal fields", [5, 4], true, &[[1, 0]], &[[1, 0]]);
    put("S7 S[] not below T[]", [6, 7], false, &[[1, 0]], &[[1, 0]]);
    put("S3 field types equal under other numbers", [4, 5], true, &[[1, 8]], &[[1, 9]]);
    put("S3 a field's type below is not enough", [4, 5], false, &[[1, 4]], &[[1, 10]]);
    put("S3 a field's type below is not enough, arrays", [4, 5], false, &[[1, 8]], &[[1, 11]]);
    put("S5 equal field types that are not well-formed", [4, 5], true, &[[1, 12]], &[[1, 12]]);
    put("S5 arrays of them", [4, 5], true, &[[1, 13], [2, 0]], &[[1, 13]]);
    put("a name differs", [4, 5], false, &[[1, 0]], &[[2, 0]]);
    put("a later name differs", [4, 5], false, &[[1, 0], [2, 0]], &[[1, 0], [3, 0]]);
    put("a type differs", [4, 5], false, &[[1, 0]], &[[1, 1]]);
    put("a later type differs", [4, 5], false, &[[1, 0], [2, 0]], &[[1, 0], [2, 1]]);
    put("the order differs", [4, 5], false, &[[1, 0], [2, 0]], &[[2, 0], [1, 0]]);
    put("every struct is below one without fields", [4, 5], true, &[[1, 0], [2, 0]], &[]);
    put("one without fields is not below", [5, 4], false, &[[1, 0]], &[]);
    put("both without fields", [5, 4], true, &[], &[]);
    put("doubled field names, a prefix", [4, 5], true, &[[1, 0], [1, 0]], &[[1, 0]]);
}

fn functions(all: &mut Vec<Question>) {
    let mut p = pans();
    let to_a = p.function(A, &[]);
    let to_b = p.function(B, &[]);
    let to_null = p.function(A_NULL, &[]);
    let a_a = p.function(VOID, &[A, A]);
    let a_b = p.function(VOID, &[A, B]);
    let higher = p.function(VOID, &[a_a]);
    let higher_b = p.function(VOID, &[a_b]);
    let to_higher = p.function(a_a, &[]);
    let to_higher_b = p.function(a_b, &[]);
    let arrays = [p.array(to_a), p.array(to_b)];
    let file = p.bytes();
    let mut put = |name, a, b, yes| all.push(asked(name, file.clone(), [a, b], yes));
    put("()->B below ()->A", to_b, to_a, true);
    put("()->A not below ()->B", to_a, to_b, false);
    put("()->B below ()->A?", to_b, to_null, true);
    put("the second parameter turns round", a_a, a_b, true);
    put("the second parameter decides", a_b, a_a, false);
    put("parameters of parameters turn twice", higher_b, higher, true);
    put("parameters of parameters turn twice, no", higher, higher_b, false);
    put("returned functions", to_higher, to_higher_b, true);
    put("returned functions, no", to_higher_b, to_higher, false);
    put("arrays of functions are invariant", arrays[1], arrays[0], false);
}

/// S4: a name declared twice means its first record, on both sides.
fn doubled(all: &mut Vec<Question>) {
    let mut p = pans();
    p.declare(1, &[[P, INT], [DRY, INT], [WET, INT], [9, INT]]);
    p.declare(2, &[[9, INT]]);
    let file = p.bytes();
    all.push(asked("S4 the first A", file.clone(), [B, A], true));
    all.push(asked("S4 the first B", file.clone(), [A, B], false));
    all.push(asked("S4 A below itself", file, [A, A_AGAIN], true));
    let broken = pans().with([crate::program::global(G, crate::program::name(Y))]);
    all.push(asked("S6 no typing is asked", broken.bytes(), [B, A], true));
}

/// Document 02's request (v): the four types of zero bytes are those of the 44
/// bytes, each below itself alone; one byte is refused.
fn zero_bytes(all: &mut Vec<Question>) {
    let refused = |name, file: &[u8], pair, number| Question { name, file: file.to_vec(), pair, answer: Err(number) };
    for (name, file) in [("zero bytes", vec![]), ("types 0 to 3 and nothing else", Program::new().bytes())] {
        for pair in (0..4).flat_map(|a| (0..4).map(move |b| [a, b])) {
            all.push(asked(name, file.clone(), pair, pair[0] == pair[1]));
        }
        for pair in [[4, 0], [0, 4], [3, 4], [4, 4], [65_535, 0], [0, 65_535]] {
            all.push(refused(name, &file, pair, 17));
        }
    }
    for pair in [[0, 0], [3, 3], [0, 1], [4, 4]] {
        all.push(refused("one byte", &[4], pair, 1));
    }
}
