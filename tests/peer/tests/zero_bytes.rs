//! Document 02, request (v): zero bytes mean types 0 to 3 and nothing else.

use oat_peer::mutants::Exact;
use oat_peer::print::{Lent, Limited, pack, pack_limited, pack_pages, pack_tallies};
use oat_peer::program::Program;
use oat_peer::vectors::{QUESTIONS, Question};
use oat_peer::*;
use std::io::Write;
use std::process::{Command, Stdio};

const EMPTY: &[u8] = &[];
const MARK: u16 = 43_690;
const LONGEST: usize = 8192;

/// The 44 bytes: the count of the types, the four types, five counts of 0.
fn four() -> Vec<u8> {
    let types = (0..4).flat_map(|kind| [kind, 0, 0, 0, 0, 0, 0, 0]);
    [4, 0].into_iter().chain(types).chain([0; 10]).collect()
}

/// Limits at and past the ends of their ranges, and between.
fn settings() -> Vec<Limits> {
    let parts = [0, 1, 2, 57, 100, 101, 199, 200, 201, 255, 256, 65_535, 65_536, 65_537, u32::MAX as usize, usize::MAX];
    let depths = [0, 1, 2, 31, 99, 100, 101, 200, 256, 65_536, 65_537, u32::MAX as usize, usize::MAX];
    parts.into_iter().flat_map(|parts| depths.map(|depth| Limits { parts, depth })).collect()
}

/// Types that the four-type file does not have.
const LATER: [usize; 12] = [4, 5, 6, 7, 255, 256, 511, 512, 65_535, 65_536, u32::MAX as usize, usize::MAX];

/// The check in painted buffers; whether they are as before.
fn run(file: &[u8], limits: Limits, [rows, work]: [usize; 2]) -> ([u16; 3], bool) {
    let (mut rows, mut work) = (vec![MARK; rows], vec![MARK; work]);
    let Answer { number, step, place, pairs } = check(file, limits, &mut rows, &mut work);
    assert_eq!(pairs, 0);
    ([number, step, place], rows.iter().chain(&work).all(|&n| n == MARK))
}

/// The page in painted buffers: its answer, and what its own buffer then holds.
/// Rows and work are as before.
fn printed_page(file: &[u8], limits: Limits, [rows, work]: [usize; 2], length: usize) -> ([u16; 3], usize, Vec<u8>) {
    let (mut rows, mut work, mut out) = (vec![MARK; rows], vec![MARK; work], vec![b'#'; length]);
    let Paged { number, step, place, bytes } = page(file, limits, &mut rows, &mut work, &mut out);
    assert!(rows.iter().chain(&work).all(|&n| n == MARK));
    ([number, step, place], bytes, out)
}

/// What the page of zero bytes is to be in a buffer of a length, under limits in range.
fn fifteen(length: usize) -> ([u16; 3], usize, Vec<u8>) {
    let mut out = b"pages 0 rows 0\n".to_vec();
    out.resize(length, b'#');
    if length < 15 { ([18, 0, 0], 0, vec![b'#'; length]) } else { ([0; 3], 15, out) }
}

#[test]
fn the_44_bytes() {
    assert_eq!(four().len(), 44);
    assert_eq!(four(), Program::new().bytes());
    for file in [EMPTY, &four()] {
        assert_eq!(node_count(file), 0);
        assert_eq!(measures(file), Limits { parts: 1, depth: 0 });
    }
}

/// Every operation, under limits in and out of range.
#[test]
fn same_answers() {
    for limits in settings() {
        let number = if limits.in_range() { 0 } else { 25 };
        for file in [EMPTY, &four()] {
            assert_eq!(read(file, limits), number, "{limits:?}");
            assert_eq!(run(file, limits, [LONGEST; 2]), ([number, 0, 0], true), "{limits:?}");
            let page = if number == 0 { fifteen(20) } else { ([25, 0, 0], 0, vec![b'#'; 20]) };
            assert_eq!(printed_page(file, limits, [LONGEST; 2], 20), page, "{limits:?}");
            assert_eq!(subtypes(file, limits, Exact).err().unwrap_or(0), number, "{limits:?}");
            assert_eq!(subtype(file, limits, 3, 4), Err(if number == 0 { 17 } else { 25 }), "{limits:?}");
        }
        assert_eq!(subtypes(EMPTY, limits, Exact), subtypes(&four(), limits, Exact), "{limits:?}");
    }
    assert!(settings().contains(&Limits { parts: 1, depth: 1 }));
}

/// Buffers of every length, none included; none changes.
#[test]
fn buffers_of_every_length() {
    let lengths = || (0..10).chain([44, 8191, LONGEST, 10_000]);
    for lengths in lengths().flat_map(|rows| lengths().map(move |work| [rows, work])) {
        for file in [EMPTY, &four()] {
            for (parts, depth, number) in [(200, 100, 0), (1, 1, 0), (0, 1, 25), (1, 0, 25), (201, 101, 25)] {
                let limits = Limits { parts, depth };
                assert_eq!(run(file, limits, lengths), ([number, 0, 0], true), "{lengths:?}, {limits:?}");
            }
        }
    }
}

/// The page in buffers of every length: 15 bytes, or 18 and nothing changed.
#[test]
fn pages_of_every_length() {
    for length in (0..40).chain([LONGEST, 90_000]) {
        for (file, size) in [(EMPTY, 0), (EMPTY, 7), (&four(), 0), (&four(), 7)] {
            for (parts, depth) in [(200, 100), (1, 1)] {
                let found = printed_page(file, Limits { parts, depth }, [size; 2], length);
                assert_eq!(found, fifteen(length), "{length}");
            }
            let found = printed_page(file, Limits { parts: 0, depth: 1 }, [size; 2], length);
            assert_eq!(found, ([25, 0, 0], 0, vec![b'#'; length]), "{length}");
        }
    }
}

/// Each of the four types is below itself and below no other.
#[test]
fn sixteen_pairs() {
    for limits in settings().into_iter().filter(|limits| limits.in_range()) {
        for (a, b) in (0..4).flat_map(|a| (0..4).map(move |b| (a, b))) {
            let right = Ok(Below::one(a == b));
            assert_eq!(subtype(EMPTY, limits, a, b), right, "{a} below {b}");
            assert_eq!(subtype(&four(), limits, a, b), right, "{a} below {b}");
        }
    }
}

/// Number 17 from type 4 on, in either place and in both.
#[test]
fn later_types() {
    for limits in [Limits::WIDEST, Limits { parts: 1, depth: 1 }] {
        for (later, any) in LATER.into_iter().flat_map(|t| (0..4).chain(LATER).map(move |any| (t, any))) {
            for file in [EMPTY, &four()] {
                assert_eq!(subtype(file, limits, later, any), Err(17), "{later} below {any}");
                assert_eq!(subtype(file, limits, any, later), Err(17), "{any} below {later}");
            }
        }
    }
}

/// One byte, whichever, is 1 in every operation, and 25 comes before.
#[test]
fn one_byte() {
    for byte in 0..=255 {
        for (limits, number) in
            [(Limits::WIDEST, 1), (Limits { parts: 1, depth: 1 }, 1), (Limits { parts: 0, depth: 1 }, 25)]
        {
            assert_eq!(read(&[byte], limits), number, "{byte}");
            for lengths in [[0, 0], [0, 7], [7, 0], [LONGEST; 2]] {
                assert_eq!(run(&[byte], limits, lengths), ([number, 0, 0], true), "{byte}");
                let page = printed_page(&[byte], limits, lengths, lengths[0]);
                assert_eq!(page, ([number, 0, 0], 0, vec![b'#'; lengths[0]]), "{byte}");
            }
            assert_eq!(subtypes(&[byte], limits, Exact), Err(number), "{byte}");
            for (a, b) in [(0, 0), (0, 1), (3, 3), (4, 4), (usize::MAX, 0)] {
                assert_eq!(subtype(&[byte], limits, a, b), Err(number), "{byte}");
            }
        }
    }
}

/// Two bytes are a count of types alone, three have a byte more: both are 1 or, over 512, 2.
#[test]
fn two_and_three_bytes() {
    for count in 0..=u16::MAX {
        let [low, high] = count.to_le_bytes();
        let number = if count <= 512 { 1 } else { 2 };
        assert_eq!(read(&[low, high], Limits::WIDEST), number, "{count}");
        assert_eq!(read(&[low, high, 0], Limits::WIDEST), number, "{count}");
        assert_eq!(read(&[low, high, 255], Limits::WIDEST), number, "{count}");
    }
}

/// Bytes of the value 0 are not zero bytes: twelve are six counts, others are 1.
#[test]
fn bytes_of_value_zero() {
    for length in 1..=100 {
        let number = if length == 12 { 3 } else { 1 };
        assert_eq!(read(&vec![0; length], Limits::WIDEST), number, "{length} bytes");
        assert_eq!(run(&vec![0; length], Limits::WIDEST, [0, 0]), ([number, 0, 0], true), "{length} bytes");
    }
    for length in 1..44 {
        assert_eq!(read(&four()[..length], Limits::WIDEST), 1, "{length} bytes");
    }
}

/// What is printed for zero bytes, written out, is what is printed for the 44.
#[test]
fn printed() {
    let table = "1000\n1 1 1 1\n0100\n1 1 1 1\n0010\n1 1 1 1\n0001\n1 1 1 1\n--\n";
    let limited = "read 0\nsub yes 1 17 0 17 0 17 0\n0 0 0\npairs 0\n--\n";
    let tallies = "0 0 0\ntypes 0 0 0 0 7777\ndeclarations 8888\n--\n";
    let page = "0 0 0 15\npages 0 rows 0\n##\n--\n";
    let lines = ["0 0 0\npairs 0\n--\n", "0\n", table, limited, tallies, page];
    let four = four();
    let lent = |file, limits, question| {
        let lengths = if question == Question::Pages { [17, 0] } else { [5, 1] };
        Lent { asked: Limited { file, limits }, lengths }
    };
    for (question, line) in QUESTIONS.into_iter().zip(lines) {
        assert_eq!(question.show(lent(EMPTY, Limits::WIDEST, question)), line, "{question:?}");
        assert_eq!(question.show(lent(&four, Limits::WIDEST, question)), line, "{question:?}");
    }
    for limits in settings() {
        for question in [Question::Limits, Question::Tallies, Question::Pages] {
            let [empty, held] = [EMPTY, &four].map(|file| question.show(lent(file, limits, question)));
            assert_eq!(empty, held, "{question:?}, {limits:?}");
        }
    }
}

/// What a command of the program prints.
fn command(words: &str, input: &[u8]) -> String {
    let mut program = Command::new(env!("CARGO_BIN_EXE_oat_peer"));
    program.args(words.split(' ')).stdin(Stdio::piped()).stdout(Stdio::piped());
    let mut running = program.spawn().expect("the program runs");
    running.stdin.take().expect("its input").write_all(input).expect("the input is taken");
    let done = running.wait_with_output().expect("the program ends");
    assert!(done.status.success(), "{words}");
    String::from_utf8(done.stdout).expect("a text")
}

/// Every command that reads files: zero bytes, then one byte.
#[test]
fn commands() {
    let many = pack([EMPTY, &[4]]);
    let limits = Limits { parts: 1, depth: 1 };
    let cases = pack_limited([(EMPTY, limits), (&[4], limits), (EMPTY, Limits { parts: 0, depth: 1 })]);
    for (words, printed) in [
        ("check", ["0 0 0\n", "1 0 0\n"]),
        ("check 1 1", ["0 0 0\n", "1 0 0\n"]),
        ("read", ["0\n", "1\n"]),
        ("read 201 1", ["25\n", "25\n"]),
        ("sub 2 2", ["yes 1\n", "1 0\n"]),
        ("sub 0 3", ["no 1\n", "1 0\n"]),
        ("sub 4 0", ["17 0\n", "1 0\n"]),
        ("sub 4 0 1 101", ["25 0\n", "25 0\n"]),
        ("tally", ["0 0 0\ntypes 0 0 0 0\ndeclarations\n", "1 0 0\n"]),
        ("tally 1 1", ["0 0 0\ntypes 0 0 0 0\ndeclarations\n", "1 0 0\n"]),
        ("tally 201 1", ["25 0 0\n", "25 0 0\n"]),
        ("page", ["0 0 0 15\npages 0 rows 0\n", "1 0 0 0\n"]),
        ("page 1 1", ["0 0 0 15\npages 0 rows 0\n", "1 0 0 0\n"]),
        ("page 201 1", ["25 0 0 0\n", "25 0 0 0\n"]),
    ] {
        assert_eq!([EMPTY, &[4]].map(|file| command(words, file)), printed, "{words}");
    }
    assert_eq!(command("batch", &many), "0 0 0\npairs 0\n--\n1 0 0\npairs 0\n--\n");
    assert_eq!(command("readbatch", &many), "0\n1\n");
    assert_eq!(command("subbatch", &many), "1000\n1 1 1 1\n0100\n1 1 1 1\n0010\n1 1 1 1\n0001\n1 1 1 1\n--\n1\n--\n");
    let refused = |number: u16| {
        let answers = vec![format!("{number} 0"); 4].join(" ");
        format!("read {number}\nsub {answers}\n{number} 0 0\npairs 0\n--\n")
    };
    let accepted = "read 0\nsub yes 1 17 0 17 0 17 0\n0 0 0\npairs 0\n--\n";
    assert_eq!(command("limitbatch", &cases), [accepted, &refused(1), &refused(25)].concat());
    let cases = pack_tallies([(EMPTY, limits, [4, 1]), (EMPTY, limits, [3, 1]), (&[4], limits, [0, 1])]);
    let lines = ["0 0 0\ntypes 0 0 0 0", "19 0 0\ntypes 7777 7777 7777", "1 0 0\ntypes"];
    assert_eq!(command("tallybatch", &cases), lines.map(|l| format!("{l}\ndeclarations 8888\n--\n")).concat());
    let cases = pack_pages([(EMPTY, limits, 15), (EMPTY, limits, 14), (EMPTY, limits, 0), (&[4], limits, 3)]);
    let answers = ["0 0 0 15\npages 0 rows 0\n", "18 0 0 0\n##############", "18 0 0 0\n", "1 0 0 0\n###"];
    assert_eq!(command("pagebatch", &cases), answers.map(|a| format!("{a}\n--\n")).concat());
    assert!(command("numbers", &many).starts_with("0 1 50.0 %\n1 1 50.0 %\n2 0 "));
    assert!(command("bench 1", &many).starts_with("files 2 nodes 0 "));
}
