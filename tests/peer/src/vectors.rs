//! The stored vectors: which files they hold, and what catches a mutant.

use crate::mutants::{ALL, Exact, Mutant, Part};
use crate::print::{self, Lent, Limited, pack, pack_limited, pack_pages, pack_tallies};
use crate::print::{unpack, unpack_limited, unpack_pages, unpack_tallies};
use crate::{Limits, cases, check, generator, measures, node_count, page_length, read, tally_lengths};

/// The six questions that vectors are stored for.
#[derive(Clone, Copy, PartialEq, Eq, Debug)]
pub enum Question {
    Check,
    Read,
    Sub,
    Limits,
    Tallies,
    Pages,
}

pub const QUESTIONS: [Question; 6] =
    [Question::Check, Question::Read, Question::Sub, Question::Limits, Question::Tallies, Question::Pages];

/// Packed cases of each question.
pub type Packed = [Vec<u8>; QUESTIONS.len()];

/// How many cases of each question catch a mutant.
pub type Counts = [usize; QUESTIONS.len()];

impl Question {
    /// The name of the stored files.
    pub fn name(self) -> &'static str {
        match self {
            Question::Check => "check",
            Question::Read => "read",
            Question::Sub => "sub",
            Question::Limits => "limits",
            Question::Tallies => "tallies",
            Question::Pages => "pages",
        }
    }

    /// The cases of stored bytes; only those of `Limits`, `Tallies` and `Pages` have
    /// limits of their own, and only the last two lengths of buffers.
    pub fn unpack(self, packed: &[u8]) -> Vec<Lent<'_>> {
        let limited = match self {
            Question::Tallies => return unpack_tallies(packed),
            Question::Pages => return unpack_pages(packed),
            Question::Limits => unpack_limited(packed),
            _ => unpack(packed).into_iter().map(Limited::widest).collect(),
        };
        limited.into_iter().map(|asked| Lent { asked, lengths: [0; 2] }).collect()
    }

    /// What is printed for one case.
    pub fn show(self, case: Lent) -> String {
        match self {
            Question::Check => print::pairs_with(case.asked, Exact) + "--\n",
            Question::Read => print::read_with(case.asked, Exact),
            Question::Sub => print::subs_with(case.asked, Exact) + "--\n",
            Question::Limits => print::limits_with(case.asked, Exact) + "--\n",
            Question::Tallies => print::tallies_with(case, Exact) + "--\n",
            Question::Pages => print::pages_with(case, Exact) + "--\n",
        }
    }

    /// What a mutant prints. A mutant of reading is asked to read only, since
    /// what it lets pass is no tree that can be typed. The other questions ask
    /// under 200 and 100 alone, so mutants of limits have their own, and so have
    /// those of tallies and of pages. Those of the empty file and of counting are asked
    /// everything that shows them.
    fn show_mutant(self, case: Lent, mutant: Mutant, part: Part) -> Option<String> {
        let asked = case.asked;
        match (self, part) {
            (Question::Tallies, Part::Tallies | Part::Empty) => Some(print::tallies_with(case, mutant) + "--\n"),
            (Question::Pages, Part::Pages | Part::Empty) => Some(print::pages_with(case, mutant) + "--\n"),
            (Question::Tallies | Question::Pages, _) | (_, Part::Tallies | Part::Pages) => None,
            (Question::Limits, Part::Limits | Part::Empty | Part::Pairs) => {
                Some(print::limits_with(asked, mutant) + "--\n")
            }
            (Question::Limits, _) | (_, Part::Limits) => None,
            (Question::Read, Part::Reading | Part::Empty) => Some(print::read_with(asked, mutant)),
            (Question::Check, Part::Reading) => None,
            (Question::Check, _) => Some(print::pairs_with(asked, mutant) + "--\n"),
            (Question::Sub, Part::Subtyping | Part::Empty | Part::Pairs) => {
                Some(print::subs_with(asked, mutant) + "--\n")
            }
            _ => None,
        }
    }
}

/// How many of the cases show that the mutant is wrong, given what is right.
pub fn caught(question: Question, cases: &[Lent], right: &[String], (mutant, part): (Mutant, Part)) -> usize {
    let differs =
        |(&case, right): (&Lent, &String)| question.show_mutant(case, mutant, part).is_some_and(|s| s != *right);
    cases.iter().zip(right).filter(|&pair| differs(pair)).count()
}

/// The files of one question, packed.
pub fn files(question: Question) -> Vec<u8> {
    match question {
        Question::Check => pack(check_files()),
        Question::Read => pack(read_files()),
        Question::Sub => pack(sub_files()),
        Question::Limits => pack_limited(limit_cases()),
        Question::Tallies => pack_tallies(tally_cases()),
        Question::Pages => pack_pages(page_cases()),
    }
}

/// The cases written by hand alone, for each question.
pub fn hand_written() -> Packed {
    let reading = pack(cases::reading().into_iter().map(|c| c.1));
    let checked =
        [typing_cases(), name_cases(), endless_cases(), level_cases(), cases_with_sums()].into_iter().flatten();
    let tables = subtyping_cases().into_iter().chain(counted_tables());
    let limited = pack_limited(limit_cases_by_hand());
    let [tallies, pages] = [pack_tallies(tally_cases_by_hand()), pack_pages(page_cases_by_hand())];
    [pack(checked), reading, pack(tables), limited, tallies, pages]
}

/// Generated files alone, for each question.
pub fn generated() -> Packed {
    let programs = generator::programs(6, 12_000);
    let special = [
        generator::field_names(13, 1000),
        generator::endless(16, 1000),
        generator::levels(19, 1000),
        generator::pairs(27, 1000),
    ]
    .concat();
    let checked = [programs.clone(), special].concat();
    let [tables, limited] = [generator::type_tables(7, 400), generator::limited(8, 1000)];
    [checked, programs, tables, limited, generator::tallies(31, 1000), generator::pages(41, 1000)]
}

fn typing_cases() -> Vec<Vec<u8>> {
    let mut files: Vec<Vec<u8>> = cases::typing().into_iter().map(|c| c.file).collect();
    let kept =
        |(name, file, number): &(&str, Vec<u8>, u16)| file.len() < 1000 || *number > 0 && name.starts_with("Pan: ");
    files.extend(cases::reading().into_iter().filter(kept).map(|c| c.1));
    files
}

fn name_cases() -> Vec<Vec<u8>> {
    cases::names().into_iter().map(|c| c.file).collect()
}

fn endless_cases() -> Vec<Vec<u8>> {
    cases::endless().into_iter().map(|m| m.case.file).collect()
}

fn level_cases() -> Vec<Vec<u8>> {
    cases::levels().into_iter().map(|r| r.case.file).collect()
}

fn cases_with_sums() -> Vec<Vec<u8>> {
    cases::summed().into_iter().map(|s| s.case.file).collect()
}

fn counted_tables() -> Vec<Vec<u8>> {
    cases::counted().into_iter().map(|c| c.file).collect()
}

fn subtyping_cases() -> Vec<Vec<u8>> {
    let mut files: Vec<Vec<u8>> = Vec::new();
    for q in cases::subtyping() {
        if !files.contains(&q.file) {
            files.push(q.file);
        }
    }
    files
}

/// All cases written by hand, a sample of the generator, and more of its files
/// for each mutant of typing that few of these catch; then those about field
/// names, about endless loops, about names in inner blocks and about compared
/// pairs, each later than the ones before, so that all others keep their places.
fn check_files() -> Vec<Vec<u8>> {
    let mut files = typing_cases();
    files.extend(small(&generator::programs(1, 360), 4000));
    files.extend(generator::large_files());
    files.extend(catching());
    files.extend(name_cases());
    files.extend(small(&generator::field_names(10, 80), 1200));
    files.extend(endless_cases());
    files.extend(small(&generator::endless(15, 80), 1200));
    files.extend(level_cases());
    files.extend(small(&generator::levels(18, 230), 700));
    files.extend(cases_with_sums());
    files.extend(small(&generator::pairs(26, 80), 1200));
    files
}

fn read_files() -> Vec<Vec<u8>> {
    let mut files: Vec<Vec<u8>> = cases::reading().into_iter().map(|c| c.1).collect();
    files.extend(small(&generator::programs(3, 400), 2500));
    files
}

/// Tables written by hand, generated ones, then those about counts of pairs, so
/// that all others keep their places. Every pair is printed with its count.
fn sub_files() -> Vec<Vec<u8>> {
    let mut files = subtyping_cases();
    files.extend(small(&generator::type_tables(4, 400), 2500));
    files.extend(counted_tables());
    files
}

fn limit_cases_by_hand() -> Vec<(Vec<u8>, Limits)> {
    cases::limits().into_iter().map(|c| (c.file, c.limits)).collect()
}

/// The generated files are small; each has several settings around its own
/// measures. Then some files about names in inner blocks, at their own measures,
/// one level lower and at the widest.
fn limit_cases() -> Vec<(Vec<u8>, Limits)> {
    let mut cases = limit_cases_by_hand();
    for (i, file) in small(&generator::programs(9, 120), 1200).into_iter().enumerate() {
        cases.extend(generator::settings_around(i as u64, &file).into_iter().map(|limits| (file.clone(), limits)));
    }
    for file in level_cases().into_iter().step_by(20) {
        let own = measures(&file);
        let settings = [own, Limits { depth: own.depth - 1, ..own }, Limits::WIDEST];
        cases.extend(settings.map(|limits| (file.clone(), limits)));
    }
    cases
}

/// Each case under each of its lengths.
fn tally_cases_by_hand() -> Vec<(Vec<u8>, Limits, [usize; 2])> {
    let mut all = Vec::new();
    for case in cases::tallies() {
        all.extend(case.lengths().into_iter().map(|lengths| (case.file.clone(), case.limits, lengths)));
    }
    all
}

/// The cases written by hand, then every file of the check, each with longer
/// buffers than it needs.
fn tally_cases() -> Vec<(Vec<u8>, Limits, [usize; 2])> {
    let mut cases = tally_cases_by_hand();
    for file in check_files() {
        let [types, declarations] = tally_lengths(&file);
        let longer = if read(&file, Limits::WIDEST) == 0 { [types + 2, declarations + 1] } else { [3, 2] };
        cases.push((file, Limits::WIDEST, longer));
    }
    cases
}

/// Each case under each of its lengths.
fn page_cases_by_hand() -> Vec<(Vec<u8>, Limits, usize)> {
    let mut all = Vec::new();
    for case in cases::pages() {
        all.extend(case.lengths.iter().map(|&length| (case.file.clone(), case.limits, length)));
    }
    all
}

/// Files with more nodes are printed in some of the cases written by hand alone.
const PRINTED: usize = 400;

/// The cases written by hand, then every second accepted file of the check that is
/// not too large, in a longer buffer than it needs, then some of the generator.
fn page_cases() -> Vec<(Vec<u8>, Limits, usize)> {
    let mut cases = page_cases_by_hand();
    let printed = |file: &Vec<u8>| node_count(file) <= PRINTED && is_accepted(file);
    for file in check_files().into_iter().filter(printed).step_by(2) {
        let longer = page_length(&file) + 3;
        cases.push((file, Limits::WIDEST, longer));
    }
    let made = generator::pages(42, 100);
    let small = unpack_pages(&made).into_iter().filter(|case| node_count(case.asked.file) <= PRINTED / 2);
    cases.extend(small.take(40).map(|case| (case.asked.file.to_vec(), case.asked.limits, case.lengths[0])));
    cases
}

fn is_accepted(file: &[u8]) -> bool {
    let size = 2 * node_count(file);
    check(file, Limits::WIDEST, &mut vec![0; size], &mut vec![0; size]).number == 0
}

/// The packed files of less than a size.
fn small(many: &[u8], size: usize) -> Vec<Vec<u8>> {
    unpack(many).into_iter().filter(|f| f.len() < size).map(<[u8]>::to_vec).collect()
}

/// Which of the generator's files catch mutants: of 6,000 the first that have
/// less than 2,000 bytes, until at least four of all files caught each mutant of
/// typing. The choice stays as it is, so that files keep their places.
const CATCHING: [usize; 70] = [
    1058, 1098, 1522, 1523, 3323, 4543, 90, 150, 850, 844, 23, 1263, 4465, 281, 1197, 2217, 2265, 4, 2544, 3084, 1520,
    1560, 1676, 884, 1444, 1264, 2324, 1397, 826, 3, 904, 3704, 18, 26, 206, 1756, 2540, 2820, 164, 2838, 2984, 4825,
    237, 68, 88, 2805, 4442, 444, 1564, 3805, 5577, 2784, 5244, 1422, 2760, 1388, 1244, 3124, 5104, 4143, 4163, 423,
    923, 1003, 918, 1198, 2163, 801, 1121, 2021,
];

fn catching() -> [Vec<u8>; CATCHING.len()] {
    let many = generator::programs(5, 6000);
    let pool = unpack(&many);
    CATCHING.map(|i| pool[i].to_vec())
}

/// For each mutant: how many cases of each question catch it.
pub fn table(packed: &Packed) -> Vec<(Mutant, Part, Counts)> {
    let cases: Vec<Vec<Lent>> = QUESTIONS.iter().zip(packed).map(|(q, p)| q.unpack(p)).collect();
    let right: Vec<Vec<String>> =
        QUESTIONS.iter().zip(&cases).map(|(q, cases)| cases.iter().map(|&c| q.show(c)).collect()).collect();
    let count = |m: Mutant, part: Part| std::array::from_fn(|i| caught(QUESTIONS[i], &cases[i], &right[i], (m, part)));
    ALL.iter().map(|&(m, part, _)| (m, part, count(m, part))).collect()
}

const PARTS: [Part; 13] = [
    Part::Reading,
    Part::Subtyping,
    Part::Expressions,
    Part::Statements,
    Part::Declarations,
    Part::Limits,
    Part::Empty,
    Part::Names,
    Part::Endless,
    Part::Levels,
    Part::Pairs,
    Part::Tallies,
    Part::Pages,
];

/// What `mutants` prints: a line for each part, and a line for each mutant.
pub fn mutant_tables(stored: &Packed) -> String {
    let tables = [table(stored), table(&hand_written()), table(&generated())];
    let line = |cells: &[String]| format!("| {} |\n", cells.join(" | "));
    let questions = QUESTIONS.map(Question::name).join(" | ");
    let mut out = format!("| part | mutants | {questions} | stored | by hand | generated |\n");
    out += &format!("|{}\n", "---|".repeat(QUESTIONS.len() + 5));
    for part in PARTS {
        let count = |t: usize, test: &dyn Fn(&Counts) -> bool| {
            tables[t].iter().filter(|m| m.1 == part && test(&m.2)).count().to_string()
        };
        let mut cells = vec![format!("{part:?}"), count(0, &|_| true)];
        cells.extend((0..QUESTIONS.len()).map(|q| count(0, &|c| c[q] > 0)));
        cells.extend((0..3).map(|t| count(t, &|c| c.iter().sum::<usize>() > 0)));
        out += &line(&cells);
    }
    out += &format!("\n| mutant | what it breaks | {questions} |\n|{}\n", "---|".repeat(QUESTIONS.len() + 2));
    for ((mutant, _, counts), (_, _, text)) in tables[0].iter().zip(ALL) {
        let text = text.replace("[|]", "[\\|]").replace("& and | take", "& and \\| take");
        let counts = counts.map(|c| c.to_string());
        out += &line(&[&[format!("{mutant:?}"), text], &counts[..]].concat());
    }
    out
}
