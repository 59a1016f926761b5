//! Document 02's request (vi): the binders of the cases written by hand, what
//! moved, and what is generated.

use oat_peer::cases::{Resolved, TO_VOID, levels, only};
use oat_peer::mutants::Mutant::FreshAtAllLevels;
use oat_peer::print::{self, Limited, unpack};
use oat_peer::program::*;
use oat_peer::{generator, node_count};

/// The nodes of a file without leftover bytes: its last section.
fn nodes(file: &[u8]) -> Vec<[u16; 4]> {
    let nodes = file[file.len() - 8 * node_count(file)..].chunks(8);
    nodes.map(|n| [0, 2, 4, 6].map(|k| u16::from_le_bytes([n[k], n[k + 1]]))).collect()
}

/// Result and binder of each node of an accepted file.
fn rows(shown: &str) -> Vec<[u16; 2]> {
    let number = |word: Option<&str>| word.and_then(|w| w.parse().ok()).expect("a row");
    let row = |line: &str| {
        let mut words = line.split(' ').skip(1);
        [number(words.next()), number(words.next())]
    };
    shown.lines().skip(1).map(row).collect()
}

/// The number, step and place of an answer.
fn answer(shown: &str) -> [u16; 3] {
    let mut numbers = shown.lines().next().expect("an answer").split(' ').map(|n| n.parse().expect("a number"));
    std::array::from_fn(|_| numbers.next().expect("three numbers"))
}

/// Before the request, and now.
fn both(file: &[u8]) -> [String; 2] {
    [print::check_with(Limited::widest(file), FreshAtAllLevels), print::check(file)]
}

/// The answers are tested in `cases.rs`.
#[test]
fn binders_of_the_cases() {
    for Resolved { case, binders } in levels() {
        let nodes = nodes(&case.file);
        let binding: Vec<u16> =
            (0..nodes.len() as u16).filter(|&i| matches!(nodes[i as usize][0], 1..=3 | 18 | 31 | 36)).collect();
        let node = |&k: &u16| if k < 40_000 { binding[k as usize] } else { k };
        let names = nodes.iter().zip(rows(&print::check(&case.file))).filter(|(n, _)| n[0] == 15);
        let found: Vec<u16> = names.map(|(_, row)| row[1]).collect();
        assert_eq!(found, binders.iter().map(node).collect::<Vec<_>>(), "{}", case.name);
    }
}

/// A name has its binder's name, stands behind it, and has its type: of a
/// function and an if? the t, of an index name int, of a var its expression's.
fn names_fit(file: &[u8], shown: &str) {
    let (nodes, rows) = (nodes(file), rows(shown));
    for (at, [_, x, ..]) in nodes.iter().enumerate().filter(|(_, n)| n[0] == 15) {
        let [result, binder] = rows[at];
        if binder >= 40_000 {
            continue;
        }
        let binder = binder as usize;
        let [kind, bound, t, _] = nodes[binder];
        assert_eq!(bound, *x);
        assert!(binder < at || kind < 3);
        let expected = match kind {
            2 | 36 => t,
            18 => 0,
            31 => rows[binder + 1][0],
            _ => rows[binder][0],
        };
        assert_eq!(result, expected);
    }
}

/// A walk that keeps the names of each block, the innermost last, as document 02
/// has blocks. It notes each name's local binder, and the first var whose own
/// block has bound its name.
struct Walk {
    nodes: Vec<[u16; 4]>,
    next: usize,
    blocks: Vec<Vec<[u16; 2]>>,
    binders: Vec<[u16; 2]>,
    clash: Option<u16>,
}

impl Walk {
    fn of(file: &[u8]) -> Walk {
        let mut walk = Walk { nodes: nodes(file), next: 0, blocks: vec![], binders: vec![], clash: None };
        while walk.next < walk.nodes.len() {
            walk.tree();
        }
        walk
    }

    fn trees(&mut self, count: u16) {
        (0..count).for_each(|_| self.tree());
    }

    /// Trees in a block of their own, which has bound a name or none.
    fn inside(&mut self, bound: Option<[u16; 2]>, count: u16) {
        self.blocks.push(bound.into_iter().collect());
        self.trees(count);
        self.blocks.pop();
    }

    fn tree(&mut self) {
        let at = self.next as u16;
        let [kind, x, _, children] = self.nodes[self.next];
        self.next += 1;
        match kind {
            2 => self.function(children),
            15 => self.binders.extend(self.blocks.iter().rev().flatten().find(|b| b[0] == x).map(|b| [at, b[1]])),
            18 => {
                self.tree();
                self.inside(Some([x, at]), 1);
            }
            31 => self.var(at, x),
            36 => {
                self.tree();
                self.inside(Some([x, at]), 1);
                self.tree();
            }
            37 => self.for_loop(children),
            39 => self.inside(None, children),
            _ => self.trees(children),
        }
    }

    /// Parameters and the body's block are one block.
    fn function(&mut self, children: u16) {
        let parameters = (0..children - 1).map(|_| {
            self.next += 1;
            [self.nodes[self.next - 1][1], self.next as u16 - 1]
        });
        self.blocks = vec![parameters.collect()];
        self.next += 1;
        self.trees(self.nodes[self.next - 1][3]);
        self.blocks.clear();
    }

    fn var(&mut self, at: u16, x: u16) {
        self.tree();
        let own = self.blocks.last_mut().expect("a block");
        if own.iter().any(|b| b[0] == x) {
            self.clash.get_or_insert(at);
        }
        own.push([x, at]);
    }

    /// Variables, condition and step, then the block without what the step bound.
    fn for_loop(&mut self, children: u16) {
        self.blocks.push(vec![]);
        self.trees(children - 2);
        let own = self.blocks.len() - 1;
        let bound = self.blocks[own].len();
        self.tree();
        self.blocks[own].truncate(bound);
        self.tree();
        self.blocks.pop();
    }
}

/// An accepted file has no clash, and the walk's binders.
fn blocks_fit(file: &[u8], shown: &str) {
    let (walk, rows) = (Walk::of(file), rows(shown));
    let is_local = |binder: u16| binder < 40_000 && walk.nodes[binder as usize][0] > 2;
    let names = (0..rows.len()).filter(|&at| walk.nodes[at][0] == 15 && is_local(rows[at][1]));
    assert_eq!(walk.binders, names.map(|at| [at as u16, rows[at][1]]).collect::<Vec<_>>());
    assert_eq!(walk.clash, None);
}

/// The smallest programs that the request accepts, and what stays.
#[test]
fn before_and_after() {
    let told = |body| both(&only(TO_VOID, body).bytes()).map(|shown| answer(&shown));
    let x = || var(1, int(1));
    let each = |vars, step, body| repeat(vars, absent(), step, body);
    let test = |yes| when_null(1, 2, null(19), yes, vec![]);
    assert_eq!(told(vec![x(), x(), done()]), [[7, 1, 4]; 2]);
    assert_eq!(told(vec![x(), during(fls(), vec![x()]), done()]), [[7, 1, 7], [0, 2, 0]]);
    assert_eq!(told(vec![x(), each(vec![x()], absent(), vec![]), done()]), [[7, 1, 5], [0, 2, 0]]);
    assert_eq!(told(vec![each(vec![x()], absent(), vec![x()]), done()]), [[7, 1, 8], [0, 2, 0]]);
    assert_eq!(told(vec![each(vec![x()], x(), vec![]), done()]), [[7, 1, 6]; 2]);
    assert_eq!(told(vec![test(vec![x()]), done()]), [[7, 1, 5], [0, 2, 0]]);
    assert_eq!(told(vec![x(), var(2, fill(11, 1, int(1), int(1))), done()]), [[7, 1, 5], [0, 2, 0]]);
    assert_eq!(told(vec![x(), var(2, fill(11, 1, int(1), name(9))), done()]), [[7, 1, 5], [8, 1, 7]]);
}

/// What was accepted stays accepted with the same rows, refusals other than 7
/// stay, and no step before a 7 breaks. Whether the file moved.
fn moved(file: &[u8]) -> bool {
    let [before, now] = both(file);
    let ([old, step, _], [new, later, _]) = (answer(&before), answer(&now));
    let same = before == now;
    assert!(same || old == 7 && later >= step, "{before}{now}");
    if new == 0 {
        names_fit(file, &now);
        blocks_fit(file, &now);
    }
    !same
}

#[test]
fn what_was_accepted_stays() {
    let made = [
        generator::levels(21, 3000),
        generator::programs(22, 2000),
        generator::endless(23, 500),
        generator::field_names(24, 500),
    ];
    let counts = made.map(|many| unpack(&many).into_iter().filter(|file| moved(file)).count());
    assert!(counts[0] >= 1500 && counts[1] >= 20 && counts[2..] == [0, 0], "{counts:?}");
    let by_hand = levels().iter().filter(|r| moved(&r.case.file)).count();
    assert!(by_hand >= 120, "{by_hand}");
}

/// A file about names in inner blocks has no struct, so that its 7 stands at a
/// node: a function with a parameter twice, or the first var that clashes.
#[test]
fn first_clashes() {
    let many = generator::levels(25, 2000);
    let by_hand: Vec<Vec<u8>> = levels().into_iter().map(|r| r.case.file).collect();
    let mut vars = 0;
    for file in unpack(&many).into_iter().chain(by_hand.iter().map(Vec::as_slice)) {
        let [number, _, place] = answer(&print::check(file));
        let walk = Walk::of(file);
        if number == 7 && walk.nodes[place as usize][0] == 31 {
            assert_eq!(walk.clash, Some(place));
            vars += 1;
        }
    }
    assert!(vars >= 500, "{vars}");
}

/// Generated files are accepted, refused under 7, or under another number.
#[test]
fn generated_files() {
    let many = generator::levels(20, 2000);
    assert_eq!(many, generator::levels(20, 2000));
    let counts = generator::numbers(&many);
    assert!(counts[0] >= 700 && counts[7] >= 400 && counts[..=6] == [counts[0], 0, 0, 0, 0, 0, 0], "{counts:?}");
    assert!([8, 10, 11, 15].iter().all(|&n: &usize| counts[n] >= 40), "{counts:?}");
    let mut depths = [0; 5];
    for file in unpack(&many) {
        let binds = |n: &[u16; 4]| matches!(n[0], 3 | 18 | 31 | 36) && n[1] == 20;
        depths[nodes(file).iter().filter(|n| binds(n)).count().min(4)] += 1;
    }
    assert!(depths[4] >= 1000, "{depths:?}");
}
