//! The node tree: document 01, "The program file", from "Nodes stand parent
//! first" on. Number 5.
//!
//! What may stand where is a table, and the nodes are read in one pass with a
//! stack of the nodes whose children are still to come.

use crate::file::{ARRAY, FUNCTION, File, Four, NULLABLE, STRING, STRUCT};
use crate::limits::Limits;
use crate::mutants::{Mutant, Mutant::*, Rules};

/// The most declarations: every one has at least two nodes.
const MOST_DECLARATIONS: usize = 2048;

/// Frames of open nodes: one for each level, and more for the mutants that
/// leave levels uncounted. A power of two, so that an index can be masked.
const FRAMES: usize = 256;

/// Where the declarations begin, in file order.
pub struct Declarations {
    starts: [u16; MOST_DECLARATIONS],
    count: usize,
}

impl Declarations {
    pub fn new() -> Declarations {
        Declarations { starts: [0; MOST_DECLARATIONS], count: 0 }
    }

    pub fn starts(&self) -> &[u16] {
        &self.starts[..self.count]
    }

    fn push(&mut self, start: usize) {
        self.starts[self.count] = start as u16;
        self.count += 1;
    }
}

/// What a kind of node demands of itself, and the frame of its children.
#[derive(Clone, Copy)]
struct Demand {
    /// The largest x: 0 where x is not named.
    most_x: u16,
    /// The kinds of t, as bits. Where t is not named it is 0, the only int.
    types: u16,
    /// The least number of children, and how many more there may be.
    least: u16,
    more: u16,
    /// What the frame takes over from its parent's, as a mask.
    kept: u32,
    /// What the frame adds to that: one level, and what stands inside it.
    added: u32,
}

/// What the children of an open node are, by how many are still to come.
#[derive(Clone, Copy)]
enum Inside {
    Expressions = 0,
    Fields = 1,
    Function = 2,
    Assignment = 3,
    If = 4,
    For = 5,
    While = 6,
    Block = 7,
    Outermost = 8,
    /// Expressions and fields in a global's tree: the same with `GLOBAL`.
    Constants = 16,
    ConstantFields = 17,
}
use Inside::*;

const GLOBAL: u32 = 16;
const INSIDES: usize = 32;
const KINDS: usize = 42;
const ANY: u16 = 65_535;
const NO_TYPE: u16 = 1;
const EVERY_TYPE: u16 = 0xFFFF;

const fn bits(first: u32, last: u32) -> u64 {
    (u64::MAX >> (63 - last)) & (u64::MAX << first)
}

const CONSTANT: u64 = bits(10, 16) | bits(21, 21);
const EXPRESSION: u64 = bits(10, 21) | bits(23, 26);
const STATEMENT: u64 = bits(30, 38);
const BLOCK: u64 = bits(39, 39);
const ABSENT: u64 = bits(40, 40);

/// The rules of the tree.
#[derive(Clone)]
struct Table {
    demands: [Demand; KINDS],
    /// The kinds of the next child, as bits, by how many children are to come.
    allowed: [[u64; 5]; INSIDES],
    count_parameters: bool,
}

static EXACT: Table = Table::exact();

impl Table {
    const fn exact() -> Table {
        Table { demands: Table::demands(), allowed: Table::allowed(), count_parameters: true }
    }

    const fn demands() -> [Demand; KINDS] {
        const ARRAYS: u16 = 1 << ARRAY;
        const fn of(most_x: u16, types: u16, least: u16, most: u16, inside: Inside) -> Demand {
            let kept = Frame::DEPTH | GLOBAL << Frame::INSIDE;
            let added = Frame::LEVEL | (inside as u32) << Frame::INSIDE;
            Demand { most_x, types, least, more: most - least, kept, added }
        }
        let mut d = [of(0, 0, 0, 0, Expressions); KINDS];
        d[1] = of(ANY, NO_TYPE, 1, 1, Constants);
        d[2] = of(ANY, 1 << FUNCTION, 1, ANY, Function);
        d[3] = of(ANY, NO_TYPE, 0, 0, Expressions);
        d[10] = of(0, 1 << NULLABLE, 0, 0, Expressions);
        d[11] = of(0, NO_TYPE, 0, 0, Expressions);
        d[12] = d[11];
        d[13] = of(ANY, NO_TYPE, 0, 0, Expressions);
        d[14] = d[13];
        d[15] = d[13];
        d[16] = of(0, ARRAYS, 0, ANY, Expressions);
        d[17] = of(0, ARRAYS, 1, 1, Expressions);
        d[18] = of(ANY, ARRAYS, 2, 2, Expressions);
        d[19] = of(0, NO_TYPE, 2, 2, Expressions);
        d[20] = of(0, NO_TYPE, 1, 1, Expressions);
        d[21] = of(0, 1 << STRUCT, 0, ANY, Fields);
        d[22] = of(ANY, NO_TYPE, 1, 1, Expressions);
        d[23] = d[22];
        d[24] = of(0, NO_TYPE, 1, ANY, Expressions);
        d[25] = of(2, NO_TYPE, 1, 1, Expressions);
        d[26] = of(15, NO_TYPE, 2, 2, Expressions);
        d[30] = of(0, NO_TYPE, 2, 2, Assignment);
        d[31] = d[22];
        d[32] = of(0, NO_TYPE, 1, 1, Expressions);
        d[33] = of(0, NO_TYPE, 0, 0, Expressions);
        d[34] = d[24];
        d[35] = of(0, NO_TYPE, 3, 3, If);
        d[36] = of(ANY, 1 << STRING | 1 << STRUCT | ARRAYS | 1 << FUNCTION, 3, 3, If);
        d[37] = of(0, NO_TYPE, 3, ANY, For);
        d[38] = of(0, NO_TYPE, 2, 2, While);
        d[39] = of(0, NO_TYPE, 0, ANY, Block);
        d[40] = of(0, NO_TYPE, 0, 0, Expressions);
        d
    }

    /// Columns: none, one, two, three, more children to come.
    const fn allowed() -> [[u64; 5]; INSIDES] {
        let left = bits(15, 15) | bits(19, 19) | bits(23, 23);
        let mut a = [[0; 5]; INSIDES];
        a[Outermost as usize] = [bits(1, 2); 5];
        a[Constants as usize] = [CONSTANT; 5];
        a[ConstantFields as usize] = [bits(22, 22); 5];
        a[Function as usize] = [0, BLOCK, bits(3, 3), bits(3, 3), bits(3, 3)];
        a[Expressions as usize] = [EXPRESSION; 5];
        a[Fields as usize] = [bits(22, 22); 5];
        a[Assignment as usize] = [0, EXPRESSION, left, 0, 0];
        a[If as usize] = [0, BLOCK, BLOCK, EXPRESSION, 0];
        a[For as usize] = [0, BLOCK, STATEMENT | ABSENT, EXPRESSION | ABSENT, bits(31, 31)];
        a[While as usize] = [0, BLOCK, EXPRESSION, 0, 0];
        a[Block as usize] = [STATEMENT; 5];
        a
    }

    /// The table with one rule broken.
    fn broken(mutant: Mutant) -> Table {
        let mut t = EXACT.clone();
        let free = |d: &mut Demand| (d.most_x, d.types) = (ANY, EVERY_TYPE);
        match mutant {
            InitializerHasNoDepth => t.demands[22].added -= Frame::LEVEL,
            BlockHasNoDepth => t.demands[39].added -= Frame::LEVEL,
            GlobalOperandFree => free(&mut t.demands[1]),
            ParameterOperandFree => free(&mut t.demands[3]),
            TruthOperandsFree => t.demands[11..=12].iter_mut().for_each(free),
            CallOperandsFree => [24, 34].map(|k| free(&mut t.demands[k])).into_iter().collect(),
            BlockOperandsFree => free(&mut t.demands[39]),
            ReturnOperandsFree => free(&mut t.demands[33]),
            AbsentOperandsFree => free(&mut t.demands[40]),
            AbsentChildren => t.demands[40].more = ANY,
            LiteralNumberLimited => t.demands[13].most_x = 999,
            NullOfAnyType => t.demands[10].types |= 1 << STRUCT | 1 << STRING,
            GlobalElementsFree => t.demands[16].kept = Frame::DEPTH,
            GlobalFieldsFree => t.demands[22].kept = Frame::DEPTH,
            GlobalDefaultArray => t.allowed[Constants as usize] = [CONSTANT | bits(17, 17); 5],
            GlobalUnary => t.allowed[Constants as usize] = [CONSTANT | bits(25, 25); 5],
            UnaryOneMore => t.demands[25].most_x += 1,
            BinaryOneMore => t.demands[26].most_x += 1,
            ParameterNodesFree => t.count_parameters = false,
            CalleeMayMiss => (t.demands[24].least, t.demands[34].least) = (0, 0),
            ElseMayBeAbsent => t.allowed[If as usize][1] |= ABSENT,
            ElseIf => t.allowed[If as usize][1] |= bits(35, 35),
            CallOnTheLeft => t.allowed[Assignment as usize][2] |= bits(24, 24),
            IfNullOfNullable => t.demands[36].types |= 1 << NULLABLE,
            ForNeedsVar => (t.demands[37].least, t.demands[37].more) = (4, ANY - 4),
            ForVarsAnyStatement => t.allowed[For as usize][4] = STATEMENT,
            ForStepMayBeBlock => t.allowed[For as usize][2] |= BLOCK,
            ForStepSimple => t.allowed[For as usize][2] = bits(30, 30) | bits(34, 34) | ABSENT,
            BlockInBlock => t.allowed[Block as usize] = [STATEMENT | BLOCK; 5],
            _ => {}
        }
        t
    }
}

/// A node whose children are still to come: how many, its depth, what they
/// are. Packed, so that a frame is chosen without a branch.
#[derive(Clone, Copy)]
struct Frame(u32);

impl Frame {
    const LEVEL: u32 = 1 << 16;
    const DEPTH: u32 = 0xFF << 16;
    const INSIDE: u32 = 24;

    const OUTERMOST: Frame = Frame(ANY as u32 | (Outermost as u32) << Frame::INSIDE);

    #[inline(always)]
    fn left(self) -> usize {
        (self.0 & 0xFFFF) as usize
    }
    #[inline(always)]
    fn depth(self) -> u32 {
        self.0 >> 16 & 0xFF
    }
    #[inline(always)]
    fn inside(self) -> usize {
        (self.0 >> Frame::INSIDE) as usize % INSIDES
    }
    /// With one child fewer to come.
    #[inline(always)]
    fn less(self) -> Frame {
        Frame(self.0 - 1)
    }
    /// The frame of a child.
    #[inline(always)]
    fn inner(self, demand: &Demand, children: u16) -> Frame {
        Frame((self.0 & demand.kept) + demand.added + u32::from(children))
    }
}

/// Reads the node tree and notes its declarations; false is number 5.
pub fn tree_fits<R: Rules>(file: &File, limits: Limits, declarations: &mut Declarations, rules: R) -> bool {
    let depth = limits.most_depth(rules);
    match rules.mutant() {
        None => fits(file, depth, declarations, &EXACT),
        Some(mutant) => fits(file, depth, declarations, &Table::broken(mutant)),
    }
}

/// A frame is left on the stack only while it has children to come, so a node
/// opens at most one frame and closes at most one.
#[inline(always)]
fn fits(file: &File, depth: u32, declarations: &mut Declarations, table: &Table) -> bool {
    let mut top = Frame::OUTERMOST;
    let mut below = [Frame(0); FRAMES];
    let mut open = 0usize;
    for (at, record) in file.nodes.iter().enumerate() {
        let n = Four::of(record);
        let kind = (n.kind() as usize).min(KINDS - 1);
        let demand = &table.demands[kind];
        if !node_fits(file, depth, table, n, kind, demand, top) {
            return false;
        }
        if top.inside() == Outermost as usize {
            declarations.push(at);
        }
        let inner = top.inner(demand, n.children());
        below[open % FRAMES] = top.less();
        open += usize::from(top.left() > 1);
        let leaf = n.children() == 0;
        open -= usize::from(leaf);
        top = if leaf { below[open % FRAMES] } else { inner };
    }
    top.inside() == Outermost as usize
}

/// The kind in its place, the operands, the number of children, the depth.
#[inline(always)]
fn node_fits(file: &File, depth: u32, table: &Table, n: Four, kind: usize, demand: &Demand, parent: Frame) -> bool {
    let type_kind = file.types.get(n.t() as usize).map_or(15, |t| Four::of(t).kind());
    let allowed = table.allowed[parent.inside()][parent.left().min(4)];
    let fits = (allowed >> kind & 1 == 1)
        & (n.x() <= demand.most_x)
        & (demand.types >> (type_kind & 15) & 1 == 1)
        & (n.children().wrapping_sub(demand.least) <= demand.more)
        & (parent.depth() < depth);
    fits && (kind != 2 || !table.count_parameters || n.children() as u32 == u32::from(file.ty(n.t()).c()) + 1)
}
