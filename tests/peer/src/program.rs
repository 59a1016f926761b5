//! Building program files: the sections as lists, the nodes as trees.

/// The base types, which every file has first.
pub const INT: u16 = 0;
pub const BOOL: u16 = 1;
pub const STRING: u16 = 2;
pub const VOID: u16 = 3;

/// A node with its children.
#[derive(Clone, Debug, PartialEq, Eq)]
pub struct Tree {
    pub kind: u16,
    pub x: u16,
    pub t: u16,
    pub kids: Vec<Tree>,
}

impl Tree {
    pub fn size(&self) -> usize {
        1 + self.kids.iter().map(Tree::size).sum::<usize>()
    }

    pub fn depth(&self) -> usize {
        1 + self.kids.iter().map(Tree::depth).max().unwrap_or(0)
    }

    fn write(&self, out: &mut Vec<u16>) {
        out.extend([self.kind, self.x, self.t, self.kids.len() as u16]);
        for kid in &self.kids {
            kid.write(out);
        }
    }
}

/// A program file before it is written out.
#[derive(Clone, Debug, Default)]
pub struct Program {
    pub types: Vec<[u16; 4]>,
    pub list: Vec<u16>,
    pub fields: Vec<[u16; 2]>,
    pub structs: Vec<[u16; 3]>,
    pub builtins: Vec<[u16; 2]>,
    pub declarations: Vec<Tree>,
}

impl Program {
    /// Types 0 to 3 and nothing else.
    pub fn new() -> Program {
        Program { types: (0..4).map(|kind| [kind, 0, 0, 0]).collect(), ..Program::default() }
    }

    fn add_type(&mut self, record: [u16; 4]) -> u16 {
        self.types.push(record);
        self.types.len() as u16 - 1
    }

    pub fn struct_type(&mut self, name: u16) -> u16 {
        self.add_type([4, name, 0, 0])
    }

    pub fn array(&mut self, element: u16) -> u16 {
        self.add_type([5, element, 0, 0])
    }

    pub fn function(&mut self, result: u16, parameters: &[u16]) -> u16 {
        let first = self.list.len() as u16;
        self.list.extend(parameters);
        self.add_type([6, result, first, parameters.len() as u16])
    }

    pub fn nullable(&mut self, inside: u16) -> u16 {
        self.add_type([7, inside, 0, 0])
    }

    /// Declares a struct with fields (name, type).
    pub fn declare(&mut self, name: u16, fields: &[[u16; 2]]) {
        self.structs.push([name, self.fields.len() as u16, fields.len() as u16]);
        self.fields.extend(fields);
    }

    /// The parameters of a function type.
    pub fn parameters(&self, t: u16) -> &[u16] {
        let [_, _, first, count] = self.types[t as usize];
        &self.list[first as usize..][..count as usize]
    }

    /// The field records of a struct.
    pub fn fields_of(&self, s: usize) -> &[[u16; 2]] {
        let [_, first, count] = self.structs[s];
        &self.fields[first as usize..][..count as usize]
    }

    pub fn with(mut self, declarations: impl IntoIterator<Item = Tree>) -> Program {
        self.declarations.extend(declarations);
        self
    }

    pub fn size(&self) -> usize {
        self.declarations.iter().map(Tree::size).sum()
    }

    /// The file.
    pub fn bytes(&self) -> Vec<u8> {
        let mut nodes = Vec::new();
        for declaration in &self.declarations {
            declaration.write(&mut nodes);
        }
        let mut out = Vec::new();
        let mut section = |count: usize, numbers: &[u16]| {
            out.extend((count as u16).to_le_bytes());
            out.extend(numbers.iter().flat_map(|n| n.to_le_bytes()));
        };
        section(self.types.len(), self.types.as_flattened());
        section(self.list.len(), &self.list);
        section(self.fields.len(), self.fields.as_flattened());
        section(self.structs.len(), self.structs.as_flattened());
        section(self.builtins.len(), self.builtins.as_flattened());
        section(nodes.len() / 4, &nodes);
        out
    }
}

pub fn node(kind: u16, x: u16, t: u16, kids: Vec<Tree>) -> Tree {
    Tree { kind, x, t, kids }
}

/// Declarations.
pub fn global(x: u16, value: Tree) -> Tree {
    node(1, x, 0, vec![value])
}
pub fn func(x: u16, t: u16, parameters: &[u16], body: Vec<Tree>) -> Tree {
    let mut kids: Vec<Tree> = parameters.iter().map(|&p| node(3, p, 0, vec![])).collect();
    kids.push(block(body));
    node(2, x, t, kids)
}

/// Expressions.
pub fn null(t: u16) -> Tree {
    node(10, 0, t, vec![])
}
pub fn tru() -> Tree {
    node(11, 0, 0, vec![])
}
pub fn fls() -> Tree {
    node(12, 0, 0, vec![])
}
pub fn int(x: u16) -> Tree {
    node(13, x, 0, vec![])
}
pub fn text(x: u16) -> Tree {
    node(14, x, 0, vec![])
}
pub fn name(x: u16) -> Tree {
    node(15, x, 0, vec![])
}
pub fn list(t: u16, elements: Vec<Tree>) -> Tree {
    node(16, 0, t, elements)
}
pub fn blank(t: u16, length: Tree) -> Tree {
    node(17, 0, t, vec![length])
}
pub fn fill(t: u16, x: u16, length: Tree, value: Tree) -> Tree {
    node(18, x, t, vec![length, value])
}
pub fn index(array: Tree, at: Tree) -> Tree {
    node(19, 0, 0, vec![array, at])
}
pub fn length(array: Tree) -> Tree {
    node(20, 0, 0, vec![array])
}
pub fn record(t: u16, fields: Vec<(u16, Tree)>) -> Tree {
    node(21, 0, t, fields.into_iter().map(|(x, value)| node(22, x, 0, vec![value])).collect())
}
pub fn field(value: Tree, x: u16) -> Tree {
    node(23, x, 0, vec![value])
}
pub fn call(callee: Tree, arguments: Vec<Tree>) -> Tree {
    node(24, 0, 0, std::iter::once(callee).chain(arguments).collect())
}
pub fn unary(x: u16, value: Tree) -> Tree {
    node(25, x, 0, vec![value])
}
pub fn binary(x: u16, a: Tree, b: Tree) -> Tree {
    node(26, x, 0, vec![a, b])
}

/// Statements.
pub fn set(left: Tree, value: Tree) -> Tree {
    node(30, 0, 0, vec![left, value])
}
pub fn var(x: u16, value: Tree) -> Tree {
    node(31, x, 0, vec![value])
}
pub fn ret(value: Tree) -> Tree {
    node(32, 0, 0, vec![value])
}
pub fn done() -> Tree {
    node(33, 0, 0, vec![])
}
pub fn run(callee: Tree, arguments: Vec<Tree>) -> Tree {
    node(34, 0, 0, call(callee, arguments).kids)
}
pub fn when(condition: Tree, yes: Vec<Tree>, no: Vec<Tree>) -> Tree {
    node(35, 0, 0, vec![condition, block(yes), block(no)])
}
pub fn when_null(x: u16, t: u16, value: Tree, yes: Vec<Tree>, no: Vec<Tree>) -> Tree {
    node(36, x, t, vec![value, block(yes), block(no)])
}
pub fn repeat(vars: Vec<Tree>, condition: Tree, step: Tree, body: Vec<Tree>) -> Tree {
    node(37, 0, 0, vars.into_iter().chain([condition, step, block(body)]).collect())
}
pub fn during(condition: Tree, body: Vec<Tree>) -> Tree {
    node(38, 0, 0, vec![condition, block(body)])
}
pub fn block(statements: Vec<Tree>) -> Tree {
    node(39, 0, 0, statements)
}
pub fn absent() -> Tree {
    node(40, 0, 0, vec![])
}
