//! The walk of document 01 over an accepted image, lookup, and the table's words.

use super::layout::{place, Array};
use super::tests::{fields, name_span, sizes, word, Field};
use crate::calls::Answer;

pub const NONE: u32 = u32::MAX;

/// The rows of an accepted image.
pub struct Rows {
    pub n: usize,
    pub names: usize,
    pub kinds: Vec<u32>,
    starts: Vec<usize>,
    operands: Vec<u32>,
}

impl Rows {
    pub fn new(image: &[u8]) -> Rows {
        let z = sizes(image);
        let words = |from: usize, count: usize| (0..count).map(|i| word(image, from + 4 * i)).collect::<Vec<u32>>();
        Rows {
            n: z.n,
            names: z.s,
            kinds: words(16, z.n),
            starts: words(16 + 4 * z.n, z.n).into_iter().map(|w| w as usize).collect(),
            operands: words(16 + 8 * z.n, z.c),
        }
    }

    pub fn kind(&self, n: u32) -> u32 {
        self.kinds[n as usize]
    }

    /// The j-th word of a row after its two location words.
    pub fn word(&self, n: u32, j: usize) -> u32 {
        self.operands[self.starts[n as usize] + 2 + j]
    }

    /// Where that word stands in the image.
    pub fn offset(&self, n: u32, j: usize) -> usize {
        16 + 8 * self.n + 4 * (self.starts[n as usize] + 2 + j)
    }

    /// The two location words.
    pub fn location(&self, n: u32) -> (u32, u32) {
        let start = self.starts[n as usize];
        (self.operands[start], self.operands[start + 1])
    }

    /// The list whose count is that word.
    pub fn list(&self, n: u32, j: usize) -> &[u32] {
        let from = self.starts[n as usize] + 2 + j + 1;
        &self.operands[from..from + self.word(n, j) as usize]
    }

    /// The blocks of a BranchStmt.
    pub fn blocks(&self, n: u32) -> Vec<&[u32]> {
        let mut j = 1;
        let mut blocks = Vec::new();
        for _ in 0..self.word(n, 0) {
            let block = self.list(n, j);
            j += 1 + block.len();
            blocks.push(block);
        }
        blocks
    }

    /// The name number of a node, if it has a name.
    pub fn name(&self, n: u32) -> Option<u32> {
        match fields(self.kind(n))[0] {
            Field::Name => Some(self.word(n, 0)),
            Field::MaybeName => self.word(n, 0).checked_sub(1),
            _ => None,
        }
    }

    /// The children of a node in the order of its row.
    pub fn children(&self, n: u32) -> Vec<u32> {
        let mut j = 0;
        let mut children = Vec::new();
        for field in fields(self.kind(n)) {
            match *field {
                Field::Name | Field::MaybeName => j += 1,
                Field::Child(_) => {
                    children.push(self.word(n, j));
                    j += 1;
                }
                Field::MaybeChild(_) => {
                    children.extend(self.word(n, j).checked_sub(1));
                    j += 1;
                }
                Field::List(_) => {
                    children.extend(self.list(n, j));
                    j += 1 + self.list(n, j).len();
                }
                Field::Blocks(_) => children.extend(self.blocks(n).concat()),
                Field::Case(cases) => {
                    if cases[self.word(n, j) as usize].is_some() {
                        children.push(self.word(n, j + 1));
                    }
                    j += 2;
                }
            }
        }
        children
    }

    /// The children in the walk's order: "an if-var's type before its term; a defined-then's term before its variable".
    pub fn in_order(&self, n: u32) -> Vec<u32> {
        let mut children = self.children(n);
        if matches!(self.kind(n), 33 | 34) {
            children.reverse();
        }
        children
    }

    /// The IdentTerm of an ident term or of an app head that is an ident.
    pub fn ident(&self, n: u32) -> Option<u32> {
        (matches!(self.kind(n), 12 | 15) && self.word(n, 0) == 0).then(|| self.word(n, 1))
    }

    pub fn module(&self) -> u32 {
        self.n as u32 - 1
    }

    /// The rules of the module and its models, in order.
    pub fn rules(&self) -> Vec<u32> {
        let mut rules = Vec::new();
        self.rules_of(self.list(self.module(), 0), &mut rules);
        rules
    }

    fn rules_of(&self, decls: &[u32], rules: &mut Vec<u32>) {
        for &decl in decls {
            let inside = self.word(decl, 1);
            match self.kind(inside) {
                6 => rules.push(inside),
                8 => self.rules_of(self.list(inside, 1), rules),
                _ => {}
            }
        }
    }
}

/// What the walk makes.
pub struct Resolved {
    pub rows: Rows,
    pub entry: Vec<u32>,
    pub exit: Vec<u32>,
    pub parents: Vec<u32>,
    /// Scope and node, in insertion order.
    pub symbols: Vec<(u32, u32)>,
    /// The symbols of each scope, in insertion order: name and node.
    by_scope: Vec<Vec<(u32, u32)>>,
}

impl Resolved {
    /// The table's words: N, K, Y, then the arrays.
    pub fn words(&self) -> Vec<u32> {
        let n = self.rows.n;
        let mut words = vec![n as u32, self.parents.len() as u32, self.symbols.len() as u32];
        let scopes: Vec<u32> = self.symbols.iter().map(|s| s.0).collect();
        let nodes: Vec<u32> = self.symbols.iter().map(|s| s.1).collect();
        for array in [&self.entry, &self.exit, &self.parents, &scopes, &nodes] {
            words.extend(array);
            words.extend(vec![0; n - array.len()]);
        }
        words
    }

    fn find(&self, scope: u32, name: u32) -> Option<u32> {
        self.by_scope[scope as usize].iter().find(|s| s.0 == name).map(|s| s.1)
    }

    /// The node of a name's symbol in a scope or the nearest above it.
    pub fn lookup(&self, scope: u32, name: u32) -> Option<u32> {
        let mut at = scope;
        loop {
            if let Some(node) = self.find(at, name) {
                return Some(node);
            }
            at = self.parents[at as usize];
            if at == NONE {
                return None;
            }
        }
    }

    /// The IdentTerm, where the name is a Var there.
    pub fn var(&self, scope: u32, name: u32) -> Option<u32> {
        self.lookup(scope, name).filter(|&node| self.rows.kind(node) == 13)
    }
}

/// How an ident below a term is walked.
#[derive(Copy, Clone)]
enum Role {
    /// An ordinary ident term: "introduces a Var unless lookup gives Var or Const".
    Term,
    /// "An if-var ident introduces unless lookup gives Var".
    IfVar,
    /// "A defined-then variable introduces unless Var was seen before the term": the scope there.
    Defined(u32),
}

pub struct Walk(Resolved);

impl std::ops::Deref for Walk {
    type Target = Resolved;

    fn deref(&self) -> &Resolved {
        &self.0
    }
}

type Clash = (u32, u32, u32);

impl Walk {
    pub fn new(image: &[u8]) -> Walk {
        let rows = Rows::new(image);
        let n = rows.n;
        Walk(Resolved {
            rows,
            entry: vec![0; n],
            exit: vec![0; n],
            parents: Vec::new(),
            symbols: Vec::new(),
            by_scope: Vec::new(),
        })
    }

    pub fn module(mut self) -> Result<Resolved, Clash> {
        let module = self.rows.module();
        let scope = self.new_scope(NONE);
        self.mark(module, scope, scope);
        self.decls(scope, self.rows.list(module, 0).to_vec())?;
        Ok(self.0)
    }

    fn new_scope(&mut self, parent: u32) -> u32 {
        self.0.parents.push(parent);
        self.0.by_scope.push(Vec::new());
        self.0.parents.len() as u32 - 1
    }

    fn mark(&mut self, n: u32, entry: u32, exit: u32) -> u32 {
        self.0.entry[n as usize] = entry;
        self.0.exit[n as usize] = exit;
        exit
    }

    fn add(&mut self, scope: u32, node: u32) {
        let name = self.rows.name(node).expect("a named node");
        self.0.symbols.push((scope, node));
        self.0.by_scope[scope as usize].push((name, node));
    }

    /// A name in a new scope.
    fn introduce(&mut self, scope: u32, node: u32) -> u32 {
        let inner = self.new_scope(scope);
        self.add(inner, node);
        inner
    }

    fn enter(&mut self, scope: u32, node: u32) -> Result<(), Clash> {
        let Some(name) = self.rows.name(node) else { return Ok(()) };
        if let Some(first) = self.find(scope, name) {
            return Err((name, first, node));
        }
        self.add(scope, node);
        Ok(())
    }

    fn decls(&mut self, scope: u32, decls: Vec<u32>) -> Result<(), Clash> {
        // "enters all its names first, constructors after their enum, unnamed rules not at all"
        for &decl in &decls {
            let inside = self.rows.word(decl, 1);
            self.mark(decl, scope, scope);
            if self.rows.kind(inside) != 8 {
                self.mark(inside, scope, scope);
            }
            self.enter(scope, inside)?;
            if self.rows.kind(inside) == 7 {
                for ctor in self.rows.list(inside, 1).to_vec() {
                    self.mark(ctor, scope, scope);
                    self.enter(scope, ctor)?;
                }
            }
        }
        // "then it visits each declaration"
        for &decl in &decls {
            let inside = self.rows.word(decl, 1);
            match self.rows.kind(inside) {
                3 | 4 | 5 | 6 => {
                    self.seq(scope, self.rows.children(inside));
                }
                7 => {
                    for ctor in self.rows.list(inside, 1).to_vec() {
                        self.seq(scope, self.rows.children(ctor));
                    }
                }
                8 => {
                    let inner = self.new_scope(scope);
                    self.mark(inside, inner, inner);
                    self.decls(inner, self.rows.list(inside, 1).to_vec())?;
                }
                _ => {}
            }
        }
        Ok(())
    }

    fn seq(&mut self, scope: u32, nodes: Vec<u32>) -> u32 {
        nodes.into_iter().fold(scope, |at, n| self.node(at, n))
    }

    fn ident(&mut self, scope: u32, ident: u32, role: Role) -> u32 {
        let name = self.rows.name(ident).unwrap();
        let known = match role {
            Role::Term => self.lookup(scope, name).is_some_and(|n| matches!(self.rows.kind(n), 13 | 5)),
            Role::IfVar => self.var(scope, name).is_some(),
            Role::Defined(before) => self.var(before, name).is_some(),
        };
        let exit = if known { scope } else { self.introduce(scope, ident) };
        self.mark(ident, scope, exit)
    }

    fn term(&mut self, scope: u32, term: u32, role: Role) -> u32 {
        let exit = match self.rows.word(term, 0) {
            0 => self.ident(scope, self.rows.word(term, 1), role),
            _ => self.seq(scope, self.rows.children(term)),
        };
        self.mark(term, scope, exit)
    }

    /// A node of a rule body or an argument list: the scope after it.
    fn node(&mut self, scope: u32, n: u32) -> u32 {
        let rows = &self.0.rows;
        let exit = match rows.kind(n) {
            12 => return self.term(scope, n, Role::Term),
            10 => {
                let after = self.node(scope, rows.word(n, 1));
                match self.rows.name(n) {
                    Some(_) => self.introduce(after, n),
                    None => after,
                }
            }
            // "App head idents and member names never introduce."
            15 if rows.word(n, 0) == 0 => {
                let ident = rows.word(n, 1);
                self.mark(ident, scope, scope)
            }
            16 => {
                let names = rows.list(n, 1).to_vec();
                let after = self.node(scope, rows.word(n, 0));
                for name in names {
                    self.mark(name, after, after);
                }
                self.mark(n, NONE, NONE);
                return after;
            }
            17 => {
                let name = rows.word(n, 1);
                let after = self.node(scope, rows.word(n, 0));
                self.mark(name, after, after)
            }
            33 => {
                let term = rows.word(n, 0);
                let after = self.node(scope, rows.word(n, 1));
                self.term(after, term, Role::IfVar)
            }
            34 => {
                let var = rows.word(n, 0).checked_sub(1);
                let after = self.node(scope, rows.word(n, 1));
                match var {
                    Some(var) => self.term(after, var, Role::Defined(scope)),
                    None => after,
                }
            }
            // "Branch blocks each start from the branch's entry, cases from after the matched term; both drop what they add."
            35 => {
                let children = rows.children(n);
                self.seq(scope, children);
                scope
            }
            39 => {
                for block in rows.blocks(n).into_iter().map(|b| b.to_vec()).collect::<Vec<_>>() {
                    self.seq(scope, block);
                }
                scope
            }
            _ => {
                let children = rows.children(n);
                self.seq(scope, children)
            }
        };
        self.mark(n, scope, exit)
    }
}

/// "Symbol numbers follow `Symbol`, Type 0 to Var 9."
pub fn symbol_number(kind: u32) -> u32 {
    match kind {
        2 => 0,
        3 => 1,
        4 => 2,
        5 => 3,
        7 => 4,
        9 => 5,
        8 => 6,
        6 => 7,
        10 => 8,
        13 => 9,
        _ => panic!("kind {kind} is no symbol"),
    }
}

/// Refusal 16's table, as plain numbers.
pub(super) struct Lent<'a> {
    pub(super) rows: &'a Rows,
    pub(super) words: &'a [u32],
}

impl Lent<'_> {
    fn scopes(&self) -> u32 {
        self.words[1]
    }

    pub(super) fn symbols(&self) -> u32 {
        self.words[2]
    }

    fn at(&self, array: Array, i: u32) -> u32 {
        self.words[place(array, self.rows.n, i as usize)]
    }

    pub(super) fn parent(&self, scope: u32) -> u32 {
        self.at(Array::Parent, scope)
    }

    pub(super) fn symbol(&self, j: u32) -> (u32, u32) {
        (self.at(Array::SymbolScope, j), self.at(Array::SymbolNode, j))
    }

    pub(super) fn sound(&self) -> bool {
        let n = self.rows.n as u32;
        self.words[0] == n
            && (1..=n).contains(&self.scopes())
            && self.symbols() <= n
            && self.parent(0) == NONE
            && (1..self.scopes()).all(|s| self.parent(s) < s)
            && (0..self.symbols()).all(|j| {
                let (scope, node) = self.symbol(j);
                scope < self.scopes()
                    && node < n
                    && matches!(self.rows.kind(node), 2..=10 | 13)
                    && self.rows.name(node).is_some()
            })
    }

    /// The scope that holds the symbol, and the node.
    fn lookup(&self, scope: u32, name: u32) -> Option<(u32, u32)> {
        let mut at = scope;
        loop {
            for j in 0..self.symbols() {
                let (s, node) = self.symbol(j);
                if s == at && self.rows.name(node) == Some(name) {
                    return Some((s, node));
                }
            }
            at = self.parent(at);
            if at == NONE {
                return None;
            }
        }
    }
}

/// The number of the name with these bytes.
pub(super) fn name_number(image: &[u8], names: usize, name: &[u8]) -> Option<u32> {
    (0..names).find(|&i| {
        let (from, to) = name_span(image, i);
        &image[from..to] == name
    }).map(|i| i as u32)
}

/// A lookup's answer, by the scope and the node that it finds.
pub(super) fn looked(rows: &Rows, found: Option<(u32, u32)>) -> Answer {
    match found {
        Some((scope, node)) => Answer::Located(scope, symbol_number(rows.kind(node)), node),
        None => Answer::Other(0, 0),
    }
}

/// 16 and 17, of a lookup from the scope.
pub(super) fn refusal(lent: &Lent, scope: u32) -> Option<u32> {
    if !lent.sound() {
        return Some(16);
    }
    (scope >= lent.scopes()).then_some(17)
}

/// Lookup, for an image and a table that 1 to 13 do not refuse.
pub fn lookup_call(image: &[u8], table: &[u32], scope: u32, name: &[u8]) -> Answer {
    let rows = Rows::new(image);
    let lent = Lent { rows: &rows, words: table };
    if let Some(number) = refusal(&lent, scope) {
        return Answer::Refused(number);
    }
    looked(&rows, name_number(image, rows.names, name).and_then(|x| lent.lookup(scope, x)))
}
