//! The table of refusals: "read downward, a place at a time and 4 before 5; nodes go by rising number, and within a node
//! kind, start, then its words left to right."

use std::collections::HashSet;

use super::layout::{rows_words, table_words};

pub struct Sizes {
    pub n: usize,
    pub c: usize,
    pub s: usize,
    pub b: usize,
}

/// The little-endian word at a byte offset of the image.
pub fn word(image: &[u8], at: usize) -> u32 {
    u32::from_le_bytes(image[at..at + 4].try_into().unwrap())
}

pub fn sizes(image: &[u8]) -> Sizes {
    let size = |i: usize| word(image, 4 * i) as usize;
    Sizes { n: size(0), c: size(1), s: size(2), b: size(3) }
}

/// Where the bytes of a name stand in an image whose sizes and name ends are right.
pub fn name_span(image: &[u8], name: usize) -> (usize, usize) {
    let z = sizes(image);
    let ends = 16 + 8 * z.n + 4 * z.c;
    let bytes = ends + 4 * z.s;
    let end = |i: usize| word(image, ends + 4 * i) as usize;
    let from = if name == 0 { 0 } else { end(name - 1) };
    (bytes + from, bytes + end(name))
}

/// What a row has after its two location words, as the structs and enums of ast.rs declare it. A number is the kind of
/// a child.
pub enum Field {
    Name,
    MaybeName,
    Child(u32),
    MaybeChild(u32),
    List(u32),
    Blocks(u32),
    /// The child's kind for each case; Wildcard has none.
    Case(&'static [Option<u32>]),
}

const DECL: &[Option<u32>] = &[Some(2), Some(3), Some(4), Some(5), Some(6), Some(7), Some(8)];
const TERM: &[Option<u32>] = &[Some(13), None, Some(14), Some(17), Some(18), Some(19), Some(20), Some(21)];
const APP_HEAD: &[Option<u32>] = &[Some(13), Some(16), Some(12)];
const TYPE_EXPR: &[Option<u32>] = &[Some(24), Some(17), Some(25)];
const PRED_EXPR: &[Option<u32>] = &[Some(27), Some(17)];
const IF_ATOM: &[Option<u32>] = &[Some(30), Some(32), Some(31), Some(33)];
const THEN_ATOM: &[Option<u32>] = &[Some(30), Some(34), Some(31)];
const STMT: &[Option<u32>] = &[Some(37), Some(38), Some(39), Some(40)];

pub fn fields(kind: u32) -> &'static [Field] {
    use Field::*;
    match kind {
        0 => &[List(1)],                       // Module: decls
        1 => &[Case(DECL)],                    // Decl
        2 => &[Name],                          // TypeDecl
        3 => &[Name, Child(11)],               // PredDecl: args
        4 => &[Name, Child(11), Child(23)],    // FuncDecl: args, result
        5 => &[Name, Child(23)],               // ConstDecl: result
        6 => &[MaybeName, List(36)],           // RuleDecl: body
        7 => &[Name, List(9)],                 // EnumDecl: ctors
        8 => &[Name, List(1)],                 // ModelDecl: body
        9 => &[Name, Child(11)],               // CtorDecl: args
        10 => &[MaybeName, Child(23)],         // ArgDecl: typ
        11 => &[List(10)],                     // ArgDeclList: args
        12 => &[Case(TERM)],                   // Term
        13 => &[Name],                         // IdentTerm
        14 => &[Child(15), Child(22)],         // AppTerm: head, args
        15 => &[Case(APP_HEAD)],               // AppHead
        16 => &[Child(12), List(13)],          // AppHeadMember: receiver, names
        17 => &[Child(12), Child(13)],         // TermMember: term, name
        18 => &[Child(12)],                    // DomTerm
        19 => &[Child(12)],                    // CodTerm
        20 => &[Child(12)],                    // IdTerm
        21 => &[Child(12), Child(12)],         // CompTerm: first, second
        22 => &[List(12)],                     // TermList
        23 => &[Case(TYPE_EXPR)],              // TypeExpr
        24 => &[Name],                         // AmbientTypeExpr
        25 => &[Name],                         // MorTypeExpr
        26 => &[Case(PRED_EXPR)],              // PredExpr
        27 => &[Name],                         // AmbientPredExpr
        28 => &[Case(IF_ATOM)],                // IfAtom
        29 => &[Case(THEN_ATOM)],              // ThenAtom
        30 => &[Child(12), Child(12)],         // EqualAtom: lhs, rhs
        31 => &[Child(26), Child(22)],         // PredAtom: pred, args
        32 => &[Child(12)],                    // DefinedIfAtom
        33 => &[Child(12), Child(23)],         // VarIfAtom: term, typ
        34 => &[MaybeChild(12), Child(12)],    // DefinedThenAtom: var, term
        35 => &[Child(12), List(36)],          // MatchCase: pattern, body
        36 => &[Case(STMT)],                   // Stmt
        37 => &[Child(28)],                    // IfStmt
        38 => &[Child(29)],                    // ThenStmt
        39 => &[Blocks(36)],                   // BranchStmt
        40 => &[Child(12), List(35)],          // MatchStmt: term, cases
        _ => panic!("kind {kind}"),
    }
}

/// Goes through the rows and takes note of children.
struct Scan<'a> {
    image: &'a [u8],
    z: Sizes,
    /// How often each node stands as a child.
    stands: Vec<u32>,
    /// Where the row before ends.
    end: usize,
}

impl Scan<'_> {
    fn kind(&self, n: usize) -> u32 {
        word(self.image, 16 + 4 * n)
    }

    fn start(&self, n: usize) -> usize {
        word(self.image, 16 + 4 * self.z.n + 4 * n) as usize
    }

    /// The word at a place of the rows, if it lies below C.
    fn operand(&self, at: usize) -> Result<u32, u32> {
        if at < self.z.c {
            Ok(word(self.image, 16 + 8 * self.z.n + 4 * at))
        } else {
            Err(7)
        }
    }

    fn next(&self, at: &mut usize) -> Result<u32, u32> {
        let word = self.operand(*at)?;
        *at += 1;
        Ok(word)
    }

    fn child(&mut self, n: usize, kind: u32, child: u32) -> Result<(), u32> {
        if child as usize >= n || self.kind(child as usize) != kind {
            return Err(9);
        }
        self.stands[child as usize] += 1;
        Ok(())
    }

    fn list(&mut self, n: usize, kind: u32, at: &mut usize) -> Result<(), u32> {
        let count = self.next(at)?;
        for _ in 0..count {
            let child = self.next(at)?;
            self.child(n, kind, child)?;
        }
        Ok(())
    }

    fn field(&mut self, n: usize, field: &Field, at: &mut usize) -> Result<(), u32> {
        match *field {
            Field::Name => {
                if self.next(at)? as usize >= self.z.s {
                    return Err(8);
                }
            }
            Field::MaybeName => {
                if self.next(at)? as usize > self.z.s {
                    return Err(8);
                }
            }
            Field::Child(kind) => {
                let child = self.next(at)?;
                self.child(n, kind, child)?;
            }
            Field::MaybeChild(kind) => {
                let child = self.next(at)?;
                if child != 0 {
                    self.child(n, kind, child - 1)?;
                }
            }
            Field::List(kind) => self.list(n, kind, at)?,
            Field::Blocks(kind) => {
                let count = self.next(at)?;
                for _ in 0..count {
                    self.list(n, kind, at)?;
                }
            }
            Field::Case(cases) => {
                let case = self.next(at)?;
                match cases.get(case as usize) {
                    None => return Err(8),
                    Some(None) => {}
                    Some(&Some(kind)) => {
                        let child = self.next(at)?;
                        self.child(n, kind, child)?;
                    }
                }
            }
        }
        Ok(())
    }

    fn node(&mut self, n: usize) -> Result<(), u32> {
        let kind = self.kind(n);
        if kind > 40 {
            return Err(6);
        }
        let mut at = self.start(n);
        if at != self.end {
            return Err(7);
        }
        self.next(&mut at)?;
        self.next(&mut at)?;
        for field in fields(kind) {
            self.field(n, field, &mut at)?;
        }
        self.end = at;
        Ok(())
    }

    /// The case number of a term whose row was tested.
    fn case(&self, term: u32) -> Result<u32, u32> {
        self.operand(self.start(term as usize) + 2)
    }

    fn tree(&self) -> Result<(), u32> {
        let last = self.z.n - 1;
        if self.end != self.z.c || self.kind(last) != 0 {
            return Err(10);
        }
        if self.stands[..last].iter().any(|&times| times != 1) {
            return Err(11);
        }
        for n in 0..self.z.n {
            let first = self.start(n) + 2;
            let var = match self.kind(n) {
                33 => Some(self.operand(first)?),
                34 => self.operand(first)?.checked_sub(1),
                _ => None,
            };
            if let Some(term) = var {
                if self.case(term)? > 1 {
                    return Err(12);
                }
            }
        }
        Ok(())
    }
}

fn names(image: &[u8], z: &Sizes) -> Result<(), u32> {
    let ends = 16 + 8 * z.n + 4 * z.c;
    let mut before = 0;
    for i in 0..z.s {
        let end = word(image, ends + 4 * i) as usize;
        if end <= before {
            return Err(4);
        }
        before = end;
    }
    if before != z.b {
        return Err(4);
    }
    let mut seen = HashSet::new();
    for i in 0..z.s {
        let (from, to) = name_span(image, i);
        if !seen.insert(&image[from..to]) {
            return Err(5);
        }
    }
    Ok(())
}

fn test(image: &[u8]) -> Result<(), u32> {
    if image.len() < 16 {
        return Err(1);
    }
    let z = sizes(image);
    if z.n == 0 || z.n > 2048 || z.c > 8192 || z.s > 1024 || z.b > 8192 {
        return Err(2);
    }
    if image.len() != 16 + 8 * z.n + 4 * z.c + 4 * z.s + z.b {
        return Err(3);
    }
    names(image, &z)?;
    let n = z.n;
    let mut scan = Scan { image, z, stands: vec![0; n], end: 0 };
    for node in 0..n {
        scan.node(node)?;
    }
    scan.tree()
}

/// The first refusal of 1 to 12.
pub fn verdict(image: &[u8]) -> Option<u32> {
    test(image).err()
}

/// The first refusal of 1 to 13, for a table of so many words.
pub fn table_refusal(image: &[u8], table: usize) -> Option<u32> {
    verdict(image).or_else(|| (table < table_words(sizes(image).n)).then_some(13))
}

/// The first refusal of 1 to 14.
pub fn rows_refusal(image: &[u8], table: usize, rows: usize) -> Option<u32> {
    table_refusal(image, table).or_else(|| (rows < rows_words(sizes(image).n)).then_some(14))
}

/// The same, where an output of so many bytes is lent too: "An output shorter than the image counts as 14."
pub fn output_refusal(image: &[u8], table: usize, rows: usize, out: usize) -> Option<u32> {
    rows_refusal(image, table, rows).or_else(|| (out < image.len()).then_some(14))
}
