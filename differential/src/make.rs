//! Makes images: every kind and case, names that clash, nesting, sizes up to the limits, nodes in natural or shuffled
//! order. What it makes is mostly accepted; damage.rs breaks it.

use crate::image::{Sketch, Word};
use crate::random::Random;
use Word::{Child, MaybeChild, MaybeName, Name, Plain};

/// The rows of one image are about to be over once `left` is 0; lists end then and terms are leaves.
pub struct Make<'a> {
    pub random: &'a mut Random,
    pub style: Style,
    pub sketch: Sketch,
    left: i64,
    /// Names are numbers until the end; so many there are.
    names: u32,
    ctors: Vec<u32>,
    depth: usize,
}

/// The weights of one image.
#[derive(Clone)]
pub struct Style {
    pub decls: [u32; 7],
    pub terms: [u32; 8],
    pub heads: [u32; 3],
    pub types: [u32; 3],
    pub preds: [u32; 2],
    pub if_atoms: [u32; 4],
    pub then_atoms: [u32; 3],
    pub stmts: [u32; 4],
    /// How many variables there are to choose from.
    pub variables: u32,
    /// In how many of 100 cases a declaration takes a name that was given already.
    pub clash: usize,
    /// In how many of 100 cases an ident takes a declared name, whatever it is.
    pub foreign: usize,
    /// The most items of an inner list.
    pub items: usize,
    /// The most declarations or statements of a list.
    pub long: usize,
    pub deepest: usize,
    /// In how many of 10,000 cases an if-var term or defined-then variable is of another case than Ident and Wildcard.
    pub bad_variable: usize,
}

impl Style {
    /// All kinds and cases, none of them rare.
    pub fn even() -> Style {
        Style {
            decls: [2, 2, 2, 3, 8, 2, 2],
            terms: [10, 2, 4, 2, 1, 1, 1, 2],
            heads: [4, 2, 2],
            types: [3, 2, 1],
            preds: [3, 1],
            if_atoms: [3, 2, 3, 3],
            then_atoms: [3, 4, 3],
            stmts: [5, 5, 2, 2],
            variables: 4,
            clash: 1,
            foreign: 15,
            items: 3,
            long: 6,
            deepest: 8,
            bad_variable: 0,
        }
    }

    /// Weights drawn anew, some of them 0.
    pub fn drawn(r: &mut Random) -> Style {
        let mut s = Style::even();
        if r.percent(60) {
            let weigh = |weights: &mut [u32], r: &mut Random| {
                for w in weights.iter_mut() {
                    *w = if r.one_in(4) { 0 } else { r.between(1, 9) as u32 };
                }
                if weights.iter().all(|&w| w == 0) {
                    weights[0] = 1;
                }
            };
            weigh(&mut s.decls, r);
            s.decls[4] += 3;
            weigh(&mut s.terms, r);
            s.terms[0] += 3;
            weigh(&mut s.heads, r);
            weigh(&mut s.types, r);
            weigh(&mut s.preds, r);
            weigh(&mut s.if_atoms, r);
            weigh(&mut s.then_atoms, r);
            weigh(&mut s.stmts, r);
        }
        s.variables = *r.pick(&[1, 2, 2, 3, 3, 4, 6, 10, 40]);
        s.clash = *r.pick(&[0, 0, 0, 1, 2, 10, 40]);
        s.foreign = *r.pick(&[0, 5, 15, 30, 60]);
        s.items = *r.pick(&[1, 2, 3, 3, 4, 8]);
        s.long = *r.pick(&[2, 4, 6, 6, 12, 40]);
        s.deepest = *r.pick(&[2, 4, 6, 8, 12, 20, 60]);
        s.bad_variable = if r.one_in(20) { 1500 } else { 0 };
        s
    }
}

impl<'a> Make<'a> {
    pub fn new(random: &'a mut Random, style: Style, nodes: usize) -> Make<'a> {
        Make {
            random,
            names: style.variables,
            style,
            sketch: Sketch::default(),
            left: nodes as i64 - 1,
            ctors: Vec::new(),
            depth: 0,
        }
    }

    fn push(&mut self, kind: u32, words: Vec<Word>) -> usize {
        self.left -= 1;
        self.sketch.push(kind, words)
    }

    fn over(&self) -> bool {
        self.left <= 0 || self.depth >= self.style.deepest
    }

    fn count(&mut self, most: usize) -> usize {
        if self.over() {
            0
        } else {
            self.random.between(0, most)
        }
    }

    fn list(&mut self, items: &[usize], before: Vec<Word>) -> Vec<Word> {
        let mut words = before;
        words.push(Plain(items.len() as u32));
        words.extend(items.iter().map(|&i| Child(i)));
        words
    }

    fn new_name(&mut self) -> u32 {
        if self.names >= 1000 {
            return self.random.below(self.names as usize) as u32;
        }
        self.names += 1;
        self.names - 1
    }

    fn any_name(&mut self) -> u32 {
        self.random.below(self.names as usize) as u32
    }

    fn decl_name(&mut self) -> u32 {
        if self.random.percent(self.style.clash) {
            self.any_name()
        } else {
            self.new_name()
        }
    }

    fn ident_name(&mut self) -> u32 {
        if self.random.percent(self.style.foreign) {
            self.any_name()
        } else {
            self.random.below(self.style.variables as usize) as u32
        }
    }

    /// The whole module: declarations until there is no more to spend.
    pub fn module(&mut self) -> usize {
        let mut decls = Vec::new();
        while self.left > 0 {
            decls.push(self.decl());
        }
        let words = self.list(&decls, Vec::new());
        self.push(0, words)
    }

    fn decls(&mut self) -> Vec<usize> {
        let count = self.count(self.style.long);
        (0..count).map(|_| self.decl()).collect()
    }

    pub fn decl(&mut self) -> usize {
        let case = self.random.weighted(&self.style.decls);
        self.depth += 1;
        let child = match case {
            0 => {
                let name = self.decl_name();
                self.push(2, vec![Name(name)])
            }
            1 => {
                let name = self.decl_name();
                let args = self.args();
                self.push(3, vec![Name(name), Child(args)])
            }
            2 => {
                let name = self.decl_name();
                let args = self.args();
                let result = self.type_expr();
                self.push(4, vec![Name(name), Child(args), Child(result)])
            }
            3 => {
                // a const is often called like a variable
                let name = if self.random.one_in(3) { self.ident_name() } else { self.decl_name() };
                let result = self.type_expr();
                self.push(5, vec![Name(name), Child(result)])
            }
            4 => self.rule(),
            5 => {
                let name = self.decl_name();
                let count = self.count(self.style.items);
                let ctors: Vec<usize> = (0..count).map(|_| self.ctor()).collect();
                let words = self.list(&ctors, vec![Name(name)]);
                self.push(7, words)
            }
            _ => {
                let name = self.decl_name();
                let decls = self.decls();
                let words = self.list(&decls, vec![Name(name)]);
                self.push(8, words)
            }
        };
        self.depth -= 1;
        self.push(1, vec![Plain(case as u32), Child(child)])
    }

    fn rule(&mut self) -> usize {
        let name = if self.random.one_in(5) { Some(self.decl_name()) } else { None };
        let body = self.block(self.style.long);
        let words = self.list(&body, vec![MaybeName(name)]);
        self.push(6, words)
    }

    fn ctor(&mut self) -> usize {
        let name = self.decl_name();
        self.ctors.push(name);
        let args = self.args();
        self.push(9, vec![Name(name), Child(args)])
    }

    fn args(&mut self) -> usize {
        let count = self.count(self.style.items);
        let args: Vec<usize> = (0..count).map(|_| self.arg()).collect();
        let words = self.list(&args, Vec::new());
        self.push(11, words)
    }

    fn arg(&mut self) -> usize {
        let name = if self.random.one_in(3) { None } else { Some(self.ident_name()) };
        let typ = self.type_expr();
        self.push(10, vec![MaybeName(name), Child(typ)])
    }

    fn type_expr(&mut self) -> usize {
        let case = if self.over() { 0 } else { self.random.weighted(&self.style.types) };
        let child = match case {
            0 => {
                let name = self.any_name();
                self.push(24, vec![Name(name)])
            }
            1 => self.member(),
            _ => {
                let name = self.any_name();
                self.push(25, vec![Name(name)])
            }
        };
        self.push(23, vec![Plain(case as u32), Child(child)])
    }

    fn ident(&mut self) -> usize {
        let name = self.ident_name();
        self.push(13, vec![Name(name)])
    }

    fn member(&mut self) -> usize {
        self.depth += 1;
        let term = self.term();
        let name = self.ident();
        self.depth -= 1;
        self.push(17, vec![Child(term), Child(name)])
    }

    fn term_of(&mut self, case: usize) -> usize {
        self.depth += 1;
        let child = match case {
            0 => Some(self.ident()),
            1 => None,
            2 => Some(self.app()),
            3 => Some(self.member()),
            4 | 5 | 6 => {
                let arg = self.term();
                Some(self.push(14 + case as u32, vec![Child(arg)]))
            }
            _ => {
                let first = self.term();
                let second = self.term();
                Some(self.push(21, vec![Child(first), Child(second)]))
            }
        };
        self.depth -= 1;
        let mut words = vec![Plain(case as u32)];
        words.extend(child.map(Child));
        self.push(12, words)
    }

    pub fn term(&mut self) -> usize {
        let case = if self.over() {
            self.random.weighted(&[5, 1])
        } else {
            self.random.weighted(&self.style.terms)
        };
        self.term_of(case)
    }

    fn app(&mut self) -> usize {
        let head = self.head();
        let args = self.terms();
        self.push(14, vec![Child(head), Child(args)])
    }

    fn head(&mut self) -> usize {
        let case = if self.over() { 0 } else { self.random.weighted(&self.style.heads) };
        let child = match case {
            0 => self.ident(),
            1 => {
                self.depth += 1;
                let receiver = self.term();
                self.depth -= 1;
                let count = self.count(self.style.items);
                let names: Vec<usize> = (0..count).map(|_| self.ident()).collect();
                let words = self.list(&names, vec![Child(receiver)]);
                self.push(16, words)
            }
            _ => self.term(),
        };
        self.push(15, vec![Plain(case as u32), Child(child)])
    }

    fn terms(&mut self) -> usize {
        let count = self.count(self.style.items);
        let terms: Vec<usize> = (0..count).map(|_| self.term()).collect();
        let words = self.list(&terms, Vec::new());
        self.push(22, words)
    }

    /// An if-var's term or a defined-then's variable.
    fn variable(&mut self) -> usize {
        if self.random.below(10_000) < self.style.bad_variable {
            let case = self.random.between(2, 7);
            return self.term_of(case);
        }
        let case = self.random.weighted(&[6, 1]);
        self.term_of(case)
    }

    fn block(&mut self, most: usize) -> Vec<usize> {
        let count = self.count(most);
        (0..count).map(|_| self.stmt()).collect()
    }

    pub fn stmt(&mut self) -> usize {
        let case = if self.over() { self.random.below(2) } else { self.random.weighted(&self.style.stmts) };
        self.depth += 1;
        let child = match case {
            0 => {
                let atom = self.if_atom();
                self.push(37, vec![Child(atom)])
            }
            1 => {
                let atom = self.then_atom();
                self.push(38, vec![Child(atom)])
            }
            2 => self.branch(),
            _ => self.match_stmt(),
        };
        self.depth -= 1;
        self.push(36, vec![Plain(case as u32), Child(child)])
    }

    fn branch(&mut self) -> usize {
        let count = self.random.between(0, self.style.items);
        let mut words = vec![Plain(count as u32)];
        for _ in 0..count {
            let block = self.block(self.style.items);
            words = self.list(&block, words);
        }
        self.push(39, words)
    }

    fn match_stmt(&mut self) -> usize {
        let term = self.term();
        let count = self.random.between(0, self.style.items);
        let cases: Vec<usize> = (0..count).map(|_| self.case()).collect();
        let words = self.list(&cases, vec![Child(term)]);
        self.push(40, words)
    }

    fn case(&mut self) -> usize {
        let pattern = if !self.ctors.is_empty() && self.random.percent(60) {
            let ctor = *self.random.pick(&self.ctors);
            let app = self.pattern(ctor);
            self.push(12, vec![Plain(2), Child(app)])
        } else {
            self.term()
        };
        let body = self.block(self.style.items);
        let words = self.list(&body, vec![Child(pattern)]);
        self.push(35, words)
    }

    /// A constructor on some terms, most of them idents.
    fn pattern(&mut self, ctor: u32) -> usize {
        let ident = self.push(13, vec![Name(ctor)]);
        let head = self.push(15, vec![Plain(0), Child(ident)]);
        let count = self.random.between(0, self.style.items);
        let terms: Vec<usize> =
            (0..count).map(|_| if self.random.percent(70) { self.term_of(0) } else { self.term() }).collect();
        let words = self.list(&terms, Vec::new());
        let args = self.push(22, words);
        self.push(14, vec![Child(head), Child(args)])
    }

    fn equal(&mut self) -> usize {
        let lhs = self.term();
        let rhs = self.term();
        self.push(30, vec![Child(lhs), Child(rhs)])
    }

    fn pred(&mut self) -> usize {
        let case = if self.over() { 0 } else { self.random.weighted(&self.style.preds) };
        let child = match case {
            0 => {
                let name = self.any_name();
                self.push(27, vec![Name(name)])
            }
            _ => self.member(),
        };
        let pred = self.push(26, vec![Plain(case as u32), Child(child)]);
        let args = self.terms();
        self.push(31, vec![Child(pred), Child(args)])
    }

    fn if_atom(&mut self) -> usize {
        let case = self.random.weighted(&self.style.if_atoms);
        let child = match case {
            0 => self.equal(),
            1 => {
                let term = self.term();
                self.push(32, vec![Child(term)])
            }
            2 => self.pred(),
            _ => {
                // either may come first among the rows
                let (term, typ) = if self.random.one_in(2) {
                    let term = self.variable();
                    (term, self.type_expr())
                } else {
                    let typ = self.type_expr();
                    (self.variable(), typ)
                };
                self.push(33, vec![Child(term), Child(typ)])
            }
        };
        self.push(28, vec![Plain(case as u32), Child(child)])
    }

    fn then_atom(&mut self) -> usize {
        let case = self.random.weighted(&self.style.then_atoms);
        let child = match case {
            0 => self.equal(),
            1 => {
                let var = if self.random.one_in(4) { None } else { Some(self.variable()) };
                let term = self.term();
                self.push(34, vec![MaybeChild(var), Child(term)])
            }
            _ => self.pred(),
        };
        self.push(29, vec![Plain(case as u32), Child(child)])
    }

    /// Gives the names their bytes, and changes their numbers.
    pub fn name_all(&mut self, letters: Letters, unused: usize) {
        let count = (self.names as usize + unused).min(1024);
        let mut number: Vec<u32> = (0..count as u32).collect();
        self.random.shuffle(&mut number);
        for row in &mut self.sketch.rows {
            for word in &mut row.words {
                match word {
                    Name(x) => *x = number[*x as usize],
                    MaybeName(Some(x)) => *x = number[*x as usize],
                    _ => {}
                }
            }
        }
        self.sketch.names = names(self.random, count, letters);
    }

    /// Location words that vary and collide: all 0, drawn from few or many numbers, or rising or falling from row to row,
    /// some rows at the place of others.
    pub fn locations(&mut self) {
        let style = self.random.below(6);
        let few = *self.random.pick(&[2, 3, 8, 40]);
        let count = self.sketch.rows.len();
        for (i, row) in self.sketch.rows.iter_mut().enumerate() {
            row.location = match style {
                0 => [0, 0],
                1 => [self.random.below(few) as u32, self.random.below(few) as u32],
                2 => [self.random.below(1000) as u32, self.random.below(1000) as u32],
                3 => [i as u32, (i / few) as u32],
                4 => [i as u32, ((count - i) / few) as u32],
                _ => [self.random.word() as u32, self.random.word() as u32],
            };
        }
    }
}

/// What names are made of.
#[derive(Copy, Clone, PartialEq, Eq, Debug)]
pub enum Letters {
    Short,
    /// A long common beginning.
    Alike,
    Unicode,
    /// Not all of them UTF-8.
    Bytes,
}

/// So many names, all different, at most 8,192 bytes together where that is possible with the least of them.
pub fn names(r: &mut Random, count: usize, letters: Letters) -> Vec<Vec<u8>> {
    let mut seen = std::collections::HashSet::new();
    let mut list = Vec::new();
    let room = 8192 / count.max(1);
    while list.len() < count {
        let name: Vec<u8> = match letters {
            Letters::Short => {
                let len = r.between(1, if count < 20 { 2 } else { 3 }).min(room.max(2));
                (0..len).map(|_| b'a' + r.below(26) as u8).collect()
            }
            Letters::Alike => {
                let mut name = vec![b'x'; room.clamp(4, 40) - 3];
                name.extend((0..3).map(|_| b'a' + r.below(26) as u8));
                name
            }
            Letters::Unicode => {
                let len = r.between(1, 3);
                let text: String = (0..len)
                    .map(|_| *r.pick(&['a', 'b', 'x', 'é', 'ß', 'λ', 'ж', '→', '∀', '字', '😀', '\u{0}']))
                    .collect();
                text.into_bytes()
            }
            Letters::Bytes => {
                let len = r.between(1, 3);
                (0..len).map(|_| r.below(256) as u8).collect()
            }
        };
        if name.len() <= room.max(3) && seen.insert(name.clone()) {
            list.push(name);
        }
    }
    list
}

/// An order of the rows in which children stand before their parents: at random among all such.
pub fn shuffled(sketch: &Sketch, r: &mut Random) -> Vec<usize> {
    let count = sketch.rows.len();
    let mut parents: Vec<Vec<usize>> = vec![Vec::new(); count];
    let mut waits = vec![0; count];
    for row in 0..count {
        for child in sketch.children(row) {
            parents[child].push(row);
            waits[row] += 1;
        }
    }
    let mut ready: Vec<usize> = (0..count).filter(|&row| waits[row] == 0).collect();
    let mut order = Vec::new();
    while !ready.is_empty() {
        let row = ready.swap_remove(r.below(ready.len()));
        order.push(row);
        for &parent in &parents[row] {
            waits[parent] -= 1;
            if waits[parent] == 0 {
                ready.push(parent);
            }
        }
    }
    order
}
