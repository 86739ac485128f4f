//! Error rows, occurrences and the lone one, as document 01 says where each stands: nodes are found by what stands
//! around them, and put in order by one walk over the tree.

use super::walk::{Resolved, Rows};

/// The nodes of a rule in the order of check_bindings and check_occurrences: the walk's, but a defined-then's variable
/// before its term.
fn listed(rows: &Rows, rule: u32) -> Vec<u32> {
    let mut order = Vec::new();
    let mut open = vec![rule];
    while let Some(n) = open.pop() {
        order.push(n);
        let children = if rows.kind(n) == 33 { rows.in_order(n) } else { rows.children(n) };
        open.extend(children.into_iter().rev());
    }
    order
}

/// The parent of each node.
fn parents(rows: &Rows) -> Vec<u32> {
    let mut parents = vec![u32::MAX; rows.n];
    for n in 0..rows.n as u32 {
        for child in rows.children(n) {
            parents[child as usize] = n;
        }
    }
    parents
}

struct Checks<'a> {
    r: &'a Resolved,
    parents: Vec<u32>,
}

impl Checks<'_> {
    fn kind(&self, n: u32) -> u32 {
        self.r.rows.kind(n)
    }

    fn parent(&self, n: u32) -> u32 {
        self.parents[n as usize]
    }

    /// The variable of a defined-then.
    fn defined(&self, term: u32) -> bool {
        let up = self.parent(term);
        self.kind(up) == 34 && self.r.rows.word(up, 0) == term + 1
    }

    /// "at an ident term of a then-atom that introduces its name, except the defined variable itself and terms under Dom,
    /// Cod or a member predicate's receiver"
    fn row1(&self, term: u32) -> bool {
        let Some(ident) = self.r.rows.ident(term) else { return false };
        if self.kind(term) != 12 || self.defined(term) || !self.r.symbols.iter().any(|s| s.1 == ident) {
            return false;
        }
        let mut up = self.parent(term);
        loop {
            match self.kind(up) {
                29 => return true,
                18 | 19 | 26 | 36 => return false,
                _ => up = self.parent(up),
            }
        }
    }

    /// "at a defined-then variable whose name is a Var at the atom's entry"
    fn row2(&self, term: u32) -> bool {
        let Some(ident) = self.r.rows.ident(term) else { return false };
        let atom = self.parent(self.parent(term));
        self.kind(term) == 12
            && self.defined(term)
            && self.r.var(self.r.entry[atom as usize], self.r.rows.name(ident).unwrap()).is_some()
    }

    /// "at an ident argument that is a Var at its own entry, directly under a case pattern whose head is an ident that
    /// lookup gives as Ctor"
    fn row3(&self, term: u32) -> bool {
        let rows = &self.r.rows;
        let Some(ident) = rows.ident(term) else { return false };
        let list = self.parent(term);
        if self.kind(term) != 12 || self.kind(list) != 22 || self.kind(self.parent(list)) != 14 {
            return false;
        }
        let app = self.parent(list);
        let pattern = self.parent(app);
        let case = self.parent(pattern);
        if self.kind(case) != 35 || rows.word(case, 0) != pattern {
            return false;
        }
        let head = rows.word(app, 0);
        let Some(name) = rows.ident(head).and_then(|i| rows.name(i)) else { return false };
        let ctor = self.r.lookup(self.r.exit[head as usize], name).is_some_and(|n| self.kind(n) == 9);
        ctor && self.r.var(self.r.entry[term as usize], rows.name(ident).unwrap()).is_some()
    }
}

/// Document 02, S-5: "at each named argument whose name any earlier argument of its list carries"; document 01: "by rising
/// node number". With each whether the nearest earlier named argument carries it.
pub fn row4(rows: &Rows) -> Vec<(u32, bool)> {
    let mut found = Vec::new();
    for list in (0..rows.n as u32).filter(|&n| rows.kind(n) == 11) {
        let named: Vec<(u32, u32)> = rows.list(list, 0).iter().filter_map(|&arg| Some((arg, rows.name(arg)?))).collect();
        for (i, &(arg, name)) in named.iter().enumerate() {
            if named[..i].iter().any(|earlier| earlier.1 == name) {
                found.push((arg, named[i - 1].1 == name));
            }
        }
    }
    found.sort_unstable();
    found
}

pub fn errors(r: &Resolved, strict: bool) -> Vec<(u32, u32)> {
    let checks = Checks { r, parents: parents(&r.rows) };
    let mut list = Vec::new();
    for rule in r.rows.rules() {
        for n in listed(&r.rows, rule) {
            let tests = [(1, checks.row1(n)), (2, checks.row2(n)), (3, checks.row3(n))];
            list.extend(tests.into_iter().filter(|t| t.1).map(|t| (t.0, n)));
        }
    }
    if strict {
        list.extend(row4(&r.rows).into_iter().map(|(n, _)| (4, n)));
    }
    list
}

/// Document 02, S-1: "by the second location word of the row's node"; "rows with equal second words keep their old sequence".
pub fn by_place(rows: &Rows, mut list: Vec<(u32, u32)>) -> Vec<(u32, u32)> {
    list.sort_by_key(|&(_, node)| rows.location(node).1);
    list
}

/// Each rule's list: "every variable occurrence with its binding: the node that lookup of its name gives, in the table,
/// at the exit of the occurrence's node".
pub fn occurrences(r: &Resolved) -> Vec<Vec<(u32, u32)>> {
    let mut rules = Vec::new();
    for rule in r.rows.rules() {
        let mut list = Vec::new();
        for n in listed(&r.rows, rule) {
            if let Some(ident) = r.rows.ident(n) {
                let name = r.rows.name(ident).unwrap();
                list.extend(r.var(r.exit[n as usize], name).map(|binding| (n, binding)));
            }
        }
        rules.push(list);
    }
    rules
}

/// The first occurrence whose binding has no other in its rule.
pub fn lone(r: &Resolved) -> Option<(u32, u32)> {
    for list in occurrences(r) {
        let mut times = std::collections::HashMap::new();
        for o in &list {
            *times.entry(o.1).or_insert(0) += 1;
        }
        if let Some(&o) = list.iter().find(|o| times[&o.1] == 1) {
            return Some(o);
        }
    }
    None
}
