//! "Sight, for the third demand": order and nesting alone. Nothing here knows a scope or a table.

use super::walk::Rows;

#[derive(Copy, Clone, PartialEq, Eq, Debug)]
enum Sort {
    /// A Term of case Ident that is none of the others.
    Ordinary,
    IfVar,
    /// A defined-then variable, with the number of the first place of its atom.
    Defined(usize),
    /// The ident of an app head.
    Head,
}

/// An ident term or an app head ident of a rule.
struct Place {
    node: u32,
    name: u32,
    sort: Sort,
    /// The branch blocks and match cases around it, outermost first, by numbers of their own.
    around: Vec<usize>,
}

/// The places of one rule, in the walk's order.
struct Places<'a> {
    rows: &'a Rows,
    places: Vec<Place>,
    around: Vec<usize>,
    blocks: usize,
}

impl Places<'_> {
    fn inside(&mut self, nodes: &[u32]) {
        self.around.push(self.blocks);
        self.blocks += 1;
        self.nodes(nodes);
        self.around.pop();
    }

    fn nodes(&mut self, nodes: &[u32]) {
        nodes.iter().for_each(|&n| self.node(n, Sort::Ordinary));
    }

    fn place(&mut self, node: u32, ident: u32, sort: Sort) {
        let name = self.rows.name(ident).unwrap();
        self.places.push(Place { node, name, sort, around: self.around.clone() });
    }

    fn node(&mut self, n: u32, sort: Sort) {
        let rows = self.rows;
        match rows.kind(n) {
            12 | 15 if rows.word(n, 0) == 0 => {
                let sort = if rows.kind(n) == 15 { Sort::Head } else { sort };
                self.place(n, rows.word(n, 1), sort);
            }
            // member names are no places
            16 | 17 => self.node(rows.word(n, 0), Sort::Ordinary),
            33 => {
                self.node(rows.word(n, 1), Sort::Ordinary);
                self.node(rows.word(n, 0), Sort::IfVar);
            }
            34 => {
                let first = self.places.len();
                self.node(rows.word(n, 1), Sort::Ordinary);
                if let Some(var) = rows.word(n, 0).checked_sub(1) {
                    self.node(var, Sort::Defined(first));
                }
            }
            35 => self.inside(&rows.children(n)),
            39 => rows.blocks(n).into_iter().for_each(|b| self.inside(b)),
            _ => self.nodes(&rows.children(n)),
        }
    }
}

/// A rule, and for each name whether its outer meaning is Const.
struct Rule {
    node: u32,
    consts: Vec<bool>,
}

/// The rules below a declaration list, with the outer meaning of names there: the kind of what declares each.
fn rules(rows: &Rows, decls: &[u32], outer: &[Option<u32>], found: &mut Vec<Rule>) {
    let mut meaning = outer.to_vec();
    for &decl in decls {
        let inside = rows.word(decl, 1);
        if let Some(name) = rows.name(inside) {
            meaning[name as usize] = Some(rows.kind(inside));
        }
        if rows.kind(inside) == 7 {
            for &ctor in rows.list(inside, 1) {
                meaning[rows.name(ctor).unwrap() as usize] = Some(9);
            }
        }
    }
    for &decl in decls {
        let inside = rows.word(decl, 1);
        match rows.kind(inside) {
            6 => found.push(Rule { node: inside, consts: meaning.iter().map(|&m| m == Some(5)).collect() }),
            8 => rules(rows, rows.list(inside, 1), &meaning, found),
            _ => {}
        }
    }
}

struct Sight {
    places: Vec<Place>,
    consts: Vec<bool>,
}

impl Sight {
    fn naming(&self, p: usize) -> bool {
        match self.places[p].sort {
            Sort::Ordinary => !self.consts[self.places[p].name as usize],
            Sort::IfVar | Sort::Defined(_) => true,
            Sort::Head => false,
        }
    }

    /// p is in sight of q: it stands at or before q, and every block and case around it is around q.
    fn sees(&self, p: usize, q: usize) -> bool {
        p <= q && self.places[p].around.iter().all(|b| self.places[q].around.contains(b))
    }

    fn named(&self, p: usize, q: usize) -> bool {
        self.places[p].name == self.places[q].name
    }

    /// A naming place of q's name, before the place `limit` and in sight of q.
    fn named_before(&self, q: usize, limit: usize) -> bool {
        (0..limit).any(|p| self.naming(p) && self.named(p, q) && self.sees(p, q))
    }

    fn fresh(&self, d: usize) -> bool {
        match self.places[d].sort {
            Sort::Defined(first) => !self.named_before(d, first),
            _ => false,
        }
    }

    fn occurrence(&self, q: usize) -> bool {
        self.naming(q) || self.named_before(q, q)
    }

    /// The naming places that q may share: of its name, at or before it, in sight of it, with no fresh definition of the
    /// name after that place, at or before q and in sight of q.
    fn shared(&self, q: usize) -> Vec<usize> {
        let all: Vec<usize> = (0..=q).filter(|&p| self.named(p, q) && self.sees(p, q)).collect();
        let last = all.iter().copied().filter(|&d| self.fresh(d)).max();
        all.into_iter().filter(|&p| self.naming(p) && last.is_none_or(|d| p >= d)).collect()
    }
}

/// How long a rule's places may be for the comparison to be made: it takes their number cubed.
const LONGEST: usize = 400;

/// Holds the list of an image's occurrences, node and binding, to the third demand: it has exactly the variable
/// occurrences of all rules, each once and in the list's order; two of one rule have the same binding exactly where the
/// demand says so.
pub fn check(image: &[u8], list: &[(u32, u32)]) -> Result<(), String> {
    let rows = Rows::new(image);
    let mut found = Vec::new();
    rules(&rows, rows.list(rows.module(), 0), &vec![None; rows.names], &mut found);
    let mut at = 0;
    for rule in found {
        let mut places = Places { rows: &rows, places: Vec::new(), around: Vec::new(), blocks: 0 };
        places.nodes(&rows.children(rule.node));
        let sight = Sight { places: places.places, consts: rule.consts };
        if sight.places.len() > LONGEST {
            return Ok(());
        }
        at = rule_list(&sight, list, at)?;
    }
    if at != list.len() {
        return Err(format!("sight: row {at} of {} is of no rule", list.len()));
    }
    Ok(())
}

/// One rule's part of the list, from the row `at` on; where it ends.
fn rule_list(sight: &Sight, list: &[(u32, u32)], at: usize) -> Result<usize, String> {
    // "the walk's, but a defined-then's variable before its term": a variable goes before the places of its atom
    let mut order: Vec<usize> = (0..sight.places.len()).collect();
    order.sort_by_key(|&p| match sight.places[p].sort {
        Sort::Defined(first) => (first, 0),
        _ => (p, 1),
    });
    let wanted: Vec<usize> = order.into_iter().filter(|&q| sight.occurrence(q)).collect();
    let end = at + wanted.len();
    if end > list.len() {
        return Err(format!("sight: {} rows, more are wanted", list.len()));
    }
    for (i, &q) in wanted.iter().enumerate() {
        if list[at + i].0 != sight.places[q].node {
            return Err(format!("sight: row {} is at {}, wanted {}", at + i, list[at + i].0, sight.places[q].node));
        }
    }
    let shared: Vec<Vec<usize>> = wanted.iter().map(|&q| sight.shared(q)).collect();
    for i in 0..wanted.len() {
        for j in i..wanted.len() {
            let same = sight.named(wanted[i], wanted[j]) && shared[i].iter().any(|p| shared[j].contains(p));
            if same != (list[at + i].1 == list[at + j].1) {
                return Err(format!("sight: nodes {} and {}: the same is {same}", list[at + i].0, list[at + j].0));
            }
        }
    }
    Ok(end)
}
