//! The inputs of a run: the i-th one follows from the seed and i.

use crate::damage;
use crate::image::{Sketch, Word};
use crate::make::{shuffled, Letters, Make, Style};
use crate::random::Random;
use Word::{Child, MaybeName, Name, Plain};

/// One image, and what it was meant to be.
pub struct Input {
    pub image: Vec<u8>,
    pub what: String,
    pub shuffled: bool,
}

/// A chain of one form, nested as deep as the nodes allow.
#[derive(Copy, Clone, Debug, PartialEq, Eq)]
pub enum Deep {
    Terms,
    Heads,
    HeadMembers,
    Members,
    Arguments,
    Branches,
    Matches,
    Models,
}

pub const DEEP: [Deep; 8] = [
    Deep::Terms,
    Deep::Heads,
    Deep::HeadMembers,
    Deep::Members,
    Deep::Arguments,
    Deep::Branches,
    Deep::Matches,
    Deep::Models,
];

fn ident(s: &mut Sketch, name: u32) -> usize {
    let ident = s.push(13, vec![Name(name)]);
    s.push(12, vec![Plain(0), Child(ident)])
}

fn in_rule(s: &mut Sketch, stmt: usize) -> usize {
    let rule = s.push(6, vec![MaybeName(None), Plain(1), Child(stmt)]);
    s.push(1, vec![Plain(4), Child(rule)])
}

fn defined(s: &mut Sketch, term: usize) -> usize {
    let atom = s.push(32, vec![Child(term)]);
    let atom = s.push(28, vec![Plain(1), Child(atom)]);
    let stmt = s.push(37, vec![Child(atom)]);
    s.push(36, vec![Plain(0), Child(stmt)])
}

/// A module with one chain of about so many nodes.
pub fn deep(form: Deep, nodes: usize, r: &mut Random) -> Sketch {
    let mut s = Sketch { rows: Vec::new(), names: vec![b"x".to_vec(), b"y".to_vec(), b"m".to_vec()] };
    let fits = |s: &Sketch, more: usize, words: usize| s.rows.len() + more <= nodes && s.operands() + words <= 8192;
    let decl = match form {
        Deep::Models => {
            let mut decls: Vec<usize> = Vec::new();
            while fits(&s, 3, 20) {
                let mut words = vec![Name(2), Plain(decls.len() as u32)];
                words.extend(decls.iter().map(|&d| Child(d)));
                let model = s.push(8, words);
                decls = vec![s.push(1, vec![Plain(6), Child(model)])];
            }
            decls[0]
        }
        Deep::Branches => {
            let mut inner = {
                let x = ident(&mut s, 0);
                defined(&mut s, x)
            };
            while fits(&s, 5, 30) {
                let branch = s.push(39, vec![Plain(1), Plain(1), Child(inner)]);
                inner = s.push(36, vec![Plain(2), Child(branch)]);
            }
            in_rule(&mut s, inner)
        }
        Deep::Matches => {
            let mut inner = {
                let x = ident(&mut s, 0);
                defined(&mut s, x)
            };
            while fits(&s, 9, 50) {
                let term = ident(&mut s, r.below(2) as u32);
                let pattern = if r.one_in(2) { ident(&mut s, r.below(2) as u32) } else { s.push(12, vec![Plain(1)]) };
                let case = s.push(35, vec![Child(pattern), Plain(1), Child(inner)]);
                let stmt = s.push(40, vec![Child(term), Plain(1), Child(case)]);
                inner = s.push(36, vec![Plain(3), Child(stmt)]);
            }
            in_rule(&mut s, inner)
        }
        _ => {
            let mut term = ident(&mut s, 0);
            while fits(&s, 11, 50) {
                term = match form {
                    Deep::Terms => {
                        let case = r.between(4, 6) as u32;
                        let inside = s.push(14 + case, vec![Child(term)]);
                        s.push(12, vec![Plain(case), Child(inside)])
                    }
                    Deep::Members => {
                        let name = s.push(13, vec![Name(1)]);
                        let inside = s.push(17, vec![Child(term), Child(name)]);
                        s.push(12, vec![Plain(3), Child(inside)])
                    }
                    Deep::Heads => {
                        let head = s.push(15, vec![Plain(2), Child(term)]);
                        let args = s.push(22, vec![Plain(0)]);
                        let app = s.push(14, vec![Child(head), Child(args)]);
                        s.push(12, vec![Plain(2), Child(app)])
                    }
                    Deep::HeadMembers => {
                        let member = s.push(16, vec![Child(term), Plain(0)]);
                        let head = s.push(15, vec![Plain(1), Child(member)]);
                        let args = s.push(22, vec![Plain(0)]);
                        let app = s.push(14, vec![Child(head), Child(args)]);
                        s.push(12, vec![Plain(2), Child(app)])
                    }
                    _ => {
                        let name = s.push(13, vec![Name(r.below(2) as u32)]);
                        let head = s.push(15, vec![Plain(0), Child(name)]);
                        let args = s.push(22, vec![Plain(1), Child(term)]);
                        let app = s.push(14, vec![Child(head), Child(args)]);
                        s.push(12, vec![Plain(2), Child(app)])
                    }
                };
            }
            let stmt = defined(&mut s, term);
            in_rule(&mut s, stmt)
        }
    };
    s.push(0, vec![Plain(1), Child(decl)]);
    s
}

/// Adds declarations before the module, which is the last row, until it has so many nodes (at least 2 more than it has).
pub fn pad(s: &mut Sketch, nodes: usize) {
    let module = s.rows.pop().expect("a module");
    let mut items: Vec<Word> = module.words[1..].to_vec();
    while s.rows.len() + 1 < nodes {
        if nodes - s.rows.len() - 1 == 3 {
            let list = s.push(22, vec![Plain(0)]);
            s.rows[list].kind = 11;
            let name = s.names.len() as u32;
            s.names.push(format!("p{name}").into_bytes());
            let pred = s.push(3, vec![Name(name), Child(list)]);
            items.push(Child(s.push(1, vec![Plain(1), Child(pred)])));
        } else {
            let rule = s.push(6, vec![MaybeName(None), Plain(0)]);
            items.push(Child(s.push(1, vec![Plain(4), Child(rule)])));
        }
    }
    let mut words = vec![Plain(items.len() as u32)];
    words.extend(items);
    s.push(0, words);
}

fn nodes(r: &mut Random, largest: usize) -> usize {
    let (low, high) = match r.below(100) {
        0..=34 => (1, 40),
        35..=69 => (20, 120),
        70..=93 => (80, 300),
        94..=98 => (300, 1000),
        _ => (1000, 2040),
    };
    r.between(low.min(largest), high.min(largest))
}

/// A sketch of any of the forms; most often mixed. The second says which.
fn sketch(r: &mut Random, largest: usize) -> (Sketch, String) {
    match r.below(1000) {
        0..=7 => {
            let form = *r.pick(&DEEP);
            let size = if r.one_in(3) { 2048 } else { r.between(20, 600) }.min(largest.max(20));
            let mut s = deep(form, size, r);
            // an unrelated Name table is added by the caller for the mixed form only
            for row in &mut s.rows {
                row.location = [r.word() as u32, 0];
            }
            (s, format!("deep {form:?}"))
        }
        form => {
            let mut style = Style::drawn(r);
            let mut size = nodes(r, largest);
            let mut what = "mixed";
            match form {
                8..=27 => {
                    // one long rule
                    what = "long rule";
                    style.decls = [0, 0, 0, 1, 40, 0, 0];
                    style.long = 200;
                    style.variables = *r.pick(&[5, 10, 40, 900]);
                    style.clash = 0;
                }
                28..=47 => {
                    what = "declarations";
                    style.decls = [4, 4, 4, 4, 0, 3, 1];
                    style.clash = if r.one_in(2) { 0 } else { 1 };
                }
                48..=57 => {
                    what = "models";
                    style.decls = [1, 0, 0, 1, 3, 1, 6];
                    style.deepest = 60;
                }
                58..=65 => {
                    what = "whole size";
                    size = r.between(1600, 1990).min(largest);
                    style.items = 3;
                }
                66..=73 => {
                    // many new variables in then-statements
                    what = "many error rows";
                    size = r.between(200, 2000).min(largest);
                    style.decls = [0, 2, 0, 0, 9, 0, 0];
                    style.stmts = [1, 30, 1, 0];
                    style.then_atoms = [1, 1, 6];
                    style.terms = [30, 1, 1, 0, 0, 0, 0, 0];
                    style.items = 60;
                    style.variables = 900;
                    style.clash = 0;
                    style.foreign = 0;
                }
                _ => {}
            }
            let letters = match r.below(20) {
                0..=12 => Letters::Short,
                13..=14 => Letters::Alike,
                15..=18 => Letters::Unicode,
                _ => Letters::Bytes,
            };
            let unused = if r.one_in(10) { r.between(1, 30) } else if r.one_in(60) { 1024 } else { 0 };
            let mut m = Make::new(r, style, size);
            m.module();
            m.locations();
            m.name_all(letters, unused);
            let mut s = m.sketch;
            if form == 58 && s.rows.len() < 2046 {
                pad(&mut s, 2048);
            }
            if form == 59 && s.rows.len() < 2046 {
                pad(&mut s, 2049);
            }
            (s, format!("{what} {letters:?}"))
        }
    }
}

/// The i-th input of a run; `damaged` of 100 are broken on purpose.
pub fn input(seed: u64, i: u64, damaged: usize, largest: usize) -> (Input, Random) {
    let mut r = Random::new(seed, i);
    let (sketch, what) = sketch(&mut r, largest);
    let mix = r.one_in(2);
    let order = if mix { shuffled(&sketch, &mut r) } else { sketch.natural() };
    let made = if r.percent(damaged) {
        let (image, how) = damage::broken(&sketch, &order, &mut r);
        Input { image, what: format!("{what}, {how}"), shuffled: mix }
    } else {
        Input { image: sketch.parts(&order).encode(), what, shuffled: mix }
    };
    (made, r)
}
