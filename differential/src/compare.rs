//! One input, all calls: this library (or the reading, where the library is not linked) against the reading on every
//! image, against the original Rust and against sight on accepted ones.

use original::{Answers, Built};

use crate::calls::{Answer, Calls, DEFAULT, PLAIN, STRICT};
use crate::counts::{Counts, APART, BY_DEFAULT, CHANGED, CHANGED_WITH_EQUALS, KEPT, RENAMED, RENAMED_HEAD};
use crate::random::Random;
use crate::reading::layout::{index_words, place, rows_words, table_words, Array, COUNTS};
use crate::reading::tests::{fields, name_span, sizes, verdict, Field};
use crate::reading::walk::Rows;
use crate::reading::{checks, sight, Reading};

pub struct Compare<'a> {
    pub subject: &'a dyn Calls,
    /// The subject is the reading itself: then it is compared with the original alone.
    pub alone: bool,
}

/// What a call did: its answer, all lent words, and the bytes of an output.
#[derive(PartialEq, Eq, Clone)]
struct Done {
    answer: Answer,
    table: Vec<u32>,
    rows: Vec<u32>,
    out: Vec<u8>,
}

type Checked = Result<(), String>;

fn lent(r: &mut Random, len: usize) -> Vec<u32> {
    let salt = r.word() as u32 | 1;
    (0..len as u32).map(|i| i.wrapping_mul(0x9e37_79b1) ^ salt).collect()
}

fn lent_bytes(r: &mut Random, len: usize) -> Vec<u8> {
    lent(r, len).into_iter().map(|word| (word >> 24) as u8).collect()
}

/// A length for a buffer that needs so many words or bytes: right, longer, or too short.
fn length(r: &mut Random, need: usize, counts: &mut Counts) -> usize {
    match r.below(40) {
        0 => {
            counts.see("buffers too short");
            match r.below(3) {
                0 => need - 1,
                1 => 0,
                _ => r.below(need),
            }
        }
        1..=12 => need + r.between(1, 20),
        _ => need,
    }
}

impl Compare<'_> {
    fn both(&self, call: &'static str, input: &Done, run: impl Fn(&dyn Calls, &mut Done)) -> Result<Done, String> {
        let mut got = input.clone();
        run(self.subject, &mut got);
        // 19 to 21 come after the list
        let untouched = matches!(got.answer, Answer::Refused(..=18));
        if untouched && (got.table != input.table || got.rows != input.rows) {
            return Err(format!("{call}: {:?} alters lent words", got.answer));
        }
        if !matches!(got.answer, Answer::Result(..)) && got.out != input.out {
            return Err(format!("{call}: {:?} alters the output", got.answer));
        }
        if self.alone {
            return Ok(got);
        }
        let mut wanted = input.clone();
        run(&Reading, &mut wanted);
        if got.answer != wanted.answer {
            return Err(format!("{call}: {:?}, the reading says {:?}", got.answer, wanted.answer));
        }
        for (what, a, b) in [("table", &got.table, &wanted.table), ("rows", &got.rows, &wanted.rows)] {
            if let Some(i) = (0..a.len()).find(|&i| a[i] != b[i]) {
                return Err(format!("{call}: {what}[{i}] is {}, the reading says {}", a[i], b[i]));
            }
        }
        if let Some(i) = (0..got.out.len()).find(|&i| got.out[i] != wanted.out[i]) {
            return Err(format!("{call}: output[{i}] is {}, the reading says {}", got.out[i], wanted.out[i]));
        }
        Ok(got)
    }

    /// Every call on one image.
    pub fn image(&self, image: &[u8], r: &mut Random, counts: &mut Counts) -> Checked {
        counts.see("images");
        let refused = verdict(image);
        let n = if refused.is_none() { sizes(image).n } else { r.below(40) };
        let table_len = length(r, table_words(n), counts);
        let rows_len = length(r, rows_words(n), counts);
        let none = Answer::Refused(0);
        let start = Done { answer: none, table: lent(r, table_len), rows: lent(r, rows_len), out: Vec::new() };

        let resolved = self.both("resolve", &start, |c, d| d.answer = c.resolve(image, &mut d.table))?;
        counts.answer("resolve", resolved.answer);
        let mode = match r.below(20) {
            0 => 3 + r.below(3) as u32,
            1 => r.word() as u32,
            m => m as u32 % 3,
        };
        let errors = self.both("errors", &start, |c, d| d.answer = c.errors(image, &mut d.table, &mut d.rows, mode))?;
        counts.answer("errors", errors.answer);
        let sorted = self.both("sorted", &start, |c, d| d.answer = c.sorted(image, &mut d.table, &mut d.rows, mode))?;
        counts.answer("sorted", sorted.answer);
        by_place(image, &errors, &sorted, counts)?;
        let live = self.both("live_check", &start, |c, d| d.answer = c.live_check(image, &mut d.table, &mut d.rows))?;
        counts.answer("live", live.answer);
        if mode == DEFAULT && pairs(&errors.rows, n, errors.answer).iter().any(|row| row.0 == 4) {
            counts.see(BY_DEFAULT);
        }
        let once = self.both("once", &start, |c, d| d.answer = c.once(image, &mut d.table))?;
        counts.answer("once", once.answer);
        let list = self.both("occurrences", &start, |c, d| d.answer = c.occurrences(image, &mut d.table, &mut d.rows))?;
        counts.answer("occurrences", list.answer);
        self.names(image, r, counts)?;
        self.lookups(image, &resolved, r, counts)?;
        if refused.is_none() {
            counts.see("accepted images");
            self.accepted(image, r, counts)?;
        }
        self.renames(image, &start, &list, r, counts)
    }

    /// Rename with some bindings and names; `list` is what Occurrences did.
    fn renames(&self, image: &[u8], start: &Done, list: &Done, r: &mut Random, counts: &mut Counts) -> Checked {
        let found = if verdict(image).is_none() { pairs(&list.rows, sizes(image).n, list.answer) } else { Vec::new() };
        for _ in 0..if found.is_empty() { 1 } else { 3 } {
            let (binding, name) = binding_and_name(image, &found, r);
            let len = length(r, image.len().max(1), counts);
            let input = Done { out: lent_bytes(r, len), ..start.clone() };
            let got = self.both("rename", &input, |c, d| {
                d.answer = c.rename(image, &mut d.table, &mut d.rows, binding, name, &mut d.out)
            })?;
            counts.answer("rename", got.answer);
            let listed = !matches!(got.answer, Answer::Refused(..=18));
            if listed && (&got.table, &got.rows) != (&list.table, &list.rows) {
                return Err(format!("rename: {:?}, with another table or rows than occurrences leaves", got.answer));
            }
            let given = matches!(got.answer, Answer::Result(..));
            if !given && got.answer != Answer::Refused(21) {
                continue;
            }
            let (new, heads) = renamed(image, &found, binding, name);
            let own = new == image;
            if !own && (sizes(image).n <= 600 || r.one_in(10)) {
                by_original(&new, &found, given, counts)?;
            }
            if given {
                self.written(image, &new, &input, &got, list, binding)?;
            }
            counts.see(match (given, own) {
                (false, _) => KEPT,
                (true, true) => "renames given: to the own name",
                (true, false) => RENAMED,
            });
            if given && !own && heads {
                counts.see(RENAMED_HEAD);
            }
        }
        Ok(())
    }

    /// What Rename has written is the image with the named words changed, and past it all is as it was; its list is that of the
    /// image; and renamed to the old name it is the image.
    fn written(&self, image: &[u8], new: &[u8], input: &Done, got: &Done, list: &Done, binding: u32) -> Checked {
        let length = Answer::Result(0, image.len() as u32);
        let (front, rest) = got.out.split_at(image.len());
        if got.answer != length || front != new || rest != &input.out[image.len()..] {
            return Err(format!("rename: {:?}, with other bytes than the named words altered", got.answer));
        }
        let mut d = input.clone();
        let answer = self.subject.occurrences(front, &mut d.table, &mut d.rows);
        if (answer, &d.rows) != (list.answer, &list.rows) {
            return Err("rename: the new image has another list".into());
        }
        let old = Rows::new(image).name(binding).expect("a named node");
        let answer = self.subject.rename(front, &mut d.table, &mut d.rows, binding, old, &mut d.out);
        if answer != length || &d.out[..image.len()] != image {
            return Err(format!("rename: {answer:?} back to the old name, or not the old image"));
        }
        Ok(())
    }

    fn names(&self, image: &[u8], r: &mut Random, counts: &mut Counts) -> Checked {
        let s = if image.len() < 16 { 0 } else { sizes(image).s.min(1024) as u32 };
        let asked = [r.below(s as usize + 1) as u32, 0, s.saturating_sub(1), s, s + 1, u32::MAX];
        for name in asked {
            let got = self.subject.name(image, name);
            let wanted = Reading.name(image, name);
            if got != wanted {
                return Err(format!("name {name}: {got:?}, the reading says {wanted:?}"));
            }
            counts.answer("name", if got.1 == 0 { Answer::Other(0, 0) } else { Answer::Result(0, 0) });
        }
        Ok(())
    }

    fn lookup(&self, image: &[u8], table: &[u32], scope: u32, name: &[u8], counts: &mut Counts) -> Result<Answer, String> {
        let got = self.subject.lookup(image, table, scope, name);
        let wanted = Reading.lookup(image, table, scope, name);
        if got != wanted {
            return Err(format!("lookup of {name:?} in {scope}: {got:?}, the reading says {wanted:?}"));
        }
        counts.answer("lookup", got);
        if let Answer::Located(found, ..) = got {
            counts.see(if found == scope { "symbols found in the scope asked" } else { "symbols found above the scope asked" });
        }
        Ok(got)
    }

    /// The index of a table, its answer and its words; and lookup through it, which must answer as lookup does, and through
    /// words that are not it.
    fn indexed(&self, image: &[u8], table: &[u32], scope: u32, name: &[u8], looked: Answer, r: &mut Random, counts: &mut Counts) -> Checked {
        let need = if verdict(image).is_none() { index_words(sizes(image).n, sizes(image).s) } else { 1 + r.below(40) };
        let len = length(r, need, counts);
        let lent = lent(r, len);
        let mut index = lent.clone();
        let answer = self.subject.index(image, table, &mut index);
        let mut wanted = lent.clone();
        let wanted_answer = Reading.index(image, table, &mut wanted);
        if (answer, &index) != (wanted_answer, &wanted) {
            return Err(format!("index: {answer:?}, or its words, are not those of the reading, {wanted_answer:?}"));
        }
        counts.answer("index", answer);
        let through = |index: &[u32], scope: u32, counts: &mut Counts| {
            let got = self.subject.lookup_indexed(image, table, index, scope, name);
            let wanted = Reading.lookup_indexed(image, table, index, scope, name);
            counts.answer("indexed", got);
            if got == wanted { Ok(got) } else { Err(format!("lookup of {name:?} in {scope} through an index: {got:?}, the reading says {wanted:?}")) }
        };
        let got = through(&index, scope, counts)?;
        let Answer::Result(..) = answer else {
            return if matches!(got, Answer::Refused(_)) { Ok(()) } else { Err("lookup through words that are no index".into()) };
        };
        if got != looked {
            return Err(format!("lookup of {name:?} in {scope}: {looked:?}, through the index {got:?}"));
        }
        // other words: one altered, one past the index altered, too few, a scope that there is not beside them
        let mut other = index.clone();
        let at = r.below(index.len());
        let drawn = r.word() as u32;
        other[at] = *r.pick(&[other[at].wrapping_add(1), other[at].wrapping_sub(1), u32::MAX, 0, drawn]);
        through(&other, scope, counts)?;
        through(&index[..r.below(need)], scope, counts)?;
        through(&other[..r.below(other.len() + 1)], scope.wrapping_add(r.word() as u32 % 4), counts)?;
        Ok(())
    }

    /// Lookup in the table that Resolve left (or left alone), and in tables that were changed.
    fn lookups(&self, image: &[u8], resolved: &Done, r: &mut Random, counts: &mut Counts) -> Checked {
        let accepted = verdict(image).is_none();
        let name: Vec<u8> = if accepted && sizes(image).s > 0 {
            let (from, to) = name_span(image, r.below(sizes(image).s));
            image[from..to].to_vec()
        } else {
            b"x".to_vec()
        };
        let scope = match resolved.answer {
            Answer::Result(k, _) if r.percent(80) => r.below(k as usize) as u32,
            Answer::Result(k, _) => k + r.below(3) as u32,
            _ => r.below(4) as u32,
        };
        let looked = self.lookup(image, &resolved.table, scope, &name, counts)?;
        self.indexed(image, &resolved.table, scope, &name, looked, r, counts)?;
        let Answer::Result(k, y) = resolved.answer else { return Ok(()) };
        let n = sizes(image).n;
        for _ in 0..2 {
            let mut table = resolved.table.clone();
            for _ in 0..r.between(1, 2) {
                other_table(&mut table, image, n, k as usize, y as usize, r);
            }
            if r.one_in(20) {
                table.truncate(r.below(table_words(n)));
            }
            let scope = if r.one_in(5) { r.word() as u32 } else { r.below(k as usize) as u32 };
            let looked = self.lookup(image, &table, scope, &name, counts)?;
            if let Answer::Located(..) | Answer::Other(..) = looked {
                counts.see("lookups in sound tables that Resolve did not leave");
            }
            self.indexed(image, &table, scope, &name, looked, r, counts)?;
        }
        Ok(())
    }

    /// The original Rust and sight, on an accepted image.
    fn accepted(&self, image: &[u8], r: &mut Random, counts: &mut Counts) -> Checked {
        let rows = Rows::new(image);
        let n = rows.n;
        for node in 0..n as u32 {
            let kind = rows.kind(node);
            let case = matches!(fields(kind)[0], Field::Case(_)).then(|| rows.word(node, 0));
            counts.kind(kind, case);
        }
        counts.most("N", n as u64);
        counts.most("C", sizes(image).c as u64);
        counts.most("S", sizes(image).s as u64);
        counts.most("B", sizes(image).b as u64);
        let mut table = lent(r, table_words(n));
        let mut errors = lent(r, rows_words(n));
        let mut list = errors.clone();
        let mut sorted = errors.clone();
        let mut spare = table.clone();
        let answer = self.subject.resolve(image, &mut table);
        let error_answer = self.subject.errors(image, &mut spare, &mut errors, PLAIN);
        let sorted_answer = self.subject.sorted(image, &mut spare, &mut sorted, PLAIN);
        let once = self.subject.once(image, &mut spare);
        let list_answer = self.subject.occurrences(image, &mut spare, &mut list);
        let list = pairs(&list, n, list_answer);
        let errors = pairs(&errors, n, error_answer);
        let sorted = pairs(&sorted, n, sorted_answer);
        if let Answer::Result(k, _) = answer {
            if n <= 600 || r.one_in(10) {
                sight::check(image, &list)?;
                counts.see("compared with sight");
            }
            let mut strict = lent(r, rows_words(n));
            let strict_answer = self.subject.errors(image, &mut spare, &mut strict, STRICT);
            let apart: Vec<u32> = checks::row4(&rows).into_iter().filter_map(|(node, near)| (!near).then_some(node)).collect();
            for (number, node) in pairs(&strict, n, strict_answer) {
                counts.see(&format!("error rows {number}"));
                if number == 4 && apart.contains(&node) {
                    counts.see(APART);
                }
            }
            counts.see_times("occurrences", list.len() as u64);
            counts.most("K", k as u64);
            counts.most("occurrence list", list.len() as u64);
            counts.most("depth of scopes", depth(&table, n, k as usize));
        }
        let Some(built) = Built::new(image) else {
            counts.see("accepted images that the original cannot take (names not UTF-8, or no sources)");
            return Ok(());
        };
        let mut asked: Vec<(u32, String)> = Vec::new();
        if let Answer::Result(k, _) = answer {
            for _ in 0..r.between(4, 8) {
                let scope = r.below(k as usize) as u32;
                let name = match r.below(rows.names + 1) {
                    i if i < rows.names => {
                        let (from, to) = name_span(image, i);
                        String::from_utf8(image[from..to].to_vec()).expect("UTF-8")
                    }
                    _ => ["", "x", "nowhere"][r.below(3)].to_string(),
                };
                asked.push((scope, name));
            }
        }
        let texts: Vec<(u32, &str)> = asked.iter().map(|(s, t)| (*s, t.as_str())).collect();
        let (wanted, found) = built.answers(&texts);
        counts.see("compared with the original");
        let wanted = match wanted {
            Answers::Twice(name, first, second) => {
                counts.see("compared with the original: twice");
                let twice = Answer::Twice(name, first, second);
                return same("resolve", answer, twice)
                    .and(same("errors", error_answer, twice))
                    .and(same("sorted", sorted_answer, twice))
                    .and(same("once", once, twice))
                    .and(same("occurrences", list_answer, twice))
                    .and(same("table after twice", table, vec![0; table_words(n)]));
            }
            Answers::Resolved(wanted) => wanted,
        };
        let k = wanted.scopes.len();
        let y: usize = wanted.scopes.iter().map(|s| s.1.len()).sum();
        same("resolve", answer, Answer::Result(k as u32, y as u32))?;
        same("first words", &table[..COUNTS], &[n as u32, k as u32, y as u32])?;
        let word = |array: Array, i: usize| table[place(array, n, i)];
        for (node, at) in wanted.places.iter().enumerate() {
            let at = at.unwrap_or((u32::MAX, u32::MAX));
            let got = (word(Array::Entry, node), word(Array::Exit, node));
            if got != at {
                return Err(format!("entry and exit of node {node}: {got:?}, the original says {at:?}"));
            }
        }
        let mut symbols: Vec<Vec<(u32, u32, u32)>> = vec![Vec::new(); k];
        for j in 0..y {
            let (scope, node) = (word(Array::SymbolScope, j), word(Array::SymbolNode, j));
            let name = rows.name(node).expect("a named node");
            symbols[scope as usize].push((name, crate::reading::walk::symbol_number(rows.kind(node)), node));
        }
        for (scope, (parent, wanted)) in wanted.scopes.iter().enumerate() {
            same(&format!("parent of {scope}"), word(Array::Parent, scope), parent.unwrap_or(u32::MAX))?;
            symbols[scope].sort_unstable();
            same(&format!("symbols of {scope}"), &symbols[scope], wanted)?;
        }
        same("error rows", &errors, &wanted.errors)?;
        same("error rows by place", &sorted, &checks::by_place(&rows, wanted.errors))?;
        same("occurrences", &list, &wanted.occurrences)?;
        same("once", once, wanted.lone.map_or(Answer::Result(0, 0), |(node, binding)| Answer::Other(node, binding)))?;
        let mut index = lent(r, index_words(n, rows.names));
        same("index", self.subject.index(image, &table, &mut index), Answer::Result(0, y as u32))?;
        for ((scope, name), found) in asked.iter().zip(found) {
            let climbed = self.lookup(image, &table, *scope, name.as_bytes(), counts)?;
            let chained = self.subject.lookup_indexed(image, &table, &index, *scope, name.as_bytes());
            for (what, answer) in [("", climbed), (" through the index", chained)] {
                // the original does not say in which scope it found the symbol
                let got = match answer {
                    Answer::Located(_, symbol, node) => Some((symbol, node)),
                    Answer::Other(0, 0) => None,
                    other => return Err(format!("lookup of {name:?} in {scope}{what}: {other:?}")),
                };
                same(&format!("lookup of {name:?} in {scope}{what}"), got, found)?;
                counts.see(&format!("lookups{what} compared with the original"));
            }
        }
        Ok(())
    }
}

/// A binding and a name number for Rename, for an image with this list: mostly a binding of it, sometimes one with an app head,
/// and mostly a name of the image, sometimes that of another variable or the own one.
fn binding_and_name(image: &[u8], found: &[(u32, u32)], r: &mut Random) -> (u32, u32) {
    if found.is_empty() {
        return (r.below(40) as u32, r.below(9) as u32);
    }
    let rows = Rows::new(image);
    let heads: Vec<u32> = found.iter().filter(|row| rows.kind(row.0) == 15).map(|row| row.1).collect();
    let binding = match r.below(20) {
        0 => r.word() as u32,
        1 | 2 => r.below(rows.n) as u32,
        3..=7 if !heads.is_empty() => *r.pick(&heads),
        _ => r.pick(found).1,
    };
    let name = match r.below(20) {
        0 => (rows.names + r.below(3)) as u32,
        1 => r.word() as u32,
        2 => rows.name(if found.iter().any(|row| row.1 == binding) { binding } else { found[0].1 }).expect("a name"),
        3..=8 => rows.name(r.pick(found).1).expect("a name"),
        _ => r.below(rows.names) as u32,
    };
    (binding, name)
}

/// The image with the name under the occurrences of the binding, and whether one of them is an app head.
fn renamed(image: &[u8], found: &[(u32, u32)], binding: u32, name: u32) -> (Vec<u8>, bool) {
    let rows = Rows::new(image);
    let mut new = image.to_vec();
    let mut heads = false;
    for &(node, _) in found.iter().filter(|row| row.1 == binding) {
        // a Term or AppHead of case 0, and its child
        let at = rows.offset(rows.word(node, 1), 0);
        new[at..at + 4].copy_from_slice(&name.to_le_bytes());
        heads |= rows.kind(node) == 15;
    }
    (new, heads)
}

/// The original's list of a renamed image is the old one exactly if the image was given.
fn by_original(new: &[u8], found: &[(u32, u32)], given: bool, counts: &mut Counts) -> Checked {
    let Some(built) = Built::new(new) else { return Ok(()) };
    let Answers::Resolved(answers) = built.answers(&[]).0 else {
        return Err("rename: the original finds a name declared twice in the new image".into());
    };
    if (answers.occurrences == found) != given {
        let list = answers.occurrences;
        return Err(format!("rename: given is {given}, the list was {found:?}, and the original's of the new image is {list:?}"));
    }
    counts.see(if given { "renames given, compared with the original" } else { "renames not given, compared with the original" });
    Ok(())
}

fn same<T: PartialEq + std::fmt::Debug>(what: &str, got: T, wanted: T) -> Checked {
    if got == wanted {
        Ok(())
    } else {
        Err(format!("{what}: {got:?}, the original says {wanted:?}"))
    }
}

/// The rows that a call has written, if it has.
pub(crate) fn pairs(rows: &[u32], n: usize, answer: Answer) -> Vec<(u32, u32)> {
    match answer {
        Answer::Result(_, count) => (0..count as usize).map(|i| (rows[1 + i], rows[1 + n + i])).collect(),
        _ => Vec::new(),
    }
}

/// Sorted's answer and table are those of Errors, and it leaves the same rows; counts the lists that sorting changes.
fn by_place(image: &[u8], errors: &Done, sorted: &Done, counts: &mut Counts) -> Checked {
    if (sorted.answer, &sorted.table) != (errors.answer, &errors.table) {
        return Err(format!("sorted: {:?}, or its table, is not that of errors, {:?}", sorted.answer, errors.answer));
    }
    let Answer::Result(..) = errors.answer else {
        return if sorted.rows == errors.rows { Ok(()) } else { Err("sorted: other rows than errors, without a result".into()) };
    };
    let rows = Rows::new(image);
    let (old, new) = (pairs(&errors.rows, rows.n, errors.answer), pairs(&sorted.rows, rows.n, sorted.answer));
    let places: Vec<u32> = new.iter().map(|w| rows.location(w.1).1).collect();
    if places.windows(2).any(|p| p[0] > p[1]) {
        return Err("sorted: places do not rise".into());
    }
    if old != new {
        counts.see(CHANGED);
        if places.windows(2).any(|p| p[0] == p[1]) {
            counts.see(CHANGED_WITH_EQUALS);
        }
    }
    counts.most("error rows", new.len() as u64);
    let (mut old, mut new) = (old, new);
    old.sort_unstable();
    new.sort_unstable();
    if old != new {
        return Err("sorted: other rows than those of errors".into());
    }
    Ok(())
}

fn depth(table: &[u32], n: usize, k: usize) -> u64 {
    let mut depths = vec![0u64; k];
    for scope in 1..k {
        depths[scope] = depths[table[place(Array::Parent, n, scope)] as usize] + 1;
    }
    depths.into_iter().max().unwrap_or(0)
}

/// Changes a table: some changes leave it sound, others do not.
fn other_table(table: &mut [u32], image: &[u8], n: usize, k: usize, y: usize, r: &mut Random) {
    let start = |array: Array| place(array, n, 0);
    let (parents, scopes, nodes) = (start(Array::Parent), start(Array::SymbolScope), start(Array::SymbolNode));
    let named = |r: &mut Random| -> u32 {
        let rows = Rows::new(image);
        let all: Vec<u32> =
            (0..n as u32).filter(|&m| matches!(rows.kind(m), 2..=10 | 13) && rows.name(m).is_some()).collect();
        if all.is_empty() { 0 } else { *r.pick(&all) }
    };
    match r.below(18) {
        0 => table[0] = table[0].wrapping_add(1),
        1 => table[1] = *r.pick(&[0, n as u32 + 1, u32::MAX]),
        2 => table[1] = r.between(1, n) as u32,
        3 => table[2] = *r.pick(&[n as u32 + 1, u32::MAX]),
        4 => table[2] = r.below(n + 1) as u32,
        5 => table[parents] = *r.pick(&[0, 1, u32::MAX - 1]),
        6 => {
            let s = r.below(k);
            table[parents + s] = s as u32;
        }
        7 => table[parents + r.below(n)] = r.word() as u32,
        8 | 9 => {
            let s = r.below(k);
            if s > 0 {
                table[parents + s] = r.below(s) as u32;
            }
        }
        10 if y > 0 => table[scopes + r.below(y)] = k as u32,
        11 if y > 0 => table[nodes + r.below(y)] = *r.pick(&[n as u32, n as u32 - 1, u32::MAX]),
        12 if y > 0 => table[nodes + r.below(y)] = r.below(n) as u32,
        13 if y > 0 => table[scopes + r.below(y)] = r.below(k) as u32,
        14 if y > 0 => table[nodes + r.below(y)] = named(r),
        15 | 16 if y > 1 => {
            // rows in another order
            let mut order: Vec<usize> = (0..y).collect();
            r.shuffle(&mut order);
            let old = table.to_vec();
            for (j, &from) in order.iter().enumerate() {
                table[scopes + j] = old[scopes + from];
                table[nodes + j] = old[nodes + from];
            }
        }
        17 if y < n => {
            // a row more, at the end
            table[scopes + y] = r.below(k) as u32;
            table[nodes + y] = named(r);
            table[2] = y as u32 + 1;
        }
        _ => {
            let i = r.below(table.len());
            table[i] = r.below(n + 2) as u32;
        }
    }
}
