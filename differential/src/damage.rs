//! Breaks images on purpose, each way aimed at a refusal. What the image then deserves is not said here: the reading of
//! the table of refusals says it.

use crate::image::{Parts, Sketch, Word};
use crate::random::Random;

/// Changes of the rows before they are numbered.
const ROWS: [(&str, fn(&mut Sketch, &mut Random)); 4] = [
    ("11: an item left out", |s, r| item(s, r, false)),
    ("11: an item twice", |s, r| item(s, r, true)),
    ("5: a name again", name_again),
    ("5: a name again at the end", |s, r| {
        if !s.names.is_empty() && s.names.len() < 1024 {
            let again = s.names[r.below(s.names.len())].clone();
            s.names.push(again);
        }
    }),
];

/// Changes of the words.
const WORDS: [(&str, fn(&mut Parts, &mut Random)); 27] = [
    ("2: a size over its limit", |p, r| {
        let i = r.below(4);
        p.sizes[i] = [2048, 8192, 1024, 8192][i] + 1 + if r.one_in(3) { r.below(100_000) as u32 } else { 0 };
    }),
    ("2: a huge size", |p, r| p.sizes[r.below(4)] = huge(r)),
    ("2: no node", |p, _| p.sizes[0] = 0),
    ("3: a size at its limit", |p, r| {
        let i = r.below(4);
        p.sizes[i] = [2048, 8192, 1024, 8192][i];
    }),
    ("3: a size by one", |p, r| {
        let i = r.below(4);
        p.sizes[i] = near(r, p.sizes[i]);
    }),
    ("3: sizes exchanged", |p, r| p.sizes.swap(r.below(4), r.below(4))),
    ("4: an end moved", |p, r| {
        if let Some(i) = index(r, p.ends.len()) {
            p.ends[i] = near(r, p.ends[i]);
        }
    }),
    ("4: an end like the one before", |p, r| {
        if let Some(i) = index(r, p.ends.len()) {
            p.ends[i] = if i == 0 { 0 } else { p.ends[i - 1] };
        }
    }),
    ("4: a huge end", |p, r| {
        if let Some(i) = index(r, p.ends.len()) {
            p.ends[i] = huge(r);
        }
    }),
    ("4: a byte of no name", |p, _| {
        p.bytes.push(b'q');
        p.sizes[3] = p.sizes[3].wrapping_add(1);
    }),
    ("4: no names, but bytes", |p, _| {
        p.ends.clear();
        p.sizes[2] = 0;
    }),
    ("6: a kind that there is not", |p, r| {
        let i = r.below(p.kinds.len());
        p.kinds[i] = if r.one_in(2) { 41 } else { huge(r) };
    }),
    ("7: a start moved", |p, r| {
        let i = r.below(p.starts.len());
        p.starts[i] = near(r, p.starts[i]);
    }),
    ("7: a huge start", |p, r| {
        let i = r.below(p.starts.len());
        p.starts[i] = huge(r);
    }),
    ("7: the last words cut", |p, r| {
        let cut = r.between(1, 4).min(p.operands.len());
        p.operands.truncate(p.operands.len() - cut);
        p.sizes[1] = p.operands.len() as u32;
    }),
    ("7: a huge word", |p, r| change(p, r, |r, _| huge(r))),
    ("8: a case or name by one", |p, r| {
        let names = p.ends.len() as u32;
        change_first(p, r, |r, _| *r.pick(&[2, 3, 4, 7, 8, names, names + 1]));
    }),
    ("8: a huge case or name", |p, r| change_first(p, r, |r, _| huge(r))),
    ("8: one name less", |p, _| {
        if p.ends.pop().is_some() {
            let end = p.ends.last().map_or(0, |&e| e as usize);
            p.bytes.truncate(end);
            p.sizes[2] = p.sizes[2].wrapping_sub(1);
            p.sizes[3] = end as u32;
        }
    }),
    ("9: a word moved", |p, r| change(p, r, near)),
    ("9: a word that is some node", |p, r| {
        let n = p.kinds.len();
        change(p, r, |r, _| r.below(n + 2) as u32);
    }),
    ("9: another kind", |p, r| {
        let i = r.below(p.kinds.len());
        p.kinds[i] = r.below(41) as u32;
    }),
    ("10: words past the last row", |p, r| {
        for _ in 0..r.between(1, 3) {
            p.operands.push(r.below(3) as u32);
        }
        p.sizes[1] = p.operands.len() as u32;
    }),
    ("10: no module at the end", |p, _| {
        let n = p.kinds.len();
        if n > 1 {
            p.operands.truncate(p.starts[n - 1] as usize);
            p.kinds.pop();
            p.starts.pop();
            p.sizes = p.counted();
        }
    }),
    ("11: a child that is another's", |p, r| {
        // two operand words made equal
        if let (Some(i), Some(j)) = (index(r, p.operands.len()), index(r, p.operands.len())) {
            p.operands[i] = p.operands[j];
        }
    }),
    ("11: a node more", |p, r| {
        // before the module: a wildcard, or a module without declarations
        let last = p.kinds.len() - 1;
        let at = p.starts[last].min(p.operands.len() as u32);
        let module: Vec<u32> = p.operands.split_off(at as usize);
        let kind = if r.one_in(2) { 12 } else { 0 };
        p.operands.extend([0, 0, if kind == 12 { 1 } else { 0 }]);
        p.operands.extend(module);
        p.kinds.insert(last, kind);
        p.starts.push(at + 3);
        p.sizes = p.counted();
    }),
    ("12: another case of a variable", |p, r| {
        // a term whose case is made another, whatever its child
        let terms: Vec<usize> = (0..p.kinds.len()).filter(|&n| p.kinds[n] == 12).collect();
        if let Some(i) = index(r, terms.len()) {
            let at = p.starts[terms[i]] as usize + 2;
            if let Some(word) = p.operands.get_mut(at) {
                *word = r.below(8) as u32;
            }
        }
    }),
];

/// Changes of the bytes.
const BYTES: [(&str, fn(&mut Vec<u8>, &mut Random)); 5] = [
    ("1: under 16 bytes", |b, r| b.truncate(r.below(16))),
    ("1: nothing", |b, _| b.clear()),
    ("3: bytes more", |b, r| b.extend((0..r.between(1, 5)).map(|_| 7))),
    ("3: bytes less", |b, r| b.truncate(b.len() - r.between(1, 5.min(b.len())))),
    ("a byte changed", |b, r| {
        let i = r.below(b.len());
        b[i] ^= 1 << r.below(8);
    }),
];

fn index(r: &mut Random, len: usize) -> Option<usize> {
    (len > 0).then(|| r.below(len))
}

fn huge(r: &mut Random) -> u32 {
    match r.below(4) {
        0 => u32::MAX,
        1 => u32::MAX - r.below(5000) as u32,
        2 => 1 << r.between(13, 31),
        _ => r.word() as u32,
    }
}

fn near(r: &mut Random, word: u32) -> u32 {
    let by = if r.one_in(3) { r.between(1, 9) as u32 } else { 1 };
    if r.one_in(2) {
        word.wrapping_add(by)
    } else {
        word.wrapping_sub(by)
    }
}

/// Changes a word of some row after its location.
fn change(p: &mut Parts, r: &mut Random, f: impl Fn(&mut Random, u32) -> u32) {
    let n = r.below(p.kinds.len());
    let end = p.starts.get(n + 1).map_or(p.operands.len(), |&s| s as usize);
    let from = p.starts[n] as usize + 2;
    if from < end && end <= p.operands.len() {
        let at = r.between(from, end - 1);
        p.operands[at] = f(r, p.operands[at]);
    }
}

/// Changes the first word of some row after its location: a case, a name, a count or a child.
fn change_first(p: &mut Parts, r: &mut Random, f: impl Fn(&mut Random, u32) -> u32) {
    let at = p.starts[r.below(p.kinds.len())] as usize + 2;
    if at < p.operands.len() {
        p.operands[at] = f(r, p.operands[at]);
    }
}

/// Leaves an item of a list out, or has it stand twice.
fn item(s: &mut Sketch, r: &mut Random, twice: bool) {
    let lists: Vec<(usize, usize)> = (0..s.rows.len())
        .filter_map(|row| {
            let at = match s.rows[row].kind {
                0 | 11 | 22 => 0,
                6 | 7 | 8 | 16 | 35 | 40 => 1,
                _ => return None,
            };
            (s.rows[row].words[at] != Word::Plain(0)).then_some((row, at))
        })
        .collect();
    let Some(i) = index(r, lists.len()) else { return };
    let (row, at) = lists[i];
    let words = &mut s.rows[row].words;
    let Word::Plain(count) = words[at] else { return };
    let one = at + 1 + r.below(count as usize);
    if twice {
        words.insert(one, words[one]);
        words[at] = Word::Plain(count + 1);
    } else {
        words.remove(one);
        words[at] = Word::Plain(count - 1);
    }
}

fn name_again(s: &mut Sketch, r: &mut Random) {
    if s.names.len() > 1 {
        let (i, j) = (r.below(s.names.len()), r.below(s.names.len()));
        s.names[i] = s.names[j].clone();
    }
}

/// A broken image, and how it was broken.
pub fn broken(sketch: &Sketch, order: &[usize], r: &mut Random) -> (Vec<u8>, String) {
    let mut sketch = sketch.clone();
    let mut how = Vec::new();
    let times = if r.one_in(4) { r.between(2, 3) } else { 1 };
    let total = ROWS.len() + WORDS.len() + BYTES.len();
    let mut picked: Vec<usize> = (0..times).map(|_| r.below(total)).collect();
    picked.sort_unstable();
    let mut words = Vec::new();
    let mut bytes = Vec::new();
    for i in picked {
        if i < ROWS.len() {
            how.push(ROWS[i].0);
            ROWS[i].1(&mut sketch, r);
        } else if i < ROWS.len() + WORDS.len() {
            words.push(WORDS[i - ROWS.len()]);
        } else {
            bytes.push(BYTES[i - ROWS.len() - WORDS.len()]);
        }
    }
    let mut parts = sketch.parts(order);
    for (name, change) in words {
        how.push(name);
        change(&mut parts, r);
    }
    let mut image = parts.encode();
    for (name, change) in bytes {
        if !image.is_empty() {
            how.push(name);
            change(&mut image, r);
        }
    }
    (image, how.join("; "))
}
