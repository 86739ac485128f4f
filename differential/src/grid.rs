//! Every kind of child at every place of every kind of parent: the library's grid against the second reading, refusal 9 above all; and
//! the printed grid, docs/GRID.md, against the reading's table of kinds.

use crate::calls::{Answer, Calls};
use crate::image::{Sketch, Word};
use crate::reading::tests::{fields, verdict, Field};

const KINDS: u32 = 41;

/// The words of a field, as few as there may be; the rows of its children are made before.
fn least_words(s: &mut Sketch, field: &Field) -> Vec<Word> {
    match *field {
        Field::Name => vec![Word::Name(0)],
        Field::MaybeName => vec![Word::MaybeName(None)],
        Field::Child(kind) => vec![Word::Child(least(s, kind))],
        Field::MaybeChild(_) => vec![Word::MaybeChild(None)],
        Field::List(_) | Field::Blocks(_) => vec![Word::Plain(0)],
        Field::Case(kinds) => match kinds.iter().position(|kind| kind.is_none()) {
            Some(bare) => vec![Word::Plain(bare as u32)],
            None => vec![Word::Plain(0), Word::Child(least(s, kinds[0].unwrap()))],
        },
    }
}

/// A node of a kind, with what it needs below it.
fn least(s: &mut Sketch, kind: u32) -> usize {
    let words = fields(kind).iter().flat_map(|field| least_words(s, field)).collect();
    s.push(kind, words)
}

/// The ways in which a field can hold a child: its words, from the child's row and from that of one of the right kind.
fn ways(field: &Field) -> Vec<(u32, Box<dyn Fn(usize, usize) -> Vec<Word>>)> {
    match *field {
        Field::Name | Field::MaybeName => vec![],
        Field::Child(kind) => vec![(kind, Box::new(|child, _| vec![Word::Child(child)]))],
        Field::MaybeChild(kind) => vec![(kind, Box::new(|child, _| vec![Word::MaybeChild(Some(child))]))],
        Field::List(kind) => vec![
            (kind, Box::new(|child, _| vec![Word::Plain(1), Word::Child(child)])),
            (kind, Box::new(|child, right| vec![Word::Plain(2), Word::Child(right), Word::Child(child)])),
        ],
        Field::Blocks(kind) => vec![
            (kind, Box::new(|child, _| vec![Word::Plain(1), Word::Plain(1), Word::Child(child)])),
            (kind, Box::new(|child, _| vec![Word::Plain(2), Word::Plain(0), Word::Plain(1), Word::Child(child)])),
        ],
        Field::Case(kinds) => kinds
            .iter()
            .enumerate()
            .filter_map(|(case, kind)| {
                let words = move |child, _| vec![Word::Plain(case as u32), Word::Child(child)];
                kind.map(|kind| (kind, Box::new(words) as Box<dyn Fn(usize, usize) -> Vec<Word>>))
            })
            .collect(),
    }
}

/// How many images were tried, and how many of them have a child that the parent admits.
pub fn compare(subject: &dyn Calls) -> Result<(u32, u32), String> {
    let (mut tried, mut admitted) = (0, 0);
    for parent in 0..KINDS {
        for place in 0..fields(parent).len() {
            for (kind, words_of) in ways(&fields(parent)[place]) {
                for child in 0..KINDS {
                    let mut s = Sketch { names: vec![b"x".to_vec()], ..Sketch::default() };
                    let mut words = vec![];
                    for (i, field) in fields(parent).iter().enumerate() {
                        if i == place {
                            let right = least(&mut s, kind);
                            let node = least(&mut s, child);
                            words.extend(words_of(node, right));
                        } else {
                            words.extend(least_words(&mut s, field));
                        }
                    }
                    s.push(parent, words);
                    let image = s.parts(&s.natural()).encode();
                    let wanted = verdict(&image);
                    if (wanted == Some(9)) == (child == kind) {
                        return Err(format!("the reading says {wanted:?} of kind {child} in field {place} of kind {parent}"));
                    }
                    // lent no table, an image that is accepted is refused as 13
                    let given = subject.resolve(&image, &mut []);
                    if given != Answer::Refused(wanted.unwrap_or(13)) {
                        return Err(format!("kind {child} in field {place} of kind {parent}: {given:?}, the reading says {wanted:?}"));
                    }
                    tried += 1;
                    admitted += u32::from(child == kind);
                }
            }
        }
    }
    Ok((tried, admitted))
}

/// The kinds of a parent's children by place, as the reading has them.
fn places(parent: u32) -> Vec<Option<u32>> {
    fields(parent)
        .iter()
        .flat_map(|field| match *field {
            Field::Name | Field::MaybeName => vec![],
            Field::Child(kind) | Field::MaybeChild(kind) | Field::List(kind) | Field::Blocks(kind) => vec![Some(kind)],
            Field::Case(kinds) => kinds.to_vec(),
        })
        .collect()
}

/// What is wrong with the printed grid, if anything is.
pub fn misprint() -> Option<String> {
    let page = include_str!("../../docs/GRID.md");
    let cells = |line: &'static str| line.split('|').map(str::trim).collect::<Vec<_>>();
    let kinds: Vec<_> = page.lines().filter(|line| line.starts_with("| ")).skip(1).map(cells).collect();
    let grid: Vec<Vec<_>> = page.lines().skip_while(|line| *line != "```text").skip(2).map(|line| line.split_whitespace().collect()).collect();
    for parent in 0..KINDS as usize {
        let (Some(said), Some(row)) = (kinds.get(parent), grid.get(parent)) else {
            return Some(format!("docs/GRID.md ends before kind {parent}"));
        };
        let places = places(parent as u32);
        let mut entries = vec![0u32; KINDS as usize];
        let mut admitted = vec![];
        for (place, kind) in places.iter().enumerate() {
            if let Some(kind) = *kind {
                entries[kind as usize] |= 1 << place;
                admitted.push(format!("{place} {}", kinds[kind as usize][2]));
            }
        }
        let mut wanted = vec![parent.to_string()];
        wanted.extend(entries.iter().map(|x| if *x == 0 { ".".to_string() } else { x.to_string() }));
        wanted.push(said[2].to_string());
        if *row != wanted {
            return Some(format!("row {parent} of the grid in docs/GRID.md"));
        }
        let admitted = if admitted.is_empty() { "none".to_string() } else { admitted.join(", ") };
        if said[1] != parent.to_string() || said[3] != admitted {
            return Some(format!("what kind {parent} admits, in docs/GRID.md"));
        }
    }
    None
}
