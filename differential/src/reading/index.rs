//! Document 02's S-3 read from its text: the index of a table, and lookup along a chain of it.

use super::walk::{looked, name_number, refusal, Lent, Rows};
use crate::calls::Answer;

const NONE: u32 = u32::MAX;

/// "S words with the first symbol row of each name, then N words with the next row of the same name, in insertion order;
/// 4294967295 ends a chain and fills the unused places."
fn words(lent: &Lent) -> Vec<u32> {
    let mut chains: Vec<Vec<u32>> = vec![Vec::new(); lent.rows.names];
    for row in 0..lent.symbols() {
        let name = lent.rows.name(lent.symbol(row).1).expect("a named node");
        chains[name as usize].push(row);
    }
    let mut words: Vec<u32> = chains.iter().map(|chain| chain.first().copied().unwrap_or(NONE)).collect();
    let mut nexts = vec![NONE; lent.rows.n];
    for chain in chains {
        for pair in chain.windows(2) {
            nexts[pair[0] as usize] = pair[1];
        }
    }
    words.extend(nexts);
    words
}

/// The call that makes the index, for an image and a table that 1 to 13 do not refuse.
pub fn index_call(image: &[u8], table: &[u32], index: &mut [u32]) -> Answer {
    let rows = Rows::new(image);
    let lent = Lent { rows: &rows, words: table };
    if !lent.sound() {
        return Answer::Refused(16);
    }
    if index.len() < rows.names + rows.n {
        return Answer::Refused(18);
    }
    let words = words(&lent);
    index[..words.len()].copy_from_slice(&words);
    Answer::Result(0, lent.symbols())
}

/// From the scope upwards, the first row of a chain that is of the scope; the lent words are the index.
fn along(lent: &Lent, index: &[u32], scope: u32, name: u32) -> Option<(u32, u32)> {
    let mut chain = Vec::new();
    let mut row = index[name as usize];
    while row != NONE {
        chain.push(lent.symbol(row));
        row = index[lent.rows.names + row as usize];
    }
    let mut at = scope;
    loop {
        if let Some(found) = chain.iter().find(|symbol| symbol.0 == at) {
            return Some(*found);
        }
        at = lent.parent(at);
        if at == NONE {
            return None;
        }
    }
}

/// Lookup through the index, for an image and a table that 1 to 13 do not refuse.
pub fn lookup_call(image: &[u8], table: &[u32], index: &[u32], scope: u32, name: &[u8]) -> Answer {
    let rows = Rows::new(image);
    let lent = Lent { rows: &rows, words: table };
    if let Some(number) = refusal(&lent, scope) {
        return Answer::Refused(number);
    }
    let words = words(&lent);
    if index.len() < words.len() || index[..words.len()] != words {
        return Answer::Refused(18);
    }
    looked(&rows, name_number(image, rows.names, name).and_then(|x| along(&lent, index, scope, x)))
}
