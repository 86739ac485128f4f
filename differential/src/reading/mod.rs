//! Documents 01 and 02 read a second time, in Rust and from their text: the refusals, the walk, the checks, and sight.
//! It is slow and plain; what it says is compared with the original Rust on accepted images and with this library on
//! all.

pub mod checks;
pub mod index;
pub mod layout;
pub mod rename;
pub mod sight;
pub mod tests;
pub mod walk;

use crate::calls::{Answer, Calls, PLAIN, STRICT};
use layout::{rows_words, table_words};
use tests::{table_refusal, verdict};
use walk::{Resolved, Walk};

pub struct Reading;

/// The first words of a table, as Resolve leaves them.
fn put_table(table: &mut [u32], words: &[u32]) {
    table[..words.len()].copy_from_slice(words);
}

/// A count, then two arrays of N words.
fn put_rows(rows: &mut [u32], n: usize, list: &[(u32, u32)]) {
    rows[..rows_words(n)].fill(0);
    rows[0] = list.len() as u32;
    for (i, &(left, right)) in list.iter().enumerate() {
        rows[1 + i] = left;
        rows[1 + n + i] = right;
    }
}

impl Reading {
    /// Resolves an image that is not refused; "twice" leaves the table's words zero.
    fn walked(image: &[u8], table: &mut [u32]) -> Result<Resolved, Answer> {
        let walk = Walk::new(image);
        let words = table_words(walk.rows.n);
        match walk.module() {
            Ok(resolved) => {
                put_table(table, &resolved.words());
                Ok(resolved)
            }
            Err((name, first, second)) => {
                table[..words].fill(0);
                Err(Answer::Twice(name, first, second))
            }
        }
    }

    /// Resolves an image that is not refused, and writes its occurrences.
    fn listed(image: &[u8], table: &mut [u32], rows: &mut [u32]) -> Result<Vec<(u32, u32)>, Answer> {
        let r = Self::walked(image, table)?;
        let list = checks::occurrences(&r).concat();
        put_rows(rows, r.rows.n, &list);
        Ok(list)
    }

    /// Errors, or the same rows by place.
    fn error_rows(image: &[u8], table: &mut [u32], rows: &mut [u32], mode: u32, by_place: bool) -> Answer {
        if let Some(r) = tests::rows_refusal(image, table.len(), rows.len()) {
            return Answer::Refused(r);
        }
        if mode > STRICT {
            return Answer::Refused(15);
        }
        match Self::walked(image, table) {
            Ok(r) => {
                let list = checks::errors(&r, mode != PLAIN);
                let list = if by_place { checks::by_place(&r.rows, list) } else { list };
                put_rows(rows, r.rows.n, &list);
                Answer::Result(0, list.len() as u32)
            }
            Err(twice) => twice,
        }
    }
}

impl Calls for Reading {
    fn resolve(&self, image: &[u8], table: &mut [u32]) -> Answer {
        if let Some(r) = table_refusal(image, table.len()) {
            return Answer::Refused(r);
        }
        match Self::walked(image, table) {
            Ok(r) => Answer::Result(r.parents.len() as u32, r.symbols.len() as u32),
            Err(twice) => twice,
        }
    }

    fn lookup(&self, image: &[u8], table: &[u32], scope: u32, name: &[u8]) -> Answer {
        if let Some(r) = table_refusal(image, table.len()) {
            return Answer::Refused(r);
        }
        walk::lookup_call(image, table, scope, name)
    }

    fn index(&self, image: &[u8], table: &[u32], index: &mut [u32]) -> Answer {
        if let Some(r) = table_refusal(image, table.len()) {
            return Answer::Refused(r);
        }
        index::index_call(image, table, index)
    }

    fn lookup_indexed(&self, image: &[u8], table: &[u32], index: &[u32], scope: u32, name: &[u8]) -> Answer {
        if let Some(r) = table_refusal(image, table.len()) {
            return Answer::Refused(r);
        }
        index::lookup_call(image, table, index, scope, name)
    }

    fn errors(&self, image: &[u8], table: &mut [u32], rows: &mut [u32], mode: u32) -> Answer {
        Self::error_rows(image, table, rows, mode, false)
    }

    fn sorted(&self, image: &[u8], table: &mut [u32], rows: &mut [u32], mode: u32) -> Answer {
        Self::error_rows(image, table, rows, mode, true)
    }

    fn live_check(&self, image: &[u8], table: &mut [u32], rows: &mut [u32]) -> Answer {
        Self::error_rows(image, table, rows, PLAIN, false)
    }

    fn once(&self, image: &[u8], table: &mut [u32]) -> Answer {
        if let Some(r) = table_refusal(image, table.len()) {
            return Answer::Refused(r);
        }
        match Self::walked(image, table) {
            Ok(r) => match checks::lone(&r) {
                None => Answer::Result(0, 0),
                Some((node, binding)) => Answer::Other(node, binding),
            },
            Err(twice) => twice,
        }
    }

    fn occurrences(&self, image: &[u8], table: &mut [u32], rows: &mut [u32]) -> Answer {
        if let Some(r) = tests::rows_refusal(image, table.len(), rows.len()) {
            return Answer::Refused(r);
        }
        match Self::listed(image, table, rows) {
            Ok(list) => Answer::Result(0, list.len() as u32),
            Err(twice) => twice,
        }
    }

    fn rename(&self, image: &[u8], table: &mut [u32], rows: &mut [u32], binding: u32, name: u32, out: &mut [u8]) -> Answer {
        if let Some(r) = tests::output_refusal(image, table.len(), rows.len(), out.len()) {
            return Answer::Refused(r);
        }
        let list = match Self::listed(image, table, rows) {
            Ok(list) => list,
            Err(twice) => return twice,
        };
        match rename::renamed(image, &list, binding, name) {
            Ok(new) => {
                out[..new.len()].copy_from_slice(&new);
                Answer::Result(0, new.len() as u32)
            }
            Err(r) => Answer::Refused(r),
        }
    }

    fn name(&self, image: &[u8], name: u32) -> (usize, usize) {
        if verdict(image).is_some() {
            return (0, 0);
        }
        let sizes = tests::sizes(image);
        if name as usize >= sizes.s {
            return (0, 0);
        }
        let (from, to) = tests::name_span(image, name as usize);
        (from, to - from)
    }
}
