//! The table: N, K, Y, then arrays of N words each. Rows: a count, then two arrays. The index: an array of S words and one of N.

pub const COUNTS: usize = 3;

/// The arrays in their order.
#[derive(Copy, Clone)]
pub enum Array {
    Entry,
    Exit,
    Parent,
    SymbolScope,
    SymbolNode,
}

pub const ARRAYS: usize = Array::SymbolNode as usize + 1;

/// The place of a word of an array, in the table of an image of n nodes.
pub fn place(array: Array, n: usize, i: usize) -> usize {
    COUNTS + array as usize * n + i
}

/// The words of a table for an image of n nodes.
pub fn table_words(n: usize) -> usize {
    COUNTS + ARRAYS * n
}

/// The words of rows.
pub fn rows_words(n: usize) -> usize {
    1 + 2 * n
}

/// The words of an index for an image of n nodes and s names.
pub fn index_words(n: usize, s: usize) -> usize {
    s + n
}
