//! Safe calls of the proved scope resolver for eqlog sharing rules.
//!
//! An image is a rule file in the binary form that the project's header `include/eqlog_scopes.h` describes; a table, rows
//! and an index are lent by the caller, [`table_len`], [`rows_len`] and [`index_len`] words of them, and to [`rename`] an
//! output of as many bytes as the image has. No call panics, allocates or keeps anything; every image, damaged ones
//! included, gets an answer. An editor calls [`live_check`] at each key press.
//!
//! ```
//! let image = eqlog_scopes::EMPTY_MODULE;
//! let mut table = vec![0; eqlog_scopes::table_len(1)];
//! let answer = eqlog_scopes::resolve(&image, &mut table);
//! assert_eq!(answer, eqlog_scopes::Resolve::Done { scopes: 1, symbols: 0 });
//! ```

/// The most nodes, operand words, names and name bytes that an image may have.
pub const MAX_NODES: usize = 2048;
pub const MAX_OPERANDS: usize = 8192;
pub const MAX_NAMES: usize = 1024;
pub const MAX_NAME_BYTES: usize = 8192;

/// The counts in front of a table: N nodes, K scopes, Y symbols.
pub const COUNTS: usize = 3;

/// The arrays of a table after its counts, in their order: N words each.
#[derive(Copy, Clone, Debug, PartialEq, Eq, Hash)]
#[repr(usize)]
pub enum Array {
    /// The entry scope of each node.
    Entry,
    /// The exit scope of each node.
    Exit,
    /// The parent of each scope.
    Parent,
    /// The scope of each symbol.
    SymbolScope,
    /// The node of each symbol.
    SymbolNode,
}

/// How many arrays a table has.
pub const ARRAYS: usize = Array::SymbolNode as usize + 1;

/// The place of a word of an array, in a table for an image of so many nodes.
pub const fn place(array: Array, nodes: usize, i: usize) -> usize {
    COUNTS + array as usize * nodes + i
}

/// The words that a table needs for an image of so many nodes.
pub const fn table_len(nodes: usize) -> usize {
    COUNTS + ARRAYS * nodes
}

/// The words that error rows or occurrences need for an image of so many nodes.
pub const fn rows_len(nodes: usize) -> usize {
    1 + 2 * nodes
}

/// The words that the index of a table needs, for an image of so many nodes and names.
pub const fn index_len(nodes: usize, names: usize) -> usize {
    names + nodes
}

/// The stack that is enough for any call on any image: nesting reaches some 1,000 levels.
pub const STACK_BYTES: usize = 512 * 1024;

/// A word of the table that stands for nothing: the parent of the first scope, both scopes of an AppHeadMember.
pub const NO_SCOPE: u32 = u32::MAX;

/// A word of an index that stands for no symbol row: it ends a chain and fills unused places.
pub const NO_ROW: u32 = u32::MAX;

/// The image of a module without declarations.
pub const EMPTY_MODULE: [u8; 36] = [
    1, 0, 0, 0, 3, 0, 0, 0, 0, 0, 0, 0, 0, 0, 0, 0, // N = 1, C = 3, S = 0, B = 0
    0, 0, 0, 0, 0, 0, 0, 0, // kind Module, start 0
    0, 0, 0, 0, 0, 0, 0, 0, 0, 0, 0, 0, // location, no declaration
];

mod raw {
    extern "C" {
        pub fn eqlog_resolve(image: *const u8, image_len: usize, table: *mut u32, table_len: usize) -> u64;
        pub fn eqlog_lookup(
            image: *const u8,
            image_len: usize,
            table: *const u32,
            table_len: usize,
            scope: u32,
            name: *const u8,
            name_len: usize,
        ) -> u64;
        pub fn eqlog_index(
            image: *const u8,
            image_len: usize,
            table: *const u32,
            table_len: usize,
            index: *mut u32,
            index_len: usize,
        ) -> u64;
        pub fn eqlog_lookup_indexed(
            image: *const u8,
            image_len: usize,
            table: *const u32,
            table_len: usize,
            index: *const u32,
            index_len: usize,
            scope: u32,
            name: *const u8,
            name_len: usize,
        ) -> u64;
        pub fn eqlog_errors(
            image: *const u8,
            image_len: usize,
            table: *mut u32,
            table_len: usize,
            rows: *mut u32,
            rows_len: usize,
            mode: u32,
        ) -> u64;
        pub fn eqlog_sorted(
            image: *const u8,
            image_len: usize,
            table: *mut u32,
            table_len: usize,
            rows: *mut u32,
            rows_len: usize,
            mode: u32,
        ) -> u64;
        pub fn eqlog_once(image: *const u8, image_len: usize, table: *mut u32, table_len: usize) -> u64;
        pub fn eqlog_occurrences(
            image: *const u8,
            image_len: usize,
            table: *mut u32,
            table_len: usize,
            rows: *mut u32,
            rows_len: usize,
        ) -> u64;
        pub fn eqlog_rename(
            image: *const u8,
            image_len: usize,
            table: *mut u32,
            table_len: usize,
            rows: *mut u32,
            rows_len: usize,
            binding: u32,
            name: u32,
            out: *mut u8,
            out_len: usize,
        ) -> u64;
        pub fn eqlog_name(image: *const u8, image_len: usize, name: u32) -> u64;
    }
}

/// Why an input was refused. Nothing lent to the call is altered then, but that the last three, which are [`rename`]'s own,
/// leave table and rows as [`occurrences`] does.
#[derive(Copy, Clone, Debug, PartialEq, Eq, Hash)]
#[repr(u8)]
pub enum Refusal {
    /// The image has under 16 bytes.
    Header = 1,
    /// A size of the image is over its limit, or it has no node.
    Limits = 2,
    /// The image's length is not what its sizes say.
    Length = 3,
    /// The ends of the names do not rise to the number of name bytes.
    NameEnds = 4,
    /// Two names are equal.
    EqualNames = 5,
    /// A kind that there is not.
    Kind = 6,
    /// A row does not start where the one before ends, or goes past the operand words.
    Row = 7,
    /// A case number or name number that does not exist.
    Number = 8,
    /// A child that is not below its parent, or of the wrong kind.
    Child = 9,
    /// The last row does not end at the last operand word, or the last node is no Module.
    Last = 10,
    /// A node that is the child of none or of several.
    Parents = 11,
    /// An if-var term or defined-then variable that is neither an ident nor a wildcard.
    Variable = 12,
    /// The table is too short.
    Table = 13,
    /// The rows, or the output, are too short.
    Rows = 14,
    /// A mode over 2.
    Mode = 15,
    /// The table is not sound.
    Unsound = 16,
    /// A scope that the table does not have.
    Scope = 17,
    /// The index is too short, or not that of the table.
    Index = 18,
    /// A node that is no binding of the occurrence list.
    Binding = 19,
    /// A name number that the image does not have.
    Name = 20,
    /// The renamed image would have another occurrence list.
    Occurrences = 21,
}

const REFUSALS: [Refusal; 21] = [
    Refusal::Header,
    Refusal::Limits,
    Refusal::Length,
    Refusal::NameEnds,
    Refusal::EqualNames,
    Refusal::Kind,
    Refusal::Row,
    Refusal::Number,
    Refusal::Child,
    Refusal::Last,
    Refusal::Parents,
    Refusal::Variable,
    Refusal::Table,
    Refusal::Rows,
    Refusal::Mode,
    Refusal::Unsound,
    Refusal::Scope,
    Refusal::Index,
    Refusal::Binding,
    Refusal::Name,
    Refusal::Occurrences,
];

impl Refusal {
    /// Its number in the table of refusals, 1 to 21.
    pub fn number(self) -> u32 {
        self as u32
    }

    /// The refusal of a number from 1 to 21.
    pub fn from_number(number: u32) -> Option<Refusal> {
        REFUSALS.get((number as usize).wrapping_sub(1)).copied()
    }
}

/// One name declared twice in one module or model list: its number, and the two declarations.
#[derive(Copy, Clone, Debug, PartialEq, Eq, Hash)]
pub struct Twice {
    pub name: u32,
    pub first: u32,
    pub second: u32,
}

/// What a name stands for.
#[derive(Copy, Clone, Debug, PartialEq, Eq, Hash)]
#[repr(u8)]
pub enum Symbol {
    Type = 0,
    Pred = 1,
    Func = 2,
    Const = 3,
    Enum = 4,
    Ctor = 5,
    Model = 6,
    Rule = 7,
    Arg = 8,
    Var = 9,
}

const SYMBOLS: [Symbol; 10] = [
    Symbol::Type,
    Symbol::Pred,
    Symbol::Func,
    Symbol::Const,
    Symbol::Enum,
    Symbol::Ctor,
    Symbol::Model,
    Symbol::Rule,
    Symbol::Arg,
    Symbol::Var,
];

impl Symbol {
    pub fn number(self) -> u32 {
        self as u32
    }
}

#[derive(Copy, Clone, Debug, PartialEq, Eq, Hash)]
pub enum Resolve {
    Refused(Refusal),
    Twice(Twice),
    /// The table is filled.
    Done { scopes: u32, symbols: u32 },
}

#[derive(Copy, Clone, Debug, PartialEq, Eq, Hash)]
pub enum Lookup {
    Refused(Refusal),
    /// What the name is, the node that declares it, and the scope that holds it: the one asked, or one above it.
    Found { symbol: Symbol, node: u32, scope: u32 },
    Nothing,
}

/// The answer of [`index`].
#[derive(Copy, Clone, Debug, PartialEq, Eq, Hash)]
pub enum Index {
    Refused(Refusal),
    /// So many symbol rows stand in the chains.
    Made(u32),
}

/// The answer of [`errors`], of [`sorted`] and of [`occurrences`].
#[derive(Copy, Clone, Debug, PartialEq, Eq, Hash)]
pub enum Rows {
    Refused(Refusal),
    Twice(Twice),
    /// So many rows were written.
    Written(u32),
}

/// The answer of [`rename`].
#[derive(Copy, Clone, Debug, PartialEq, Eq, Hash)]
pub enum Rename {
    Refused(Refusal),
    Twice(Twice),
    /// The new image stands in front of the output: so many bytes, as many as the image has.
    Written(usize),
}

#[derive(Copy, Clone, Debug, PartialEq, Eq, Hash)]
pub enum Once {
    Refused(Refusal),
    Twice(Twice),
    Ok,
    /// The first occurrence whose binding has no other, and that binding.
    Lone { node: u32, binding: u32 },
}

/// How [`errors`] and [`sorted`] check: strict, unless the caller says [`Mode::Plain`].
#[derive(Copy, Clone, Debug, Default, PartialEq, Eq, Hash)]
#[repr(u32)]
pub enum Mode {
    /// Strict, as [`Mode::Strict`]: the usual mode, and `Mode::default()`.
    #[default]
    Default = 0,
    /// Rows 1 to 3 alone, those that the original Rust has. [`live_check`] passes it.
    Plain = 1,
    /// After them rows 4: each named argument whose name an earlier argument of its list has.
    Strict = 2,
}

/// The fields of a packed answer: tag, then three of 16 bits.
fn parts(packed: u64) -> (u64, u32, u32, u32) {
    let field = |shift: u32| (packed >> shift & 0xffff) as u32;
    (packed >> 48, field(32), field(16), field(0))
}

fn refusal(number: u32) -> Refusal {
    Refusal::from_number(number).expect("refusals are numbered 1 to 21")
}

/// Fills the table: entry and exit scope of each node, the scopes' parents, the symbols.
pub fn resolve(image: &[u8], table: &mut [u32]) -> Resolve {
    let packed = unsafe { raw::eqlog_resolve(image.as_ptr(), image.len(), table.as_mut_ptr(), table.len()) };
    match parts(packed) {
        (0, _, _, number) => Resolve::Refused(refusal(number)),
        (1, name, first, second) => Resolve::Twice(Twice { name, first, second }),
        (_, _, scopes, symbols) => Resolve::Done { scopes, symbols },
    }
}

/// What a name, given by its bytes, is in a scope of a table, and which scope holds it.
pub fn lookup(image: &[u8], table: &[u32], scope: u32, name: &[u8]) -> Lookup {
    let packed = unsafe {
        raw::eqlog_lookup(
            image.as_ptr(),
            image.len(),
            table.as_ptr(),
            table.len(),
            scope,
            name.as_ptr(),
            name.len(),
        )
    };
    looked(packed)
}

fn looked(packed: u64) -> Lookup {
    match parts(packed) {
        (0, _, _, number) => Lookup::Refused(refusal(number)),
        (2, scope, symbol, node) => Lookup::Found { symbol: SYMBOLS[symbol as usize], node, scope },
        _ => Lookup::Nothing,
    }
}

/// Writes the index of a table: for each name its first symbol row, then for each row the next of the same name.
pub fn index(image: &[u8], table: &[u32], index: &mut [u32]) -> Index {
    let packed = unsafe {
        raw::eqlog_index(image.as_ptr(), image.len(), table.as_ptr(), table.len(), index.as_mut_ptr(), index.len())
    };
    match parts(packed) {
        (0, _, _, number) => Index::Refused(refusal(number)),
        (_, _, _, rows) => Index::Made(rows),
    }
}

/// The same answer as [`lookup`], by way of the index of the table, which [`index`] has written.
pub fn lookup_indexed(image: &[u8], table: &[u32], index: &[u32], scope: u32, name: &[u8]) -> Lookup {
    looked(unsafe {
        raw::eqlog_lookup_indexed(
            image.as_ptr(),
            image.len(),
            table.as_ptr(),
            table.len(),
            index.as_ptr(),
            index.len(),
            scope,
            name.as_ptr(),
            name.len(),
        )
    })
}

/// Resolves, then writes the error rows of the mode: a count, then an array of error numbers and one of nodes.
pub fn errors(image: &[u8], table: &mut [u32], rows: &mut [u32], mode: Mode) -> Rows {
    errors_by_number(image, table, rows, mode as u32)
}

/// The same with the mode as a number: 0 and 2 are strict, 1 is plain, others are refused.
pub fn errors_by_number(image: &[u8], table: &mut [u32], rows: &mut [u32], mode: u32) -> Rows {
    by_mode(raw::eqlog_errors, image, table, rows, mode)
}

/// The editor's check at each key press: [`errors`] in [`Mode::Plain`], whichever mode is the usual one.
pub fn live_check(image: &[u8], table: &mut [u32], rows: &mut [u32]) -> Rows {
    errors(image, table, rows, Mode::Plain)
}

/// The same rows as [`errors`], by place: the second location word of each row's node rises from row to row, and rows of
/// one place stand in the sequence of [`errors`].
pub fn sorted(image: &[u8], table: &mut [u32], rows: &mut [u32], mode: Mode) -> Rows {
    sorted_by_number(image, table, rows, mode as u32)
}

/// The same with the mode as a number: 0 and 2 are strict, 1 is plain, others are refused.
pub fn sorted_by_number(image: &[u8], table: &mut [u32], rows: &mut [u32], mode: u32) -> Rows {
    by_mode(raw::eqlog_sorted, image, table, rows, mode)
}

type ByMode = unsafe extern "C" fn(*const u8, usize, *mut u32, usize, *mut u32, usize, u32) -> u64;

fn by_mode(call: ByMode, image: &[u8], table: &mut [u32], rows: &mut [u32], mode: u32) -> Rows {
    written(unsafe {
        call(image.as_ptr(), image.len(), table.as_mut_ptr(), table.len(), rows.as_mut_ptr(), rows.len(), mode)
    })
}

/// Resolves, then writes every variable occurrence with its binding: a count, then an array of nodes and one of bindings.
pub fn occurrences(image: &[u8], table: &mut [u32], rows: &mut [u32]) -> Rows {
    let packed = unsafe {
        raw::eqlog_occurrences(
            image.as_ptr(),
            image.len(),
            table.as_mut_ptr(),
            table.len(),
            rows.as_mut_ptr(),
            rows.len(),
        )
    };
    written(packed)
}

fn written(packed: u64) -> Rows {
    match parts(packed) {
        (0, _, _, number) => Rows::Refused(refusal(number)),
        (1, name, first, second) => Rows::Twice(Twice { name, first, second }),
        (_, _, _, count) => Rows::Written(count),
    }
}

/// Lists as [`occurrences`] does, then writes the image with one variable renamed: the idents under the occurrences of the
/// binding have the name of that number. It is given exactly if its occurrence list equals that of the image; table and rows
/// are as [`occurrences`] leaves them for the image.
pub fn rename(image: &[u8], table: &mut [u32], rows: &mut [u32], binding: u32, name: u32, out: &mut [u8]) -> Rename {
    let packed = unsafe {
        raw::eqlog_rename(
            image.as_ptr(),
            image.len(),
            table.as_mut_ptr(),
            table.len(),
            rows.as_mut_ptr(),
            rows.len(),
            binding,
            name,
            out.as_mut_ptr(),
            out.len(),
        )
    };
    match parts(packed) {
        (0, _, _, number) => Rename::Refused(refusal(number)),
        (1, name, first, second) => Rename::Twice(Twice { name, first, second }),
        (_, _, _, length) => Rename::Written(length as usize),
    }
}

/// Resolves, then looks for a variable that occurs only once.
pub fn once(image: &[u8], table: &mut [u32]) -> Once {
    let packed = unsafe { raw::eqlog_once(image.as_ptr(), image.len(), table.as_mut_ptr(), table.len()) };
    match parts(packed) {
        (0, _, _, number) => Once::Refused(refusal(number)),
        (1, name, first, second) => Once::Twice(Twice { name, first, second }),
        (2, ..) => Once::Ok,
        (_, _, node, binding) => Once::Lone { node, binding },
    }
}

/// Where a name's bytes stand in the image: start and length, 0 and 0 for a name that there is not or a refused image.
pub fn name_place(image: &[u8], name: u32) -> (usize, usize) {
    let packed = unsafe { raw::eqlog_name(image.as_ptr(), image.len(), name) };
    ((packed >> 32) as usize, (packed & 0xffff_ffff) as usize)
}

/// A name's own bytes, as a part of the image; empty for a name that there is not or a refused image.
pub fn name(image: &[u8], name: u32) -> &[u8] {
    let (start, len) = name_place(image, name);
    &image[start..start + len]
}

/// Rows that a call has written, as pairs. Of words that no call has written, those pairs that are there.
pub fn pairs(rows: &[u32], nodes: usize) -> impl Iterator<Item = (u32, u32)> + '_ {
    let count = rows.first().map_or(0, |&count| count as usize);
    let lefts = rows.iter().skip(1).copied();
    let rights = rows.iter().skip(nodes.saturating_add(1)).copied();
    lefts.zip(rights).take(count)
}

/// The symbol rows of a name, in the order in which they were inserted: of an index for so many names. Of words that no call
/// has written, rows until they end or lead nowhere.
pub fn rows_of(index: &[u32], names: usize, name: u32) -> impl Iterator<Item = u32> + '_ {
    let row = |place: usize| index.get(place).copied().filter(|&row| row != NO_ROW);
    let first = if (name as usize) < names { row(name as usize) } else { None };
    std::iter::successors(first, move |&last| row(names.checked_add(last as usize)?)).take(index.len())
}
