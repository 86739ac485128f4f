//! The calls of documents 01 and 02, as this library and the reading both answer them.

#[derive(Copy, Clone, Debug, PartialEq, Eq, Hash, PartialOrd, Ord)]
pub enum Answer {
    Refused(u32),
    /// Name, first node, second node.
    Twice(u32, u32, u32),
    /// Resolve: K and Y; Errors, Sorted and Occurrences: 0 and the count; Index: 0 and Y; Once: 0 and 0 for "ok"; Rename: 0
    /// and the length of the image written.
    Result(u32, u32),
    /// Lookup, by climbing and through an index: the scope that holds the symbol, its number and its node.
    Located(u32, u32, u32),
    /// A lookup: none, 0 and 0; Once: the lone occurrence and its binding.
    Other(u32, u32),
}

/// The modes of Errors and Sorted.
pub const DEFAULT: u32 = 0;
pub const PLAIN: u32 = 1;
pub const STRICT: u32 = 2;

pub trait Calls {
    fn resolve(&self, image: &[u8], table: &mut [u32]) -> Answer;
    fn lookup(&self, image: &[u8], table: &[u32], scope: u32, name: &[u8]) -> Answer;
    fn index(&self, image: &[u8], table: &[u32], index: &mut [u32]) -> Answer;
    fn lookup_indexed(&self, image: &[u8], table: &[u32], index: &[u32], scope: u32, name: &[u8]) -> Answer;
    fn errors(&self, image: &[u8], table: &mut [u32], rows: &mut [u32], mode: u32) -> Answer;
    fn sorted(&self, image: &[u8], table: &mut [u32], rows: &mut [u32], mode: u32) -> Answer;
    /// The editor's, at each key press.
    fn live_check(&self, image: &[u8], table: &mut [u32], rows: &mut [u32]) -> Answer;
    fn once(&self, image: &[u8], table: &mut [u32]) -> Answer;
    fn occurrences(&self, image: &[u8], table: &mut [u32], rows: &mut [u32]) -> Answer;
    fn rename(&self, image: &[u8], table: &mut [u32], rows: &mut [u32], binding: u32, name: u32, out: &mut [u8]) -> Answer;
    /// Where the name stands in the image, start and length; 0 and 0 where it is empty.
    fn name(&self, image: &[u8], name: u32) -> (usize, usize);
}

/// This library, by its safe wrapper.
#[cfg(feature = "library")]
pub struct Library;

#[cfg(feature = "library")]
mod library {
    use super::{Answer, Calls, Library};
    use eqlog_scopes as lib;

    fn twice(t: lib::Twice) -> Answer {
        Answer::Twice(t.name, t.first, t.second)
    }

    fn looked(answer: lib::Lookup) -> Answer {
        match answer {
            lib::Lookup::Refused(r) => Answer::Refused(r.number()),
            lib::Lookup::Found { symbol, node, scope } => Answer::Located(scope, symbol.number(), node),
            lib::Lookup::Nothing => Answer::Other(0, 0),
        }
    }

    fn rows_answer(answer: lib::Rows) -> Answer {
        match answer {
            lib::Rows::Refused(r) => Answer::Refused(r.number()),
            lib::Rows::Twice(t) => twice(t),
            lib::Rows::Written(count) => Answer::Result(0, count),
        }
    }

    impl Calls for Library {
        fn resolve(&self, image: &[u8], table: &mut [u32]) -> Answer {
            match lib::resolve(image, table) {
                lib::Resolve::Refused(r) => Answer::Refused(r.number()),
                lib::Resolve::Twice(t) => twice(t),
                lib::Resolve::Done { scopes, symbols } => Answer::Result(scopes, symbols),
            }
        }

        fn lookup(&self, image: &[u8], table: &[u32], scope: u32, name: &[u8]) -> Answer {
            looked(lib::lookup(image, table, scope, name))
        }

        fn index(&self, image: &[u8], table: &[u32], index: &mut [u32]) -> Answer {
            match lib::index(image, table, index) {
                lib::Index::Refused(r) => Answer::Refused(r.number()),
                lib::Index::Made(rows) => Answer::Result(0, rows),
            }
        }

        fn lookup_indexed(&self, image: &[u8], table: &[u32], index: &[u32], scope: u32, name: &[u8]) -> Answer {
            looked(lib::lookup_indexed(image, table, index, scope, name))
        }

        fn errors(&self, image: &[u8], table: &mut [u32], rows: &mut [u32], mode: u32) -> Answer {
            rows_answer(lib::errors_by_number(image, table, rows, mode))
        }

        fn sorted(&self, image: &[u8], table: &mut [u32], rows: &mut [u32], mode: u32) -> Answer {
            rows_answer(lib::sorted_by_number(image, table, rows, mode))
        }

        fn live_check(&self, image: &[u8], table: &mut [u32], rows: &mut [u32]) -> Answer {
            rows_answer(lib::live_check(image, table, rows))
        }

        fn once(&self, image: &[u8], table: &mut [u32]) -> Answer {
            match lib::once(image, table) {
                lib::Once::Refused(r) => Answer::Refused(r.number()),
                lib::Once::Twice(t) => twice(t),
                lib::Once::Ok => Answer::Result(0, 0),
                lib::Once::Lone { node, binding } => Answer::Other(node, binding),
            }
        }

        fn occurrences(&self, image: &[u8], table: &mut [u32], rows: &mut [u32]) -> Answer {
            rows_answer(lib::occurrences(image, table, rows))
        }

        fn rename(&self, image: &[u8], table: &mut [u32], rows: &mut [u32], binding: u32, name: u32, out: &mut [u8]) -> Answer {
            match lib::rename(image, table, rows, binding, name, out) {
                lib::Rename::Refused(r) => Answer::Refused(r.number()),
                lib::Rename::Twice(t) => twice(t),
                lib::Rename::Written(length) => Answer::Result(0, length as u32),
            }
        }

        fn name(&self, image: &[u8], name: u32) -> (usize, usize) {
            lib::name_place(image, name)
        }
    }
}
