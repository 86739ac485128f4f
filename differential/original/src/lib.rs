//! The original Rust on images: `Built` is an image as its `Ast`, `answers` what it says of one.
//!
//! Node n of the image is the n-th node pushed, so node numbers are the same on both sides. Its location is (n, n),
//! whatever the image has there: the Rust's errors carry locations alone, and these say which node is meant.

/// What the Rust says of an accepted image.
#[derive(Clone, Debug, PartialEq, Eq)]
pub enum Answers {
    /// Name number, first node, second node.
    Twice(u32, u32, u32),
    Resolved(Box<Resolved>),
}

#[derive(Clone, Debug, PartialEq, Eq)]
pub struct Resolved {
    /// Entry and exit of each node; none for an AppHeadMember.
    pub places: Vec<Option<(u32, u32)>>,
    /// Parent and symbols of each scope: name number, symbol number, node. By rising name number.
    pub scopes: Vec<(Option<u32>, Vec<(u32, u32, u32)>)>,
    /// Error number and node, in check_bindings' order.
    pub errors: Vec<(u32, u32)>,
    /// The first lone occurrence, node and binding.
    pub lone: Option<(u32, u32)>,
    /// Occurrence and binding, in the order in which check_occurrences collects them.
    pub occurrences: Vec<(u32, u32)>,
}

#[cfg(original)]
include!(concat!(env!("OUT_DIR"), "/sources.rs"));
#[cfg(original)]
mod build;
#[cfg(original)]
pub mod error;
#[cfg(original)]
mod run;

#[cfg(original)]
pub use build::Built;

/// Whether the sources were there when this was compiled.
pub const PRESENT: bool = cfg!(original);

#[cfg(not(original))]
mod absent {
    use super::Answers;

    /// Stands in where the sources were not there: there is no image of it.
    pub enum Built {}

    impl Built {
        pub fn new(_image: &[u8]) -> Option<Built> {
            None
        }

        pub fn answers(&self, _asked: &[(u32, &str)]) -> (Answers, Vec<Option<(u32, u32)>>) {
            match *self {}
        }

        pub fn resolve(&self) -> usize {
            match *self {}
        }

        pub fn errors(&self) -> usize {
            match *self {}
        }

        pub fn once(&self) -> usize {
            match *self {}
        }

        pub fn all(&self) -> usize {
            match *self {}
        }
    }
}
#[cfg(not(original))]
pub use absent::Built;
