//! The comparison of this library with the Rust that was ported, and with a reading of document 01 in Rust.

pub mod calls;
pub mod compare;
pub mod counts;
pub mod damage;
pub mod grid;
pub mod image;
pub mod inputs;
pub mod make;
pub mod random;
pub mod reading;
pub mod record;
