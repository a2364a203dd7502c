// Made by front/erase from crates/bitwalks/src/lib.rt: change that, and not this.
//! Iterators over the positions of rows of words: over one row, and over two. No iterator here
//! knows a set or its length.
pub use crate::proved::bitwalks::*;
pub mod pairs;
pub mod sieve;
pub use self::pairs::{Difference, Intersection, SymmetricDifference, Union};
pub use self::sieve::{Lacked, Shared, Sieve};
