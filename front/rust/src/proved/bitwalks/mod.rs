// Made by front/erase from crates/bitwalks/src/lib.rt: change that, and not this.
//! Iterators over the positions of rows of words: over one row, and over two. No iterator here
//! knows a set or its length.
pub mod in_turn;
pub mod runs;
pub mod walks;
pub use self::runs::Runs;
pub use self::walks::{IntoOnes, Ones, Zeroes};
