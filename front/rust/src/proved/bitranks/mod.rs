// Made by front/erase from crates/bitranks/src/lib.rt: change that, and not this.
//! Rank and select over a bit set: how many positions stand below a given one, and which position
//! is the k-th.
//!
//! Both use a directory next to the words of the set: one number for eight words.
pub mod counted;
pub mod directory;
pub mod ranks;
pub use self::ranks::Ranks;
