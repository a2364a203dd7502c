// Made by front/erase from crates/fixedbitset/src/lib.rt: change that, and not this.
//! A bit set (bitmap) with a length: upstream is the Rust crate `fixedbitset` 0.5.7, this crate its
//! formally verified rewrite.
//!
//! A set is seen by every contract as its length in bits and the set of positions below it
//! that are set (`specs/Bits.antt`). It is kept in words of 64 bits: position `p` is bit `p
//! % 64` of word `p / 64`.
pub use crate::proved::fixedbitset::*;
pub mod json;
pub mod operators;
pub mod pairs;
pub use crate::proved::bitlanes::{Block, IndexRange, Steps};
pub use crate::program::bitwalks::{
    Difference, Intersection, IntoOnes, Ones, Runs, SymmetricDifference, Union, Zeroes,
};
pub use self::json::JsonFault;
