// Made by front/erase from crates/fixedbitset/src/lib.rt: change that, and not this.
//! A bit set (bitmap) with a length: upstream is the Rust crate `fixedbitset` 0.5.7, this crate its
//! formally verified rewrite.
//!
//! A set is seen by every contract as its length in bits and the set of positions below it
//! that are set (`specs/Bits.antt`). It is kept in words of 64 bits: position `p` is bit `p
//! % 64` of word `p / 64`.
pub mod bits;
pub mod counted;
pub mod extend;
pub mod neighbours;
pub mod of_two;
pub mod order;
pub mod parts;
pub mod questions;
pub mod ranges;
pub mod set;
pub mod shifts;
pub mod text;
pub mod views;
pub mod walks;
pub mod whole;
pub use self::extend::ExtendFault;
pub use self::set::FixedBitSet;
pub use self::views::{Bits, BitsMut};
