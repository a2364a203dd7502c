// Made by front/erase from crates/bitwords/src/lib.rt: change that, and not this.
//! Rows of words as positions: position `p` stands at bit `p % 64` of word `p / 64`.
//!
//! The loops over words that a bit set needs: changes, counts and tests of a range of positions,
//! and of two rows of any two lengths. No call here knows a set or its length.
pub mod cursors;
pub mod gaps;
pub mod handfuls;
pub mod joins;
pub mod new_rows;
pub mod positions;
pub mod ranges;
pub mod shifts;
