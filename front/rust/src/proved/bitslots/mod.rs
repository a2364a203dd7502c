// Made by front/erase from crates/bitslots/src/lib.rt: change that, and not this.
//! An allocator's slots: which of so many are taken, and which is the least free one.
pub mod slots;
pub use self::slots::{Slots, never_twice};
