// Made by front/erase from crates/bitlanes/src/lib.rt: change that, and not this.
//! Words of 64 bits, and the loops over many of them, which use SIMD: four words, a lane, at a
//! time.
pub mod carries;
pub mod changes;
pub mod counter;
pub mod lanes;
pub mod ops;
pub mod range;
pub mod search;
pub mod shifts;
pub mod word;
pub use self::counter::Steps;
pub use self::range::IndexRange;
pub use self::word::Block;
