// Made by front/erase from crates/bitlanes/src/ops.rt: change that, and not this.
//! The operations that join two sets, on one word of each and on lanes of four.

use crate::proved::bitlanes::Block;
use crate::shim::simd::prelude::*;

/// A truth function of two bits, applied to each bit of two words.
///
/// The first word is of the set that a call changes or asks, the second of the other set.
///
/// ```text
/// assert_eq!(<Xor as WordOp>::word(10, 6), 12);
/// let lane = <Xor as WordOp>::lane(u64x4::splat(10), u64x4::splat(6));
/// assert_eq!(lane.to_array(), [12; 4]);
/// ```
pub trait WordOp {
    /// Whether a bit stays that only the first word has.
    const KEEP: bool;

    /// Whether a bit is taken that only the second word has.
    const TAKE: bool;

    /// Joins two words.
    fn word(a: Block, b: Block) -> Block;

    /// Joins two lanes of four words, each word of the left one with that of the
    /// right one at its place.
    fn lane(left: u64x4, right: u64x4) -> u64x4;
}

/// The bits of either word.
///
/// ```text
/// assert_eq!(<Or as WordOp>::word(10, 6), 14);
/// assert!(<Or as WordOp>::KEEP && <Or as WordOp>::TAKE);
/// ```
#[derive(Clone)]
pub struct Or;

impl WordOp for Or {
    const KEEP: bool = true; // x or nothing is x

    const TAKE: bool = true; // nothing or y is y

    #[inline(always)]
    fn word(a: Block, b: Block) -> Block {
        a | b
    }

    #[inline(always)]
    fn lane(left: u64x4, right: u64x4) -> u64x4 {
        left | right
    }
}

/// The bits of both words.
///
/// ```text
/// assert_eq!(<And as WordOp>::word(10, 6), 2);
/// assert!(!<And as WordOp>::KEEP && !<And as WordOp>::TAKE);
/// ```
#[derive(Clone)]
pub struct And;

impl WordOp for And {
    const KEEP: bool = false; // x and nothing is nothing

    const TAKE: bool = false; // nothing and y is nothing

    #[inline(always)]
    fn word(a: Block, b: Block) -> Block {
        a & b
    }

    #[inline(always)]
    fn lane(left: u64x4, right: u64x4) -> u64x4 {
        left & right
    }
}

/// The bits of the first word that the second lacks.
///
/// ```text
/// assert_eq!(<AndNot as WordOp>::word(10, 6), 8);
/// assert!(<AndNot as WordOp>::KEEP && !<AndNot as WordOp>::TAKE);
/// ```
#[derive(Clone)]
pub struct AndNot;

impl WordOp for AndNot {
    const KEEP: bool = true; // x without nothing is x

    const TAKE: bool = false; // nothing without y is nothing

    #[inline(always)]
    fn word(a: Block, b: Block) -> Block {
        a & !b
    }

    #[inline(always)]
    fn lane(left: u64x4, right: u64x4) -> u64x4 {
        left & !right
    }
}

/// The bits of exactly one of the words.
///
/// ```text
/// assert_eq!(<Xor as WordOp>::word(10, 6), 12);
/// assert!(<Xor as WordOp>::KEEP && <Xor as WordOp>::TAKE);
/// ```
#[derive(Clone)]
pub struct Xor;

impl WordOp for Xor {
    const KEEP: bool = true; // x against nothing is x

    const TAKE: bool = true; // nothing against y is y

    #[inline(always)]
    fn word(a: Block, b: Block) -> Block {
        a ^ b
    }

    #[inline(always)]
    fn lane(left: u64x4, right: u64x4) -> u64x4 {
        left ^ right
    }
}

/// The bits of the second word: what a row is written over with.
///
/// ```text
/// assert_eq!(<Second as WordOp>::word(10, 6), 6);
/// assert!(!<Second as WordOp>::KEEP && <Second as WordOp>::TAKE);
/// ```
#[derive(Clone)]
pub struct Second;

impl WordOp for Second {
    const KEEP: bool = false; // what nothing is written over with is nothing

    const TAKE: bool = true; // what y is written over with is y

    #[inline(always)]
    fn word(_a: Block, b: Block) -> Block {
        b
    }

    #[inline(always)]
    fn lane(_left: u64x4, right: u64x4) -> u64x4 {
        right
    }
}
