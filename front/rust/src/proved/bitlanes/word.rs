// Made by front/erase from crates/bitlanes/src/word.rt: change that, and not this.
//! The bits of one word.

/// One word of a set: 64 bits, bit 0 the lowest.
pub use crate::shim::Block;

/// How many bits a word has.
pub const BITS: usize = 64;

/// The index of the lowest bit that is set. The word may not be 0.
///
/// ```text
/// assert_eq!(word::lowest_bit(12), 2);
/// assert_eq!(word::lowest_bit(1 << 63), 63);
/// ```
#[inline(always)]
pub fn lowest_bit(word: Block) -> usize {
    word.trailing_zeros() as usize
}

/// The index of the highest bit that is set. The word may not be 0.
///
/// ```text
/// assert_eq!(word::highest_bit(12), 3);
/// assert_eq!(word::highest_bit(Block::MAX), 63);
/// ```
#[inline(always)]
pub fn highest_bit(word: Block) -> usize {
    BITS - 1 - word.leading_zeros() as usize
}

/// The word with this bit clear, and each other bit as it was. The bit has to be one of the 64.
///
/// ```text
/// assert_eq!(word::clear_bit(12, 3), 4);
/// assert_eq!(word::clear_bit(12, 0), 12);
/// ```
#[inline(always)]
pub fn clear_bit(word: Block, bit: usize) -> Block {
    word & !(1 << bit)
}

/// The word with its lowest bit that is set clear, and each other bit as it was.
/// The word may not be 0.
///
/// ```text
/// assert_eq!(word::clear_lowest_bit(12), 8);
/// assert_eq!(word::clear_lowest_bit(8), 0);
/// ```
#[inline(always)]
pub fn clear_lowest_bit(word: Block) -> Block {
    word & (word - 1)
}

/// Clears the lowest bit that is set, and returns its index. The word may not be 0.
///
/// ```text
/// let mut bits = 12;
/// assert_eq!(word::take_lowest_bit(&mut bits), 2);
/// assert_eq!(bits, 8);
/// ```
#[inline(always)]
pub fn take_lowest_bit(word: &mut Block) -> usize {
    let index = lowest_bit(*word);
    *word = clear_lowest_bit(*word);
    index
}

/// Clears the highest bit that is set, and returns its index. The word may not be 0.
///
/// ```text
/// let mut bits = 12;
/// assert_eq!(word::take_highest_bit(&mut bits), 3);
/// assert_eq!(bits, 4);
/// ```
#[inline(always)]
pub fn take_highest_bit(word: &mut Block) -> usize {
    let index = highest_bit(*word);
    *word = clear_bit(*word, index);
    index
}

/// The word whose lowest `count` bits are set, and no other. The count may be 64 at most.
///
/// ```text
/// assert_eq!(word::ones_below(3), 7);
/// assert_eq!(word::ones_below(64), Block::MAX);
/// ```
#[inline(always)]
pub fn ones_below(count: usize) -> Block {
    if count < BITS {
        (1 << count) - 1
    } else {
        Block::MAX
    }
}

/// The word whose bits from `low` up to and without `high` are set, and no other.
/// Neither may be past 64.
///
/// Where `high` is `low` or less, no bit is set.
///
/// ```text
/// assert_eq!(word::stretch(2, 5), 28);
/// assert_eq!(word::stretch(0, 64), Block::MAX);
/// assert_eq!(word::stretch(5, 2), 0);
/// ```
#[inline(always)]
pub fn stretch(low: usize, high: usize) -> Block {
    if low < high {
        (Block::MAX >> (BITS - (high - low))) << low
    } else {
        0
    }
}
