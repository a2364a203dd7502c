// Made by front/erase from crates/bits_c/src/lib.rt: change that, and not this.
//! A bit set (bitmap) under C names: the words and the length stand in a struct of the caller's.
//!
//! A set is the struct `bits` of `front/c/bits.h`: here `fixedbitset::Bits` where it is read, and
//! `fixedbitset::BitsMut` where it is changed. The caller owns its words, and keeps them as the
//! ghost field of both says: as many whole lanes of four as the length needs, and no bit past the
//! length. Each call leaves them so, and `bits_settle` makes any words so. There is no other
//! precondition: a call tests the numbers that it is given, and its result says what came of it. No
//! call allocates or waits, and only the initialisation of an iterator keeps a pointer.
//!
//! Each call is that of the two types with its name, and looks at as many words. A clause sees a
//! set as its value, a length and the positions below it. C passes a slice as a pointer and a
//! number, which the docs name as `bits.h` does: `count`, `places`, `entries` or `room`.
//! `front/calls` makes the comments of `bits.h` of the docs.

pub mod bytes;
pub mod copies;
pub mod handfuls;
pub mod lists;
pub mod neighbours;
pub mod pairs;
pub mod ranges;
pub mod ranks;
pub mod rows;
pub mod runs;
pub mod shifts;
pub mod sieves;
pub mod structs;
pub mod walks;
pub mod whole;

use crate::proved::bitlanes::lanes::LANE;
use crate::proved::bitlanes::word::{BITS, take_lowest_bit};
use crate::proved::bitlanes::{Block, Steps};
use crate::proved::fixedbitset::views::{Bits, BitsMut};

/// What a call returns for 'no position'. No set has this position.
pub const NONE: usize = usize::MAX;

/// Returns how many words a set of this length has: whole lanes of four words.
pub fn bits_words(length: usize) -> usize {
    LANE * length.div_ceil(BITS).div_ceil(LANE)
}

/// Returns how many words of a set of this length hold positions below the length.
pub fn bits_blocks(length: usize) -> usize {
    length.div_ceil(BITS)
}

/// Turns any words into the words of a set of `length` positions: positions below `kept` stay, and
/// all others are cleared. Returns `true` if `count` is `bits_words(length)` and `kept` is at most
/// the length; else returns `false` and changes nothing. For example, a `kept` of 0 makes the set
/// empty, a `kept` of the length takes over words from elsewhere, and a `kept` of the old length
/// makes a set longer in memory that has room.
pub fn bits_settle(words: &mut [Block], length: usize, kept: usize) -> bool {
    if words.len() == bits_words(length) && kept <= length {
        BitsMut::settle(words, length, kept);
        true
    } else {
        false
    }
}

/// Returns whether the words, as they are, are the words of a set of `length` positions: `count` is
/// `bits_words(length)`, and no bit at or past the length is set. With this call a program can
/// reject words from elsewhere, where `bits_settle` would drop the bits past the length.
pub fn bits_is_clean(words: &[Block], length: usize) -> bool {
    Bits::fits(words, length)
}

/// Returns whether the position is set; `false` if the position is out of range.
pub fn bits_contains(set: &Bits<'_>, bit: usize) -> bool {
    set.contains(bit)
}

/// Sets the position and returns `true`; returns `false` and changes nothing if the position is out
/// of range.
pub fn bits_insert(set: &mut BitsMut<'_>, bit: usize) -> bool {
    if bit < set.length {
        set.insert(bit);
        true
    } else {
        false
    }
}

/// Clears the position and returns `true`; returns `false` and changes nothing if the position is
/// out of range.
pub fn bits_remove(set: &mut BitsMut<'_>, bit: usize) -> bool {
    if bit < set.length {
        set.remove(bit);
        true
    } else {
        false
    }
}

/// Flips the position and returns `true`; returns `false` and changes nothing if the position is
/// out of range.
pub fn bits_toggle(set: &mut BitsMut<'_>, bit: usize) -> bool {
    if bit < set.length {
        set.toggle(bit);
        true
    } else {
        false
    }
}

/// Sets the position, or clears it if `enabled` is `false`, and returns `true`; returns `false` and
/// changes nothing if the position is out of range.
pub fn bits_set(set: &mut BitsMut<'_>, bit: usize, enabled: bool) -> bool {
    if bit < set.length {
        set.set(bit, enabled);
        true
    } else {
        false
    }
}

/// Sets the position, and returns whether the position was set before; returns `false` and changes
/// nothing if the position is out of range.
pub fn bits_put(set: &mut BitsMut<'_>, bit: usize) -> bool {
    if bit < set.length {
        set.put(bit)
    } else {
        false
    }
}

/// Clears the position, and returns whether the position was set before; returns `false` and
/// changes nothing if the position is out of range.
pub fn bits_take(set: &mut BitsMut<'_>, bit: usize) -> bool {
    if bit < set.length {
        set.take(bit)
    } else {
        false
    }
}

/// Writes the block to word `index`, without the bits of the block at or past the length, and
/// returns `true`; returns `false` and changes nothing if the length needs no such word.
pub fn bits_set_block(set: &mut BitsMut<'_>, index: usize, block: Block) -> bool {
    if index < bits_blocks(set.length) {
        set.set_block(index, block);
        true
    } else {
        false
    }
}

/// Clears all positions.
pub fn bits_clear(set: &mut BitsMut<'_>) {
    set.clear(&mut Steps::new());
}

/// Returns whether no position is set.
pub fn bits_is_clear(set: &Bits<'_>) -> bool {
    set.is_clear(&mut Steps::new())
}

/// Returns whether each position below the length is set.
pub fn bits_is_full(set: &Bits<'_>) -> bool {
    set.is_full(&mut Steps::new())
}

/// Returns the least position that is set, or `NONE` if no position is set.
pub fn bits_minimum(set: &Bits<'_>) -> usize {
    set.minimum(&mut Steps::new()).unwrap_or(NONE)
}

/// Returns the greatest position that is set, or `NONE` if no position is set.
pub fn bits_maximum(set: &Bits<'_>) -> usize {
    set.maximum(&mut Steps::new()).unwrap_or(NONE)
}

/// Clears the lowest bit of the word that is set, and returns the index of that bit; returns `NONE`
/// if the word is 0.
pub fn bits_take_lowest_bit(word: &mut Block) -> usize {
    if *word == 0 {
        NONE
    } else {
        take_lowest_bit(word)
    }
}
