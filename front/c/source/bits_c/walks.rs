// Made by front/erase from crates/bits_c/src/walks.rt: change that, and not this.
//! Iterators over the positions of a set, kept in a struct of the caller's.
//!
//! One call initialises an iterator, and writes the whole struct whatever it held before. Each
//! further call gives one position, from either end, and returns whether it did: once none is left,
//! no call gives one. A call that gives none leaves what `position` points to. While an iterator is
//! used, the words that it iterates over may not change.
//!
//! An iterator goes over the words that the length needs, and over no words after them. It holds
//! the first and the last of them, and `words` are those between that no call has taken yet.

use crate::bits_c::ranges::bits_range_is_valid;
use crate::bits_c::structs::{Ones, Zeroes};
use crate::proved::bitwords::cursors::{Cursor, Held, Inverted, Plain};
use crate::proved::fixedbitset::views::Bits;

impl<'a> Ones<'a> {
    #[inline(always)]
    pub(crate) fn of(cursor: Cursor<Plain<'a>>) -> Ones<'a> {
        let held = cursor.into_held();
        Ones {
            front: held.front,
            back: held.back,
            front_at: held.front_at,
            back_at: held.back_at,
            words: held.middle.words.as_slice(),
        }
    }

    #[inline(always)]
    pub(crate) fn cursor(&self) -> Cursor<Plain<'a>> {
        Cursor::of_held(Held {
            front: self.front,
            back: self.back,
            front_at: self.front_at,
            back_at: self.back_at,
            middle: Plain {
                words: self.words.iter(),
            },
        })
    }

    // The first position left.
    #[inline(always)]
    pub(crate) fn take_first(&mut self) -> Option<usize> {
        let mut cursor = self.cursor();
        let item = cursor.next();
        *self = Ones::of(cursor);
        item
    }

    // The last position left.
    #[inline(always)]
    pub(crate) fn take_last(&mut self) -> Option<usize> {
        let mut cursor = self.cursor();
        let item = cursor.next_back();
        *self = Ones::of(cursor);
        item
    }
}

impl<'a> Zeroes<'a> {
    #[inline(always)]
    pub(crate) fn of(cursor: Cursor<Inverted<'a>>) -> Zeroes<'a> {
        let held = cursor.into_held();
        Zeroes {
            front: held.front,
            back: held.back,
            front_at: held.front_at,
            back_at: held.back_at,
            words: held.middle.plain.words.as_slice(),
        }
    }

    #[inline(always)]
    pub(crate) fn cursor(&self) -> Cursor<Inverted<'a>> {
        let plain = Plain {
            words: self.words.iter(),
        };
        Cursor::of_held(Held {
            front: self.front,
            back: self.back,
            front_at: self.front_at,
            back_at: self.back_at,
            middle: Inverted { plain },
        })
    }
}

// Writes the item to `position`, and returns whether there is one.
#[inline(always)]
pub(crate) fn hand_out(item: Option<usize>, position: &mut usize) -> bool {
    match item {
        Some(found) => {
            *position = found;
            true
        }
        None => false,
    }
}

/// Initializes the iterator over the positions that are set, in ascending order.
pub fn bits_ones<'a>(walk: &mut Ones<'a>, set: &Bits<'a>) {
    *walk = Ones::of(set.ones());
}

/// Writes the first position that is left to `position`, and returns whether there was one.
pub fn bits_ones_next(walk: &mut Ones<'_>, position: &mut usize) -> bool {
    hand_out(walk.take_first(), position)
}

/// Writes the last position that is left to `position`, and returns whether there was one.
pub fn bits_ones_next_back(walk: &mut Ones<'_>, position: &mut usize) -> bool {
    hand_out(walk.take_last(), position)
}

/// Initializes the iterator over the positions from `start` up to but not including `end` that are
/// set, in ascending order, and returns `true`. Returns `false` if the range is not valid; the
/// iterator is then empty.
pub fn bits_ones_in<'a>(
    walk: &mut Ones<'a>,
    set: &Bits<'a>,
    start: usize,
    end: usize,
) -> bool {
    if bits_range_is_valid(set, start, end) {
        *walk = Ones::of(set.ones_in(start, end));
        true
    } else {
        *walk = Ones::of(Cursor::over(Plain { words: [].iter() }));
        false
    }
}

/// Initializes the iterator over the positions from `start` up to but not including `end` that are
/// not set, in ascending order, and returns `true`. Returns `false` if the range is not valid; the
/// iterator is then empty.
pub fn bits_zeroes_in<'a>(
    walk: &mut Zeroes<'a>,
    set: &Bits<'a>,
    start: usize,
    end: usize,
) -> bool {
    if bits_range_is_valid(set, start, end) {
        *walk = Zeroes::of(set.zeroes_in(start, end));
        true
    } else {
        let plain = Plain { words: [].iter() };
        *walk = Zeroes::of(Cursor::over(Inverted { plain }));
        false
    }
}

/// Initializes the iterator over the positions below the length that are not set, in ascending
/// order.
pub fn bits_zeroes<'a>(walk: &mut Zeroes<'a>, set: &Bits<'a>) {
    *walk = Zeroes::of(set.zeroes());
}

/// Writes the first position that is left to `position`, and returns whether there was one.
pub fn bits_zeroes_next(walk: &mut Zeroes<'_>, position: &mut usize) -> bool {
    let mut cursor = walk.cursor();
    let item = cursor.next();
    *walk = Zeroes::of(cursor);
    hand_out(item, position)
}

/// Writes the last position that is left to `position`, and returns whether there was one.
pub fn bits_zeroes_next_back(walk: &mut Zeroes<'_>, position: &mut usize) -> bool {
    let mut cursor = walk.cursor();
    let item = cursor.next_back();
    *walk = Zeroes::of(cursor);
    hand_out(item, position)
}
