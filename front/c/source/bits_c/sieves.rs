// Made by front/erase from crates/bits_c/src/sieves.rt: change that, and not this.
//! Iterators over the positions of a set that another one has, or lacks. Their calls are those of
//! `walks`.
//!
//! The positions of a word are looked up in the other set at once, when the iterator takes the
//! word. So a call costs by the words that it takes and the positions that it gives. The
//! intersection goes over the words that both lengths need, and the difference over those that the
//! first one needs.

use crate::bits_c::structs::{Ones, Sieve};
use crate::bits_c::walks::hand_out;
use crate::proved::bitlanes::ops::{And, AndNot, WordOp};
use crate::proved::bitwords::cursors::{Beside, Cursor, Held};
use crate::proved::fixedbitset::views::Bits;

impl<'a> Sieve<'a> {
    // The iterator over the positions of the first set that the second lacks, before its first
    // call.
    #[inline(always)]
    pub(crate) fn lacking(set: &Bits<'a>, other: &Bits<'a>) -> Sieve<'a> {
        let cursor = set.difference(*other);
        Sieve::of(cursor)
    }

    #[inline(always)]
    pub(crate) fn of<O: WordOp>(cursor: Cursor<Beside<'a, O>>) -> Sieve<'a> {
        let held = cursor.into_held();
        Sieve {
            walk: Ones {
                front: held.front,
                back: held.back,
                front_at: held.front_at,
                back_at: held.back_at,
                words: held.middle.plain.words.as_slice(),
            },
            other: held.middle.other,
        }
    }

    #[inline(always)]
    pub(crate) fn cursor<O: WordOp>(&self) -> Cursor<Beside<'a, O>> {
        Cursor::of_held(Held {
            front: self.walk.front,
            back: self.walk.back,
            front_at: self.walk.front_at,
            back_at: self.walk.back_at,
            middle: Beside::of(self.walk.words, self.other),
        })
    }

    // The first position left that passes.
    #[inline(always)]
    pub(crate) fn take_first<O: WordOp>(&mut self) -> Option<usize> {
        let mut cursor = self.cursor::<O>();
        let item = cursor.next();
        *self = Sieve::of(cursor);
        item
    }

    // The last position left that passes.
    #[inline(always)]
    pub(crate) fn take_last<O: WordOp>(&mut self) -> Option<usize> {
        let mut cursor = self.cursor::<O>();
        let item = cursor.next_back();
        *self = Sieve::of(cursor);
        item
    }
}

/// Initializes the iterator over the positions that are in both sets, in ascending order.
pub fn bits_intersection<'a>(walk: &mut Sieve<'a>, set: &Bits<'a>, other: &Bits<'a>) {
    *walk = Sieve::of(set.intersection(*other));
}

/// Writes the first position that is left to `position`, and returns whether there was one.
pub fn bits_intersection_next(walk: &mut Sieve<'_>, position: &mut usize) -> bool {
    hand_out(walk.take_first::<And>(), position)
}

/// Writes the last position that is left to `position`, and returns whether there was one.
pub fn bits_intersection_next_back(walk: &mut Sieve<'_>, position: &mut usize) -> bool {
    hand_out(walk.take_last::<And>(), position)
}

/// Initializes the iterator over the positions of the first set that the second lacks, in ascending
/// order.
pub fn bits_difference<'a>(walk: &mut Sieve<'a>, set: &Bits<'a>, other: &Bits<'a>) {
    *walk = Sieve::lacking(set, other);
}

/// Writes the first position that is left to `position`, and returns whether there was one.
pub fn bits_difference_next(walk: &mut Sieve<'_>, position: &mut usize) -> bool {
    hand_out(walk.take_first::<AndNot>(), position)
}

/// Writes the last position that is left to `position`, and returns whether there was one.
pub fn bits_difference_next_back(walk: &mut Sieve<'_>, position: &mut usize) -> bool {
    hand_out(walk.take_last::<AndNot>(), position)
}
