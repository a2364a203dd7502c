// Made by front/erase from crates/fixedbitset/src/views/walks.rt: change that, and not this.
//! Iterators over the positions of a set, and over those that it lacks.
//!
//! An iterator goes over the words that the length needs, and not over those after them that make
//! up a whole lane. It has read the first and the last of them, and those between are not yet
//! taken.

use crate::proved::fixedbitset::views::Bits;
use crate::proved::bitlanes::Block;
use crate::proved::bitlanes::ops::{And, AndNot};
use crate::proved::bitwalks::in_turn::InTurn;
use crate::proved::bitwalks::runs::Runs;
use crate::proved::bitwords::cursors::{Beside, Cursor, Inverted, Plain, ones_within, zeroes_within};

impl<'a> Bits<'a> {
    /// The positions that are set, in ascending order.
    ///
    /// ```text
    /// let mut words = [9, 2, 0, 0];
    /// let set = BitsMut::settle(&mut words, 70, 70);
    /// assert!(set.as_bits().ones().eq([0, 3, 65]));
    /// ```
    #[inline(always)]
    pub fn ones(self) -> Cursor<Plain<'a>> {
        let words = self.as_slice().iter();
        Cursor::over(Plain { words })
    }

    /// The positions that both sets have, in ascending order. It looks at no word
    /// that only one of them has.
    ///
    /// ```text
    /// let (mut words, mut other) = ([9, 2, 0, 0], [1, 2, 0, 0]);
    /// let set = BitsMut::settle(&mut words, 70, 70);
    /// let other = BitsMut::settle(&mut other, 66, 66);
    /// assert!(set.as_bits().intersection(other.as_bits()).eq([0, 65]));
    /// ```
    #[inline(always)]
    pub fn intersection(self, other: Bits<'a>) -> Cursor<Beside<'a, And>> {
        let words = self.as_slice();
        let other = other.as_slice();
        let shared = words.len().min(other.len());
        Cursor::over(Beside::of(&words[..shared], other))
    }

    /// The positions of the first set that the second lacks, in ascending order.
    ///
    /// ```text
    /// let (mut words, mut other) = ([9, 2, 0, 0], [1, 2, 0, 0]);
    /// let set = BitsMut::settle(&mut words, 70, 70);
    /// let other = BitsMut::settle(&mut other, 66, 66);
    /// assert!(set.as_bits().difference(other.as_bits()).eq([3]));
    /// ```
    #[inline(always)]
    pub fn difference(self, other: Bits<'a>) -> Cursor<Beside<'a, AndNot>> {
        let words = self.as_slice();
        let other = all(other.words);
        Cursor::over(Beside::of(words, other))
    }

    /// The positions of the first set, and then those of the second that the first lacks, each part
    /// in ascending order.
    ///
    /// ```text
    /// let (mut words, mut other) = ([9, 2, 0, 0], [3, 0, 0, 0]);
    /// let set = BitsMut::settle(&mut words, 70, 70);
    /// let other = BitsMut::settle(&mut other, 9, 9);
    /// let mut walk = set.as_bits().union(other.as_bits());
    /// assert_eq!((walk.take_first(), walk.take_last()), (Some(0), Some(1)));
    /// ```
    #[inline(always)]
    pub fn union(self, other: Bits<'a>) -> InTurn<Cursor<Plain<'a>>, Cursor<Beside<'a, AndNot>>> {
        InTurn::of(self.ones(), other.difference(self))
    }

    /// The positions of the first set that the second lacks, and then those of the second that the
    /// first lacks, each part in ascending order.
    ///
    /// ```text
    /// let (mut words, mut other) = ([9, 2, 0, 0], [3, 0, 0, 0]);
    /// let set = BitsMut::settle(&mut words, 70, 70);
    /// let other = BitsMut::settle(&mut other, 9, 9);
    /// let mut walk = set.as_bits().symmetric_difference(other.as_bits());
    /// assert_eq!((walk.take_first(), walk.take_last()), (Some(3), Some(1)));
    /// ```
    #[inline(always)]
    pub fn symmetric_difference(
        self,
        other: Bits<'a>,
    ) -> InTurn<Cursor<Beside<'a, AndNot>>, Cursor<Beside<'a, AndNot>>> {
        InTurn::of(self.difference(other), other.difference(self))
    }

    /// The positions below the length that are not set, in ascending order.
    ///
    /// ```text
    /// let mut words = [Block::MAX - 8, 60, 0, 0];
    /// let set = BitsMut::settle(&mut words, 70, 70);
    /// assert!(set.as_bits().zeroes().eq([3, 64, 65]));
    /// ```
    #[inline(always)]
    pub fn zeroes(self) -> Cursor<Inverted<'a>> {
        zeroes_within(self.as_slice(), 0, self.length)
    }

    /// The runs of positions that are set, as start and end, in ascending order.
    ///
    /// ```text
    /// let mut words = [Block::MAX, 1, 0, 0];
    /// let set = BitsMut::settle(&mut words, 70, 70);
    /// assert!(set.as_bits().runs().eq([(0, 65)]));
    /// ```
    #[inline(always)]
    pub fn runs(self) -> Runs<'a> {
        Runs::below(self.as_slice(), true, self.length)
    }

    /// The runs of positions below the length that are not set, as start and end, in ascending
    /// order.
    ///
    /// ```text
    /// let mut words = [Block::MAX, 1, 0, 0];
    /// let set = BitsMut::settle(&mut words, 70, 70);
    /// assert!(set.as_bits().zero_runs().eq([(65, 70)]));
    /// ```
    #[inline(always)]
    pub fn zero_runs(self) -> Runs<'a> {
        Runs::below(self.as_slice(), false, self.length)
    }

    /// The positions that are set, from `start` up to and without `end`, in ascending order. The
    /// range has to be valid.
    ///
    /// ```text
    /// let mut words = [9, 2, 0, 0];
    /// let set = BitsMut::settle(&mut words, 70, 70);
    /// assert!(set.as_bits().ones_in(1, 66).eq([3, 65]));
    /// ```
    #[inline(always)]
    pub fn ones_in(self, start: usize, end: usize) -> Cursor<Plain<'a>> {
        ones_within(self.as_slice(), start, end)
    }

    /// The positions that are not set, from `start` up to and without `end`, in ascending order.
    /// The range has to be valid.
    ///
    /// ```text
    /// let mut words = [Block::MAX - 8, 60, 0, 0];
    /// let set = BitsMut::settle(&mut words, 70, 70);
    /// assert!(set.as_bits().zeroes_in(4, 65).eq([64]));
    /// ```
    #[inline(always)]
    pub fn zeroes_in(self, start: usize, end: usize) -> Cursor<Inverted<'a>> {
        zeroes_within(self.as_slice(), start, end)
    }
}

// The words as they stand. A clause of a slice says that each is below 2 ^ 64, and a field of a
// struct has none to say it.
#[inline(always)]
fn all<'a>(lent: &'a [Block]) -> &'a [Block] {
    lent
}
