// Made by front/erase from crates/fixedbitset/src/views/copies.rt: change that, and not this.
//! Sets written over words that stand for nothing yet: copies, and two sets joined. Each word is
//! written once, and there have to be as many words as a set of the length keeps.

use crate::proved::fixedbitset::views::{Bits, BitsMut};
use crate::proved::bitlanes::ops::{And, AndNot, Or, Second, WordOp, Xor};
use crate::proved::bitlanes::{Block, Steps};
use crate::proved::bitwords::{joins, positions};

impl Bits<'_> {
    /// Makes the words those of a set of `length` positions, with the positions of this set
    /// that are below the length.
    ///
    /// ```text
    /// let (mut to, mut words) = ([7; 4], [9, 34, 0, 0]);
    /// let set = BitsMut::settle(&mut words, 70, 70);
    /// set.as_bits().copy_to(&mut to, 66);
    /// assert_eq!(to, [9, 2, 0, 0]);
    /// ```
    #[inline]
    pub fn copy_to(self, to: &mut [Block], length: usize) {
        joins::join::<Second>(to, self.words, &mut Steps::new());
        positions::clear_from(to, length);
    }

    /// Makes the words those of a set of the greater length, with the positions of either set.
    ///
    /// ```text
    /// let (mut to, mut words, mut other) = ([7; 4], [9, 1, 0, 0], [3, 0, 0, 0]);
    /// let set = BitsMut::settle(&mut words, 70, 70);
    /// let other = BitsMut::settle(&mut other, 9, 9);
    /// set.as_bits().union_to(other.as_bits(), &mut to);
    /// assert_eq!(to, [11, 1, 0, 0]);
    /// ```
    #[inline]
    pub fn union_to(self, other: Bits<'_>, to: &mut [Block]) {
        if self.length < other.length {
            other.join_to::<Or>(self, to);
        } else {
            self.join_to::<Or>(other, to);
        }
    }

    /// Makes the words those of a set of the greater length, with the positions of
    /// exactly one of the sets.
    ///
    /// ```text
    /// let (mut to, mut words, mut other) = ([7; 4], [9, 1, 0, 0], [3, 0, 0, 0]);
    /// let set = BitsMut::settle(&mut words, 70, 70);
    /// let other = BitsMut::settle(&mut other, 9, 9);
    /// set.as_bits().symmetric_difference_to(other.as_bits(), &mut to);
    /// assert_eq!(to, [10, 1, 0, 0]);
    /// ```
    #[inline]
    pub fn symmetric_difference_to(self, other: Bits<'_>, to: &mut [Block]) {
        if self.length < other.length {
            other.join_to::<Xor>(self, to);
        } else {
            self.join_to::<Xor>(other, to);
        }
    }

    /// Makes the words those of a set of the smaller length, with the positions of both sets.
    ///
    /// ```text
    /// let (mut to, mut words, mut other) = ([7; 4], [9, 1, 0, 0], [3, 0, 0, 0]);
    /// let set = BitsMut::settle(&mut words, 70, 70);
    /// let other = BitsMut::settle(&mut other, 9, 9);
    /// set.as_bits().intersection_to(other.as_bits(), &mut to);
    /// assert_eq!(to, [1, 0, 0, 0]);
    /// ```
    #[inline]
    pub fn intersection_to(self, other: Bits<'_>, to: &mut [Block]) {
        if self.length > other.length {
            other.join_to::<And>(self, to);
        } else {
            self.join_to::<And>(other, to);
        }
    }

    /// Makes the words those of a set of this one's length, with its positions
    /// that the second lacks.
    ///
    /// ```text
    /// let (mut to, mut words, mut other) = ([7; 4], [9, 1, 0, 0], [3, 0, 0, 0]);
    /// let set = BitsMut::settle(&mut words, 70, 70);
    /// let other = BitsMut::settle(&mut other, 9, 9);
    /// set.as_bits().difference_to(other.as_bits(), &mut to);
    /// assert_eq!(to, [8, 1, 0, 0]);
    /// ```
    #[inline]
    pub fn difference_to(self, other: Bits<'_>, to: &mut [Block]) {
        self.join_to::<AndNot>(other, to);
    }

    // Writes this set, joined with the second, over the words.
    #[inline(always)]
    fn join_to<O: WordOp>(self, other: Bits<'_>, to: &mut [Block]) {
        joins::join_to::<O>(to, self.words, other.words, &mut Steps::new());
    }
}

impl BitsMut<'_> {
    /// Makes this set the union of two others. Its length has to be the greater of theirs; which
    /// positions it had does not matter.
    ///
    /// ```text
    /// let (mut to, mut words, mut other) = ([7; 4], [9, 1, 0, 0], [3, 0, 0, 0]);
    /// let set = BitsMut::settle(&mut words, 70, 70);
    /// let other = BitsMut::settle(&mut other, 9, 9);
    /// BitsMut::settle(&mut to, 70, 0).union_of(set.as_bits(), other.as_bits());
    /// assert_eq!(to, [11, 1, 0, 0]);
    /// ```
    #[inline]
    pub fn union_of(&mut self, one: Bits<'_>, other: Bits<'_>) {
        one.union_to(other, self.words);
    }

    /// Makes this set the positions of exactly one of two others. Its length has to be the greater
    /// of theirs.
    ///
    /// ```text
    /// let (mut to, mut words, mut other) = ([7; 4], [9, 1, 0, 0], [3, 0, 0, 0]);
    /// let set = BitsMut::settle(&mut words, 70, 70);
    /// let other = BitsMut::settle(&mut other, 9, 9);
    /// BitsMut::settle(&mut to, 70, 0).symmetric_difference_of(set.as_bits(), other.as_bits());
    /// assert_eq!(to, [10, 1, 0, 0]);
    /// ```
    #[inline]
    pub fn symmetric_difference_of(&mut self, one: Bits<'_>, other: Bits<'_>) {
        one.symmetric_difference_to(other, self.words);
    }

    /// Makes this set the positions of both of two others. Its length has to be the lesser
    /// of theirs.
    ///
    /// ```text
    /// let (mut to, mut words, mut other) = ([7; 4], [9, 1, 0, 0], [3, 0, 0, 0]);
    /// let set = BitsMut::settle(&mut words, 70, 70);
    /// let other = BitsMut::settle(&mut other, 9, 9);
    /// BitsMut::settle(&mut to, 9, 0).intersection_of(set.as_bits(), other.as_bits());
    /// assert_eq!(to, [1, 0, 0, 0]);
    /// ```
    #[inline]
    pub fn intersection_of(&mut self, one: Bits<'_>, other: Bits<'_>) {
        one.intersection_to(other, self.words);
    }

    /// Makes this set the positions of the first of two others that the second lacks. Its length
    /// has to be that of the first.
    ///
    /// ```text
    /// let (mut to, mut words, mut other) = ([7; 4], [9, 1, 0, 0], [3, 0, 0, 0]);
    /// let set = BitsMut::settle(&mut words, 70, 70);
    /// let other = BitsMut::settle(&mut other, 9, 9);
    /// BitsMut::settle(&mut to, 70, 0).difference_of(set.as_bits(), other.as_bits());
    /// assert_eq!(to, [8, 1, 0, 0]);
    /// ```
    #[inline]
    pub fn difference_of(&mut self, one: Bits<'_>, other: Bits<'_>) {
        one.difference_to(other, self.words);
    }
}
