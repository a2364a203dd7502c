// Made by front/erase from crates/fixedbitset/src/views/neighbours.rt: change that, and not this.
//! The positions of a set next to a given one, and the k-th of all.
//!
//! A step is one lane of four words, but for the first word that is looked at, which is a step by
//! itself. A step of `nth_one` is one word.

use crate::proved::fixedbitset::views::Bits;
use crate::proved::bitlanes::Steps;
use crate::proved::bitlanes::ops::{And, AndNot};
use crate::proved::bitwords::{joins, positions};

impl Bits<'_> {
    /// The least position at or past `from` that is set, or `None` where none is.
    ///
    /// ```text
    /// let mut words = [9, 2, 0, 0];
    /// let set = BitsMut::settle(&mut words, 70, 70);
    /// assert_eq!(set.as_bits().next_one(3, &mut Steps::new()), Some(3));
    /// assert_eq!(set.as_bits().next_one(4, &mut Steps::new()), Some(65));
    /// assert_eq!(set.as_bits().next_one(66, &mut Steps::new()), None);
    /// ```
    #[inline(always)]
    pub fn next_one(self, from: usize, steps: &mut Steps) -> Option<usize> {
        if from >= self.length {
            return None;
        }
        // No bit stands past the length.
        positions::next_in_row::<And>(self.words, from, steps)
    }

    /// The least position at or past `from` and below the length that is not set, or
    /// `None` where there is none.
    ///
    /// ```text
    /// let mut words = [9, 63, 0, 0];
    /// let set = BitsMut::settle(&mut words, 70, 70);
    /// assert_eq!(set.as_bits().next_zero(0, &mut Steps::new()), Some(1));
    /// assert_eq!(set.as_bits().next_zero(64, &mut Steps::new()), None);
    /// ```
    #[inline(always)]
    pub fn next_zero(self, from: usize, steps: &mut Steps) -> Option<usize> {
        positions::next::<AndNot>(self.words, from, self.length, steps)
    }

    /// The least position at or past `from` that both sets have, or `None` where there is none. The
    /// lengths are not compared.
    ///
    /// It looks at the word of `from` in each set, and then at four words of each at a time, up to
    /// those that have the position or to the end of the shorter set.
    ///
    /// ```text
    /// let (mut words, mut other) = ([9, 2, 0, 0], [1, 3, 0, 0]);
    /// let set = BitsMut::settle(&mut words, 70, 70);
    /// let other = BitsMut::settle(&mut other, 66, 66);
    /// let next = set.as_bits().next_common(other.as_bits(), 1, &mut Steps::new());
    /// assert_eq!(next, Some(65));
    /// ```
    #[inline(always)]
    pub fn next_common(self, other: Bits<'_>, from: usize, steps: &mut Steps) -> Option<usize> {
        if from >= self.length.min(other.length) {
            return None;
        }
        joins::next_common(self.words, other.words, from, steps)
    }

    /// The position that has exactly `index` positions of the set below it: the first has index 0.
    /// `None` where the set has no more positions than `index`.
    ///
    /// It counts word by word, up to the one that has the position, and takes a step
    /// for each of these words.
    ///
    /// ```text
    /// let mut words = [9, 2, 0, 0];
    /// let set = BitsMut::settle(&mut words, 70, 70);
    /// assert_eq!(set.as_bits().nth_one(2, &mut Steps::new()), Some(65));
    /// assert_eq!(set.as_bits().nth_one(3, &mut Steps::new()), None);
    /// ```
    #[inline]
    pub fn nth_one(self, index: usize, steps: &mut Steps) -> Option<usize> {
        let words = self.as_slice();
        positions::nth(words, 0, words.len(), index, steps)
    }

    /// The greatest position below `below` that is set, or `None` where none is.
    ///
    /// ```text
    /// let mut words = [9, 2, 0, 0];
    /// let set = BitsMut::settle(&mut words, 70, 70);
    /// assert_eq!(set.as_bits().previous_one(65, &mut Steps::new()), Some(3));
    /// assert_eq!(set.as_bits().previous_one(500, &mut Steps::new()), Some(65));
    /// assert_eq!(set.as_bits().previous_one(0, &mut Steps::new()), None);
    /// ```
    #[inline(always)]
    pub fn previous_one(self, below: usize, steps: &mut Steps) -> Option<usize> {
        positions::previous::<And>(self.words, below.min(self.length), steps)
    }

    /// The greatest position below `below` and below the length that is not set, or
    /// `None` where there is none.
    ///
    /// ```text
    /// let mut words = [9, 63, 0, 0];
    /// let set = BitsMut::settle(&mut words, 70, 70);
    /// assert_eq!(set.as_bits().previous_zero(70, &mut Steps::new()), Some(63));
    /// assert_eq!(set.as_bits().previous_zero(1, &mut Steps::new()), None);
    /// ```
    #[inline(always)]
    pub fn previous_zero(self, below: usize, steps: &mut Steps) -> Option<usize> {
        positions::previous::<AndNot>(self.words, below.min(self.length), steps)
    }
}
