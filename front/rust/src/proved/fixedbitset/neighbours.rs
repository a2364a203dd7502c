// Made by front/erase from crates/fixedbitset/src/neighbours.rt: change that, and not this.
//! The positions of a set next to a given one, and the k-th of all. Upstream has no such calls.
//!
//! Any number is allowed, at or past the length too; a range has to be valid. No call allocates.
//! Each looks at the word of the number, and then at sixteen words at a time, or four, up to those
//! that have the position.

use crate::proved::fixedbitset::set::FixedBitSet;
use crate::proved::bitlanes::{IndexRange, Steps};

impl FixedBitSet {
    /// The least position at or past `from` that is set, or `None` where none is.
    ///
    /// ```text
    /// let mut set = FixedBitSet::with_capacity(alloc, 200)?;
    /// set.insert_range(64..130);
    /// assert_eq!(set.next_one(3), Some(64));
    /// assert_eq!(set.next_one(130), None);
    /// ```
    #[inline]
    pub fn next_one(&self, from: usize) -> Option<usize> {
        self.as_bits().next_one(from, &mut Steps::new())
    }

    /// The least position at or past `from` and below the length that is not set, or
    /// `None` where there is none.
    ///
    /// ```text
    /// let mut set = FixedBitSet::with_capacity(alloc, 200)?;
    /// set.insert_range(64..130);
    /// assert_eq!(set.next_zero(64), Some(130));
    /// assert_eq!(set.next_zero(200), None);
    /// ```
    #[inline]
    pub fn next_zero(&self, from: usize) -> Option<usize> {
        self.as_bits().next_zero(from, &mut Steps::new())
    }

    /// The least position at or past `from` that this set and `other` have both, or `None` where
    /// there is none. The lengths are not compared.
    ///
    /// It takes one step for the word of `from`, and one for each lane of four words after it, up
    /// to the one that has the position or to the end of the shorter set.
    ///
    /// ```text
    /// let set = FixedBitSet::from_iter(alloc, [1, 3, 70])?;
    /// let other = FixedBitSet::from_iter(alloc, [3, 64, 70, 500])?;
    /// assert_eq!(set.next_common(&other, 0), Some(3));
    /// assert_eq!(set.next_common(&other, 4), Some(70));
    /// assert_eq!(set.next_common(&other, 71), None);
    /// ```
    #[inline]
    pub fn next_common(&self, other: &Self, from: usize) -> Option<usize> {
        self.as_bits()
            .next_common(other.as_bits(), from, &mut Steps::new())
    }

    /// The position that has exactly `index` positions of the set below it: the first has index 0.
    /// `None` where the set has no more positions than `index`.
    ///
    /// It counts word by word, so it takes one step for each word up to the one that has the
    /// position. Where many such positions are asked for, `Ranks::select` of `bitranks` has a
    /// directory, and looks at eight words at most.
    ///
    /// ```text
    /// let set = FixedBitSet::from_iter(alloc, [3, 64, 70])?;
    /// assert_eq!(set.nth_one(0), Some(3));
    /// assert_eq!(set.nth_one(2), Some(70));
    /// assert_eq!(set.nth_one(3), None);
    /// ```
    #[inline]
    pub fn nth_one(&self, index: usize) -> Option<usize> {
        self.as_bits().nth_one(index, &mut Steps::new())
    }

    /// The least number at or past `from` with `count` clear positions from there on, all below the
    /// length, or `None` where there is none. With a `count` of 0 that is `from`, up to the length.
    ///
    /// It goes from one run of clear positions to the next, so it takes a search or two for each.
    ///
    /// ```text
    /// let mut set = FixedBitSet::from_iter(alloc, [3, 6, 90])?;
    /// assert_eq!(set.first_gap(2, 0), Some(0));
    /// assert_eq!(set.first_gap(3, 1), Some(7));
    /// assert_eq!(set.first_gap(100, 0), None);
    /// ```
    #[inline]
    pub fn first_gap(&self, count: usize, from: usize) -> Option<usize> {
        self.as_bits().first_gap(count, from, &mut Steps::new())
    }

    /// The greatest number with `count` clear positions from there on, all of them below `below`
    /// and below the length, or `None` where there is none. With a `count` of 0 that is `below`, or
    /// the length where that is less.
    ///
    /// It goes over the runs of clear positions, the last one first, so it takes at most two steps
    /// for each run of set positions on the way, two more, and one for each word.
    ///
    /// ```text
    /// let mut set = FixedBitSet::from_iter(alloc, [3, 6, 90])?;
    /// assert_eq!(set.last_gap(2, 90), Some(88));
    /// assert_eq!(set.last_gap(3, 9), Some(0));
    /// assert_eq!(set.last_gap(100, 90), None);
    /// ```
    #[inline]
    pub fn last_gap(&self, count: usize, below: usize) -> Option<usize> {
        self.as_bits().last_gap(count, below, &mut Steps::new())
    }

    /// The least multiple of `align` in the range with `count` clear positions from there on, all
    /// in the range, or `None` where there is none. With a `count` of 0 that may be the end of the
    /// range. The only multiple of 0 is 0. The range must be valid, as that of
    /// [`count_ones`](Self::count_ones).
    ///
    /// It looks for a run, and where that begins at no multiple, again from the next multiple on.
    /// So it takes at most two steps for each lane of four words of the range, and two for each
    /// multiple that may stand in it.
    ///
    /// ```text
    /// let mut set = FixedBitSet::from_iter(alloc, [3, 6, 90])?;
    /// assert!(set.len() == 91 && set.first_aligned_gap(3, 4, 1..) == Some(8));
    /// assert_eq!(set.first_aligned_gap(3, 4, 9..), Some(12));
    /// assert_eq!(set.first_aligned_gap(3, 4, 9..14), None);
    /// ```
    #[inline]
    pub fn first_aligned_gap<R: IndexRange<usize>>(
        &self,
        count: usize,
        align: usize,
        range: R,
    ) -> Option<usize> {
        let start = range.start().unwrap_or(0);
        let end = range.end().unwrap_or(self.len());
        self.as_bits()
            .first_aligned_gap(count, align, start, end, &mut Steps::new())
    }

    /// The greatest position below `below` that is set, or `None` where none is.
    ///
    /// ```text
    /// let mut set = FixedBitSet::with_capacity(alloc, 200)?;
    /// set.insert_range(64..130);
    /// assert_eq!(set.previous_one(usize::MAX), Some(129));
    /// assert_eq!(set.previous_one(64), None);
    /// ```
    #[inline]
    pub fn previous_one(&self, below: usize) -> Option<usize> {
        self.as_bits().previous_one(below, &mut Steps::new())
    }

    /// The greatest position below `below` and below the length that is not set, or
    /// `None` where there is none.
    ///
    /// ```text
    /// let mut set = FixedBitSet::with_capacity(alloc, 200)?;
    /// set.insert_range(64..130);
    /// assert_eq!(set.previous_zero(130), Some(63));
    /// assert_eq!(set.previous_zero(0), None);
    /// ```
    #[inline]
    pub fn previous_zero(&self, below: usize) -> Option<usize> {
        self.as_bits().previous_zero(below, &mut Steps::new())
    }
}
