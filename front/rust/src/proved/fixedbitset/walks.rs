// Made by front/erase from crates/fixedbitset/src/walks.rt: change that, and not this.
//! Iterators over one set: the positions that are set, and those that are not.
//!
//! The iterators themselves are types of `bitwalks`. A call of an iterator makes one turn, and one
//! more for each word that it takes; after `None` from one end each end returns `None` for good.
//! Proofs see the items left, the words that no call has taken yet, and the counts of turns and of
//! words taken, which take no bytes when the program runs.

use crate::proved::fixedbitset::set::FixedBitSet;
use crate::proved::bitlanes::IndexRange;
use crate::proved::bitlanes::word::BITS;
use crate::proved::bitwalks::runs::Runs;
use crate::proved::bitwalks::walks::{IntoOnes, Ones, Zeroes};

impl FixedBitSet {
    /// The set positions, in ascending order. It does not allocate, and reads the first and the
    /// last word; those between are not yet taken.
    ///
    /// ```text
    /// let set = FixedBitSet::from_iter(alloc, [64, 3])?;
    /// let items: Vec<usize> = set.ones().collect(alloc)?;
    /// assert_eq!(items.as_slice(), [3, 64].as_slice());
    /// ```
    #[inline]
    pub fn ones(&self) -> Ones<'_> {
        Ones::over(self.used_words())
    }

    /// The set positions, in ascending order, from an iterator that owns the words of the set. It
    /// does not allocate, and reads the first and the last word; those between are not yet taken.
    ///
    /// ```text
    /// let set = FixedBitSet::from_iter(alloc, [64, 3, 9])?;
    /// let items: Vec<usize> = set.into_ones().rev().collect(alloc)?;
    /// assert_eq!(items.as_slice(), [64, 9, 3].as_slice());
    /// ```
    #[inline]
    pub fn into_ones(self) -> IntoOnes {
        let FixedBitSet { mut words, length } = self;
        words.truncate(length.div_ceil(BITS));
        IntoOnes::over(words)
    }

    /// The positions below the length that are not set, in ascending order. It does not allocate,
    /// and reads the first and the last word; those between are not yet taken.
    ///
    /// ```text
    /// let mut set = FixedBitSet::with_capacity(alloc, 66)?;
    /// set.insert_range(1..65);
    /// let items: Vec<usize> = set.zeroes().collect(alloc)?;
    /// assert_eq!(items.as_slice(), [0, 65].as_slice());
    /// ```
    #[inline]
    pub fn zeroes(&self) -> Zeroes<'_> {
        Zeroes::within(self.used_words(), 0, self.length)
    }

    /// The set positions of the range, in ascending order. The range must be valid, as that of
    /// [`count_ones`](Self::count_ones).
    ///
    /// It does not allocate, and takes no other words than those that hold a position of the range.
    /// Upstream has no such call.
    ///
    /// ```text
    /// let mut set = FixedBitSet::with_capacity(alloc, 200)?;
    /// set.insert_range(60..130);
    /// assert!(set.ones_in(128..).eq([128, 129]));
    /// assert_eq!(set.ones_in(..=60).next(), Some(60));
    /// ```
    #[inline]
    pub fn ones_in<R: IndexRange<usize>>(&self, range: R) -> Ones<'_> {
        let start = range.start().unwrap_or(0);
        let end = range.end().unwrap_or(self.length);
        Ones::within(self.used_words(), start, end)
    }

    /// The positions of the range that are not set, in ascending order. The range must be valid.
    ///
    /// It does not allocate, and takes no other words than those that hold a position of the range.
    /// Upstream has no such call.
    ///
    /// ```text
    /// let mut set = FixedBitSet::with_capacity(alloc, 200)?;
    /// set.insert_range(60..130);
    /// assert!(set.zeroes_in(58..132).eq([58, 59, 130, 131]));
    /// ```
    #[inline]
    pub fn zeroes_in<R: IndexRange<usize>>(&self, range: R) -> Zeroes<'_> {
        let start = range.start().unwrap_or(0);
        let end = range.end().unwrap_or(self.length);
        Zeroes::within(self.used_words(), start, end)
    }

    /// The runs of set positions, as start and end, in ascending order: a run has the positions
    /// from its start up to and without its end, and those before and after it are clear or past
    /// the ends of the set.
    ///
    /// It does not allocate. A run costs by its words, and not by its positions. Upstream has no
    /// such call.
    ///
    /// ```text
    /// let mut set = FixedBitSet::with_capacity(alloc, 200)?;
    /// set.insert_range(60..130);
    /// set.insert(3);
    /// assert!(set.runs().eq([(3, 4), (60, 130)]));
    /// ```
    #[inline]
    pub fn runs(&self) -> Runs<'_> {
        Runs::below(self.used_words(), true, self.length)
    }

    /// The runs of positions below the length that are not set, as start and end, in ascending
    /// order.
    ///
    /// It does not allocate. A run costs by its words, and not by its positions. Upstream has no
    /// such call.
    ///
    /// ```text
    /// let mut set = FixedBitSet::with_capacity(alloc, 200)?;
    /// set.insert_range(60..130);
    /// assert!(set.zero_runs().eq([(0, 60), (130, 200)]));
    /// ```
    #[inline]
    pub fn zero_runs(&self) -> Runs<'_> {
        Runs::below(self.used_words(), false, self.length)
    }
}
