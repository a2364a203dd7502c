//! The length of a set over borrowed words, the ends of a range of it, and the panics of the calls that read one.
use crate::changes::asserts;
use crate::{panics, Bits, IndexRange};

impl Bits<'_> {
    /// [`FixedBitSet::len`](crate::FixedBitSet::len).
    ///
    /// Not proved: it returns the number that is kept.
    ///
    /// ```
    /// # use fixedbitset::Bits;
    /// let set = Bits::over(&[9, 2, 0, 0], 70).unwrap();
    /// assert_eq!(set.len(), 70);
    /// ```
    #[inline]
    #[must_use]
    pub fn len(self) -> usize {
        self.view.length
    }

    /// [`FixedBitSet::is_empty`](crate::FixedBitSet::is_empty).
    ///
    /// Not proved: it compares the number that is kept.
    ///
    /// ```
    /// # use fixedbitset::Bits;
    /// assert!(Bits::over(&[], 0).unwrap().is_empty());
    /// ```
    #[inline]
    #[must_use]
    pub fn is_empty(self) -> bool {
        self.len() == 0
    }

    asserts! {
        /// The panic of a list of results that is not as long as that of the positions.
        assert_like(&self, positions: &[usize], answers: &[bool])
            positions.len() != answers.len() => panics::unlike(answers.len(), positions.len());
    }

    #[inline]
    pub(crate) fn ends<T: IndexRange>(self, range: &T) -> (usize, usize) {
        let start = range.start().unwrap_or(0);
        (start, range.end().unwrap_or(self.len()))
    }

    /// The ends of a range, which has to be valid.
    #[inline]
    #[track_caller]
    pub(crate) fn part<T: IndexRange>(self, range: &T) -> (usize, usize) {
        let (start, end) = self.ends(range);
        if !self.view.range_is_valid(start, end) {
            panics::not_valid(start, end, self.len());
        }
        (start, end)
    }

    /// Panics where so many positions from `start` on do not fit a number, or are not below the length.
    #[inline]
    #[track_caller]
    pub(crate) fn assert_part(self, start: usize, width: usize) {
        if width > 64 {
            panics::wide(width);
        }
        let length = self.len();
        if start > length || width > length - start {
            panics::not_valid(start, start.saturating_add(width), length);
        }
    }
}
