//! The length of a set over borrowed words that may change, and the panics of the calls that change a set.
use crate::{panics, Bits, BitsMut, FixedBitSet};

/// Declares a test of what a call asks, which panics where that does not hold.
macro_rules! asserts {
    ($($(#[$doc:meta])* $name:ident(&$set:ident, $($given:ident: $type:ty),*) $wrong:expr => $panic:expr;)*) => { $(
        $(#[$doc])*
        #[inline]
        #[track_caller]
        pub(crate) fn $name(&$set, $($given: $type),*) {
            if $wrong {
                $panic;
            }
        }
    )* };
}
pub(crate) use asserts;

impl BitsMut<'_> {
    /// [`FixedBitSet::len`](crate::FixedBitSet::len).
    ///
    /// Not proved: it returns the number that is kept.
    ///
    /// ```
    /// # use fixedbitset::BitsMut;
    /// let mut words = [9, 2, 0, 0];
    /// assert_eq!(BitsMut::over(&mut words, 70).unwrap().len(), 70);
    /// ```
    #[inline]
    #[must_use]
    pub fn len(&self) -> usize {
        self.view.length
    }

    /// [`FixedBitSet::is_empty`](crate::FixedBitSet::is_empty).
    ///
    /// Not proved: it compares the number that is kept.
    ///
    /// ```
    /// # use fixedbitset::BitsMut;
    /// assert!(BitsMut::over(&mut [], 0).unwrap().is_empty());
    /// ```
    #[inline]
    #[must_use]
    pub fn is_empty(&self) -> bool {
        self.len() == 0
    }

    asserts! {
        assert_below(&self, call: &str, bit: usize)
            bit >= self.len() => panics::past(call, bit, self.len());
        assert_needed(&self, call: &str, index: usize)
            index >= self.as_bits().as_slice().len() => panics::past(call, index, self.len());
        assert_room(&self, at: usize, count: usize)
            at > self.len() || count > self.len() - at => panics::no_room(at, count, self.len());
        assert_no_longer(&self, other: Bits<'_>)
            other.len() > self.len() => panics::longer(other.len(), self.len());
        assert_length(&self, length: usize)
            length != self.len() => panics::unfit(length, self.len());
    }

    /// Names the first position past the length. Whether there is one is found with no branch, so rustc makes vectors of it.
    #[inline]
    #[track_caller]
    pub(crate) fn assert_all_below(&self, call: &str, positions: &[usize]) {
        let length = self.len();
        if positions.iter().filter(|bit| **bit >= length).count() > 0 {
            if let Some(past) = positions.iter().find(|bit| **bit >= length) {
                self.assert_below(call, *past);
            }
        }
    }
}

impl FixedBitSet {
    asserts! {
        /// (No length is greater than that position.)
        assert_position(&self, bit: usize)
            bit == usize::MAX => panics::no_position();
        assert_sum(&self, other: &FixedBitSet)
            self.len().checked_add(other.len()).is_none() => panics::no_length();
    }
}

#[cfg(test)]
mod tests {
    use crate::FixedBitSet;

    #[test]
    #[should_panic(expected = "no set has so great a length")]
    fn a_length_past_the_greatest_panics() {
        let mut set = FixedBitSet::of_length(usize::MAX);
        set.append(&FixedBitSet::with_capacity(1));
    }
}
