// Made by front/erase from crates/bitlanes/src/range.rt: change that, and not this.
//! A range of indices, given by its two ends.

use core::ops::{Range, RangeFrom, RangeFull, RangeInclusive, RangeTo, RangeToInclusive};

/// Two ends, each of which may be absent. An absent start stands for the first index, and an absent
/// end for the length of what the range is taken of.
///
/// An implementation states which ends it means, and its calls return them. Upstream's trait has
/// bodies that return `None`; here each implementation writes both.
///
/// ```text
/// let range = 60..=69;
/// assert_eq!(IndexRange::start(&range), Some(60));
/// assert_eq!(IndexRange::end(&range), Some(70));
/// assert_eq!(IndexRange::end(&(60..)), None);
/// assert_eq!(IndexRange::end(&(0..=usize::MAX)), Some(usize::MAX));
/// ```
pub trait IndexRange<T> {
    /// The first index of the range, or `None`.
    fn start(&self) -> Option<T>;

    /// The index after the last of the range, or `None`.
    fn end(&self) -> Option<T>;
}

impl<T> IndexRange<T> for RangeFull {
    #[inline]
    fn start(&self) -> Option<T> {
        None
    }

    #[inline]
    fn end(&self) -> Option<T> {
        None
    }
}

impl<T: Copy> IndexRange<T> for RangeFrom<T> {
    #[inline]
    fn start(&self) -> Option<T> {
        Some(self.start) // of `start..`
    }

    #[inline]
    fn end(&self) -> Option<T> {
        None // of `start..`
    }
}

impl<T: Copy> IndexRange<T> for RangeTo<T> {
    #[inline]
    fn start(&self) -> Option<T> {
        None // of `..end`
    }

    #[inline]
    fn end(&self) -> Option<T> {
        Some(self.end) // of `..end`
    }
}

impl<T: Copy> IndexRange<T> for Range<T> {
    #[inline]
    fn start(&self) -> Option<T> {
        Some(self.start) // of `start..end`
    }

    #[inline]
    fn end(&self) -> Option<T> {
        Some(self.end) // of `start..end`
    }
}

/// The indices from the start up to and with the end, which the range returns at the call.
///
/// So the end that it means is the index after `end()`. After `usize::MAX` there is none: the end
/// is then `usize::MAX` itself, and no sum wraps.
///
/// A range that was iterated over means what its two calls `start()` and `end()` return from then
/// on, also where its iteration has ended: such a range is not empty here.
impl IndexRange<usize> for RangeInclusive<usize> {
    #[inline]
    fn start(&self) -> Option<usize> {
        Some(*RangeInclusive::start(self)) // of `start..=last`
    }

    #[inline]
    fn end(&self) -> Option<usize> {
        Some(RangeInclusive::end(self).saturating_add(1)) // of `start..=last`
    }
}

/// The indices up to and with the end. As above, the end that it means is the index after it, and
/// after `usize::MAX` that number itself.
impl IndexRange<usize> for RangeToInclusive<usize> {
    #[inline]
    fn start(&self) -> Option<usize> {
        None // of `..=last`
    }

    #[inline]
    fn end(&self) -> Option<usize> {
        Some(self.end.saturating_add(1)) // of `..=last`
    }
}
