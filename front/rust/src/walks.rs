//! The iterators over positions. A call is one of a proved iterator; `min`, `max` and `fold` of two in turn make calls of both.
use crate::proved::bitlanes::ops::{And, AndNot};
use crate::proved::bitlanes::word::take_lowest_bit;
use crate::proved::bitlanes::Steps;
use crate::proved::bitwalks::{self, in_turn::InTurn};
use crate::proved::bitwords::cursors::{Beside, Cursor, Inverted, Plain};
use crate::{panics, ArrayBitSet, Bits, Block, FixedBitSet};
use core::fmt::{Debug, Formatter, Result};
use core::iter::FusedIterator;

/// The calls of an iterator that ascends. `max` is one call from the back, as `last` is of each.
macro_rules! ascending {
    () => {
        #[inline]
        fn size_hint(&self) -> (usize, Option<usize>) {
            self.walk.size_hint()
        }

        #[inline]
        fn count(self) -> usize {
            self.walk.count_left(&mut Steps::new())
        }

        #[inline]
        fn min(mut self) -> Option<usize> {
            self.next()
        }

        #[inline]
        fn max(mut self) -> Option<usize> {
            self.next_back()
        }
    };
}

/// The calls of two iterators in turn, each of which ascends.
macro_rules! in_turn {
    () => {
        #[inline]
        fn size_hint(&self) -> (usize, Option<usize>) {
            (0, self.walk.most())
        }

        #[inline]
        fn count(self) -> usize {
            self.walk.count_left(&mut Steps::new())
        }

        #[inline]
        fn min(self) -> Option<usize> {
            let (first, second) = self.walk.into_walks();
            first.take(1).chain(second.take(1)).min()
        }

        #[inline]
        fn max(self) -> Option<usize> {
            let (mut first, mut second) = self.walk.into_walks();
            first.next_back().max(second.next_back())
        }

        #[inline]
        fn fold<B, F: FnMut(B, usize) -> B>(self, init: B, mut f: F) -> B {
            let (first, second) = self.walk.into_walks();
            let begun = first.fold(init, &mut f);
            second.fold(begun, f)
        }
    };
}

/// The calls of an iterator over runs, between any two of which there is a position.
macro_rules! apart {
    () => {
        #[inline]
        fn size_hint(&self) -> (usize, Option<usize>) {
            let left = self.walk.clone().into_held();
            (0, Some((left.high - left.low).div_ceil(2)))
        }
    };
}

/// Declares iterators over proved ones, with their traits: of each its item, the calls from its ends, how its text lists the
/// items, and its other calls.
macro_rules! walks {
    ($(
        $(#[$head:meta])*
        pub struct $name:ident$(<$life:lifetime>)?: $walk:ty
            => $item:ty, $first:ident, $last:ident, $listed:ident, $others:ident;
    )*) => { $(
        $(#[$head])*
        pub struct $name$(<$life>)? {
            pub(crate) walk: $walk,
        }

        /// Proved: each item, the hint of size and the count, for any mix of calls from both ends: of
        /// [one iterator](crate::contracts#bitwordscursorscursor-as-iterator), whose count is
        /// [count_left](crate::contracts#bitwordscursorscursorcount_left), and of
        /// [two in turn](crate::contracts#bitwalksin_turninturntake_first), whose hint is
        /// [most](crate::contracts#bitwalksin_turninturnmost) and whose count is
        /// [count_left](crate::contracts#bitwalksin_turninturncount_left); each item of
        /// [runs](crate::contracts#bitwalksruns-as-iterator). Other calls are put together from these. The hint of runs is not
        /// proved: half of the positions that are left.
        impl$(<$life>)? Iterator for $name$(<$life>)? {
            type Item = $item;

            #[inline]
            fn next(&mut self) -> Option<$item> {
                self.walk.$first()
            }

            #[inline]
            fn last(mut self) -> Option<$item> {
                self.next_back()
            }

            $others!();
        }

        /// Proved: each item, for any mix of calls from both ends: of
        /// [one iterator](crate::contracts#bitwordscursorscursor-as-doubleendediterator), of
        /// [two in turn](crate::contracts#bitwalksin_turninturntake_last), of
        /// [runs](crate::contracts#bitwalksruns-as-doubleendediterator).
        impl$(<$life>)? DoubleEndedIterator for $name$(<$life>)? {
            #[inline]
            fn next_back(&mut self) -> Option<$item> {
                self.walk.$last()
            }
        }

        /// Proved: that no item follows the first `None`: of [one iterator](crate::contracts#bitwordscursorscursor-as-iterator), of
        /// [two in turn](crate::contracts#bitwalksin_turninturntake_first), of [runs](crate::contracts#bitwalksruns-as-iterator).
        impl$(<$life>)? FusedIterator for $name$(<$life>)? {}

        /// Proved: the items: of [one iterator](crate::contracts#bitwordscursorscursor-as-iterator), of
        /// [two in turn](crate::contracts#bitwalksin_turninturntake_first), of [runs](crate::contracts#bitwalksruns-as-iterator).
        /// The text around them is not.
        impl$(<$life>)? Debug for $name$(<$life>)? {
            /// The items that are left.
            fn fmt(&self, f: &mut Formatter<'_>) -> Result {
                let walk = self.walk.clone();
                f.$listed().entries(Self { walk }).finish()
            }
        }
    )* };
}
walks! {
    /// The iterator of [`FixedBitSet::ones`](crate::FixedBitSet::ones) and of [`FixedBitSet::ones_in`](crate::FixedBitSet::ones_in).
    ///
    /// Proved: each item that it gives, in any mix of calls from both ends
    /// ([contract](crate::contracts#fixedbitsetbitsones)).
    ///
    /// ```
    /// # use fixedbitset::FixedBitSet;
    /// let set: FixedBitSet = [9, 3, 70].into_iter().collect();
    /// let mut walk = set.ones();
    /// assert_eq!((walk.next_back(), format!("{walk:?}")), (Some(70), "{3, 9}".to_string()));
    /// ```
    #[derive(Clone)]
    pub struct Ones<'a>: Cursor<Plain<'a>> => usize, next, next_back, debug_set, ascending;

    /// The iterator of [`FixedBitSet::zeroes`](crate::FixedBitSet::zeroes) and of
    /// [`FixedBitSet::zeroes_in`](crate::FixedBitSet::zeroes_in).
    ///
    /// Proved: each item that it gives, in any mix of calls from both ends
    /// ([contract](crate::contracts#fixedbitsetbitszeroes)).
    ///
    /// ```
    /// # use fixedbitset::FixedBitSet;
    /// let mut walk = FixedBitSet::with_capacity(10);
    /// assert_eq!(walk.zeroes().next_back(), Some(9));
    /// ```
    #[derive(Clone)]
    pub struct Zeroes<'a>: Cursor<Inverted<'a>> => usize, next, next_back, debug_set, ascending;

    /// The iterator of [`FixedBitSet::intersection`](crate::FixedBitSet::intersection).
    ///
    /// Proved: each item that it gives, in any mix of calls from both ends
    /// ([contract](crate::contracts#fixedbitsetbitsintersection)).
    ///
    /// ```
    /// # use fixedbitset::FixedBitSet;
    /// let set: FixedBitSet = [1, 3].into_iter().collect();
    /// assert_eq!(set.intersection(&set).next_back(), Some(3));
    /// ```
    #[derive(Clone)]
    pub struct Intersection<'a>: Cursor<Beside<'a, And>>
        => usize, next, next_back, debug_set, ascending;

    /// The iterator of [`FixedBitSet::difference`](crate::FixedBitSet::difference).
    ///
    /// Proved: each item that it gives, in any mix of calls from both ends
    /// ([contract](crate::contracts#fixedbitsetbitsdifference)).
    ///
    /// ```
    /// # use fixedbitset::FixedBitSet;
    /// let set: FixedBitSet = [1, 3].into_iter().collect();
    /// assert_eq!(set.difference(&FixedBitSet::new()).next_back(), Some(3));
    /// ```
    #[derive(Clone)]
    pub struct Difference<'a>: Cursor<Beside<'a, AndNot>>
        => usize, next, next_back, debug_set, ascending;

    /// The iterator of [`FixedBitSet::into_ones`](crate::FixedBitSet::into_ones).
    ///
    /// Proved: each item that it gives, in any mix of calls from both ends
    /// ([contract](crate::contracts#bitwordscursorscursorover)).
    ///
    /// ```
    /// # use fixedbitset::{FixedBitSet, IntoOnes};
    /// let walk: IntoOnes = FixedBitSet::with_capacity(10).into_ones();
    /// assert_eq!(walk.count(), 0);
    /// ```
    pub struct IntoOnes: bitwalks::IntoOnes => usize, next, next_back, debug_set, ascending;

    /// The iterator of [`FixedBitSet::union`](crate::FixedBitSet::union). From the back it begins with what the second set alone has.
    ///
    /// Proved: each item that it gives, in any mix of calls from both ends
    /// ([first](crate::contracts#bitwalksin_turninturntake_first), [last](crate::contracts#bitwalksin_turninturntake_last)).
    ///
    /// ```
    /// # use fixedbitset::FixedBitSet;
    /// let (set, other): (FixedBitSet, FixedBitSet) = ([1, 3].into_iter().collect(), [2, 3].into_iter().collect());
    /// assert_eq!(set.union(&other).next_back(), Some(2));
    /// ```
    #[derive(Clone)]
    pub struct Union<'a>: InTurn<Cursor<Plain<'a>>, Cursor<Beside<'a, AndNot>>>
        => usize, take_first, take_last, debug_set, in_turn;

    /// The iterator of [`FixedBitSet::symmetric_difference`](crate::FixedBitSet::symmetric_difference). From the back it begins with
    /// what the second set alone has.
    ///
    /// Proved: each item that it gives, in any mix of calls from both ends
    /// ([first](crate::contracts#bitwalksin_turninturntake_first), [last](crate::contracts#bitwalksin_turninturntake_last)).
    ///
    /// ```
    /// # use fixedbitset::FixedBitSet;
    /// let (set, other): (FixedBitSet, FixedBitSet) = ([1, 3].into_iter().collect(), [2, 3].into_iter().collect());
    /// assert_eq!(set.symmetric_difference(&other).next_back(), Some(2));
    /// ```
    #[derive(Clone)]
    pub struct SymmetricDifference<'a>: InTurn<Cursor<Beside<'a, AndNot>>, Cursor<Beside<'a, AndNot>>>
        => usize, take_first, take_last, debug_set, in_turn;

    /// The iterator of [`FixedBitSet::runs`](crate::FixedBitSet::runs) and of
    /// [`FixedBitSet::zero_runs`](crate::FixedBitSet::zero_runs).
    ///
    /// Proved: each run that it gives, in any mix of calls from both ends ([contract](crate::contracts#fixedbitsetbitsruns)).
    ///
    /// ```
    /// # use fixedbitset::FixedBitSet;
    /// let set: FixedBitSet = [3, 4, 9].into_iter().collect();
    /// let mut walk = set.runs();
    /// assert_eq!((walk.next_back(), format!("{walk:?}")), (Some((9, 10)), "[(3, 5)]".to_string()));
    /// ```
    #[derive(Clone)]
    pub struct Runs<'a>: bitwalks::Runs<'a> => (usize, usize), next, next_back, debug_list, apart;
}

/// Declares that `for position in set` goes over the positions of the set.
macro_rules! loops {
    ($($name:ty $(where [$($of:tt)*])? => $walk:ty, $ones:ident;)*) => { $(
        /// Proved: each item ([contract](crate::contracts#fixedbitsetbitsones)).
        impl$(<$($of)*>)? IntoIterator for $name {
            type Item = usize;
            type IntoIter = $walk;

            #[inline]
            fn into_iter(self) -> $walk {
                self.$ones()
            }
        }
    )* };
}
loops! {
    FixedBitSet => IntoOnes, into_ones;
    &'a FixedBitSet where ['a] => Ones<'a>, ones;
    Bits<'a> where ['a] => Ones<'a>, ones;
    &'a ArrayBitSet<WORDS> where ['a, const WORDS: usize] => Ones<'a>, ones;
}

impl Ones<'_> {
    /// Clears the lowest bit of the word that is set, and returns its index.
    ///
    /// **Panics** where the word is 0.
    ///
    /// Proved: the result and the word that it leaves, for each word but 0
    /// ([contract](crate::contracts#bitlaneswordtake_lowest_bit)).
    ///
    /// ```
    /// # use fixedbitset::Ones;
    /// let mut word = 0b1100;
    /// assert_eq!((Ones::last_positive_bit_and_unset(&mut word), word), (2, 0b1000));
    /// ```
    #[inline]
    #[track_caller]
    pub fn last_positive_bit_and_unset(n: &mut Block) -> usize {
        if *n == 0 {
            panics::no_bit();
        }
        take_lowest_bit(n)
    }
}

impl IntoOnes {
    /// The same as [`Ones::last_positive_bit_and_unset`].
    ///
    /// Proved: the result and the word that it leaves, for each word but 0
    /// ([contract](crate::contracts#bitlaneswordtake_lowest_bit)).
    ///
    /// ```
    /// # use fixedbitset::IntoOnes;
    /// let mut word = 0b1100;
    /// assert_eq!((IntoOnes::last_positive_bit_and_unset(&mut word), word), (2, 0b1000));
    /// ```
    #[inline]
    #[track_caller]
    pub fn last_positive_bit_and_unset(n: &mut Block) -> usize {
        Ones::last_positive_bit_and_unset(n)
    }
}
