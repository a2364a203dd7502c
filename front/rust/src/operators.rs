//! Operators, and sets from positions. Each makes one proved call, but for `&a - &b` and `!&a`, which change a copy.
use crate::memory::OrAbort;
use crate::{ArrayBitSet, Bits, BitsMut, FixedBitSet};
use alloc::vec::Vec;
use core::ops::{BitAnd, BitAndAssign, BitOr, BitOrAssign, BitXor, BitXorAssign};
use core::ops::{Index, Not, Sub, SubAssign};

/// Declares an operator that makes a set of two: of two that stay, and of one that is given up. Then the ones that change a set.
macro_rules! operators {
    ($($name:ident $call:ident $changing:ident $change:ident $join:ident, |$one:ident, $other:ident| $made:expr, $of_own:expr;)*) => { $(
        /// Proved: the set, for any two sets (contracts of [`&`, `|` and `^`](crate::contracts#fixedbitsetwhole) and of
        /// [`-`](crate::contracts#fixedbitsetbitsmutdifference_with)).
        impl $name for &FixedBitSet {
            type Output = FixedBitSet;

            #[inline]
            fn $call(self, other: &FixedBitSet) -> FixedBitSet {
                let ($one, $other) = (self, other);
                $made
            }
        }

        /// Proved: the set, as that of two that stay ([contract](crate::contracts#fixedbitsetwhole)).
        impl $name<&FixedBitSet> for FixedBitSet {
            type Output = FixedBitSet;

            #[inline]
            fn $call(self, other: &FixedBitSet) -> FixedBitSet {
                #[allow(unused_mut)]
                let (mut $one, $other) = (self, other);
                $of_own
            }
        }

        /// Proved: the set, as that of two that stay ([contract](crate::contracts#fixedbitsetwhole)).
        impl $name for FixedBitSet {
            type Output = FixedBitSet;

            #[inline]
            fn $call(self, other: FixedBitSet) -> FixedBitSet {
                self.$call(&other)
            }
        }

        /// Proved: the set, as that of two that stay ([contract](crate::contracts#fixedbitsetwhole)).
        impl $name<FixedBitSet> for &FixedBitSet {
            type Output = FixedBitSet;

            #[inline]
            fn $call(self, other: FixedBitSet) -> FixedBitSet {
                self.$call(&other)
            }
        }

        /// Proved: what it leaves, for any two sets ([contract](crate::contracts#fixedbitsetwhole)).
        impl $changing for FixedBitSet {
            fn $change(&mut self, other: Self) {
                self.$join(&other);
            }
        }

        /// Proved: what it leaves, for any two sets ([contract](crate::contracts#fixedbitsetwhole)).
        impl $changing<&Self> for FixedBitSet {
            fn $change(&mut self, other: &Self) {
                self.$join(other);
            }
        }

        /// **Panics** where it would set a position of a longer set. Proved: what it leaves, wherever it does not panic
        /// ([contract](crate::contracts#fixedbitsetviews)).
        impl $changing<Bits<'_>> for BitsMut<'_> {
            #[track_caller]
            fn $change(&mut self, other: Bits<'_>) {
                self.$join(other);
            }
        }
    )* };
}
operators! {
    BitAnd bitand BitAndAssign bitand_assign intersect_with,
        |one, other| FixedBitSet { set: one.set.bitand(&other.set).or_abort() }, BitAnd::bitand(&one, other);
    BitOr bitor BitOrAssign bitor_assign union_with,
        |one, other| FixedBitSet { set: one.set.bitor(&other.set).or_abort() }, { one.union_with(other); one };
    BitXor bitxor BitXorAssign bitxor_assign symmetric_difference_with,
        |one, other| FixedBitSet { set: one.set.bitxor(&other.set).or_abort() }, { one.symmetric_difference_with(other); one };
    Sub sub SubAssign sub_assign difference_with,
        |one, other| one.clone() - other, { one.difference_with(other); one };
}

/// Proved: what it leaves, for all sets ([contract](crate::contracts#fixedbitsetbitsmuttoggle_range)).
impl Not for FixedBitSet {
    type Output = FixedBitSet;

    /// The complement: the positions below the length that are clear.
    #[inline]
    fn not(mut self) -> FixedBitSet {
        self.toggle_range(..);
        self
    }
}

/// Proved: the set, as that of one that is given up ([contract](crate::contracts#fixedbitsetbitsmuttoggle_range)).
impl Not for &FixedBitSet {
    type Output = FixedBitSet;

    /// The complement: the positions below the length that are clear.
    fn not(self) -> FixedBitSet {
        !self.clone()
    }
}

/// Declares that `set[bit]` is `set.contains(bit)`.
macro_rules! indices {
    ($($name:ty $(where [$($of:tt)*])? $(, $lent:ident)?;)*) => { $(
        /// Proved: the result, for all sets and all numbers ([contract](crate::contracts#fixedbitsetbitscontains)).
        impl$(<$($of)*>)? Index<usize> for $name {
            type Output = bool;

            /// Whether the position is set. At or past the length none is.
            #[inline]
            fn index(&self, bit: usize) -> &bool {
                if self$(.$lent())?.contains(bit) {
                    &true
                } else {
                    &false
                }
            }
        }
    )* };
}
indices! {
    FixedBitSet;
    Bits<'_>;
    BitsMut<'_>, as_bits;
    ArrayBitSet<WORDS> where [const WORDS: usize];
}

/// Proved: what each position leaves, once the length is great enough ([contract](crate::contracts#fixedbitsetbitsmutinsert)).
impl Extend<usize> for FixedBitSet {
    /// Sets each position, and makes the length greater where one needs it. **Panics** at the position `usize::MAX`.
    #[track_caller]
    fn extend<I: IntoIterator<Item = usize>>(&mut self, positions: I) {
        self.try_extend(positions).or_abort();
    }
}

/// Proved: what each position leaves, once the length is great enough ([contract](crate::contracts#fixedbitsetbitsmutinsert)).
impl FromIterator<usize> for FixedBitSet {
    /// The set of these positions, with the least length that has them. **Panics** at the position `usize::MAX`.
    #[track_caller]
    fn from_iter<I: IntoIterator<Item = usize>>(positions: I) -> Self {
        Self::try_from_iter(positions).or_abort()
    }
}

/// Declares that a list of positions becomes the set of them.
macro_rules! lists {
    ($($name:ty $(where [$($of:tt)*])?;)*) => { $(
        /// Proved: what each position leaves, once the length is great enough
        /// ([contract](crate::contracts#fixedbitsetbitsmutinsert)).
        impl$(<$($of)*>)? From<$name> for FixedBitSet {
            /// The set of these positions, with the least length that has them. **Panics** at the position `usize::MAX`.
            #[track_caller]
            fn from(positions: $name) -> Self {
                Self::from_iter(positions)
            }
        }
    )* };
}
lists! {
    [usize; COUNT] where [const COUNT: usize];
    Vec<usize>;
}
