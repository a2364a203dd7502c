// Made by front/erase from crates/bitwalks/src/walks.rt: change that, and not this.
//! The positions of a row of words one by one, in ascending order: those that are set,
//! and those that are not.
//!
//! Each iterator stands on the one cursor of `bitwords`. It makes one turn a call, and one more for
//! each word that it takes. Proofs see the items left, the words that no call has taken yet, and
//! the counts of turns and of words taken; the counts take no bytes when the program runs.
//!
//! `Drop` is written by hand and not derived: an iterator that is dropped is then one call, and the
//! proof of a loop with a `return` keeps what it knows of the items.

use crate::shim::prelude::Vec;
use crate::proved::bitwalks::in_turn::Part;
use crate::proved::bitlanes::counter::Steps;
use crate::proved::bitlanes::word::{Block, take_lowest_bit};
use crate::proved::bitwords::cursors::{Cursor, Inverted, Plain, ones_within, zeroes_within};
use crate::shim::alloc::Global;
use core::iter::FusedIterator;
use alloc::vec;

/// The positions that are set, in ascending order. A set makes it by `ones`, and by `ones_in`.
///
/// It borrows the words and does not allocate.
///
/// ```text
/// let set = FixedBitSet::from_iter(alloc, [3, 9, 200])?;
/// let mut walk = set.ones();
/// assert_eq!(walk.next_back(), Some(200));
/// assert_eq!(walk.next(), Some(3));
/// assert!(walk.eq([9]));
/// ```
#[derive(Clone)]
pub struct Ones<'a> {
    ones: Cursor<Plain<'a>>,
}

/// The positions that are set, in ascending order. A set becomes it by `into_ones`.
///
/// It owns the words.
///
/// ```text
/// let set = FixedBitSet::from_iter(alloc, [3, 9, 200])?;
/// let mut walk = set.into_ones();
/// assert_eq!(walk.next_back(), Some(200));
/// assert_eq!(walk.next(), Some(3));
/// assert!(walk.eq([9]));
/// ```
#[derive(Clone)]
pub struct IntoOnes {
    owned: Cursor<vec::IntoIter<Block>>,
}

/// The positions below a length that are not set, in ascending order. A set makes it by
/// `zeroes`, and by `zeroes_in`.
///
/// It borrows the words and does not allocate. Proofs see the words with each bit inverted.
///
/// ```text
/// let set = FixedBitSet::from_iter(alloc, [1, 4])?;
/// let mut walk = set.zeroes();
/// assert_eq!(walk.next_back(), Some(3));
/// assert_eq!(walk.next(), Some(0));
/// assert!(walk.eq([2]));
/// ```
#[derive(Clone)]
pub struct Zeroes<'a> {
    zeroes: Cursor<Inverted<'a>>,
}

impl<'a> Ones<'a> {
    /// The positions set in the words. It reads the first and the last word; those
    /// between are not yet taken.
    ///
    /// ```text
    /// let words = [8, 0, 1];
    /// let walk = Ones::over(&words);
    /// assert!(walk.eq([3, 128]));
    /// ```
    #[inline]
    pub fn over(words: &'a [Block]) -> Ones<'a> {
        let words = words.iter();
        Ones {
            ones: Cursor::over(Plain { words }),
        }
    }

    /// The positions set in the words, from `start` up to and without `end`. It reads the first and
    /// the last of the words that hold a position of the range; those between are not yet taken.
    ///
    /// ```text
    /// let words = [8, 0, 7];
    /// let walk = Ones::within(&words, 4, 130);
    /// assert!(walk.eq([128, 129]));
    /// ```
    #[inline]
    pub fn within(words: &'a [Block], start: usize, end: usize) -> Ones<'a> {
        Ones {
            ones: ones_within(words, start, end),
        }
    }

    /// The index of the lowest bit of the word that is set, which it clears. The word may not be 0;
    /// upstream's subtraction overflows there.
    ///
    /// ```text
    /// let mut bits = 12;
    /// assert_eq!(Ones::last_positive_bit_and_unset(&mut bits), 2);
    /// assert_eq!(bits, 8);
    /// ```
    #[inline]
    pub fn last_positive_bit_and_unset(n: &mut Block) -> usize {
        take_lowest_bit(n)
    }
}

impl IntoOnes {
    /// The positions set in the words. It reads the first and the last word; those
    /// between are not yet taken.
    ///
    /// ```text
    /// let words = [8, 0, 1].to_vec(alloc)?;
    /// let walk = IntoOnes::over(words);
    /// assert!(walk.eq([3, 128]));
    /// ```
    #[inline]
    pub fn over(words: Vec<Block>) -> IntoOnes {
        IntoOnes {
            owned: Cursor::over(words.into_iter()),
        }
    }

    /// How many positions are left. Precondition: this number fits `usize`.
    ///
    /// It goes over the words and over no positions: with `m` words between the two that the
    /// iterator holds it takes exactly `m / 4` steps, rounded up, and one more.
    ///
    /// ```text
    /// let words = [8, 0, 1].to_vec(alloc)?;
    /// let walk = IntoOnes::over(words);
    /// assert_eq!(walk.count_left(&mut Steps::new()), 2);
    /// ```
    #[inline]
    pub fn count_left(self, steps: &mut Steps) -> usize {
        let IntoOnes { owned } = self;
        owned.count_left(steps)
    }

    /// The same as `Ones::last_positive_bit_and_unset`.
    ///
    /// ```text
    /// let mut bits = 1 << 63;
    /// assert_eq!(IntoOnes::last_positive_bit_and_unset(&mut bits), 63);
    /// assert_eq!(bits, 0);
    /// ```
    #[inline]
    pub fn last_positive_bit_and_unset(n: &mut Block) -> usize {
        Ones::last_positive_bit_and_unset(n)
    }
}

impl<'a> Iterator for Ones<'a> {
    type Item = usize;

    /// The least position left, or `None` where none is, and then for good. It makes one turn, and
    /// one more for each word that it takes.
    #[inline]
    fn next(&mut self) -> Option<usize> {
        self.ones.next()
    }

    /// At least 0, and at most 64 for each word not yet taken and for each of the two that the
    /// iterator holds. The latter is `None` where it is no `usize`.
    #[inline]
    fn size_hint(&self) -> (usize, Option<usize>) {
        self.ones.size_hint()
    }
}

impl<'a> DoubleEndedIterator for Ones<'a> {
    /// The greatest position left, or `None` where none is, and then for good. It makes one turn,
    /// and one more for each word that it takes.
    #[inline]
    fn next_back(&mut self) -> Option<usize> {
        self.ones.next_back()
    }
}

impl<'a> FusedIterator for Ones<'a> {}

impl Iterator for IntoOnes {
    type Item = usize;

    /// As that of `Ones`.
    #[inline]
    fn next(&mut self) -> Option<usize> {
        self.owned.next()
    }

    /// As that of `Ones`.
    #[inline]
    fn size_hint(&self) -> (usize, Option<usize>) {
        self.owned.size_hint()
    }
}

impl DoubleEndedIterator for IntoOnes {
    /// As that of `Ones`.
    #[inline]
    fn next_back(&mut self) -> Option<usize> {
        self.owned.next_back()
    }
}

impl FusedIterator for IntoOnes {}

impl<'a> Zeroes<'a> {
    /// The positions not set in the words, from `start` up to and without `end`. It reads
    /// the first and the last of the words that hold a position of the range; those
    /// between are not yet taken.
    ///
    /// ```text
    /// let words = [Block::MAX, 5];
    /// let walk = Zeroes::within(&words, 60, 68);
    /// assert!(walk.eq([65, 67]));
    /// ```
    #[inline]
    pub fn within(words: &'a [Block], start: usize, end: usize) -> Zeroes<'a> {
        Zeroes {
            zeroes: zeroes_within(words, start, end),
        }
    }
}

impl<'a> Iterator for Zeroes<'a> {
    type Item = usize;

    /// The least position left, or `None` where none is, and then for good. It makes one turn, and
    /// one more for each word that it takes.
    #[inline]
    fn next(&mut self) -> Option<usize> {
        self.zeroes.next()
    }

    /// As that of `Ones`.
    #[inline]
    fn size_hint(&self) -> (usize, Option<usize>) {
        self.zeroes.size_hint()
    }
}

impl<'a> DoubleEndedIterator for Zeroes<'a> {
    /// The greatest position left, or `None` where none is, and then for good. It makes one turn,
    /// and one more for each word that it takes.
    #[inline]
    fn next_back(&mut self) -> Option<usize> {
        self.zeroes.next_back()
    }
}

impl<'a> FusedIterator for Zeroes<'a> {}

impl<'a> Part for Ones<'a> {
    #[inline]
    fn take_first(&mut self) -> Option<usize> {
        self.next()
    }

    #[inline]
    fn take_last(&mut self) -> Option<usize> {
        self.next_back()
    }

    #[inline]
    fn most(&self) -> Option<usize> {
        self.size_hint().1
    }
}
