// Made by front/erase from crates/bitwalks/src/pairs.rt: change that, and not this.
//! Iterators over two rows of words, of any two lengths.
//!
//! `Intersection` and `Difference` iterator over the first row and look each of its items up in the
//! other. `Union` iterators over the first row, and then over the second without the first;
//! `SymmetricDifference` over both differences in turn. So the items of the two last need not
//! ascend as a whole. No iterator allocates.
//!
//! Proofs see the items left, how many items of a source were looked up (`asked`), and each source
//! as an iterator of its own, with its turns and its words not yet taken. The counts take no bytes
//! when the program runs.

use crate::program::bitwalks::in_turn::InTurn;
use crate::program::bitwalks::sieve::{Lacked, Shared, Sieve};
use crate::program::bitwalks::walks::Ones;
use crate::proved::bitlanes::word::Block;
use core::iter::FusedIterator;

/// The positions that two rows have in common, in ascending order. A set
/// makes it by `intersection`.
///
/// ```text
/// let set = FixedBitSet::from_iter(alloc, [1, 3, 64])?;
/// let other = FixedBitSet::from_iter(alloc, [3, 5, 64, 200])?;
/// let mut walk = set.intersection(&other);
/// assert_eq!(walk.next_back(), Some(64));
/// assert!(walk.eq([3]));
/// ```
pub type Intersection<'a> = Sieve<'a, Shared>;

/// The positions of a row that another one lacks, in ascending order. A set
/// makes it by `difference`.
///
/// ```text
/// let set = FixedBitSet::from_iter(alloc, [1, 3, 200])?;
/// let other = FixedBitSet::from_iter(alloc, [3, 64])?;
/// let mut walk = set.difference(&other);
/// assert_eq!(walk.next_back(), Some(200));
/// assert!(walk.eq([1]));
/// ```
pub type Difference<'a> = Sieve<'a, Lacked>;

/// The positions of a row, and then those of another one that the first lacks. A
/// set makes it by `union`.
///
/// ```text
/// let set = FixedBitSet::from_iter(alloc, [9, 200])?;
/// let other = FixedBitSet::from_iter(alloc, [3, 9])?;
/// let mut walk = set.union(&other);
/// assert_eq!(walk.next_back(), Some(3));
/// assert!(walk.eq([9, 200]));
/// ```
#[derive(Clone)]
pub struct Union<'a> {
    parts: InTurn<Ones<'a>, Sieve<'a, Lacked>>,
}

/// The positions of a row that another one lacks, and then those of the other that the first lacks.
/// A set makes it by `symmetric_difference`.
///
/// ```text
/// let set = FixedBitSet::from_iter(alloc, [9, 200])?;
/// let other = FixedBitSet::from_iter(alloc, [3, 9])?;
/// let mut walk = set.symmetric_difference(&other);
/// assert_eq!(walk.next_back(), Some(3));
/// assert!(walk.eq([200]));
/// ```
#[derive(Clone)]
pub struct SymmetricDifference<'a> {
    sides: InTurn<Sieve<'a, Lacked>, Sieve<'a, Lacked>>,
}

impl<'a> Union<'a> {
    /// The iterator over the positions of `words` and `other`.
    ///
    /// ```text
    /// let (words, other) = ([8, 1], [3]);
    /// let walk = Union::over(&words, &other);
    /// assert!(walk.eq([3, 64, 0, 1]));
    /// ```
    #[inline]
    pub fn over(words: &'a [Block], other: &'a [Block]) -> Union<'a> {
        Union {
            parts: InTurn::of(Ones::over(words), Sieve::over(other, words)),
        }
    }
}

impl<'a> Iterator for Union<'a> {
    type Item = usize;

    /// The first position left, or `None` where none is, and then for good. Each item that a source
    /// gives is looked up once; a source is called once for each, and once more at most.
    #[inline]
    fn next(&mut self) -> Option<usize> {
        self.parts.take_first()
    }

    /// At least 0, and at most the sum of what both parts have. The latter is `None`
    /// where it is no `usize`.
    #[inline]
    fn size_hint(&self) -> (usize, Option<usize>) {
        (0, self.parts.most())
    }
}

impl<'a> DoubleEndedIterator for Union<'a> {
    /// The last position left, or `None` where none is, and then for good.
    #[inline]
    fn next_back(&mut self) -> Option<usize> {
        self.parts.take_last()
    }
}

impl<'a> FusedIterator for Union<'a> {}

impl<'a> SymmetricDifference<'a> {
    /// The iterator over the positions of `words` and `other`.
    ///
    /// ```text
    /// let (words, other) = ([8, 1], [11]);
    /// let walk = SymmetricDifference::over(&words, &other);
    /// assert!(walk.eq([64, 0, 1]));
    /// ```
    #[inline]
    pub fn over(words: &'a [Block], other: &'a [Block]) -> SymmetricDifference<'a> {
        SymmetricDifference {
            sides: InTurn::of(Sieve::over(words, other), Sieve::over(other, words)),
        }
    }
}

impl<'a> Iterator for SymmetricDifference<'a> {
    type Item = usize;

    /// The first position left, or `None` where none is, and then for good. Each item that a source
    /// gives is looked up once; a source is called once for each, and once more at most.
    #[inline]
    fn next(&mut self) -> Option<usize> {
        self.sides.take_first()
    }

    /// At least 0, and at most the sum of what both parts have. The latter is `None`
    /// where it is no `usize`.
    #[inline]
    fn size_hint(&self) -> (usize, Option<usize>) {
        (0, self.sides.most())
    }
}

impl<'a> DoubleEndedIterator for SymmetricDifference<'a> {
    /// The last position left, or `None` where none is, and then for good.
    #[inline]
    fn next_back(&mut self) -> Option<usize> {
        self.sides.take_last()
    }
}

impl<'a> FusedIterator for SymmetricDifference<'a> {}
