// Made by front/erase from crates/fixedbitset/src/pairs.rt: change that, and not this.
//! Iterators over two sets of any two lengths.
//!
//! `intersection` and `difference` iterator over the first set and look each of its items up in the
//! other. `union` iterators over the first set, and then over the second without the first;
//! `symmetric_difference` over both differences in turn. So the items of the two last need not
//! ascend as a whole. No iterator allocates.
//!
//! The iterators themselves are types of `bitwalks`. Proofs see the items left, how many items of a
//! source were looked up (`asked`), and each source as an iterator of its own, with its turns and
//! its words not yet taken.

use crate::program::fixedbitset::set::FixedBitSet;
use crate::program::bitwalks::pairs::{Difference, Intersection, SymmetricDifference, Union};

impl FixedBitSet {
    /// The positions that both sets have, in ascending order. It iterates over this set, and looks
    /// each of its positions up in the other.
    ///
    /// ```text
    /// let set = FixedBitSet::from_iter(alloc, [1, 3, 64])?;
    /// let other = FixedBitSet::from_iter(alloc, [3, 5, 64, 200])?;
    /// let items: Vec<usize> = set.intersection(&other).collect(alloc)?;
    /// assert_eq!(items.as_slice(), [3, 64].as_slice());
    /// ```
    #[inline]
    pub fn intersection<'a>(&'a self, other: &'a FixedBitSet) -> Intersection<'a> {
        let words = self.used_words();
        let others = other.used_words();
        Intersection::over(words, others)
    }

    /// The positions of this set that the other lacks, in ascending order. It iterates over this
    /// set, and looks each of its positions up in the other.
    ///
    /// ```text
    /// let set = FixedBitSet::from_iter(alloc, [1, 3, 200])?;
    /// let other = FixedBitSet::from_iter(alloc, [3, 64])?;
    /// let items: Vec<usize> = set.difference(&other).collect(alloc)?;
    /// assert_eq!(items.as_slice(), [1, 200].as_slice());
    /// ```
    #[inline]
    pub fn difference<'a>(&'a self, other: &'a FixedBitSet) -> Difference<'a> {
        let words = self.used_words();
        let others = other.used_words();
        Difference::over(words, others)
    }

    /// The positions of this set, and then those of the other that this one lacks, each part in
    /// ascending order. Only positions of the other set are looked up.
    ///
    /// ```text
    /// let set = FixedBitSet::from_iter(alloc, [9, 200])?;
    /// let other = FixedBitSet::from_iter(alloc, [3, 9])?;
    /// let items: Vec<usize> = set.union(&other).collect(alloc)?;
    /// assert_eq!(items.as_slice(), [9, 200, 3].as_slice());
    /// ```
    #[inline]
    pub fn union<'a>(&'a self, other: &'a FixedBitSet) -> Union<'a> {
        let words = self.used_words();
        let others = other.used_words();
        Union::over(words, others)
    }

    /// The positions of this set that the other lacks, and then those of the other that this one
    /// lacks, each part in ascending order.
    ///
    /// ```text
    /// let set = FixedBitSet::from_iter(alloc, [9, 200])?;
    /// let other = FixedBitSet::from_iter(alloc, [3, 9])?;
    /// let items: Vec<usize> = set.symmetric_difference(&other).collect(alloc)?;
    /// assert_eq!(items.as_slice(), [200, 3].as_slice());
    /// ```
    #[inline]
    pub fn symmetric_difference<'a>(&'a self, other: &'a FixedBitSet) -> SymmetricDifference<'a> {
        let words = self.used_words();
        let others = other.used_words();
        SymmetricDifference::over(words, others)
    }
}
