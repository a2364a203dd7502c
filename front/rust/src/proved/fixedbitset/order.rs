// Made by front/erase from crates/fixedbitset/src/order.rt: change that, and not this.
//! Equality, the order and the hash of sets, so that sets are keys of maps and are sorted.
//!
//! All of them look at the length and then at the words. Sets with the same positions and different
//! lengths are not equal.

use crate::proved::fixedbitset::set::FixedBitSet;
use crate::proved::bitlanes::Steps;
use core::cmp::Ordering;
use core::hash::{Hash, Hasher};

impl PartialEq for FixedBitSet {
    /// Whether the two are the same value: the same length and the same positions.
    ///
    /// It compares the lengths, and at equal lengths the words, four at a time, up to the first
    /// that differ: at most `len() / 64` pairs, rounded up.
    ///
    /// ```text
    /// let set = FixedBitSet::from_iter(alloc, [3])?;
    /// let mut other = set.clone()?;
    /// assert!(set == other);
    /// other.grow(70)?;
    /// assert!(set != other);
    /// ```
    #[inline]
    fn eq(&self, other: &Self) -> bool {
        self.as_bits().is_equal(other.as_bits(), &mut Steps::new())
    }
}

impl Eq for FixedBitSet {
}

impl PartialOrd for FixedBitSet {
    /// The result of `cmp`, which there always is.
    ///
    /// ```text
    /// let short = FixedBitSet::from_iter(alloc, [3])?;
    /// let long = FixedBitSet::with_capacity(alloc, 70)?;
    /// assert!(short < long);
    /// assert_eq!(long.partial_cmp(&short), Some(Ordering::Greater));
    /// ```
    #[inline]
    fn partial_cmp(&self, other: &Self) -> Option<Ordering> {
        Some(self.cmp(other))
    }
}

impl Ord for FixedBitSet {
    /// The order: the shorter set is less. Of two sets of one length, look at the first 64
    /// positions, the next 64, and so on. In the first such group in which they differ, the
    /// greatest position that one has and the other lacks decides: the set that has it is greater.
    ///
    /// It compares the lengths, and at equal lengths the words as numbers, up to the first pair
    /// that differs: at most `len() / 64` pairs, rounded up. Upstream orders by the length and then
    /// by its words as numbers, which is the same.
    ///
    /// ```text
    /// let set = FixedBitSet::from_iter(alloc, [4, 69])?;
    /// let lower = FixedBitSet::from_iter(alloc, [0, 3, 69])?;
    /// let later = FixedBitSet::from_iter(alloc, [68, 69])?;
    /// assert_eq!(set.cmp(&lower), Ordering::Greater);
    /// assert_eq!(set.cmp(&later), Ordering::Greater);
    /// ```
    #[inline]
    fn cmp(&self, other: &Self) -> Ordering {
        self.as_bits().compare(other.as_bits(), &mut Steps::new())
    }
}

impl Hash for FixedBitSet {
    /// Feeds the hasher the length and then the words, of which there are `len() / 64`, rounded up.
    /// So equal sets feed it the same.
    ///
    /// ```text
    /// let mut seen = HashSet::new(alloc);
    /// seen.insert(FixedBitSet::from_iter(alloc, [64, 3])?)?;
    /// assert!(seen.contains(&FixedBitSet::from_iter(alloc, [3, 64])?));
    /// assert!(!seen.contains(&FixedBitSet::from_iter(alloc, [3, 64, 65])?));
    /// ```
    fn hash<H: Hasher>(&self, state: &mut H) {
        self.len().hash(state);
        self.as_slice().hash(state);
    }
}
