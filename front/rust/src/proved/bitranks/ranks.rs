// Made by front/erase from crates/bitranks/src/ranks.rt: change that, and not this.
//! The ranks of a set: the set, borrowed, and a directory of its words.

use crate::shim::prelude::Vec;
use crate::proved::bitranks::counted;
use crate::proved::bitlanes::{Block, Steps};
use crate::proved::fixedbitset::FixedBitSet;
use crate::shim::alloc::{AllocError, Global};

/// A set that is borrowed, with a directory for `rank` and `select`.
///
/// Contracts see it as the set. The directory takes one word of memory for eight words of the set,
/// rounded up. While it lives the set cannot change.
#[derive(Clone)]
pub struct Ranks<'a> {
    pub(crate) set: &'a FixedBitSet,
    pub(crate) words: &'a [Block],
    pub(crate) directory: Vec<usize>,
}

impl<'a> Ranks<'a> {
    /// The ranks of a set. It looks at each word of the set once at most.
    ///
    /// `Err` is returned only where the allocation of the directory failed.
    ///
    /// ```text
    /// let set = FixedBitSet::from_iter(alloc, [3, 64, 70])?;
    /// let ranks = Ranks::of(alloc, &set)?;
    /// assert_eq!(ranks.rank(70), 2);
    /// assert_eq!(ranks.select(2), Some(70));
    /// ```
    pub fn of(alloc: Global, set: &'a FixedBitSet) -> Result<Ranks<'a>, AllocError> {
        counted::of(alloc, set, &mut Steps::new())
    }

    /// The set that the ranks are of.
    ///
    /// ```text
    /// let set = FixedBitSet::from_iter(alloc, [3, 64])?;
    /// let ranks = Ranks::of(alloc, &set)?;
    /// assert_eq!(ranks.set().len(), 65);
    /// ```
    #[inline]
    pub fn set(&self) -> &'a FixedBitSet {
        self.set
    }

    /// How many positions below this one are set. The position may be any number; past the
    /// length all are below it.
    ///
    /// It looks at one entry of the directory and at eight words of the set at most.
    ///
    /// ```text
    /// let set = FixedBitSet::from_iter(alloc, [3, 64, 70])?;
    /// let ranks = Ranks::of(alloc, &set)?;
    /// assert_eq!(ranks.rank(64), 1);
    /// assert_eq!(ranks.rank(65), 2);
    /// assert_eq!(ranks.rank(usize::MAX), 3);
    /// ```
    #[inline]
    pub fn rank(&self, position: usize) -> usize {
        counted::rank(self, position, &mut Steps::new())
    }

    /// The position with so many positions of the set below it: the first has index 0. `None` where
    /// the set has no more positions than that.
    ///
    /// It looks at one entry of the directory for each time that it can be halved, and at eight
    /// words of the set at most.
    ///
    /// ```text
    /// let set = FixedBitSet::from_iter(alloc, [3, 64, 70])?;
    /// let ranks = Ranks::of(alloc, &set)?;
    /// assert_eq!(ranks.select(0), Some(3));
    /// assert_eq!(ranks.select(1), Some(64));
    /// assert_eq!(ranks.select(3), None);
    /// ```
    #[inline]
    pub fn select(&self, index: usize) -> Option<usize> {
        counted::select(self, index, &mut Steps::new())
    }
}
