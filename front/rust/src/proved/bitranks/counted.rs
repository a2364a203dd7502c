// Made by front/erase from crates/bitranks/src/counted.rt: change that, and not this.
//! The calls of [`Ranks`] with a counter of steps.
//!
//! A step is one word of the set, or one entry of the directory that a search looks at.

use crate::proved::bitranks::directory;
use crate::proved::bitranks::ranks::Ranks;
use crate::proved::bitlanes::Steps;
use crate::proved::bitlanes::word::BITS;
use crate::proved::fixedbitset::FixedBitSet;
use crate::shim::alloc::{AllocError, Global};

/// [`Ranks::of`], with the steps that it takes: exactly one for each word of the set but those of
/// the last entry of the directory, and none where an allocation failed.
///
/// ```text
/// let set = FixedBitSet::from_iter(alloc, [3, 64, 70])?;
/// let mut steps = Steps::new();
/// let ranks = bitranks::counted::of(alloc, &set, &mut steps)?;
/// assert_eq!(bitranks::counted::rank(&ranks, 70, &mut steps), 2);
/// ```
pub fn of<'a>(
    alloc: Global,
    set: &'a FixedBitSet,
    steps: &mut Steps,
) -> Result<Ranks<'a>, AllocError> {
    let words = set.as_slice();
    let mut entries = crate::shim::row![in alloc; 0; directory::entries(set.len().div_ceil(BITS))]?;
    directory::fill(words, &mut entries, steps);
    Ok(Ranks {
        set,
        words,
        directory: entries,
    })
}

/// [`Ranks::rank`], with the steps that it takes: exactly one for each word that it
/// looks at, eight at most.
///
/// ```text
/// let set = FixedBitSet::from_iter(alloc, [3, 64, 70])?;
/// let ranks = Ranks::of(alloc, &set)?;
/// assert_eq!(bitranks::counted::rank(&ranks, 65, &mut Steps::new()), 2);
/// ```
#[inline]
pub fn rank(ranks: &Ranks, position: usize, steps: &mut Steps) -> usize {
    directory::rank(ranks.words, &ranks.directory, position, steps)
}

/// [`Ranks::select`], with the steps that it takes: one for each time that the directory is halved,
/// and one for each word of an entry that it looks at then. So these are eight at most, and `n`
/// more for a directory of at most `2 ^ n` entries.
///
/// ```text
/// let set = FixedBitSet::from_iter(alloc, [3, 64, 70])?;
/// let ranks = Ranks::of(alloc, &set)?;
/// assert_eq!(bitranks::counted::select(&ranks, 1, &mut Steps::new()), Some(64));
/// ```
#[inline]
pub fn select(ranks: &Ranks, index: usize, steps: &mut Steps) -> Option<usize> {
    directory::select(ranks.words, &ranks.directory, index, steps)
}
