// Made by front/erase from crates/fixedbitset/src/counted/copies.rt: change that, and not this.
//! New sets and copies, with a counter of steps.
//!
//! The count includes the lanes that are joined, or copied over a set that is there. What a new set
//! is filled with before, the rest of the longer set after it, and what is added to a set that
//! grows are not counted.

use crate::proved::fixedbitset::set::FixedBitSet;
use crate::proved::bitlanes::Steps;
use crate::proved::bitlanes::ops::{And, Or, WordOp, Xor};
use crate::proved::bitwords::new_rows;
use crate::shim::alloc::AllocError;

/// [`FixedBitSet::clone_from`], with the steps that it takes.
///
/// Where an allocation failed the set is as it was.
///
/// ```text
/// let source = FixedBitSet::from_iter(alloc, [3, 64])?;
/// let mut set = FixedBitSet::with_capacity(alloc, 200)?;
/// counted::clone_from(&mut set, &source, &mut Steps::new())?;
/// assert_eq!(set.as_slice(), [8, 1].as_slice());
/// ```
#[inline]
pub fn clone_from(
    set: &mut FixedBitSet,
    source: &FixedBitSet,
    steps: &mut Steps,
) -> Result<(), AllocError> {
    set.copy_from(source, steps)
}

/// [`FixedBitSet::bitand`], with the steps that it takes.
///
/// ```text
/// let set = FixedBitSet::from_iter(alloc, [1, 3, 64])?;
/// let other = FixedBitSet::from_iter(alloc, [3, 5])?;
/// let both = counted::bitand(&set, &other, &mut Steps::new())?;
/// assert_eq!(both.as_slice(), [8].as_slice());
/// ```
#[inline]
pub fn bitand(
    set: &FixedBitSet,
    other: &FixedBitSet,
    steps: &mut Steps,
) -> Result<FixedBitSet, AllocError> {
    if set.length < other.length {
        joined_copy::<And>(set, other, steps)
    } else {
        joined_copy::<And>(other, set, steps)
    }
}

/// [`FixedBitSet::bitor`], with the steps that it takes.
///
/// ```text
/// let set = FixedBitSet::from_iter(alloc, [1, 3, 64])?;
/// let other = FixedBitSet::from_iter(alloc, [3, 5])?;
/// let either = counted::bitor(&set, &other, &mut Steps::new())?;
/// assert_eq!(either.as_slice(), [42, 1].as_slice());
/// ```
#[inline]
pub fn bitor(
    set: &FixedBitSet,
    other: &FixedBitSet,
    steps: &mut Steps,
) -> Result<FixedBitSet, AllocError> {
    if set.length < other.length {
        joined_copy::<Or>(other, set, steps)
    } else {
        joined_copy::<Or>(set, other, steps)
    }
}

/// [`FixedBitSet::bitxor`], with the steps that it takes.
///
/// ```text
/// let set = FixedBitSet::from_iter(alloc, [1, 3, 64])?;
/// let other = FixedBitSet::from_iter(alloc, [3, 5])?;
/// let one = counted::bitxor(&set, &other, &mut Steps::new())?;
/// assert_eq!(one.as_slice(), [34, 1].as_slice());
/// ```
#[inline]
pub fn bitxor(
    set: &FixedBitSet,
    other: &FixedBitSet,
    steps: &mut Steps,
) -> Result<FixedBitSet, AllocError> {
    if set.length < other.length {
        joined_copy::<Xor>(other, set, steps)
    } else {
        joined_copy::<Xor>(set, other, steps)
    }
}

// A new set: the first one, joined with `other`.
#[inline(always)]
fn joined_copy<O: WordOp>(
    set: &FixedBitSet,
    other: &FixedBitSet,
    steps: &mut Steps,
) -> Result<FixedBitSet, AllocError> {
    let alloc = *set.words.allocator();
    let words = new_rows::joined::<O>(alloc, set.words.as_slice(), other.words.as_slice(), steps)?;
    Ok(FixedBitSet {
        words,
        length: set.length,
    })
}
