// Made by front/erase from crates/fixedbitset/src/counted/changes.rt: change that, and not this.
//! The changes by other sets that return whether a position changed, with a counter of steps. Each
//! change by one set takes the steps of the call without the result.

use crate::proved::fixedbitset::set::FixedBitSet;
use crate::proved::fixedbitset::views::BitsMut;
use crate::proved::bitlanes::Steps;
use crate::proved::bitlanes::ops::{Or, WordOp, Xor};
use crate::shim::alloc::AllocError;

/// [`FixedBitSet::union_with_change`], with the steps that it takes.
///
/// Where an allocation failed the set is as it was.
///
/// ```text
/// let mut set = FixedBitSet::from_iter(alloc, [1, 3])?;
/// let other = FixedBitSet::from_iter(alloc, [3, 64])?;
/// assert!(counted::union_with_change(&mut set, &other, &mut Steps::new())?);
/// assert_eq!(set.as_slice(), [10, 1].as_slice());
/// ```
#[inline(always)]
pub fn union_with_change(
    set: &mut FixedBitSet,
    other: &FixedBitSet,
    steps: &mut Steps,
) -> Result<bool, AllocError> {
    if set.len() < other.len() {
        return grow_and_change::<Or>(set, other, steps);
    }
    let (words, length) = (&mut *set.words.as_mut_slice(), set.length);
    Ok(BitsMut { words, length }.union_with_change(other.as_bits(), steps))
}

/// [`FixedBitSet::symmetric_difference_with_change`], with the steps that it takes.
///
/// Where an allocation failed the set is as it was.
///
/// ```text
/// let mut set = FixedBitSet::from_iter(alloc, [1, 3])?;
/// let other = FixedBitSet::from_iter(alloc, [3, 64])?;
/// let mut steps = Steps::new();
/// assert!(counted::symmetric_difference_with_change(&mut set, &other, &mut steps)?);
/// assert_eq!(set.as_slice(), [2, 1].as_slice());
/// ```
#[inline(always)]
pub fn symmetric_difference_with_change(
    set: &mut FixedBitSet,
    other: &FixedBitSet,
    steps: &mut Steps,
) -> Result<bool, AllocError> {
    if set.len() < other.len() {
        return grow_and_change::<Xor>(set, other, steps);
    }
    let (words, length) = (&mut *set.words.as_mut_slice(), set.length);
    Ok(BitsMut { words, length }.symmetric_difference_with_change(other.as_bits(), steps))
}

/// [`FixedBitSet::intersect_with_change`], with the steps that it takes.
///
/// ```text
/// let mut set = FixedBitSet::from_iter(alloc, [1, 3, 64])?;
/// let other = FixedBitSet::from_iter(alloc, [3, 5])?;
/// assert!(counted::intersect_with_change(&mut set, &other, &mut Steps::new()));
/// assert_eq!(set.as_slice(), [8, 0].as_slice());
/// ```
#[inline]
pub fn intersect_with_change(set: &mut FixedBitSet, other: &FixedBitSet, steps: &mut Steps) -> bool {
    let (words, length) = (&mut *set.words.as_mut_slice(), set.length);
    BitsMut { words, length }.intersect_with_change(other.as_bits(), steps)
}

/// [`FixedBitSet::difference_with_change`], with the steps that it takes.
///
/// ```text
/// let mut set = FixedBitSet::from_iter(alloc, [1, 3, 64])?;
/// let other = FixedBitSet::from_iter(alloc, [3, 5])?;
/// assert!(counted::difference_with_change(&mut set, &other, &mut Steps::new()));
/// assert_eq!(set.as_slice(), [2, 1].as_slice());
/// ```
#[inline]
pub fn difference_with_change(set: &mut FixedBitSet, other: &FixedBitSet, steps: &mut Steps) -> bool {
    let (words, length) = (&mut *set.words.as_mut_slice(), set.length);
    BitsMut { words, length }.difference_with_change(other.as_bits(), steps)
}

/// [`FixedBitSet::union_with_difference`], with the steps that it takes.
///
/// Where an allocation failed the set is as it was.
///
/// ```text
/// let mut set = FixedBitSet::from_iter(alloc, [1, 3])?;
/// let gens = FixedBitSet::from_iter(alloc, [4, 64])?;
/// let kills = FixedBitSet::from_iter(alloc, [4])?;
/// assert!(counted::union_with_difference(&mut set, &gens, &kills, &mut Steps::new())?);
/// assert_eq!(set.as_slice(), [10, 1].as_slice());
/// ```
#[inline(always)]
pub fn union_with_difference(
    set: &mut FixedBitSet,
    gens: &FixedBitSet,
    kills: &FixedBitSet,
    steps: &mut Steps,
) -> Result<bool, AllocError> {
    if set.len() < gens.len() {
        return grow_and_take(set, gens, kills, steps);
    }
    let (words, length) = (&mut *set.words.as_mut_slice(), set.length);
    Ok(BitsMut { words, length }.union_with_difference(gens.as_bits(), kills.as_bits(), steps))
}

// Joins the longer set `other` to `set`, which grows before, and returns whether a position
// changed.
#[cold]
#[inline(never)]
fn grow_and_change<O: WordOp>(
    set: &mut FixedBitSet,
    other: &FixedBitSet,
    steps: &mut Steps,
) -> Result<bool, AllocError> {
    set.grow(other.len())?;
    let (words, length) = (&mut *set.words.as_mut_slice(), set.length);
    Ok(BitsMut { words, length }.join_with_change::<O>(other.as_bits(), steps))
}

// Takes into `set`, which grows before, what `kills` lacks of the longer set `gens`.
#[cold]
#[inline(never)]
fn grow_and_take(
    set: &mut FixedBitSet,
    gens: &FixedBitSet,
    kills: &FixedBitSet,
    steps: &mut Steps,
) -> Result<bool, AllocError> {
    set.grow(gens.len())?;
    let (words, length) = (&mut *set.words.as_mut_slice(), set.length);
    Ok(BitsMut { words, length }.join_difference(gens.as_bits(), kills.as_bits(), steps))
}
