// Made by front/erase from crates/fixedbitset/src/counted/whole.rt: change that, and not this.
//! Whole sets, with a counter of steps.
//!
//! A step is one lane of four words in one turn of a kernel. A set of `n` positions has `n / 256`
//! lanes, rounded up. A change or a count takes exactly one step for each lane that both sets have,
//! and one for each that only one of them has, where these are cleared or counted. A comparison
//! that returns `true` takes exactly as many, and one that returns `false` exactly those up to the
//! lane that decides. `first_lacking` and `pop_first` take exactly those up to the lane of the
//! position, and `pop_last` those from the last lane down to it, or all where there is none. What
//! `grow` writes is not counted.

use crate::proved::fixedbitset::set::FixedBitSet;
use crate::proved::fixedbitset::views::BitsMut;
use crate::proved::bitlanes::Steps;
use crate::proved::bitlanes::ops::{And, AndNot, Or, WordOp, Xor};
use crate::shim::alloc::AllocError;
use core::cmp::Ordering;

/// [`FixedBitSet::clear`], with the steps that it takes.
///
/// ```text
/// let mut set = FixedBitSet::from_iter(alloc, [3, 64])?;
/// counted::clear(&mut set, &mut Steps::new());
/// assert_eq!(set.as_slice(), [0, 0].as_slice());
/// ```
#[inline]
pub fn clear(set: &mut FixedBitSet, steps: &mut Steps) {
    let (words, length) = (&mut *set.words.as_mut_slice(), set.length);
    BitsMut { words, length }.clear(steps);
}

/// [`FixedBitSet::pop_first`], with the steps that it takes.
///
/// ```text
/// let mut set = FixedBitSet::from_iter(alloc, [3, 64])?;
/// assert_eq!(counted::pop_first(&mut set, &mut Steps::new()), Some(3));
/// assert_eq!(set.as_slice(), [0, 1].as_slice());
/// ```
#[inline]
pub fn pop_first(set: &mut FixedBitSet, steps: &mut Steps) -> Option<usize> {
    let (words, length) = (&mut *set.words.as_mut_slice(), set.length);
    BitsMut { words, length }.pop_first(steps)
}

/// [`FixedBitSet::pop_last`], with the steps that it takes.
///
/// ```text
/// let mut set = FixedBitSet::from_iter(alloc, [3, 64])?;
/// assert_eq!(counted::pop_last(&mut set, &mut Steps::new()), Some(64));
/// assert_eq!(set.as_slice(), [8, 0].as_slice());
/// ```
#[inline]
pub fn pop_last(set: &mut FixedBitSet, steps: &mut Steps) -> Option<usize> {
    let (words, length) = (&mut *set.words.as_mut_slice(), set.length);
    BitsMut { words, length }.pop_last(steps)
}

/// [`FixedBitSet::union_with`], with the steps that it takes.
///
/// Where an allocation failed the set is as it was.
///
/// ```text
/// let mut set = FixedBitSet::from_iter(alloc, [1, 3])?;
/// let other = FixedBitSet::from_iter(alloc, [3, 64])?;
/// counted::union_with(&mut set, &other, &mut Steps::new())?;
/// assert_eq!(set.as_slice(), [10, 1].as_slice());
/// ```
#[inline(always)]
pub fn union_with(
    set: &mut FixedBitSet,
    other: &FixedBitSet,
    steps: &mut Steps,
) -> Result<(), AllocError> {
    if set.len() < other.len() {
        return grow_and_join::<Or>(set, other, steps);
    }
    let (words, length) = (&mut *set.words.as_mut_slice(), set.length);
    BitsMut { words, length }.union_with(other.as_bits(), steps);
    Ok(())
}

/// [`FixedBitSet::symmetric_difference_with`], with the steps that it takes.
///
/// Where an allocation failed the set is as it was.
///
/// ```text
/// let mut set = FixedBitSet::from_iter(alloc, [1, 3])?;
/// let other = FixedBitSet::from_iter(alloc, [3, 64])?;
/// counted::symmetric_difference_with(&mut set, &other, &mut Steps::new())?;
/// assert_eq!(set.as_slice(), [2, 1].as_slice());
/// ```
#[inline(always)]
pub fn symmetric_difference_with(
    set: &mut FixedBitSet,
    other: &FixedBitSet,
    steps: &mut Steps,
) -> Result<(), AllocError> {
    if set.len() < other.len() {
        return grow_and_join::<Xor>(set, other, steps);
    }
    let (words, length) = (&mut *set.words.as_mut_slice(), set.length);
    BitsMut { words, length }.symmetric_difference_with(other.as_bits(), steps);
    Ok(())
}

/// [`FixedBitSet::intersect_with`], with the steps that it takes.
///
/// ```text
/// let mut set = FixedBitSet::from_iter(alloc, [1, 3, 64])?;
/// let other = FixedBitSet::from_iter(alloc, [3, 5])?;
/// counted::intersect_with(&mut set, &other, &mut Steps::new());
/// assert_eq!(set.as_slice(), [8, 0].as_slice());
/// ```
#[inline]
pub fn intersect_with(set: &mut FixedBitSet, other: &FixedBitSet, steps: &mut Steps) {
    let (words, length) = (&mut *set.words.as_mut_slice(), set.length);
    BitsMut { words, length }.intersect_with(other.as_bits(), steps);
}

/// [`FixedBitSet::difference_with`], with the steps that it takes.
///
/// ```text
/// let mut set = FixedBitSet::from_iter(alloc, [1, 3, 64])?;
/// let other = FixedBitSet::from_iter(alloc, [3, 5])?;
/// counted::difference_with(&mut set, &other, &mut Steps::new());
/// assert_eq!(set.as_slice(), [2, 1].as_slice());
/// ```
#[inline]
pub fn difference_with(set: &mut FixedBitSet, other: &FixedBitSet, steps: &mut Steps) {
    let (words, length) = (&mut *set.words.as_mut_slice(), set.length);
    BitsMut { words, length }.difference_with(other.as_bits(), steps);
}

/// [`FixedBitSet::union_count`], with the steps that it takes.
///
/// ```text
/// let set = FixedBitSet::from_iter(alloc, [1, 3, 64])?;
/// let other = FixedBitSet::from_iter(alloc, [3, 5])?;
/// let count = counted::union_count(&set, &other, &mut Steps::new());
/// assert_eq!(count, 4);
/// ```
#[inline]
pub fn union_count(set: &FixedBitSet, other: &FixedBitSet, steps: &mut Steps) -> usize {
    set.as_bits().count_used::<Or>(other.as_bits(), steps)
}

/// [`FixedBitSet::intersection_count`], with the steps that it takes.
///
/// ```text
/// let set = FixedBitSet::from_iter(alloc, [1, 3, 64])?;
/// let other = FixedBitSet::from_iter(alloc, [3, 5])?;
/// let count = counted::intersection_count(&set, &other, &mut Steps::new());
/// assert_eq!(count, 1);
/// ```
#[inline]
pub fn intersection_count(set: &FixedBitSet, other: &FixedBitSet, steps: &mut Steps) -> usize {
    set.as_bits().count_used::<And>(other.as_bits(), steps)
}

/// [`FixedBitSet::difference_count`], with the steps that it takes.
///
/// ```text
/// let set = FixedBitSet::from_iter(alloc, [1, 3, 64])?;
/// let other = FixedBitSet::from_iter(alloc, [3, 5])?;
/// let count = counted::difference_count(&set, &other, &mut Steps::new());
/// assert_eq!(count, 2);
/// ```
#[inline]
pub fn difference_count(set: &FixedBitSet, other: &FixedBitSet, steps: &mut Steps) -> usize {
    set.as_bits().count_used::<AndNot>(other.as_bits(), steps)
}

/// [`FixedBitSet::symmetric_difference_count`], with the steps that it takes.
///
/// ```text
/// let set = FixedBitSet::from_iter(alloc, [1, 3, 64])?;
/// let other = FixedBitSet::from_iter(alloc, [3, 5])?;
/// let count = counted::symmetric_difference_count(&set, &other, &mut Steps::new());
/// assert_eq!(count, 3);
/// ```
#[inline]
pub fn symmetric_difference_count(
    set: &FixedBitSet,
    other: &FixedBitSet,
    steps: &mut Steps,
) -> usize {
    set.as_bits().count_used::<Xor>(other.as_bits(), steps)
}

/// [`FixedBitSet::is_disjoint`], with the steps that it takes.
///
/// ```text
/// let set = FixedBitSet::from_iter(alloc, [1, 64])?;
/// let other = FixedBitSet::from_iter(alloc, [3, 65, 200])?;
/// assert!(counted::is_disjoint(&set, &other, &mut Steps::new()));
/// ```
#[inline]
pub fn is_disjoint(set: &FixedBitSet, other: &FixedBitSet, steps: &mut Steps) -> bool {
    set.as_bits().is_disjoint(other.as_bits(), steps)
}

/// [`FixedBitSet::is_subset`], with the steps that it takes.
///
/// ```text
/// let set = FixedBitSet::from_iter(alloc, [3, 64])?;
/// let other = FixedBitSet::from_iter(alloc, [3, 64, 200])?;
/// assert!(counted::is_subset(&set, &other, &mut Steps::new()));
/// assert!(!counted::is_subset(&other, &set, &mut Steps::new()));
/// ```
#[inline]
pub fn is_subset(set: &FixedBitSet, other: &FixedBitSet, steps: &mut Steps) -> bool {
    set.as_bits().is_subset(other.as_bits(), steps)
}

// Joins the longer set `other` to `set`, which grows before. It is a call of its own, so that a set
// which is as long saves nothing for it.
#[cold]
#[inline(never)]
fn grow_and_join<O: WordOp>(
    set: &mut FixedBitSet,
    other: &FixedBitSet,
    steps: &mut Steps,
) -> Result<(), AllocError> {
    set.grow(other.len())?;
    let (words, length) = (&mut *set.words.as_mut_slice(), set.length);
    BitsMut { words, length }.join::<O>(other.as_bits(), steps);
    Ok(())
}
