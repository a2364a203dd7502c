// Made by front/erase from crates/fixedbitset/src/counted/shifts.rt: change that, and not this.
//! Shifts and parts, with a counter of steps.
//!
//! A call takes at most one step for each lane of four words that it writes, and one or two more
//! for the words at the ends: `bound` says so, and `cost` how many it takes. What `grow` writes is
//! not counted, nor what is cleared after the length in the last lane.

use crate::proved::fixedbitset::counted::ranges::insert_range;
use crate::proved::fixedbitset::set::FixedBitSet;
use crate::proved::fixedbitset::views::{BitsMut, storage_words};
use crate::proved::bitlanes::{IndexRange, Steps};
use crate::shim::alloc::{AllocError, Global};

/// [`FixedBitSet::shift_up`], with the steps that it takes.
///
/// ```text
/// let mut set = FixedBitSet::from_iter(alloc, [0, 3, 69])?;
/// counted::shift_up(&mut set, 64, &mut Steps::new());
/// assert_eq!(set.as_slice(), [0, 9].as_slice());
/// ```
#[inline]
pub fn shift_up(set: &mut FixedBitSet, by: usize, steps: &mut Steps) {
    let (words, length) = (&mut *set.words.as_mut_slice(), set.length);
    BitsMut { words, length }.shift_up(by, steps);
}

/// [`FixedBitSet::shift_down`], with the steps that it takes.
///
/// ```text
/// let mut set = FixedBitSet::from_iter(alloc, [0, 3, 69])?;
/// counted::shift_down(&mut set, 3, &mut Steps::new());
/// assert_eq!(set.as_slice(), [1, 4].as_slice());
/// ```
#[inline]
pub fn shift_down(set: &mut FixedBitSet, by: usize, steps: &mut Steps) {
    let (words, length) = (&mut *set.words.as_mut_slice(), set.length);
    BitsMut { words, length }.shift_down(by, steps);
}

/// [`FixedBitSet::union_with_shifted`], with the steps that it takes.
///
/// ```text
/// let mut set = FixedBitSet::from_iter(alloc, [0, 69])?;
/// let other = FixedBitSet::from_iter(alloc, [0, 1, 5])?;
/// counted::union_with_shifted(&mut set, &other, 65, &mut Steps::new());
/// assert_eq!(set.as_slice(), [1, 38].as_slice());
/// ```
#[inline]
pub fn union_with_shifted(set: &mut FixedBitSet, other: &FixedBitSet, by: usize, steps: &mut Steps) {
    let (words, length) = (&mut *set.words.as_mut_slice(), set.length);
    BitsMut { words, length }.union_with_shifted(other.as_bits(), by, steps);
}

/// [`FixedBitSet::union_with_own_shift`], with the steps that it takes.
///
/// ```text
/// let mut set = FixedBitSet::from_iter(alloc, [0, 69])?;
/// counted::union_with_own_shift(&mut set, 3, &mut Steps::new());
/// assert_eq!(set.as_slice(), [9, 32].as_slice());
/// ```
#[inline]
pub fn union_with_own_shift(set: &mut FixedBitSet, by: usize, steps: &mut Steps) {
    let (words, length) = (&mut *set.words.as_mut_slice(), set.length);
    BitsMut { words, length }.union_with_own_shift(by, steps);
}

/// [`FixedBitSet::slice`], with the steps that it takes. That the new words are written as
/// zeros first is not counted.
///
/// ```text
/// let set = FixedBitSet::from_iter(alloc, [1, 63, 65, 69])?;
/// assert_eq!(set.len(), 70);
/// let part = counted::slice(&set, alloc, 63..68, &mut Steps::new())?;
/// assert_eq!(part.as_slice(), [5].as_slice());
/// ```
#[inline]
pub fn slice<R: IndexRange<usize>>(
    set: &FixedBitSet,
    alloc: Global,
    range: R,
    steps: &mut Steps,
) -> Result<FixedBitSet, AllocError> {
    let start = range.start().unwrap_or(0);
    let end = range.end().unwrap_or(set.len());
    let mut words = crate::shim::row![in alloc; 0; storage_words(end - start)]?;
    let view = set.as_bits();
    view.slice_over_zeros(start, end, &mut words, steps);
    Ok(FixedBitSet {
        words,
        length: end - start,
    })
}

/// [`FixedBitSet::copy_range`], with the steps that it takes.
///
/// It takes exactly one step for each lane of four of the words that it writes whole, the last of
/// which may have fewer, and one for each other word that it writes.
///
/// ```text
/// let mut set = FixedBitSet::from_iter(alloc, [0, 2, 65, 69])?;
/// let other = FixedBitSet::from_iter(alloc, [1, 63, 65])?;
/// assert!(set.len() == 70 && other.len() == 66);
/// counted::copy_range(&mut set, &other, 62.., 1, &mut Steps::new());
/// assert_eq!(set.as_slice(), [21, 34].as_slice());
/// ```
#[inline]
pub fn copy_range<R: IndexRange<usize>>(
    set: &mut FixedBitSet,
    other: &FixedBitSet,
    range: R,
    at: usize,
    steps: &mut Steps,
) {
    let start = range.start().unwrap_or(0);
    let end = range.end().unwrap_or(other.len());
    let (words, length) = (&mut *set.words.as_mut_slice(), set.length);
    BitsMut { words, length }.copy_range(other.as_bits(), start, end, at, steps);
}

/// [`FixedBitSet::append`], with the steps that it takes.
///
/// ```text
/// let mut set = FixedBitSet::with_capacity(alloc, 4)?;
/// let mut other = FixedBitSet::with_capacity(alloc, 65)?;
/// other.insert(64);
/// counted::append(&mut set, &other, &mut Steps::new())?;
/// assert_eq!(set.as_slice(), [0, 16].as_slice());
/// ```
pub fn append(
    set: &mut FixedBitSet,
    other: &FixedBitSet,
    steps: &mut Steps,
) -> Result<(), AllocError> {
    let length = set.len();
    set.grow(length + other.len())?;
    union_with_shifted(set, other, length, steps);
    Ok(())
}

/// [`FixedBitSet::resize`], with the steps that it takes: one for each word that holds a
/// position that is new and set.
///
/// ```text
/// let mut set = FixedBitSet::from_iter(alloc, [1, 3])?;
/// counted::resize(&mut set, 66, true, &mut Steps::new())?;
/// assert_eq!(set.as_slice(), [!5, 3].as_slice());
/// ```
pub fn resize(
    set: &mut FixedBitSet,
    bits: usize,
    enabled: bool,
    steps: &mut Steps,
) -> Result<(), AllocError> {
    let length = set.len();
    if bits <= length {
        set.truncate(bits);
        return Ok(());
    }
    set.grow(bits)?;
    if enabled {
        insert_range(set, length..bits, steps);
    }
    Ok(())
}
