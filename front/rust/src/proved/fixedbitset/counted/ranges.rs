// Made by front/erase from crates/fixedbitset/src/counted/ranges.rt: change that, and not this.
//! Ranges of positions, with a counter of steps.
//!
//! A change or a count takes exactly one step for each word that holds a position of the range: so
//! none for an empty range, and never more than `(end - start) / 64 + 2`. A test takes no more: one
//! step for each lane of four of the words that are wholly in the range, and one for each other
//! word that holds a position of it. It stops at the first that decides, and takes exactly those up
//! to that one, or exactly all where none does.

use crate::proved::fixedbitset::set::FixedBitSet;
use crate::proved::fixedbitset::views::BitsMut;
use crate::proved::bitlanes::{IndexRange, Steps};

/// [`FixedBitSet::insert_range`], with the steps that it takes.
///
/// ```text
/// let mut set = FixedBitSet::with_capacity(alloc, 200)?;
/// let mut steps = Steps::new();
/// counted::insert_range(&mut set, 63..66, &mut steps);
/// assert_eq!(counted::count_ones(&set, .., &mut steps), 3);
/// ```
#[inline]
pub fn insert_range<R: IndexRange<usize>>(set: &mut FixedBitSet, range: R, steps: &mut Steps) {
    let start = range.start().unwrap_or(0);
    let end = range.end().unwrap_or(set.len());
    let (words, length) = (&mut *set.words.as_mut_slice(), set.length);
    BitsMut { words, length }.insert_range(start, end, steps);
}

/// [`FixedBitSet::remove_range`], with the steps that it takes.
///
/// ```text
/// let mut set = FixedBitSet::with_capacity(alloc, 200)?;
/// let mut steps = Steps::new();
/// counted::insert_range(&mut set, .., &mut steps);
/// counted::remove_range(&mut set, 1..=198, &mut steps);
/// assert_eq!(set.count_ones(..), 2);
/// ```
#[inline]
pub fn remove_range<R: IndexRange<usize>>(set: &mut FixedBitSet, range: R, steps: &mut Steps) {
    let start = range.start().unwrap_or(0);
    let end = range.end().unwrap_or(set.len());
    let (words, length) = (&mut *set.words.as_mut_slice(), set.length);
    BitsMut { words, length }.remove_range(start, end, steps);
}

/// [`FixedBitSet::toggle_range`], with the steps that it takes.
///
/// ```text
/// let mut set = FixedBitSet::with_capacity(alloc, 200)?;
/// let mut steps = Steps::new();
/// counted::toggle_range(&mut set, 60..66, &mut steps);
/// counted::toggle_range(&mut set, 62.., &mut steps);
/// assert_eq!(set.minimum(), Some(60));
/// ```
#[inline]
pub fn toggle_range<R: IndexRange<usize>>(set: &mut FixedBitSet, range: R, steps: &mut Steps) {
    let start = range.start().unwrap_or(0);
    let end = range.end().unwrap_or(set.len());
    let (words, length) = (&mut *set.words.as_mut_slice(), set.length);
    BitsMut { words, length }.toggle_range(start, end, steps);
}

/// [`FixedBitSet::count_ones`], with the steps that it takes.
///
/// ```text
/// let mut set = FixedBitSet::with_capacity(alloc, 200)?;
/// set.insert_range(60..130);
/// assert_eq!(counted::count_ones(&set, 63..=64, &mut Steps::new()), 2);
/// ```
#[inline]
pub fn count_ones<R: IndexRange<usize>>(
    set: &FixedBitSet,
    range: R,
    steps: &mut Steps,
) -> usize {
    let start = range.start().unwrap_or(0);
    let end = range.end().unwrap_or(set.len());
    set.as_bits().count_ones(start, end, steps)
}

/// [`FixedBitSet::count_zeroes`], with the steps that it takes.
///
/// ```text
/// let mut set = FixedBitSet::with_capacity(alloc, 200)?;
/// set.insert_range(60..130);
/// assert_eq!(counted::count_zeroes(&set, 59..=64, &mut Steps::new()), 1);
/// ```
#[inline]
pub fn count_zeroes<R: IndexRange<usize>>(
    set: &FixedBitSet,
    range: R,
    steps: &mut Steps,
) -> usize {
    let start = range.start().unwrap_or(0);
    let end = range.end().unwrap_or(set.len());
    set.as_bits().count_zeroes(start, end, steps)
}

/// [`FixedBitSet::contains_all_in_range`], with the steps that it takes.
///
/// ```text
/// let mut set = FixedBitSet::with_capacity(alloc, 200)?;
/// set.insert_range(60..130);
/// assert!(counted::contains_all_in_range(&set, 60..130, &mut Steps::new()));
/// assert!(!counted::contains_all_in_range(&set, 59..130, &mut Steps::new()));
/// ```
#[inline]
pub fn contains_all_in_range<R: IndexRange<usize>>(
    set: &FixedBitSet,
    range: R,
    steps: &mut Steps,
) -> bool {
    let start = range.start().unwrap_or(0);
    let end = range.end().unwrap_or(set.len());
    set.as_bits().contains_all_in_range(start, end, steps)
}

/// [`FixedBitSet::contains_any_in_range`], with the steps that it takes.
///
/// ```text
/// let mut set = FixedBitSet::with_capacity(alloc, 200)?;
/// set.insert_range(60..130);
/// assert!(counted::contains_any_in_range(&set, ..=60, &mut Steps::new()));
/// assert!(!counted::contains_any_in_range(&set, ..60, &mut Steps::new()));
/// ```
#[inline]
pub fn contains_any_in_range<R: IndexRange<usize>>(
    set: &FixedBitSet,
    range: R,
    steps: &mut Steps,
) -> bool {
    let start = range.start().unwrap_or(0);
    let end = range.end().unwrap_or(set.len());
    set.as_bits().contains_any_in_range(start, end, steps)
}
