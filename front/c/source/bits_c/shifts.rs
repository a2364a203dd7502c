// Made by front/erase from crates/bits_c/src/shifts.rt: change that, and not this.
//! Positions moved up or down by any number, sets joined with moved ones, parts, and parts as
//! numbers. The words of a set that is changed may not be those of the other.

use crate::proved::bitlanes::word::BITS;
use crate::proved::bitlanes::{Block, Steps};
use crate::proved::fixedbitset::views::{Bits, BitsMut};

/// Shifts each position up by `by`; positions that come to or past the length are dropped.
pub fn bits_shift_up(set: &mut BitsMut<'_>, by: usize) {
    set.shift_up(by, &mut Steps::new());
}

/// Shifts each position down by `by`; positions below `by` are dropped.
pub fn bits_shift_down(set: &mut BitsMut<'_>, by: usize) {
    set.shift_down(by, &mut Steps::new());
}

/// Adds the positions of the second set, shifted up by `by`; those that come to or past the length
/// are dropped.
pub fn bits_union_with_shifted(set: &mut BitsMut<'_>, other: &Bits<'_>, by: usize) {
    set.union_with_shifted(*other, by, &mut Steps::new());
}

/// Adds the positions of the set itself, shifted up by `by`; those that come to or past the length
/// are dropped.
pub fn bits_union_with_own_shift(set: &mut BitsMut<'_>, by: usize) {
    set.union_with_own_shift(by, &mut Steps::new());
}

/// Copies a slice: `part` gets the positions of the second set from `start` up to but not including
/// `end`, each less `start`. Returns `true` if the range is valid and the length of `part` is `end
/// - start`; else returns `false` and changes nothing.
pub fn bits_slice(
    part: &mut BitsMut<'_>,
    set: &Bits<'_>,
    start: usize,
    end: usize,
) -> bool {
    if start <= end && end <= set.length && part.length == end - start {
        set.slice_to(start, end, part.words, &mut Steps::new());
        true
    } else {
        false
    }
}

/// Copies the range from `start` up to but not including `end` of the second set over the positions
/// of the first set from `at` on; all other positions stay. Returns `true` if the range is valid in
/// the second set, and its copy, from `at` on, ends within the first; else returns `false` and
/// changes nothing.
pub fn bits_copy_range(
    set: &mut BitsMut<'_>,
    other: &Bits<'_>,
    start: usize,
    end: usize,
    at: usize,
) -> bool {
    if start > end || end > other.length {
        return false;
    }
    if at > set.length || end - start > set.length - at {
        return false;
    }
    set.copy_range(*other, start, end, at, &mut Steps::new());
    true
}

/// Writes the `width` positions from `start` on to `number`: bit `i` of the number is position
/// `start + i`. Returns `true` if `width` is at most 64 and the positions are below the length;
/// else returns `false` and writes nothing.
pub fn bits_load(set: &Bits<'_>, start: usize, width: usize, number: &mut Block) -> bool {
    if is_part(set.length, start, width) {
        *number = set.load(start, width);
        true
    } else {
        false
    }
}

/// Writes the lowest `width` bits of the number to the positions from `start` on: position `start +
/// i` becomes bit `i` of the number. Returns `true` if `width` is at most 64 and the positions are
/// below the length; else returns `false` and changes nothing.
pub fn bits_store(
    set: &mut BitsMut<'_>,
    start: usize,
    width: usize,
    number: Block,
) -> bool {
    if is_part(set.length, start, width) {
        set.store(start, width, number);
        true
    } else {
        false
    }
}

// Whether so many positions from `start` on are below the length, and fit a word.
#[inline(always)]
fn is_part(length: usize, start: usize, width: usize) -> bool {
    width <= BITS && start <= length && width <= length - start
}
