// Made by front/erase from crates/bits_c/src/ranges.rt: change that, and not this.
//! Ranges of positions, from `start` up to and without `end`. A range is valid where its start is
//! not past its end, and its end not past the length.

use crate::proved::bitlanes::Steps;
use crate::proved::fixedbitset::views::{Bits, BitsMut};

/// Returns whether the range is valid: `start <= end`, and `end <= length`.
pub fn bits_range_is_valid(set: &Bits<'_>, start: usize, end: usize) -> bool {
    set.range_is_valid(start, end)
}

/// Sets each position of the range and returns `true`; returns `false` and changes nothing if the
/// range is not valid.
pub fn bits_insert_range(set: &mut BitsMut<'_>, start: usize, end: usize) -> bool {
    if set.as_bits().range_is_valid(start, end) {
        set.insert_range(start, end, &mut Steps::new());
        true
    } else {
        false
    }
}

/// Clears each position of the range and returns `true`; returns `false` and changes nothing if the
/// range is not valid.
pub fn bits_remove_range(set: &mut BitsMut<'_>, start: usize, end: usize) -> bool {
    if set.as_bits().range_is_valid(start, end) {
        set.remove_range(start, end, &mut Steps::new());
        true
    } else {
        false
    }
}

/// Flips each position of the range and returns `true`; returns `false` and changes nothing if the
/// range is not valid.
pub fn bits_toggle_range(set: &mut BitsMut<'_>, start: usize, end: usize) -> bool {
    if set.as_bits().range_is_valid(start, end) {
        set.toggle_range(start, end, &mut Steps::new());
        true
    } else {
        false
    }
}

/// Returns how many positions of the range are set (the population count, popcount); 0 if the range
/// is not valid.
pub fn bits_count_ones(set: &Bits<'_>, start: usize, end: usize) -> usize {
    if bits_range_is_valid(set, start, end) {
        set.count_ones(start, end, &mut Steps::new())
    } else {
        0
    }
}

/// Returns how many positions of the range are not set; 0 if the range is not valid.
pub fn bits_count_zeroes(set: &Bits<'_>, start: usize, end: usize) -> usize {
    if bits_range_is_valid(set, start, end) {
        set.count_zeroes(start, end, &mut Steps::new())
    } else {
        0
    }
}

/// Returns whether each position of the range is set; `false` if the range is not valid.
pub fn bits_contains_all_in_range(set: &Bits<'_>, start: usize, end: usize) -> bool {
    bits_range_is_valid(set, start, end) && set.contains_all_in_range(start, end, &mut Steps::new())
}

/// Returns whether some position of the range is set; `false` if the range is not valid.
pub fn bits_contains_any_in_range(set: &Bits<'_>, start: usize, end: usize) -> bool {
    bits_range_is_valid(set, start, end) && set.contains_any_in_range(start, end, &mut Steps::new())
}
