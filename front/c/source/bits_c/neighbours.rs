// Made by front/erase from crates/bits_c/src/neighbours.rt: change that, and not this.
//! The positions of a set next to a given one, and the k-th of all. Any number may be given.

use crate::bits_c::NONE;
use crate::bits_c::ranges::bits_range_is_valid;
use crate::proved::bitlanes::Steps;
use crate::proved::fixedbitset::views::Bits;

/// Returns the least position at or past `from` that is set, or `NONE`. Any number may be passed.
pub fn bits_next_one(set: &Bits<'_>, from: usize) -> usize {
    set.next_one(from, &mut Steps::new()).unwrap_or(NONE)
}

/// Returns the least position at or past `from` and below the length that is not set, or `NONE`.
pub fn bits_next_zero(set: &Bits<'_>, from: usize) -> usize {
    set.next_zero(from, &mut Steps::new()).unwrap_or(NONE)
}

/// Returns the least position at or past `from` that is in both sets, or `NONE`. Any number may be
/// passed.
pub fn bits_next_common(set: &Bits<'_>, other: &Bits<'_>, from: usize) -> usize {
    set.next_common(*other, from, &mut Steps::new())
        .unwrap_or(NONE)
}

/// Returns the position of the set that has exactly `index` positions of the set below it (select),
/// or `NONE`; the first position has index 0. The call counts word by word; `bits_select` has a
/// directory.
pub fn bits_nth_one(set: &Bits<'_>, index: usize) -> usize {
    set.nth_one(index, &mut Steps::new()).unwrap_or(NONE)
}

/// Returns the least number at or past `from` from which `count` consecutive positions are clear,
/// all below the length, or `NONE`; `NONE` too if `from` is past the length.
pub fn bits_first_gap(set: &Bits<'_>, count: usize, from: usize) -> usize {
    set.first_gap(count, from, &mut Steps::new())
        .unwrap_or(NONE)
}

/// Returns the least multiple of `align` in the range from which `count` consecutive positions are
/// clear, all in the range, or `NONE`; `NONE` too if the range is not valid. The only multiple of 0
/// is 0.
pub fn bits_first_aligned_gap(
    set: &Bits<'_>,
    count: usize,
    align: usize,
    start: usize,
    end: usize,
) -> usize {
    if bits_range_is_valid(set, start, end) {
        set.first_aligned_gap(count, align, start, end, &mut Steps::new())
            .unwrap_or(NONE)
    } else {
        NONE
    }
}

/// Returns the greatest number from which `count` consecutive positions are clear, all below
/// `below` and below the length, or `NONE`.
pub fn bits_last_gap(set: &Bits<'_>, count: usize, below: usize) -> usize {
    set.last_gap(count, below, &mut Steps::new())
        .unwrap_or(NONE)
}

/// Returns the greatest position below `below` that is set, or `NONE`.
pub fn bits_previous_one(set: &Bits<'_>, below: usize) -> usize {
    set.previous_one(below, &mut Steps::new()).unwrap_or(NONE)
}

/// Returns the greatest position below `below` and below the length that is not set, or `NONE`.
pub fn bits_previous_zero(set: &Bits<'_>, below: usize) -> usize {
    set.previous_zero(below, &mut Steps::new()).unwrap_or(NONE)
}
