// Made by front/erase from crates/bits_c/src/lists.rt: change that, and not this.
//! Lists of positions in one call: put into a set, taken out of it, or looked up in it.

use crate::proved::fixedbitset::views::{Bits, BitsMut};

/// Sets each of `count` positions and returns `true`; returns `false` and changes nothing if a
/// position is out of range.
pub fn bits_insert_all(set: &mut BitsMut<'_>, positions: &[usize]) -> bool {
    if all_below(positions, set.length) {
        set.insert_all(positions);
        true
    } else {
        false
    }
}

/// Clears each of `count` positions and returns `true`; returns `false` and changes nothing if a
/// position is out of range.
pub fn bits_remove_all(set: &mut BitsMut<'_>, positions: &[usize]) -> bool {
    if all_below(positions, set.length) {
        set.remove_all(positions);
        true
    } else {
        false
    }
}

/// Writes to `answers`, for each of `count` positions, whether the position is set (`false` if it
/// is out of range), and returns `true`; returns `false` and writes nothing if `places` is not
/// `count`.
pub fn bits_contains_each(
    set: &Bits<'_>,
    positions: &[usize],
    answers: &mut [bool],
) -> bool {
    if positions.len() != answers.len() {
        return false;
    }
    set.contains_each(positions, answers);
    true
}

// Whether each position of the list is below the length.
#[inline(always)]
fn all_below(positions: &[usize], length: usize) -> bool {
    positions.iter().all(|position| *position < length)
}
