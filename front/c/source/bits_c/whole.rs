// Made by front/erase from crates/bits_c/src/whole.rt: change that, and not this.
//! Two whole sets, of any two lengths. The words of a set that is changed may not
//! be those of the other.

use crate::bits_c::NONE;
use crate::proved::bitlanes::Steps;
use crate::proved::fixedbitset::views::{Bits, BitsMut};
use core::cmp::Ordering;

/// Adds the positions of the second set (union) and returns `true`; returns `false` and changes
/// nothing if the second set is longer than the first.
pub fn bits_union_with(set: &mut BitsMut<'_>, other: &Bits<'_>) -> bool {
    if other.length <= set.length {
        set.union_with(*other, &mut Steps::new());
        true
    } else {
        false
    }
}

/// Leaves the positions that are in exactly one of the sets (xor) and returns `true`; returns
/// `false` and changes nothing if the second set is longer than the first.
pub fn bits_symmetric_difference_with(set: &mut BitsMut<'_>, other: &Bits<'_>) -> bool {
    if other.length <= set.length {
        set.symmetric_difference_with(*other, &mut Steps::new());
        true
    } else {
        false
    }
}

/// Leaves the positions that are in both sets (intersection). The length of the first set stays.
pub fn bits_intersect_with(set: &mut BitsMut<'_>, other: &Bits<'_>) {
    set.intersect_with(*other, &mut Steps::new());
}

/// Leaves the positions of the first set that the second lacks (difference). The length of the
/// first set stays.
pub fn bits_difference_with(set: &mut BitsMut<'_>, other: &Bits<'_>) {
    set.difference_with(*other, &mut Steps::new());
}

/// Adds the positions of the second set (union), writes to `changed` whether the first set changed,
/// and returns `true`. Returns `false`, changes nothing, and writes nothing to `changed`, if the
/// second set is longer than the first.
pub fn bits_union_with_change(
    set: &mut BitsMut<'_>,
    other: &Bits<'_>,
    changed: &mut bool,
) -> bool {
    if other.length <= set.length {
        *changed = set.union_with_change(*other, &mut Steps::new());
        true
    } else {
        false
    }
}

/// Leaves the positions that are in exactly one of the sets (xor), writes to `changed` whether the
/// first set changed, and returns `true`. Returns `false`, changes nothing, and writes nothing to
/// `changed`, if the second set is longer than the first.
pub fn bits_symmetric_difference_with_change(
    set: &mut BitsMut<'_>,
    other: &Bits<'_>,
    changed: &mut bool,
) -> bool {
    if other.length <= set.length {
        *changed = set.symmetric_difference_with_change(*other, &mut Steps::new());
        true
    } else {
        false
    }
}

/// Like `bits_intersect_with`, and returns whether a position was removed.
pub fn bits_intersect_with_change(set: &mut BitsMut<'_>, other: &Bits<'_>) -> bool {
    set.intersect_with_change(*other, &mut Steps::new())
}

/// Like `bits_difference_with`, and returns whether a position was removed.
pub fn bits_difference_with_change(set: &mut BitsMut<'_>, other: &Bits<'_>) -> bool {
    set.difference_with_change(*other, &mut Steps::new())
}

/// Adds the positions of `gens` that `kills` lacks, writes to `changed` whether the first set
/// changed, and returns `true`. Returns `false`, changes nothing, and writes nothing to `changed`,
/// if `gens` is longer than the first set.
pub fn bits_union_with_difference(
    set: &mut BitsMut<'_>,
    gens: &Bits<'_>,
    kills: &Bits<'_>,
    changed: &mut bool,
) -> bool {
    if gens.length <= set.length {
        *changed = set.union_with_difference(*gens, *kills, &mut Steps::new());
        true
    } else {
        false
    }
}

/// Returns how many positions are in either set.
pub fn bits_union_count(set: &Bits<'_>, other: &Bits<'_>) -> usize {
    set.union_count(*other, &mut Steps::new())
}

/// Returns how many positions are in both sets.
pub fn bits_intersection_count(set: &Bits<'_>, other: &Bits<'_>) -> usize {
    set.intersection_count(*other, &mut Steps::new())
}

/// Returns how many positions of the first set the second lacks.
pub fn bits_difference_count(set: &Bits<'_>, other: &Bits<'_>) -> usize {
    set.difference_count(*other, &mut Steps::new())
}

/// Returns how many positions are in exactly one of the sets.
pub fn bits_symmetric_difference_count(set: &Bits<'_>, other: &Bits<'_>) -> usize {
    set.symmetric_difference_count(*other, &mut Steps::new())
}

/// Returns whether no position is in both sets.
pub fn bits_is_disjoint(set: &Bits<'_>, other: &Bits<'_>) -> bool {
    set.is_disjoint(*other, &mut Steps::new())
}

/// Returns whether the first set is a subset of the second: the second has each position of the
/// first. The lengths do not matter.
pub fn bits_is_subset(set: &Bits<'_>, other: &Bits<'_>) -> bool {
    set.is_subset(*other, &mut Steps::new())
}

/// Returns the least position of the second set that the first lacks, or `NONE`.
pub fn bits_first_lacking(set: &Bits<'_>, other: &Bits<'_>) -> usize {
    set.first_lacking(*other, &mut Steps::new()).unwrap_or(NONE)
}

/// Returns whether the lengths and the positions are equal.
pub fn bits_equal(set: &Bits<'_>, other: &Bits<'_>) -> bool {
    set.is_equal(*other, &mut Steps::new())
}

/// Returns -1 if the first set comes before the second, 0 if they are equal, and 1 if the first
/// comes after the second. The order is by length, and then by the words from the first word on.
pub fn bits_compare(set: &Bits<'_>, other: &Bits<'_>) -> isize {
    match set.compare(*other, &mut Steps::new()) {
        Ordering::Less => -1,
        Ordering::Equal => 0,
        Ordering::Greater => 1,
    }
}
