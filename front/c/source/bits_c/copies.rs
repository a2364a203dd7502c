// Made by front/erase from crates/bits_c/src/copies.rt: change that, and not this.
//! Sets written over words that may hold anything: a copy, and two sets joined, of any two lengths.
//! Each word is written once. The words that are written may not be those of the other sets.

use crate::bits_c::bits_words;
use crate::bits_c::structs::Room;
use crate::proved::fixedbitset::views::Bits;

/// Copies to `to` the positions of the set that are below the length of `to`, which may be any
/// number, and returns `true`; returns `false` and changes nothing if `to` does not have
/// `bits_words` of its length.
pub fn bits_copy(to: &mut Room<'_>, set: &Bits<'_>) -> bool {
    if to.words.len() == bits_words(to.length) {
        set.copy_to(to.words, to.length);
        true
    } else {
        false
    }
}

/// Writes the positions in either set (union) to `to`, and returns `true`. Returns `false` and
/// changes nothing if the length of `to` is not the greater of the two lengths, or its words are
/// not `bits_words` of that length.
pub fn bits_union_of(to: &mut Room<'_>, set: &Bits<'_>, other: &Bits<'_>) -> bool {
    if to.words.len() == bits_words(to.length) && to.length == set.length.max(other.length) {
        set.union_to(*other, to.words);
        true
    } else {
        false
    }
}

/// Writes the positions in exactly one of the sets (xor) to `to`, and returns `true`. Returns
/// `false` and changes nothing if the length of `to` is not the greater of the two lengths, or its
/// words are not `bits_words` of that length.
pub fn bits_symmetric_difference_of(
    to: &mut Room<'_>,
    set: &Bits<'_>,
    other: &Bits<'_>,
) -> bool {
    if to.words.len() == bits_words(to.length) && to.length == set.length.max(other.length) {
        set.symmetric_difference_to(*other, to.words);
        true
    } else {
        false
    }
}

/// Writes the positions in both sets (intersection) to `to`, and returns `true`. Returns `false`
/// and changes nothing if the length of `to` is not the smaller of the two lengths, or its words
/// are not `bits_words` of that length.
pub fn bits_intersection_of(to: &mut Room<'_>, set: &Bits<'_>, other: &Bits<'_>) -> bool {
    if to.words.len() == bits_words(to.length) && to.length == set.length.min(other.length) {
        set.intersection_to(*other, to.words);
        true
    } else {
        false
    }
}

/// Writes the positions of the first set that the second lacks (difference) to `to`, and returns
/// `true`. Returns `false` and changes nothing if the length of `to` is not the length of the
/// first, or its words are not `bits_words` of that length.
pub fn bits_difference_of(to: &mut Room<'_>, set: &Bits<'_>, other: &Bits<'_>) -> bool {
    if to.words.len() == bits_words(to.length) && to.length == set.length {
        set.difference_to(*other, to.words);
        true
    } else {
        false
    }
}
