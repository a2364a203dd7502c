// Made by front/erase from crates/bits_c/src/bytes.rt: change that, and not this.
//! A set as bytes: position `p` is bit `p % 8` of byte `p / 8`.

use crate::bits_c::bits_blocks;
use crate::proved::fixedbitset::views::{Bits, BitsMut};

/// Returns how many bytes a set of this length has: eight for each word that the length needs.
pub fn bits_bytes(length: usize) -> usize {
    8 * bits_blocks(length)
}

/// Replaces the positions of the set by the positions in the bytes. Any number of bytes may be
/// passed: missing bytes count as 0, and bits past the length are dropped.
pub fn bits_from_bytes(set: &mut BitsMut<'_>, bytes: &[u8]) {
    set.assign_bytes(bytes);
}

/// Writes the bytes of the set and returns `true`; returns `false` and changes nothing if `count`
/// is not `bits_bytes(length)`.
pub fn bits_to_bytes(set: &Bits<'_>, bytes: &mut [u8]) -> bool {
    if bytes.len() == bits_bytes(set.length) {
        set.to_bytes(bytes);
        true
    } else {
        false
    }
}

/// Reverses the bits of each byte. `bits_from_bytes` and `bits_to_bytes` have the first of eight
/// positions in the lowest bit of a byte; this call turns bytes with that position in the highest
/// bit (most significant bit first) into such bytes, and back.
pub fn bits_reverse_each_byte(bytes: &mut [u8]) {
    for byte in bytes.iter_mut() {
        *byte = byte.reverse_bits();
    }
}
