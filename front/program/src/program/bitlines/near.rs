// Made by front/erase from crates/bitlines/src/near.rt: change that, and not this.
//! A byte that is likely to be near, looked for among many at a time.

use crate::shim::prelude::ReadJson;
use crate::program::bitlines::words::find;
use crate::shim::simd::prelude::*;

/// The place of the first such byte. Where it is among the first 32, it is found at once.
#[inline]
pub(crate) fn find_near(text: &[u8], byte: u8) -> Option<usize> {
    if text.len() >= 32 {
        let near = place_of_32(text, byte);
        if near < 32 {
            return Some(near);
        }
    }
    find(text, byte)
}

// The place of the first such byte among the first 32, or 32.
#[inline(always)]
fn place_of_32(text: &[u8], byte: u8) -> usize {
    let hits = u8x32::from_slice(text)
        .simd_eq(u8x32::splat(byte))
        .to_bitmask();
    if hits == 0 {
        32
    } else {
        hits.trailing_zeros() as usize
    }
}
