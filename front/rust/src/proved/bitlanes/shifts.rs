// Made by front/erase from crates/bitlanes/src/shifts.rt: change that, and not this.
//! The kernels that move the bits of a row up or down, by any number of bits.
//!
//! A moved word is made of two words that follow each other, so each lane is made of two loads that
//! lie one word apart. A step is one lane of four words that are written, as in module `lanes`, and
//! the last lane may have fewer.

use crate::proved::bitlanes::lanes::LANE;
use crate::proved::bitlanes::ops::{Second, WordOp};
use crate::proved::bitlanes::word::BITS;
use crate::proved::bitlanes::{Block, Steps};
use crate::shim::simd::prelude::*;

/// Joins each word of `dst` by `O` with the 64 bits of `src` at its place, where `src` is taken
/// from bit `from` on. Words of `dst` for which `src` has no bit left stay.
///
/// It takes exactly `m / 4` steps, rounded up, `m` being the number of words that are joined.
///
/// ```text
/// let mut words = [1, 0, 4];
/// shifts::join_down::<Or>(&mut words, &[5 << 60, 9, 1 << 63], 62, &mut Steps::new());
/// assert_eq!(words, [37, 0, 6]);
/// ```
#[inline(always)]
pub fn join_down<O: WordOp>(dst: &mut [Block], src: &[Block], from: usize, steps: &mut Steps) {
    let first = from / BITS;
    let shift = from % BITS;
    let words = dst.len().min(src.len().saturating_sub(first));
    if words == 0 {
        return;
    }
    let (dst, src) = (&mut dst[..words], &src[first..]);
    let mut done = 0;
    while words - done > LANE {
        steps.tick();
        join_lane::<O>(dst, done, window_lane(src, done, shift));
        done += LANE;
    }
    for at in done..words {
        if at % LANE == 0 {
            steps.tick();
        }
        dst[at] = O::word(dst[at], window_word(src, at, shift));
    }
}

/// Writes over each word of the row with the 64 bits that stand `by` places above it. Words that
/// have no bit of the row above them stay.
///
/// It takes exactly `m / 4` steps, rounded up, `m` being the number of words that are written.
///
/// ```text
/// let mut words = [5 << 60, 9, 1 << 63];
/// shifts::down(&mut words, 62, &mut Steps::new());
/// assert_eq!(words, [37, 0, 2]);
/// ```
#[inline(always)]
pub fn down(words: &mut [Block], by: usize, steps: &mut Steps) {
    let first = by / BITS;
    let shift = by % BITS;
    let kept = words.len().saturating_sub(first);
    let lanes = kept.saturating_sub(1) / LANE;
    for lane in 0..lanes {
        steps.tick();
        let moved = window_lane(words, first + LANE * lane, shift);
        join_lane::<Second>(words, LANE * lane, moved);
    }
    let start = first + LANE * lanes;
    if start < words.len() {
        steps.tick();
        let mut low = words[start];
        for at in start + 1..words.len() {
            let high = words[at];
            words[at - 1 - first] = straddle_word(shift, low, high);
            low = high;
        }
        // The last word that is written has no word above it.
        words[kept - 1] = low >> shift;
    }
}

/// Joins each word of the row by `O` with the 64 bits of the row that stand `by` places below it.
/// Words that have no bit of the row below them stay. `by` may not be 0.
///
/// It goes from the last word to the first, so each is read before it is written. It takes exactly
/// `m / 4` steps, rounded up, `m` being the number of words that have 64 bits below them, and one
/// more for the word that has fewer.
///
/// ```text
/// let mut words = [37, 0, 2];
/// shifts::up::<Or>(&mut words, 62, &mut Steps::new());
/// assert_eq!(words, [37 | 1 << 62, 9, 2 | 1 << 63]);
/// ```
#[inline(always)]
pub fn up<O: WordOp>(words: &mut [Block], by: usize, steps: &mut Steps) {
    let first = by.div_ceil(BITS);
    let shift = (BITS - by % BITS) % BITS;
    if words.len() < first {
        return;
    }
    let behind = words.len() - first;
    for lane in 0..behind / LANE {
        steps.tick();
        let at = words.len() - LANE * (lane + 1);
        let moved = window_lane(words, at - first, shift);
        join_lane::<O>(words, at, moved);
    }
    let rest = behind % LANE;
    if rest > 0 {
        steps.tick();
        let mut high = words[rest];
        for at in (0..rest).rev() {
            let low = words[at];
            words[first + at] = O::word(words[first + at], straddle_word(shift, low, high));
            high = low;
        }
    }
    if shift > 0 {
        steps.tick();
        words[first - 1] = O::word(words[first - 1], words[0] << (BITS - shift));
    }
}

/// The 64 bits of `words` from bit `from` on. Bits that the row does not have are 0.
///
/// ```text
/// assert_eq!(shifts::word_from(&[5 << 60, 9], 62), 37);
/// assert_eq!(shifts::word_from(&[5 << 60, 9], 128), 0);
/// ```
#[inline(always)]
pub fn word_from(words: &[Block], from: usize) -> Block {
    let at = from / BITS;
    if at < words.len() {
        window_word(words, at, from % BITS)
    } else {
        0
    }
}

// The four moved words from `at` on.
#[inline(always)]
fn window_lane(words: &[Block], at: usize, shift: usize) -> u64x4 {
    let five = &words[at..at + 5];
    straddle_lane(
        shift,
        u64x4::from_slice(five),
        u64x4::from_slice(&five[1..]),
    )
}

// The bits from bit `shift` on of each word and the one after it.
#[inline(always)]
fn straddle_lane(shift: usize, low: u64x4, high: u64x4) -> u64x4 {
    let right = u64x4::splat(shift as Block);
    let left = u64x4::splat((BITS - 1 - shift) as Block);
    (low >> right) | ((high << u64x4::splat(1)) << left)
}

// The moved word at `at`.
#[inline(always)]
fn window_word(words: &[Block], at: usize, shift: usize) -> Block {
    let low = words[at] >> shift;
    if at < words.len() - 1 {
        low | ((words[at + 1] << 1) << (BITS - 1 - shift))
    } else {
        low
    }
}

// The bits from bit `shift` on of a word and the one after it.
#[inline(always)]
fn straddle_word(shift: usize, low: Block, high: Block) -> Block {
    (low >> shift) | ((high << 1) << (BITS - 1 - shift))
}

// Joins the four words of `dst` from `at` on with a lane.
#[inline(always)]
fn join_lane<O: WordOp>(dst: &mut [Block], at: usize, lane: u64x4) {
    O::lane(u64x4::from_slice(&dst[at..]), lane).copy_to_slice(&mut dst[at..]);
}
