// Made by front/erase from crates/bitwords/src/shifts.rt: change that, and not this.
//! Rows of words moved up or down by any number of positions.
//!
//! A position that is moved to none of the row falls away, and one that nothing
//! is moved to is not set.

use crate::proved::bitlanes::ops::WordOp;
use crate::proved::bitlanes::word::BITS;
use crate::proved::bitlanes::{Block, Steps, lanes, shifts};

/// Joins each position of `words` by `O` with the position of `other` that stands `from` above it.
///
/// With `m` words that are joined and `t` words after them it takes exactly `m / 4` steps, rounded
/// up, and `t / 4`, rounded up, more where the rest is cleared.
///
/// ```text
/// let mut words = [1, 0];
/// shifts::join_down::<Or>(&mut words, &[0, 12, 0], 65, &mut Steps::new());
/// assert_eq!(words, [7, 0]);
/// ```
#[inline(always)]
pub fn join_down<O: WordOp>(words: &mut [Block], other: &[Block], from: usize, steps: &mut Steps) {
    shifts::join_down::<O>(words, other, from, steps);
    let common = other.len().saturating_sub(from / BITS);
    if !O::KEEP && common < words.len() {
        lanes::zero(&mut words[common..], steps);
    }
}

/// Joins each position of `words` by `O` with the position of `other` that stands `by`
/// below it, if there is one.
///
/// It takes exactly `m / 4` steps, rounded up, `m` being the number of words that have 64 positions
/// below them, and one more for the word that has fewer.
///
/// ```text
/// let mut words = [1, 0, 0];
/// shifts::join_up::<Or>(&mut words, &[1 << 63 | 1, 1], 65, &mut Steps::new());
/// assert_eq!(words, [1, 2, 3]);
/// ```
#[inline(always)]
pub fn join_up<O: WordOp>(words: &mut [Block], other: &[Block], by: usize, steps: &mut Steps) {
    let at = by / BITS;
    let shift = by % BITS;
    if at >= words.len() || other.is_empty() {
        return;
    }
    if shift == 0 {
        shifts::join_down::<O>(&mut words[at..], other, 0, steps);
        return;
    }
    steps.tick();
    words[at] = O::word(words[at], other[0] << shift);
    shifts::join_down::<O>(&mut words[at + 1..], other, BITS - shift, steps);
}

/// Moves each position of the row down by `by`. Those below `by` fall away.
///
/// With `m` words that are written and `t` words after them it takes exactly `m / 4` steps, rounded
/// up, and `t / 4`, rounded up, more.
///
/// ```text
/// let mut words = [7, 1];
/// shifts::down(&mut words, 2, &mut Steps::new());
/// assert_eq!(words, [1 | 1 << 62, 0]);
/// ```
#[inline(always)]
pub fn down(words: &mut [Block], by: usize, steps: &mut Steps) {
    shifts::down(words, by, steps);
    let kept = words.len().saturating_sub(by / BITS);
    lanes::zero(&mut words[kept..], steps);
}

/// Joins each position of the row by `O` with the position that stood `by` below it, if there was
/// one. `by` may not be 0.
///
/// With `m` words that have 64 positions below them it takes exactly `m / 4` steps, rounded up,
/// and one more for the word that has fewer; and where the words before them are cleared, one
/// for each lane of these.
///
/// ```text
/// let mut words = [7, 1];
/// shifts::up::<Second>(&mut words, 62, &mut Steps::new());
/// assert_eq!(words, [3 << 62, 1 | 1 << 62]);
/// ```
#[inline(always)]
pub fn up<O: WordOp>(words: &mut [Block], by: usize, steps: &mut Steps) {
    shifts::up::<O>(words, by, steps);
    if !O::KEEP {
        let below = words.len().min(by / BITS);
        lanes::zero(&mut words[..below], steps);
    }
}
