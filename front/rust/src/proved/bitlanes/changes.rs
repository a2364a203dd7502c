// Made by front/erase from crates/bitlanes/src/changes.rt: change that, and not this.
//! The kernels that change words and return whether a bit changed. Each word is read once.
//!
//! A step is one lane, as in module `lanes`.

use crate::proved::bitlanes::lanes::{LANE, is_zero, joined_part_at, lane_at, part_at, put_part};
use crate::proved::bitlanes::ops::WordOp;
use crate::proved::bitlanes::{Block, Steps};
use crate::shim::simd::prelude::*;

/// Joins each word of `dst` with the word of `src` at its place, by `O`, and returns whether a bit
/// of `dst` changed. Words of `dst` past the end of `src` stay.
///
/// It takes exactly `m / 4` steps, rounded up, `m` being the number of words of the shorter slice.
///
/// ```text
/// let mut words = [1, 2, 4, 8, 16];
/// assert!(changes::apply::<Or>(&mut words, &[2, 2], &mut Steps::new()));
/// assert!(!changes::apply::<Or>(&mut words, &[3, 2], &mut Steps::new()));
/// assert_eq!(words, [3, 2, 4, 8, 16]);
/// ```
#[inline(always)]
pub fn apply<O: WordOp>(dst: &mut [Block], src: &[Block], steps: &mut Steps) -> bool {
    let words = dst.len().min(src.len());
    let (dst, src) = (&mut dst[..words], &src[..words]);
    let mut at = 0;
    let mut changed = u64x4::splat(0);
    while words - at >= LANE {
        steps.tick();
        changed = gathered(changed, change_lane::<O>(dst, src, at));
        at += LANE;
    }
    let whole = !is_zero(changed);
    let rest = words - at;
    if rest > 0 {
        steps.tick();
        let part = change_part::<O>(dst, src, at, rest);
        return whole | !is_zero(part);
    }
    whole
}

/// Joins each word of `dst` by `O` with the words of `a` and `b` at its place, which are joined by
/// `T` first, and returns whether a bit of `dst` changed. Words of `dst` past the end of `a` or of
/// `b` stay.
///
/// It takes exactly `m / 4` steps, rounded up, `m` being the number of words of the shortest slice.
///
/// ```text
/// let mut words = [1, 2, 4, 8, 16];
/// let mut steps = Steps::new();
/// assert!(changes::apply_joined::<Or, AndNot>(&mut words, &[7, 7], &[4, 5], &mut steps));
/// assert!(!changes::apply_joined::<Or, AndNot>(&mut words, &[3, 6], &[0, 4], &mut steps));
/// assert_eq!(words, [3, 2, 4, 8, 16]);
/// ```
#[inline(always)]
pub fn apply_joined<O: WordOp, T: WordOp>(
    dst: &mut [Block],
    a: &[Block],
    b: &[Block],
    steps: &mut Steps,
) -> bool {
    let words = dst.len().min(a.len().min(b.len()));
    let (dst, a, b) = (&mut dst[..words], &a[..words], &b[..words]);
    let mut at = 0;
    let mut changed = u64x4::splat(0);
    while words - at >= LANE {
        steps.tick();
        let joined = lane_at::<T>(a, b, at);
        changed = gathered(changed, change_by_lane::<O>(dst, at, joined));
        at += LANE;
    }
    let whole = !is_zero(changed);
    let rest = words - at;
    if rest > 0 {
        steps.tick();
        let joined = joined_part_at::<T>(a, b, at, rest);
        let part = change_by_part::<O>(dst, at, rest, joined);
        return whole | !is_zero(part);
    }
    whole
}

/// Makes each word 0, and returns whether one was not.
///
/// It takes exactly `m / 4` steps, rounded up, `m` being the number of words.
///
/// ```text
/// let mut words = [1; 6];
/// assert!(changes::zero(&mut words[1..], &mut Steps::new()));
/// assert!(!changes::zero(&mut words[1..], &mut Steps::new()));
/// assert_eq!(words, [1, 0, 0, 0, 0, 0]);
/// ```
#[inline(always)]
pub fn zero(dst: &mut [Block], steps: &mut Steps) -> bool {
    let words = dst.len();
    let mut at = 0;
    let mut changed = u64x4::splat(0);
    while words - at >= LANE {
        steps.tick();
        changed = gathered(changed, u64x4::from_slice(&dst[at..]));
        u64x4::splat(0).copy_to_slice(&mut dst[at..]);
        at += LANE;
    }
    let rest = words - at;
    if rest > 0 {
        steps.tick();
        changed = gathered(changed, part_at(dst, at, rest));
        put_part(dst, at, rest, u64x4::splat(0));
    }
    !is_zero(changed)
}

// The bits of either lane.
#[inline(always)]
fn gathered(before: u64x4, lane: u64x4) -> u64x4 {
    before | lane
}

// Joins the four words of `dst` from `at` on with those of `src`, and returns the bits that
// changed.
#[inline(always)]
fn change_lane<O: WordOp>(dst: &mut [Block], src: &[Block], at: usize) -> u64x4 {
    change_by_lane::<O>(dst, at, u64x4::from_slice(&src[at..]))
}

// Joins the four words of `dst` from `at` on with a lane, and returns the bits that changed.
#[inline(always)]
fn change_by_lane<O: WordOp>(dst: &mut [Block], at: usize, lane: u64x4) -> u64x4 {
    let old = u64x4::from_slice(&dst[at..]);
    let new = O::lane(old, lane);
    new.copy_to_slice(&mut dst[at..]);
    old ^ new
}

// Joins the last one to three words of `dst`, from `at` on, with those of `src`, and returns the
// bits that changed.
#[inline(always)]
fn change_part<O: WordOp>(dst: &mut [Block], src: &[Block], at: usize, rest: usize) -> u64x4 {
    change_by_part::<O>(dst, at, rest, part_at(src, at, rest))
}

// Joins the last one to three words of `dst`, from `at` on, with the first of a lane, and returns
// the bits that changed where these words are filled with zeros.
#[inline(always)]
fn change_by_part<O: WordOp>(dst: &mut [Block], at: usize, rest: usize, lane: u64x4) -> u64x4 {
    let old = part_at(dst, at, rest);
    let joined = O::lane(old, lane);
    put_part(dst, at, rest, joined);
    old ^ joined
}
