// Made by front/erase from crates/bitlanes/src/lanes.rt: change that, and not this.
//! The kernels: loops over the words of one slice or of two, by lanes of four words.
//!
//! A step is one lane in one turn of a kernel, and is counted by one tick. Where the number of
//! words is no multiple of four, the one to three words that are left are a lane of their own,
//! filled with zeros, of which only these words are written back. So `m` words take `m / 4` steps,
//! rounded up. A join in place and a count of a short row go word by word, and tick at the first
//! word of each lane.
//! The kernels and the searches of module `search` are the only loops of calls on whole sets.
//!
//! Of two slices a kernel reads as many words as the shorter one has.

use crate::proved::bitlanes::carries::{EIGHT, count_eights};
use crate::proved::bitlanes::ops::{Second, WordOp};
use crate::proved::bitlanes::{Block, Steps};
use crate::shim::simd::prelude::*;

/// How many words a lane has.
pub const LANE: usize = 4;

// From how many words on a count goes by carries. A shorter row is counted word by word, which is
// as fast there.
const LONG: usize = 512;

/// Joins each word of `dst` with the word of `src` at its place, by `O`. Words of `dst` past
/// the end of `src` stay.
///
/// It takes exactly `m / 4` steps, rounded up, `m` being the number of words of the shorter slice.
///
/// ```text
/// let mut words = [1, 2, 4, 8, 16];
/// lanes::apply::<Or>(&mut words, &[2, 2], &mut Steps::new());
/// assert_eq!(words, [3, 2, 4, 8, 16]);
/// ```
#[inline(always)]
pub fn apply<O: WordOp>(dst: &mut [Block], src: &[Block], steps: &mut Steps) {
    let words = dst.len().min(src.len());
    let (dst, src) = (&mut dst[..words], &src[..words]);
    // A single lane is joined by itself, which is faster where a loop over words is no vector code.
    if words == LANE {
        steps.tick();
        join_lane::<O>(dst, src, 0);
        return;
    }
    for k in 0..words {
        if k % LANE == 0 {
            steps.tick();
        }
        dst[k] = O::word(dst[k], src[k]);
    }
}

/// The population count of the words of `a` joined with those of `b` by `O`, as far as both go.
///
/// Precondition: this number fits `usize`. It takes exactly `m / 4` steps, rounded up, `m` being
/// the number of words of the shorter slice.
///
/// ```text
/// let count = lanes::count::<And>(&[7, 1, 1, 1, 255], &[2, 0, 1, 1, 15], &mut Steps::new());
/// assert_eq!(count, 7);
/// ```
#[inline(always)]
pub fn count<O: WordOp>(a: &[Block], b: &[Block], steps: &mut Steps) -> usize {
    let words = a.len().min(b.len());
    if words < LANE {
        count_from::<O>(a, b, 0, 0, words, steps)
    } else if words == LANE {
        // A single lane is counted by itself.
        steps.tick();
        ones_in(lane_at::<O>(a, b, 0).to_array())
    } else if words < LONG {
        count_from::<O>(a, b, 0, 0, words, steps)
    } else {
        count_long::<O>(a, b, steps)
    }
}

/// Whether no bit is set in the words of `a` joined with those of `b` by `O`, as far as both go.
///
/// It stops at the first lane with a bit: where it returns `false` it takes exactly one step for
/// each lane up to that one, and where it returns `true` exactly `m / 4` steps, rounded up, `m`
/// being the number of words of the shorter slice.
///
/// ```text
/// assert!(lanes::none::<And>(&[1, 2], &[2, 1, 255], &mut Steps::new()));
/// assert!(!lanes::none::<And>(&[1, 2], &[2, 3, 255], &mut Steps::new()));
/// ```
#[inline(always)]
pub fn none<O: WordOp>(a: &[Block], b: &[Block], steps: &mut Steps) -> bool {
    let common = a.len().min(b.len());
    let (a, b) = (&a[..common], &b[..common]);
    // A single lane is asked by itself.
    if common == LANE {
        steps.tick();
        return is_zero(lane_at::<O>(a, b, 0));
    }
    let mut at = 0;
    while common - at >= LANE {
        steps.tick();
        if !is_zero(lane_at::<O>(a, b, at)) {
            return false;
        }
        at += LANE;
    }
    let rest = common - at;
    if rest > 0 {
        steps.tick();
        return is_zero(joined_part_at::<O>(a, b, at, rest));
    }
    true
}

/// Makes each word 0.
///
/// It takes exactly `m / 4` steps, rounded up, `m` being the number of words.
///
/// ```text
/// let mut words = [1; 6];
/// lanes::zero(&mut words[1..], &mut Steps::new());
/// assert_eq!(words, [1, 0, 0, 0, 0, 0]);
/// ```
#[inline(always)]
pub fn zero(dst: &mut [Block], steps: &mut Steps) {
    // The loop is one call of `memset`: a step is no code.
    for place in 0..dst.len() {
        if place % LANE == 0 {
            steps.tick();
        }
        dst[place] = 0;
    }
}

/// The population count of the words: how many bits are set.
///
/// Precondition: this number fits `usize`. It takes exactly `m / 4` steps, rounded up, `m` being
/// the number of words.
///
/// ```text
/// let count = lanes::count_one(&[7, 0, 1 << 63], &mut Steps::new());
/// assert_eq!(count, 4);
/// ```
#[inline(always)]
pub fn count_one(a: &[Block], steps: &mut Steps) -> usize {
    // The count of a long row is a call, which does not know that both are one row: it reads the
    // second alone.
    count::<Second>(a, a, steps)
}

/// Whether no bit is set in the words.
///
/// It stops at the first lane with a bit: where it returns `false` it takes exactly one step for
/// each lane up to that one, and where it returns `true` exactly `m / 4` steps, rounded up, `m`
/// being the number of words.
///
/// ```text
/// assert!(lanes::none_one(&[0; 9], &mut Steps::new()));
/// assert!(!lanes::none_one(&[0, 0, 0, 0, 1], &mut Steps::new()));
/// ```
#[inline(always)]
pub fn none_one(a: &[Block], steps: &mut Steps) -> bool {
    let words = a.len();
    let mut at = 0;
    while words - at >= LANE {
        steps.tick();
        if !is_zero(u64x4::from_slice(&a[at..])) {
            return false;
        }
        at += LANE;
    }
    let rest = words - at;
    if rest > 0 {
        steps.tick();
        return is_zero(part_at(a, at, rest));
    }
    true
}

/// Whether no bit is set in the word `mask` joined with each word of `words` by `O`.
///
/// It stops at the first lane with a bit: where it returns `false` it takes exactly one step for
/// each lane up to that one, and where it returns `true` exactly `m / 4` steps, rounded up, `m`
/// being the number of words.
///
/// ```text
/// assert!(lanes::none_masked::<And>(4, &[3, 8, 1], &mut Steps::new()));
/// assert!(!lanes::none_masked::<AndNot>(4, &[4, 8], &mut Steps::new()));
/// ```
#[inline(always)]
pub fn none_masked<O: WordOp>(mask: Block, words: &[Block], steps: &mut Steps) -> bool {
    let count = words.len();
    let mut at = 0;
    while count - at >= LANE {
        steps.tick();
        if !is_zero(masked_lane_at::<O>(mask, words, at)) {
            return false;
        }
        at += LANE;
    }
    let rest = count - at;
    if rest > 0 {
        steps.tick();
        return is_zero(masked_part_at::<O>(mask, words, at, rest));
    }
    true
}

// Joins the four words of `dst` from `at` on with those of `src`.
#[inline(always)]
fn join_lane<O: WordOp>(dst: &mut [Block], src: &[Block], at: usize) {
    let lane = O::lane(u64x4::from_slice(&dst[at..]), u64x4::from_slice(&src[at..]));
    lane.copy_to_slice(&mut dst[at..]);
}

// The four joined words from `at` on.
#[inline(always)]
pub(crate) fn lane_at<O: WordOp>(a: &[Block], b: &[Block], at: usize) -> u64x4 {
    O::lane(u64x4::from_slice(&a[at..]), u64x4::from_slice(&b[at..]))
}

// The mask joined with each of the four words from `at` on.
#[inline(always)]
pub(crate) fn masked_lane_at<O: WordOp>(mask: Block, words: &[Block], at: usize) -> u64x4 {
    O::lane(u64x4::splat(mask), u64x4::from_slice(&words[at..]))
}

// The joined word at `at`.
#[inline(always)]
pub(crate) fn word_at<O: WordOp>(a: &[Block], b: &[Block], at: usize) -> Block {
    O::word(a[at], b[at])
}

// How many bits are set in the joined words, `total` being those of the first `lanes` lanes. It
// goes word by word, and takes a step at the first word of each lane.
#[inline(always)]
fn count_from<O: WordOp>(
    a: &[Block],
    b: &[Block],
    lanes: usize,
    total: usize,
    words: usize,
    steps: &mut Steps,
) -> usize {
    let (a, b) = (&a[..words], &b[..words]);
    let mut total = total;
    for at in LANE * lanes..words {
        if at % LANE == 0 {
            steps.tick();
        }
        total += word_at::<O>(a, b, at).count_ones() as usize;
    }
    total
}

// `count`, for long rows: by carries, eight lanes a turn, and then the words left. It is a call of
// its own, so that short rows save no registers for it.
#[cold]
#[inline(never)]
fn count_long<O: WordOp>(a: &[Block], b: &[Block], steps: &mut Steps) -> usize {
    let words = a.len().min(b.len());
    // Of one length, so that no read in a loop tests a bound.
    let (a, b) = (&a[..words], &b[..words]);
    let blocks = words / EIGHT;
    let total = count_eights::<O>(a, b, blocks, steps);
    count_from::<O>(a, b, 8 * blocks, total, words, steps)
}

// How many bits are set in four words.
#[inline(always)]
pub(crate) fn ones_in(words: [Block; LANE]) -> usize {
    let [first, second, third, fourth] = words;
    (first.count_ones() + second.count_ones() + third.count_ones() + fourth.count_ones()) as usize
}

// Whether no bit is set in a lane.
#[inline(always)]
pub(crate) fn is_zero(lane: u64x4) -> bool {
    lane.reduce_or() == 0
}

// The last one to three words, from `at` on, and zeros. They are read by tests, for a copy of as
// many words as are left would be a call of `memcpy`.
#[inline(always)]
pub(crate) fn part_at(words: &[Block], at: usize, rest: usize) -> u64x4 {
    let second = if rest > 1 { words[at + 1] } else { 0 };
    let third = if rest > 2 { words[at + 2] } else { 0 };
    u64x4::from_array([words[at], second, third, 0])
}

// Writes the first one to three words of the lane, from `at` on, by tests as `part_at` reads them.
#[inline(always)]
pub(crate) fn put_part(words: &mut [Block], at: usize, rest: usize, lane: u64x4) {
    let [first, second, third, _] = lane.to_array();
    words[at] = first;
    if rest > 1 {
        words[at + 1] = second;
        if rest > 2 {
            words[at + 2] = third;
        }
    }
}

// The last one to three joined words, from `at` on, and zeros.
#[inline(always)]
pub(crate) fn joined_part_at<O: WordOp>(a: &[Block], b: &[Block], at: usize, rest: usize) -> u64x4 {
    O::lane(part_at(a, at, rest), part_at(b, at, rest))
}

// The mask joined with each of the last one to three words, from `at` on, and zeros. Past the words
// the mask is 0 too, for a mask joined with 0 need not be 0.
#[inline(always)]
fn masked_part_at<O: WordOp>(mask: Block, words: &[Block], at: usize, rest: usize) -> u64x4 {
    O::lane(part_at(&[mask; LANE], 0, rest), part_at(words, at, rest))
}
