// Made by front/erase from crates/bitwords/src/joins.rt: change that, and not this.
//! Two rows of words, of any two lengths: joins, counts and tests. Past its words
//! a row has no position.
//!
//! The words that both rows have are joined by a kernel of `bitlanes`, by lanes of four; the rest
//! of the longer row is cleared, counted or left, as the operation says.

use crate::proved::bitlanes::ops::{And, AndNot, Or, Second, WordOp};
use crate::proved::bitlanes::search::{first_joined, next_one};
use crate::proved::bitlanes::word::{BITS, lowest_bit};
use crate::proved::bitlanes::{Block, Steps, changes, lanes};

/// Joins each position of `words` with that of `other` by `O`.
///
/// With `m` words that both have and `t` that only `words` has it takes exactly `m / 4` steps,
/// rounded up, and `t / 4`, rounded up, more where the rest is cleared.
///
/// ```text
/// let mut words = [11, 3, 1];
/// joins::join::<And>(&mut words, &[9, 6], &mut Steps::new());
/// assert_eq!(words, [9, 2, 0]);
/// ```
#[inline(always)]
pub fn join<O: WordOp>(words: &mut [Block], other: &[Block], steps: &mut Steps) {
    lanes::apply::<O>(words, other, steps);
    let common = other.len();
    if !O::KEEP && common < words.len() {
        lanes::zero(&mut words[common..], steps);
    }
}

/// Joins each position of `words` with that of `other` by `O`, and returns whether one changed.
/// Where the operation takes positions that only `other` has, `other` may not be longer.
///
/// It takes exactly the steps of [`join`]: each word is read once.
///
/// ```text
/// let mut words = [11, 3, 1];
/// assert!(joins::join_with_change::<And>(&mut words, &[9, 6], &mut Steps::new()));
/// assert_eq!(words, [9, 2, 0]);
/// ```
#[inline(always)]
pub fn join_with_change<O: WordOp>(words: &mut [Block], other: &[Block], steps: &mut Steps) -> bool {
    let joined = changes::apply::<O>(words, other, steps);
    let common = other.len();
    if !O::KEEP && common < words.len() {
        let cleared = changes::zero(&mut words[common..], steps);
        return joined || cleared;
    }
    joined
}

/// Writes each position of `words`, joined with that of `other` by `O`, over the words `to`, which
/// are as many as `words`.
///
/// With `m` words that both have and `t` that only `words` has it takes exactly `m / 4` steps,
/// rounded up, and `t / 4`, rounded up, more: each word is read once and written once.
///
/// ```text
/// let mut to = [7; 3];
/// joins::join_to::<Xor>(&mut to, &[11, 3, 1], &[9, 6], &mut Steps::new());
/// assert_eq!(to, [2, 5, 1]);
/// ```
#[inline(always)]
pub fn join_to<O: WordOp>(to: &mut [Block], words: &[Block], other: &[Block], steps: &mut Steps) {
    changes::apply_joined::<Second, O>(to, words, other, steps);
    let common = other.len();
    if common < words.len() {
        if O::KEEP {
            lanes::apply::<Second>(&mut to[common..], &words[common..], steps);
        } else {
            lanes::zero(&mut to[common..], steps);
        }
    }
}

/// Takes in the positions of `gens` that `kills` lacks, and returns whether one came in. `gens` may
/// not be longer than `words`.
///
/// With `m` words that `gens` and `kills` have and `t` that only `gens` has it takes exactly `m /
/// 4` steps, rounded up, and `t / 4`, rounded up, more: each word is read once.
///
/// ```text
/// let mut words = [1, 0, 8];
/// let mut steps = Steps::new();
/// assert!(joins::union_with_difference(&mut words, &[7, 3], &[5], &mut steps));
/// assert!(!joins::union_with_difference(&mut words, &[7, 3], &[4, 0, 9], &mut steps));
/// assert_eq!(words, [3, 3, 8]);
/// ```
#[inline(always)]
pub fn union_with_difference(
    words: &mut [Block],
    gens: &[Block],
    kills: &[Block],
    steps: &mut Steps,
) -> bool {
    let common = gens.len().min(kills.len());
    let joined = changes::apply_joined::<Or, AndNot>(words, gens, kills, steps);
    let behind = changes::apply::<Or>(&mut words[common..], &gens[common..], steps);
    joined | behind
}

/// How many positions are set in `a` joined with `b` by `O`. Precondition: this number fits
/// `usize`.
///
/// With `m` words that both have and `t` that only the longer has it takes exactly `m / 4` steps,
/// rounded up, and `t / 4`, rounded up, more where these count.
///
/// ```text
/// let count = joins::count::<Xor>(&[11, 3], &[9], &mut Steps::new());
/// assert_eq!(count, 3);
/// ```
#[inline(always)]
pub fn count<O: WordOp>(a: &[Block], b: &[Block], steps: &mut Steps) -> usize {
    count_words::<O>(a, b, steps)
}

/// Whether `count` is 0, whether or not it fits `usize`.
///
/// It stops at the first lane that decides: where it returns `true` it takes exactly the steps of
/// `count`, and where it returns `false` exactly those of `count` over the words up to the one that
/// has the first position that counts.
///
/// ```text
/// assert!(joins::none::<AndNot>(&[2], &[3, 1], &mut Steps::new()));
/// assert!(!joins::none::<AndNot>(&[3, 1], &[3], &mut Steps::new()));
/// ```
#[inline(always)]
pub fn none<O: WordOp>(a: &[Block], b: &[Block], steps: &mut Steps) -> bool {
    none_words::<O>(a, b, steps)
}

/// The first position of `a` that `b` lacks, or `None` where it has each of them.
///
/// It looks at four words of each row at a time up to those that have the position. It takes
/// exactly the steps of [`count`] by `AndNot` over the words of `a` up to the one that has it, or
/// over all of `a` where it returns `None`. The number of positions of `a`, 64 for each word, may
/// be at most 2 ^ 64.
///
/// ```text
/// assert_eq!(joins::first_of_difference(&[7, 6], &[7, 2, 1], &mut Steps::new()), Some(66));
/// assert_eq!(joins::first_of_difference(&[7, 6], &[7], &mut Steps::new()), Some(65));
/// assert_eq!(joins::first_of_difference(&[7], &[7, 2, 1], &mut Steps::new()), None);
/// ```
#[inline(always)]
pub fn first_of_difference(a: &[Block], b: &[Block], steps: &mut Steps) -> Option<usize> {
    let at = first_word(a, b, steps)?;
    Some(BITS * at + lowest_bit(word_without(a, b, at)))
}

/// The least position, at or past `from`, that both rows have, or `None` where there is none. Both
/// rows have to have the word of `from`.
///
/// It takes one step for that word of the two, and one for each lane of four words after it up to
/// the one that has the position, or up to the end of the shorter row. The number of positions of
/// `a`, 64 for each word, may be at most 2 ^ 64.
///
/// ```text
/// let (a, b) = ([9, 0, 6], [8, 7, 4]);
/// assert_eq!(joins::next_common(&a, &b, 1, &mut Steps::new()), Some(3));
/// assert_eq!(joins::next_common(&a, &b, 4, &mut Steps::new()), Some(130));
/// assert_eq!(joins::next_common(&a, &b[..2], 4, &mut Steps::new()), None);
/// ```
#[inline(always)]
pub fn next_common(a: &[Block], b: &[Block], from: usize, steps: &mut Steps) -> Option<usize> {
    steps.tick();
    let at = from / BITS;
    let rest = And::word(a[at], b[at]) >> (from % BITS);
    if rest != 0 {
        return Some(from + lowest_bit(rest));
    }
    let behind = at + 1;
    let place = first_joined::<And>(&a[behind..], &b[behind..], steps)?;
    let at = behind + place;
    Some(BITS * at + lowest_bit(And::word(a[at], b[at])))
}

// How many bits are set from word `from` on, where these words count.
#[inline(always)]
fn count_rest(words: &[Block], from: usize, counts: bool, steps: &mut Steps) -> usize {
    if counts && from < words.len() {
        lanes::count_one(&words[from..], steps)
    } else {
        0
    }
}

// How many bits are set in the joined words, to the end of the longer row.
#[inline(always)]
fn count_words<O: WordOp>(a: &[Block], b: &[Block], steps: &mut Steps) -> usize {
    if a.len() == b.len() {
        lanes::count::<O>(a, b, steps)
    } else {
        count_unlike::<O>(a, b, steps)
    }
}

// `count_words`, for rows of unlike lengths. It is a call of its own, so that rows of one
// length have no tests of it.
#[cold]
#[inline(never)]
fn count_unlike<O: WordOp>(a: &[Block], b: &[Block], steps: &mut Steps) -> usize {
    let common = lanes::count::<O>(a, b, steps);
    let kept = count_rest(a, b.len(), O::KEEP, steps);
    let taken = count_rest(b, a.len(), O::TAKE, steps);
    common + kept + taken
}

// Whether no bit is set from word `from` on, where these words count.
#[inline(always)]
fn none_rest(words: &[Block], from: usize, counts: bool, steps: &mut Steps) -> bool {
    if counts && from < words.len() {
        lanes::none_one(&words[from..], steps)
    } else {
        true
    }
}

// Whether no bit is set in the joined words, to the end of the longer row.
#[inline(always)]
fn none_words<O: WordOp>(a: &[Block], b: &[Block], steps: &mut Steps) -> bool {
    if a.len() == b.len() {
        lanes::none::<O>(a, b, steps)
    } else {
        none_unlike::<O>(a, b, steps)
    }
}

// `none_words`, for rows of unlike lengths.
#[cold]
#[inline(never)]
fn none_unlike<O: WordOp>(a: &[Block], b: &[Block], steps: &mut Steps) -> bool {
    lanes::none::<O>(a, b, steps)
        && none_rest(a, b.len(), O::KEEP, steps)
        && none_rest(b, a.len(), O::TAKE, steps)
}

// The place of the first word of `a` with a bit that `b` lacks.
#[inline(always)]
fn first_word(a: &[Block], b: &[Block], steps: &mut Steps) -> Option<usize> {
    let common = a.len().min(b.len());
    match first_joined::<AndNot>(a, b, steps) {
        Some(at) => Some(at),
        None => next_one::<Or>(0, a, common, steps),
    }
}

// A word of `a` without the bits of that of `b`, where there is one.
#[inline(always)]
fn word_without(a: &[Block], b: &[Block], at: usize) -> Block {
    if at < b.len() {
        AndNot::word(a[at], b[at])
    } else {
        a[at]
    }
}
