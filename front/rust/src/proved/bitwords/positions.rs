// Made by front/erase from crates/bitwords/src/positions.rt: change that, and not this.
//! Single positions of a row of words, the first, the last and the k-th of them, and
//! those from one position on.

use crate::proved::bitlanes::ops::{And, WordOp};
use crate::proved::bitlanes::search::{first_one, last_one, next_one, previous_one};
use crate::proved::bitlanes::word::{BITS, Block, highest_bit, lowest_bit, ones_below, stretch, take_lowest_bit};
use crate::proved::bitlanes::{Steps, lanes};

/// Whether the position is set in the words: `false` past their end. It looks at one word.
///
/// ```text
/// assert!(positions::contains(&[8, 1], 64));
/// assert!(!positions::contains(&[8, 1], 65));
/// assert!(!positions::contains(&[8, 1], 128));
/// ```
#[inline]
pub fn contains(words: &[Block], position: usize) -> bool {
    match words.get(position / BITS) {
        Some(word) => *word & (1 << (position % BITS)) != 0,
        None => false,
    }
}

/// The first position that is set, or `None` where none is.
///
/// It takes one step for each lane of four words from the first on, up to the one that has this
/// position. The number of positions of the row, 64 for each word, may be at most 2 ^ 64.
///
/// ```text
/// let mut steps = Steps::new();
/// assert_eq!(positions::first(&[0, 12], &mut steps), Some(66));
/// assert_eq!(positions::first(&[0; 5], &mut steps), None);
/// ```
#[inline]
pub fn first(words: &[Block], steps: &mut Steps) -> Option<usize> {
    let at = first_one(words, steps)?;
    Some(BITS * at + lowest_bit(words[at]))
}

/// The last position that is set, or `None` where none is.
///
/// It takes one step for each lane of four words from the last on, down to the one that has this
/// position. The number of positions of the row, 64 for each word, may be at most 2 ^ 64.
///
/// ```text
/// let mut steps = Steps::new();
/// assert_eq!(positions::last(&[12, 12, 0], &mut steps), Some(67));
/// assert_eq!(positions::last(&[0; 5], &mut steps), None);
/// ```
#[inline]
pub fn last(words: &[Block], steps: &mut Steps) -> Option<usize> {
    let at = last_one(words, steps)?;
    Some(BITS * at + highest_bit(words[at]))
}

/// The least position, at or past `from` and below `end`, whose bit is set when a bit that is set
/// is joined with it by `O`: with `And` a position of the row, with `AndNot` one that the row
/// lacks. `None` where there is none.
///
/// It takes one step for the word of `from`, and one for each lane of four words after it up to the
/// one that has the position. Where there is none it takes these up to the word of `end` at least,
/// and up to the end of the words at most. No step is taken where `from` is not below `end`. The
/// end may not be past the words.
///
/// ```text
/// let mut steps = Steps::new();
/// assert_eq!(positions::next::<And>(&[9, 0, 2], 1, 192, &mut steps), Some(3));
/// assert_eq!(positions::next::<And>(&[9, 0, 2], 4, 192, &mut steps), Some(129));
/// assert_eq!(positions::next::<AndNot>(&[Block::MAX, 1], 7, 66, &mut steps), Some(65));
/// assert_eq!(positions::next::<And>(&[9, 0, 2], 4, 129, &mut steps), None);
/// ```
#[inline(always)]
pub fn next<O: WordOp>(words: &[Block], from: usize, end: usize, steps: &mut Steps) -> Option<usize> {
    if from >= end {
        return None;
    }
    let position = next_in_row::<O>(words, from, steps)?;
    if position < end { Some(position) } else { None }
}

/// The greatest position below `below` whose bit is set when a bit that is set is joined
/// with it by `O`: with `And` a position of the row, with `AndNot` one that the row lacks.
/// `None` where there is none.
///
/// It takes one step for the word of the position before `below`, and one for each lane of four
/// words before it down to the one that has the position, or down to the first word where there is
/// none. No step is taken where `below` is 0. It may not be past the end of the words.
///
/// ```text
/// let mut steps = Steps::new();
/// assert_eq!(positions::previous::<And>(&[9, 0, 2], 192, &mut steps), Some(129));
/// assert_eq!(positions::previous::<And>(&[9, 0, 2], 129, &mut steps), Some(3));
/// assert_eq!(positions::previous::<AndNot>(&[5, Block::MAX], 128, &mut steps), Some(63));
/// assert_eq!(positions::previous::<And>(&[9, 0, 2], 0, &mut steps), None);
/// ```
#[inline(always)]
pub fn previous<O: WordOp>(words: &[Block], below: usize, steps: &mut Steps) -> Option<usize> {
    let last = below.checked_sub(1)?;
    steps.tick();
    let at = last / BITS;
    let word = O::word(stretch(0, last % BITS + 1), words[at]);
    if word != 0 {
        return Some(BITS * at + highest_bit(word));
    }
    let at = previous_one::<O>(Block::MAX, words, at, steps)?;
    Some(BITS * at + highest_bit(O::word(Block::MAX, words[at])))
}

/// The position of the words from place `first` on and before place `end` that has exactly `index`
/// of their positions before it: the first has index 0. `None` where these words have no more
/// positions than `index`.
///
/// It takes one step for each of these words up to the one that has the position. It clears those
/// before it in a copy of that word, 63 at most, which is not counted. The number of positions of
/// the row, 64 for each word, may be at most 2 ^ 64.
///
/// ```text
/// assert_eq!(positions::nth(&[9, 0, 2], 0, 3, 2, &mut Steps::new()), Some(129));
/// assert_eq!(positions::nth(&[9, 0, 2], 1, 3, 0, &mut Steps::new()), Some(129));
/// assert_eq!(positions::nth(&[9, 0, 2], 0, 2, 2, &mut Steps::new()), None);
/// ```
#[inline(always)]
pub fn nth(
    words: &[Block],
    first: usize,
    end: usize,
    index: usize,
    steps: &mut Steps,
) -> Option<usize> {
    let mut left = index;
    for k in first..end {
        steps.tick();
        let ones = words[k].count_ones() as usize;
        if left < ones {
            return Some(BITS * k + nth_bit(words[k], left));
        }
        left -= ones;
    }
    None
}

/// Whether no position of the row from `start` on is set.
///
/// It looks at the word of `start`, and at four words at a time after it up to the first that has a
/// position. The number of positions of the row, 64 for each word, may be at most 2 ^ 64.
///
/// ```text
/// assert!(positions::none_from(&[9, 2, 0], 66));
/// assert!(!positions::none_from(&[9, 2, 0], 65));
/// assert!(positions::none_from(&[Block::MAX], 64));
/// ```
#[inline]
pub fn none_from(words: &[Block], start: usize) -> bool {
    start / BITS >= words.len() || next_in_row::<And>(words, start, &mut Steps::new()).is_none()
}

/// Clears each position of the row from `start` on. It writes the word of `start` and those after
/// it.
///
/// ```text
/// let mut words = [Block::MAX; 3];
/// positions::clear_from(&mut words, 67);
/// assert_eq!(words, [Block::MAX, 7, 0]);
/// ```
#[inline]
pub fn clear_from(words: &mut [Block], start: usize) {
    let at = start / BITS;
    if at < words.len() {
        words[at] &= ones_below(start % BITS);
        lanes::zero(&mut words[at + 1..], &mut Steps::new());
    }
}

/// `next` up to the end of the words. The position has to be one of theirs.
///
/// It takes one step for its word, and one for each lane of four words after that up to the one
/// that has the position, or up to the last where there is none.
///
/// ```text
/// let mut steps = Steps::new();
/// assert_eq!(positions::next_in_row::<And>(&[9, 0, 2], 4, &mut steps), Some(129));
/// assert_eq!(positions::next_in_row::<And>(&[9, 0, 2], 130, &mut steps), None);
/// ```
#[inline(always)]
pub fn next_in_row<O: WordOp>(words: &[Block], from: usize, steps: &mut Steps) -> Option<usize> {
    steps.tick();
    let at = from / BITS;
    let rest = O::word(Block::MAX, words[at]) >> (from % BITS);
    if rest != 0 {
        return Some(from + lowest_bit(rest));
    }
    let at = next_one::<O>(Block::MAX, words, at + 1, steps)?;
    Some(BITS * at + lowest_bit(O::word(Block::MAX, words[at])))
}

// The bit of a word with `index` bits set below it. The word has to have more bits set than that.
#[inline(always)]
fn nth_bit(word: Block, index: usize) -> usize {
    let mut rest = word;
    for _ in 0..index {
        take_lowest_bit(&mut rest);
    }
    lowest_bit(rest)
}
