// Made by front/erase from crates/bitwords/src/gaps.rt: change that, and not this.
//! Runs of positions that a row of words lacks, long enough for a caller.
//!
//! A step is one lane of four words, from the word of the position on where a search begins: each
//! lane counts once, as its first word is looked at.

use crate::proved::bitwords::positions::previous;
use crate::proved::bitlanes::Steps;
use crate::proved::bitlanes::lanes::LANE;
use crate::proved::bitlanes::ops::{And, AndNot, WordOp};
use crate::proved::bitlanes::search::skip_zeros;
use crate::proved::bitlanes::word::{BITS, Block, highest_bit, lowest_bit, ones_below};

/// The least position at or past `from` with `count` positions from there on that are clear and
/// below `end`, or `None` where there is none. The end may not be past the words.
///
/// It goes over the words, and looks in each for the whole run by joining the word with itself
/// moved down, as often as `count` has binary digits. It passes over words that are full, or clear,
/// by sixteen and by four. So it takes one step for each lane of four words from that of `from` up
/// to the end of the run, and none where `count` is 0. Where there is no such run it takes these up
/// to the last place with room for one at least, and up to `end` at most.
///
/// ```text
/// let mut steps = Steps::new();
/// assert_eq!(gaps::first(&[0xf0f, 1], 1, 128, 4, &mut steps), Some(4));
/// assert_eq!(gaps::first(&[0xf0f, 1], 0, 128, 60, &mut steps), Some(65));
/// assert_eq!(gaps::first(&[0xf0f, 1], 0, 124, 60, &mut steps), None);
/// ```
#[inline]
pub fn first(
    words: &[Block],
    from: usize,
    end: usize,
    count: usize,
    steps: &mut Steps,
) -> Option<usize> {
    if end < count || end - count < from {
        return None;
    }
    if count == 0 {
        return Some(from);
    }
    first_of_some(words, from, end, count, steps)
}

/// The least multiple of `align` at or past `from` with `count` positions from there on that are
/// clear and below `end`, or `None` where there is none. The only multiple of 0 is 0. The end may
/// not be past the words.
///
/// It looks for a run by [`first`], and where that begins at no multiple, again from the next
/// multiple on. So it takes at most two steps for each lane of four words up to `end`, and one for
/// each multiple that may stand there; where `align` is 0 or 1, at most one for each lane.
///
/// ```text
/// let mut steps = Steps::new();
/// assert_eq!(gaps::first_aligned(&[0xf1f, 1], 1, 128, 3, 4, &mut steps), Some(12));
/// assert_eq!(gaps::first_aligned(&[0xf1f, 1], 0, 128, 56, 12, &mut steps), Some(72));
/// assert_eq!(gaps::first_aligned(&[0xf1f, 1], 0, 128, 3, 0, &mut steps), None);
/// ```
#[inline]
pub fn first_aligned(
    words: &[Block],
    from: usize,
    end: usize,
    count: usize,
    align: usize,
    steps: &mut Steps,
) -> Option<usize> {
    let mut at = multiple_from(align, from)?;
    loop {
        let found = first(words, at, end, count, steps)?;
        let next = multiple_from(align, found)?;
        if next == found {
            return Some(found);
        }
        at = next;
    }
}

/// The greatest position with `count` positions from there on that are clear and below `end`, or
/// `None` where there is none. The end may not be past the words.
///
/// It goes over the runs of clear positions, from the last one below `end` down to the one that is
/// long enough. So it takes at most two steps for each run of positions that are set and begins
/// below `end`, two more, and one for each word that has a position below `end`. They are at least
/// one for each lane of four words from that of the result up to `end`; where there is no such run,
/// from that of the place `count` on.
///
/// ```text
/// let mut steps = Steps::new();
/// assert_eq!(gaps::last(&[0xf0f, 1], 128, 4, &mut steps), Some(124));
/// assert_eq!(gaps::last(&[0xf0f, 1], 12, 4, &mut steps), Some(4));
/// assert_eq!(gaps::last(&[0xf0f, 1], 64, 53, &mut steps), None);
/// ```
#[inline]
pub fn last(words: &[Block], end: usize, count: usize, steps: &mut Steps) -> Option<usize> {
    let mut stop = end;
    loop {
        let Some(taken) = previous::<And>(words, stop, steps) else {
            return stop.checked_sub(count);
        };
        if count < stop - taken {
            return Some(stop - count);
        }
        stop = previous::<AndNot>(words, taken, steps)? + 1;
    }
}

// The least multiple of `align` at or past a number, or `None` where no `usize` is one. 0 is a
// multiple of all numbers.
#[inline(always)]
fn multiple_from(align: usize, number: usize) -> Option<usize> {
    if number == 0 {
        Some(0)
    } else {
        number.checked_next_multiple_of(align)
    }
}

// `first`, where some positions are wanted, and as many are left.
#[inline(always)]
fn first_of_some(
    words: &[Block],
    from: usize,
    end: usize,
    count: usize,
    steps: &mut Steps,
) -> Option<usize> {
    let last = end - count;
    let mut mask = ones_below(from % BITS);
    let mut begin = from;
    let mut index = from / BITS;
    loop {
        tick_at(index - from / BITS, steps);
        let at = BITS * index;
        let word = words[index] | mask;
        mask = 0;
        if begin + count - at <= clear_below(word) {
            return Some(begin);
        }
        if word == 0 {
            let stop = (begin + count - 1) / BITS;
            index = next_lane::<And>(&words[..stop], index + 1, from / BITS, steps);
            continue;
        }
        if word == Block::MAX {
            let stop = end.div_ceil(BITS);
            index = next_lane::<AndNot>(&words[..stop], index + 1, from / BITS, steps);
            if last / BITS < index {
                return None;
            }
            begin = BITS * index;
            continue;
        }
        let starts = run_starts(!word, count);
        if starts != 0 {
            let start = at + lowest_bit(starts);
            return if start <= last { Some(start) } else { None };
        }
        let taken = at + highest_bit(word);
        if last <= taken {
            return None;
        }
        begin = taken + 1;
        index += 1;
    }
}

// How many bits of the word are clear before the first that is set, or 64 where none is.
#[inline(always)]
fn clear_below(word: Block) -> usize {
    if word == 0 { BITS } else { lowest_bit(word) }
}

// The place of the word to look at, `at` or one after it: it passes over lanes whose words are all
// 0 when a word of ones is joined with each of them by `O`, where `at` begins a lane. The first
// lane begins at `first`.
#[inline(always)]
fn next_lane<O: WordOp>(words: &[Block], at: usize, first: usize, steps: &mut Steps) -> usize {
    if (at - first) % LANE == 0 {
        skip_zeros::<O>(Block::MAX, words, at, steps)
    } else {
        at
    }
}

// The bits of the word from which on so many bits are set, itself the first.
#[inline(always)]
fn run_starts(word: Block, count: usize) -> Block {
    if BITS < count {
        return 0;
    }
    let mut starts = word;
    let mut have = 1;
    while have < count {
        let more = have.min(count - have);
        starts &= starts >> more;
        have += more;
    }
    starts
}

// Counts the lane whose first word is looked at, where so many words before it were.
#[inline(always)]
fn tick_at(before: usize, steps: &mut Steps) {
    if before % LANE == 0 {
        steps.tick();
    }
}
