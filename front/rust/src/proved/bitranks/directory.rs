// Made by front/erase from crates/bitranks/src/directory.rt: change that, and not this.
//! Rank and select over words that someone keeps, with a directory of them.
//!
//! Position `p` stands at bit `p % 64` of word `p / 64`. Entry `k` of the directory is how
//! many bits are set in the words before word `8 * k`, so it takes one word of memory for
//! eight words of the row.

use crate::proved::bitlanes::Steps;
use crate::proved::bitlanes::ops::And;
use crate::proved::bitlanes::word::{BITS, Block, ones_below};
use crate::proved::bitwords::{positions, ranges};

/// How many words of the row an entry stands for.
pub const WORDS: usize = 8;

// How many positions an entry stands for.
const POSITIONS: usize = WORDS * BITS;

/// How many entries the directory of a row of so many words has: one for each
/// eight words, rounded up.
///
/// ```text
/// assert_eq!(directory::entries(0), 0);
/// assert_eq!(directory::entries(8), 1);
/// assert_eq!(directory::entries(9), 2);
/// ```
#[inline]
pub fn entries(words_count: usize) -> usize {
    words_count.div_ceil(WORDS)
}

/// Writes the directory of the words over what was in it. It has to have as many
/// entries as `entries` says.
///
/// It takes exactly one step for a word, and none for those of the last entry. The number of
/// positions of the row, 64 for each word, may be at most 2 ^ 64.
///
/// ```text
/// let mut counts = [0; 2];
/// directory::fill(&[3, 0, 0, 0, 0, 0, 0, 1, 1], &mut counts, &mut Steps::new());
/// assert_eq!(counts, [0, 3]);
/// ```
pub fn fill(words: &[Block], directory: &mut [usize], steps: &mut Steps) {
    if directory.is_empty() {
        return;
    }
    directory[0] = 0;
    for entry in 1..directory.len() {
        let start = POSITIONS * (entry - 1);
        let more = ranges::count::<And>(words, start, start + POSITIONS, steps);
        directory[entry] = directory[entry - 1] + more;
    }
}

/// How many positions below this one are set. The position may be any number: past the end of the
/// words all are below it.
///
/// It looks at one entry of the directory, and takes one step for each word that it looks at: those
/// of the entry up to the word of the position, or up to the last word.
///
/// ```text
/// let (words, mut counts) = ([9, 2], [0]);
/// directory::fill(&words, &mut counts, &mut Steps::new());
/// assert_eq!(directory::rank(&words, &counts, 3, &mut Steps::new()), 1);
/// assert_eq!(directory::rank(&words, &counts, 1000, &mut Steps::new()), 3);
/// ```
#[inline]
pub fn rank(words: &[Block], directory: &[usize], position: usize, steps: &mut Steps) -> usize {
    if position / BITS < words.len() {
        return rank_within(words, directory, position, steps);
    }
    rank_past(words, directory, position, steps)
}

// `rank` of a position that stands in the words.
#[inline(always)]
fn rank_within(words: &[Block], directory: &[usize], position: usize, steps: &mut Steps) -> usize {
    let at = position / BITS;
    let below = position % BITS;
    let entry = at / WORDS;
    let first = WORDS * entry;
    let mut total = directory[entry];
    for k in first..at {
        steps.tick();
        total += words[k].count_ones() as usize;
    }
    steps.tick();
    total + (words[at] & ones_below(below)).count_ones() as usize
}

// `rank` of any position. It is a call of its own, so that one in the words has none of its tests.
#[cold]
#[inline(never)]
fn rank_past(words: &[Block], directory: &[usize], position: usize, steps: &mut Steps) -> usize {
    if words.is_empty() {
        return 0;
    }
    let at = (position / BITS).min(words.len() - 1);
    let below = (position - BITS * at).min(BITS);
    let entry = at / WORDS;
    let first = WORDS * entry;
    let mut total = directory[entry];
    for k in first..at {
        steps.tick();
        total += words[k].count_ones() as usize;
    }
    steps.tick();
    total + (words[at] & ones_below(below)).count_ones() as usize
}

/// The position that is set and has exactly `index` positions that are set below it: the first has
/// index 0. `None` where no more than `index` positions are set.
///
/// It halves the directory until one entry is left, and looks then at the words of that entry up to
/// the one that has the position, or where there is none at all words of the last entry. With a
/// directory of at most `2 ^ n` entries these are `n + 8` steps at most. In a copy of the last word
/// it clears the positions before, 63 at most, which is not counted. The number of positions of the
/// row, 64 for each word, may be at most 2 ^ 64.
///
/// ```text
/// let (words, mut counts) = ([9, 2], [0]);
/// directory::fill(&words, &mut counts, &mut Steps::new());
/// assert_eq!(directory::select(&words, &counts, 2, &mut Steps::new()), Some(65));
/// assert_eq!(directory::select(&words, &counts, 3, &mut Steps::new()), None);
/// ```
pub fn select(
    words: &[Block],
    directory: &[usize],
    index: usize,
    steps: &mut Steps,
) -> Option<usize> {
    if directory.is_empty() {
        return None;
    }
    let entry = last_within(directory, index, steps);
    let first = WORDS * entry;
    let end = words.len().min(first + WORDS);
    positions::nth(words, first, end, index - directory[entry], steps)
}

// The place of an entry that is `index` at most, with none after it or one that is more.
#[inline(always)]
fn last_within(directory: &[usize], index: usize, steps: &mut Steps) -> usize {
    let mut low = 0;
    let mut high = directory.len();
    while high - low > 1 {
        steps.tick();
        let middle = low + (high - low) / 2;
        if directory[middle] <= index {
            low = middle;
        } else {
            high = middle;
        }
    }
    low
}
