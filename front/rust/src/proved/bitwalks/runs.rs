// Made by front/erase from crates/bitwalks/src/runs.rt: change that, and not this.
//! The runs of positions that follow each other without a gap, as start and end: those that are
//! set, and those that are not.
//!
//! A call looks for the next position that is like the others or unlike them, sixteen words at a
//! time. So a run costs by its words and not by its positions. Proofs see the runs left, the ends
//! of where they are, and a count of steps that takes no bytes when the program runs.

use crate::proved::bitlanes::Steps;
use crate::proved::bitlanes::ops::{And, AndNot};
use crate::proved::bitlanes::word::{BITS, Block};
use crate::proved::bitwords::positions::{next, previous};
use core::iter::FusedIterator;

/// The runs of positions that are set, or of those that are not, in ascending order. A set makes it
/// by `runs` and by `zero_runs`.
///
/// It borrows the words and does not allocate.
///
/// ```text
/// let set = FixedBitSet::from_iter(alloc, [3, 4, 9, 200])?;
/// let mut walk = set.runs();
/// assert_eq!(walk.next(), Some((3, 5)));
/// assert_eq!(walk.next_back(), Some((200, 201)));
/// assert!(walk.eq([(9, 10)]));
/// ```
#[derive(Clone)]
pub struct Runs<'a> {
    words: &'a [Block],
    // Whether the positions are set.
    are_set: bool,
    // How many positions there are, and where the runs left are.
    end: usize,
    low: usize,
    high: usize,
    steps: Steps,
}

/// What an iterator over runs holds, for a caller that keeps its fields and no iterator: the words,
/// whether its positions are set, how many positions there are, and where the runs left are.
#[derive(Clone)]
pub struct HeldRuns<'a> {
    pub words: &'a [Block],
    pub are_set: bool,
    pub end: usize,
    pub low: usize,
    pub high: usize,
}

impl<'a> Runs<'a> {
    /// The runs of the positions below `end` that are set in the words, or of those that are not.
    /// `end` may not be past the words.
    ///
    /// ```text
    /// let words = [12, 1];
    /// assert!(Runs::below(&words, true, 128).eq([(2, 4), (64, 65)]));
    /// assert!(Runs::below(&words, false, 70).eq([(0, 2), (4, 64), (65, 70)]));
    /// ```
    #[inline]
    pub fn below(words: &'a [Block], are_set: bool, end: usize) -> Runs<'a> {
        Runs {
            words,
            are_set,
            end,
            low: 0,
            high: end,
            steps: Steps::new(),
        }
    }
}

impl<'a> Runs<'a> {
    /// What the iterator holds. `of_held` makes an iterator of it again, which has the same runs
    /// left.
    ///
    /// ```text
    /// let walk = Runs::below(&[12, 1], true, 128);
    /// let held = walk.into_held();
    /// assert_eq!(held.low, 0);
    /// assert_eq!(held.high, 128);
    /// ```
    #[inline(always)]
    pub fn into_held(self) -> HeldRuns<'a> {
        HeldRuns {
            words: self.words,
            are_set: self.are_set,
            end: self.end,
            low: self.low,
            high: self.high,
        }
    }

    /// The iterator that holds this. Its count begins at 0.
    ///
    /// ```text
    /// let held = Runs::below(&[12, 1], true, 128).into_held();
    /// assert!(Runs::of_held(held).eq([(2, 4), (64, 65)]));
    /// ```
    #[inline(always)]
    pub fn of_held(held: HeldRuns<'a>) -> Runs<'a> {
        Runs {
            words: held.words,
            are_set: held.are_set,
            end: held.end,
            low: held.low,
            high: held.high,
            steps: Steps::new(),
        }
    }
}

// The least position at or past `from` and below `end` that is set, or that is not.
#[inline]
fn next_like(
    words: &[Block],
    are_set: bool,
    from: usize,
    end: usize,
    steps: &mut Steps,
) -> Option<usize> {
    let words = &words[..end.div_ceil(BITS)];
    if are_set {
        next::<And>(words, from, end, steps)
    } else {
        next::<AndNot>(words, from, end, steps)
    }
}

// The greatest position below `below` that is set, or that is not.
#[inline]
fn previous_like(words: &[Block], are_set: bool, below: usize, steps: &mut Steps) -> Option<usize> {
    if are_set {
        previous::<And>(words, below, steps)
    } else {
        previous::<AndNot>(words, below, steps)
    }
}

impl<'a> Iterator for Runs<'a> {
    type Item = (usize, usize);

    /// The first run left, or `None` where none is, and then for good. It takes one step for each
    /// four words that it goes over, one to four more where it gives a run, and none to four more
    /// where it gives none.
    #[inline]
    fn next(&mut self) -> Option<(usize, usize)> {
        if self.low == self.high {
            return None;
        }
        let (low, high) = (self.low, self.high);
        let Some(start) = next_like(self.words, self.are_set, low, high, &mut self.steps) else {
            self.low = high;
            return None;
        };
        let found = next_like(self.words, !self.are_set, start, high, &mut self.steps);
        self.low = found.unwrap_or(high);
        Some((start, self.low))
    }
}

impl<'a> DoubleEndedIterator for Runs<'a> {
    /// The last run left, or `None` where none is, and then for good. It takes one step for each
    /// four words that it goes over, one to four more where it gives a run, and none to four more
    /// where it gives none.
    #[inline]
    fn next_back(&mut self) -> Option<(usize, usize)> {
        if self.low == self.high {
            return None;
        }
        let found = previous_like(self.words, self.are_set, self.high, &mut self.steps);
        match found {
            Some(last) if last >= self.low => {
                let gap = previous_like(self.words, !self.are_set, last, &mut self.steps);
                self.high = match gap {
                    Some(before) => before + 1,
                    None => 0,
                };
                Some((self.high, last + 1))
            }
            _ => {
                self.high = self.low;
                None
            }
        }
    }
}

impl<'a> FusedIterator for Runs<'a> {}
