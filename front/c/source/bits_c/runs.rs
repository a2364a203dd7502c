// Made by front/erase from crates/bits_c/src/runs.rt: change that, and not this.
//! Iterators over the runs of positions that follow each other without a gap, kept in a struct of
//! the caller's.
//!
//! A run has the positions from its start up to and without its end. Each call gives one run, from
//! either end, and returns whether it did; a call that gives none leaves what `start` and `end`
//! point to. An iterator looks for runs from `low` up to and without `high`, which is at first the
//! length, and so at no word after those that the length needs.

use crate::bits_c::structs::Runs;
use crate::proved::bitwalks::runs::{HeldRuns, Runs as Walk};
use crate::proved::fixedbitset::views::Bits;

impl<'a> Runs<'a> {
    #[inline(always)]
    fn of(walk: Walk<'a>) -> Runs<'a> {
        let held = walk.into_held();
        Runs {
            are_set: held.are_set,
            end: held.end,
            low: held.low,
            high: held.high,
            words: held.words,
        }
    }

    #[inline(always)]
    fn walk(&self) -> Walk<'a> {
        Walk::of_held(HeldRuns {
            words: self.words,
            are_set: self.are_set,
            end: self.end,
            low: self.low,
            high: self.high,
        })
    }
}

// Writes the run to `start` and `end`, and returns whether there is one.
#[inline(always)]
fn hand_out_run(run: Option<(usize, usize)>, start: &mut usize, end: &mut usize) -> bool {
    match run {
        Some((first, behind)) => {
            *start = first;
            *end = behind;
            true
        }
        None => false,
    }
}

/// Initializes the iterator over the runs of consecutive positions that are set, in ascending
/// order. A run has the positions from `start` up to but not including `end`; the cost of a run
/// grows with the number of its words.
pub fn bits_runs<'a>(walk: &mut Runs<'a>, set: &Bits<'a>) {
    *walk = Runs::of(set.runs());
}

/// Like `bits_runs`, over the positions below the length that are not set.
pub fn bits_zero_runs<'a>(walk: &mut Runs<'a>, set: &Bits<'a>) {
    *walk = Runs::of(set.zero_runs());
}

/// Writes the ends of the first run that is left, and returns whether there was one.
pub fn bits_runs_next(walk: &mut Runs<'_>, start: &mut usize, end: &mut usize) -> bool {
    let mut left = walk.walk();
    let run = left.next();
    *walk = Runs::of(left);
    hand_out_run(run, start, end)
}

/// Writes the ends of the last run that is left, and returns whether there was one.
pub fn bits_runs_next_back(
    walk: &mut Runs<'_>,
    start: &mut usize,
    end: &mut usize,
) -> bool {
    let mut left = walk.walk();
    let run = left.next_back();
    *walk = Runs::of(left);
    hand_out_run(run, start, end)
}
