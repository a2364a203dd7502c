// Made by front/erase from crates/bitlanes/src/carries.rt: change that, and not this.
//! The ones of a long row of joined words, by carries: lanes are added bit by bit, and only every
//! eighth lane is counted.
//!
//! Three lanes added bit by bit make a lane of sums and a lane of carries, and a carry stands for
//! two ones. So two lanes and a sum make a new sum and a lane of twos, four lanes make a lane of
//! fours, and eight lanes a lane of eights. Of eight lanes only the lane of eights is counted, word
//! by word of it. The ones, twos and fours that are left are counted once, at the end.

use crate::proved::bitlanes::lanes::{LANE, lane_at, ones_in};
use crate::proved::bitlanes::ops::WordOp;
use crate::proved::bitlanes::{Block, Steps};
use crate::shim::simd::prelude::*;

/// How many words eight lanes have.
pub(crate) const EIGHT: usize = 8 * LANE;

/// How many bits are set in the first `blocks` times eight lanes of joined words.
#[inline(always)]
pub(crate) fn count_eights<O: WordOp>(
    a: &[Block],
    b: &[Block],
    blocks: usize,
    steps: &mut Steps,
) -> usize {
    let mut sums = Sums::new();
    let mut eights = Counts {
        first: 0,
        second: 0,
        third: 0,
        fourth: 0,
    };
    for block in 0..blocks {
        let at = EIGHT * block;
        let (a, b) = (&a[at..at + EIGHT], &b[at..at + EIGHT]);
        let carries = sums.add_eight::<O>(a, b, 0, steps);
        eights.add_ones(carries.to_array());
    }
    8 * eights.total() + sums.count()
}

// Counts of bits, one for each word of a lane: they are a lane too where the processor counts the
// bits of four words at once. A caller sees their sum.
#[derive(Clone)]
struct Counts {
    first: usize,
    second: usize,
    third: usize,
    fourth: usize,
}

impl Counts {
    // Adds how many bits are set in each of four words.
    #[inline(always)]
    fn add_ones(&mut self, words: [Block; LANE]) {
        let [first, second, third, fourth] = words;
        self.first += first.count_ones() as usize;
        self.second += second.count_ones() as usize;
        self.third += third.count_ones() as usize;
        self.fourth += fourth.count_ones() as usize;
    }

    // How many bits were counted.
    #[inline(always)]
    fn total(&self) -> usize {
        self.first + self.second + self.third + self.fourth
    }
}

// Lanes added bit by bit: of ones, of twos and of fours. A caller sees how
// many ones they stand for.
#[derive(Clone)]
struct Sums {
    ones: u64x4,
    twos: u64x4,
    fours: u64x4,
}

impl Sums {
    // Nothing added yet.
    #[inline(always)]
    fn new() -> Sums {
        Sums {
            ones: u64x4::splat(0),
            twos: u64x4::splat(0),
            fours: u64x4::splat(0),
        }
    }

    // How many ones the lanes stand for.
    #[inline(always)]
    fn count(&self) -> usize {
        4 * ones_in(self.fours.to_array())
            + 2 * ones_in(self.twos.to_array())
            + ones_in(self.ones.to_array())
    }

    // Adds the two joined lanes from word `at` on, and returns the twos that are carried.
    #[inline(always)]
    fn add_two<O: WordOp>(
        &mut self,
        a: &[Block],
        b: &[Block],
        at: usize,
        steps: &mut Steps,
    ) -> u64x4 {
        steps.tick();
        let first = lane_at::<O>(a, b, at);
        steps.tick();
        let second = lane_at::<O>(a, b, at + LANE);
        let (sum, carries) = add(self.ones, first, second);
        self.ones = sum;
        carries
    }

    // Adds the four joined lanes from word `at` on, and returns the fours that are carried.
    #[inline(always)]
    fn add_four<O: WordOp>(
        &mut self,
        a: &[Block],
        b: &[Block],
        at: usize,
        steps: &mut Steps,
    ) -> u64x4 {
        let first = self.add_two::<O>(a, b, at, steps);
        let second = self.add_two::<O>(a, b, at + 2 * LANE, steps);
        let (sum, carries) = add(self.twos, first, second);
        self.twos = sum;
        carries
    }

    // Adds the eight joined lanes from word `at` on, and returns the eights that are carried.
    #[inline(always)]
    fn add_eight<O: WordOp>(
        &mut self,
        a: &[Block],
        b: &[Block],
        at: usize,
        steps: &mut Steps,
    ) -> u64x4 {
        let first = self.add_four::<O>(a, b, at, steps);
        let second = self.add_four::<O>(a, b, at + 4 * LANE, steps);
        let (sum, carries) = add(self.fours, first, second);
        self.fours = sum;
        carries
    }
}

// Adds two lanes to a sum, bit by bit: the new sum, and the carries.
#[inline(always)]
fn add(sum: u64x4, left: u64x4, right: u64x4) -> (u64x4, u64x4) {
    let either = sum ^ left;
    (either ^ right, (sum & left) | (either & right))
}
