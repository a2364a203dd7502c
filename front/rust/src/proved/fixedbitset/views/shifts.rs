// Made by front/erase from crates/fixedbitset/src/views/shifts.rt: change that, and not this.
//! Positions moved up or down, sets joined with moved ones, parts, and parts as numbers.
//!
//! A call takes at most one step for each lane that it writes, and one or two more for the words at
//! the ends: `bound` says so, and `cost` how many it takes. The lanes past the words that the
//! length needs are counted, though they are not moved.

use crate::proved::fixedbitset::views::{Bits, BitsMut};
use crate::proved::bitlanes::lanes::LANE;
use crate::proved::bitlanes::ops::{Or, Second, WordOp};
use crate::proved::bitlanes::word::BITS;
use crate::proved::bitlanes::{Block, Steps, lanes};
use crate::proved::bitwords::{positions, ranges, shifts};

impl BitsMut<'_> {
    /// Moves each position up by `by`. Those that are not below the length then fall away.
    ///
    /// ```text
    /// let mut words = [9, 0, 0, 0];
    /// let mut set = BitsMut::settle(&mut words, 70, 70);
    /// set.shift_up(64, &mut Steps::new());
    /// set.shift_up(3, &mut Steps::new());
    /// assert_eq!(words, [0, 8, 0, 0]);
    /// ```
    #[inline]
    pub fn shift_up(&mut self, by: usize, steps: &mut Steps) {
        if by > 0 {
            self.join_own::<Second>(by, steps);
        }
    }

    /// Moves each position down by `by`. Those below `by` fall away.
    ///
    /// ```text
    /// let mut words = [9, 8, 0, 0];
    /// let mut set = BitsMut::settle(&mut words, 70, 70);
    /// set.shift_down(3, &mut Steps::new());
    /// assert_eq!(words, [1, 1, 0, 0]);
    /// ```
    #[inline]
    pub fn shift_down(&mut self, by: usize, steps: &mut Steps) {
        let used = self.length.div_ceil(BITS);
        tick_unmoved(self.words.len(), used, by / BITS, steps);
        shifts::down(&mut self.words[..used], by, steps);
    }

    /// Takes in each position of the second set moved up by `by`, as far as it is
    /// below the length then.
    ///
    /// ```text
    /// let (mut words, mut other) = ([9, 0, 0, 0], [7, 0, 0, 0]);
    /// let mut set = BitsMut::settle(&mut words, 70, 70);
    /// let other = BitsMut::settle(&mut other, 9, 9);
    /// set.union_with_shifted(other.as_bits(), 68, &mut Steps::new());
    /// assert_eq!(words, [9, 48, 0, 0]);
    /// ```
    #[inline]
    pub fn union_with_shifted(&mut self, other: Bits<'_>, by: usize, steps: &mut Steps) {
        let length = self.length;
        let used = length.div_ceil(BITS);
        tick_unjoined(self.words.len(), used, other.words.len(), by, steps);
        let row = &mut self.words[..used];
        shifts::join_up::<Or>(row, other.words, by, steps);
        positions::clear_from(row, length);
    }

    /// Takes in each position of the set itself moved up by `by`, as far as it is
    /// below the length then.
    ///
    /// So where the set has the sums of some numbers, it then has those of these numbers and `by`.
    ///
    /// ```text
    /// let mut words = [1, 0, 0, 0];
    /// let mut set = BitsMut::settle(&mut words, 70, 70);
    /// set.union_with_own_shift(3, &mut Steps::new());
    /// set.union_with_own_shift(65, &mut Steps::new());
    /// assert_eq!(words, [9, 18, 0, 0]);
    /// ```
    #[inline]
    pub fn union_with_own_shift(&mut self, by: usize, steps: &mut Steps) {
        if by > 0 {
            self.join_own::<Or>(by, steps);
        }
    }

    /// Writes the positions of the other set from `start` up to and without `end` over those of the
    /// set from `at` on. All others stay.
    ///
    /// The range may not begin after its end, nor end past the other length. From `at` on it has to
    /// end within the length. It takes exactly one step for each lane of the words that it writes
    /// whole, the last of which may have fewer, and one for each other word that it writes.
    ///
    /// ```text
    /// let (mut words, mut other) = ([5, 34, 0, 0], [2 | 1 << 63, 2, 0, 0]);
    /// let mut set = BitsMut::settle(&mut words, 70, 70);
    /// let other = BitsMut::settle(&mut other, 66, 66);
    /// set.copy_range(other.as_bits(), 62, 66, 1, &mut Steps::new());
    /// assert_eq!(words, [21, 34, 0, 0]);
    /// ```
    #[inline]
    pub fn copy_range(
        &mut self,
        other: Bits<'_>,
        start: usize,
        end: usize,
        at: usize,
        steps: &mut Steps,
    ) {
        let behind = at + (end - start);
        ranges::copy(self.words, at, behind, other.words, start, steps);
    }

    /// Makes the `width` positions from `start` on the lowest bits of the number: position
    /// `start + i` becomes its bit `i`. All others stay.
    ///
    /// The width may be 64 at most, and the positions have to be below the length. It writes one
    /// word, or two.
    ///
    /// ```text
    /// let mut words = [9 | 1 << 63, 2, 0, 0];
    /// let mut set = BitsMut::settle(&mut words, 70, 70);
    /// set.store(62, 4, 5);
    /// assert_eq!(words, [9 | 1 << 62, 1, 0, 0]);
    /// ```
    #[inline]
    pub fn store(&mut self, start: usize, width: usize, number: Block) {
        ranges::store(self.words, start, width, number, &mut Steps::new());
    }

    // Joins each position by `O` with the one that stood `by` below it, and cuts
    // the words at the length.
    #[inline(always)]
    fn join_own<O: WordOp>(&mut self, by: usize, steps: &mut Steps) {
        let length = self.length;
        let used = length.div_ceil(BITS);
        tick_unmoved_up(self.words.len(), used, by, steps);
        let words = &mut self.words[..used];
        shifts::up::<O>(words, by, steps);
        positions::clear_from(words, length);
    }
}

impl Bits<'_> {
    /// Writes the positions of the range, less its start, over the words, which are then those
    /// of a set of its length.
    ///
    /// The range may not begin after its end, nor end past the length. There have to be as many
    /// words as a set of the range's length keeps.
    ///
    /// ```text
    /// let (mut words, mut to) = ([9, 8, 0, 0], [0; 4]);
    /// let set = BitsMut::settle(&mut words, 70, 70);
    /// set.as_bits().slice_to(3, 68, &mut to, &mut Steps::new());
    /// assert_eq!(to, [1, 1, 0, 0]);
    /// ```
    #[inline]
    pub fn slice_to(self, start: usize, end: usize, to: &mut [Block], steps: &mut Steps) {
        let unused = &mut to[(end - start).div_ceil(BITS)..];
        lanes::zero(unused, &mut Steps::new());
        self.slice_over_zeros(start, end, to, steps);
    }

    // `slice_to` over words of which those that the range does not need are 0.
    #[inline(always)]
    pub(crate) fn slice_over_zeros(
        self,
        start: usize,
        end: usize,
        to: &mut [Block],
        steps: &mut Steps,
    ) {
        // A step is counted for the last words where this set has none in their place.
        if self.words.len().saturating_sub(start / BITS) < to.len() {
            steps.tick();
        }
        let used = (end - start).div_ceil(BITS);
        let words = &mut to[..used];
        shifts::join_down::<Second>(words, self.words, start, steps);
        positions::clear_from(words, end - start);
    }

    /// The `width` positions from `start` on as a number: its bit `i` is position `start + i`.
    ///
    /// The width may be 64 at most, and the positions have to be below the length. It looks at one
    /// word, or at two.
    ///
    /// ```text
    /// let mut words = [9 | 1 << 63, 2, 0, 0];
    /// let set = BitsMut::settle(&mut words, 70, 70);
    /// assert_eq!(set.as_bits().load(62, 4), 10);
    /// assert_eq!(set.as_bits().load(0, 64), 9 | 1 << 63);
    /// ```
    #[inline]
    pub fn load(self, start: usize, width: usize) -> Block {
        ranges::load(self.words, start, width)
    }
}

// Counts the lanes that are not moved as they hold words past the length alone, which stay 0. It
// does nothing when the program runs.
#[inline(always)]
fn tick_unmoved(words: usize, used: usize, first: usize, steps: &mut Steps) {
    let lanes = words.saturating_sub(first).div_ceil(LANE);
    let moved = used.saturating_sub(first).div_ceil(LANE);
    for _ in 0..lanes.saturating_sub(moved) {
        steps.tick();
    }
}

// The same where the words are moved up, and the first of them has fewer than 64 bits below it.
#[inline(always)]
fn tick_unmoved_up(words: usize, used: usize, by: usize, steps: &mut Steps) {
    let first = by.div_ceil(BITS);
    tick_unmoved(words, used, first, steps);
    if used < first && first <= words && by % BITS > 0 {
        steps.tick();
    }
}

// The same where they are joined with words of another row that are moved up.
#[inline(always)]
fn tick_unjoined(words: usize, used: usize, other: usize, by: usize, steps: &mut Steps) {
    let joined = joined_lanes(used, other, by);
    for _ in 0..joined_lanes(words, other, by).saturating_sub(joined) {
        steps.tick();
    }
}

// How many steps it takes to join so many words with others that are moved up.
#[inline(always)]
fn joined_lanes(words: usize, other: usize, by: usize) -> usize {
    let room = words.saturating_sub(by / BITS);
    let split = (by % BITS).min(1);
    split.min(room.min(other)) + room.saturating_sub(split).min(other).div_ceil(LANE)
}
