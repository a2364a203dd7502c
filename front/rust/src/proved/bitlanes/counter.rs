// Made by front/erase from crates/bitlanes/src/counter.rt: change that, and not this.
//! A counter that takes no bytes when the program runs.

use crate::proved::bitlanes::lanes::LANE;
use core::mem;
use crate::shim::snapshot::Snapshot;

// A number, which only proofs read: a `Snapshot` has no bytes.
enum Tally {
    Zero,
    Next(Snapshot<Tally>),
}

/// How many steps were taken: a whole number with no greatest. It takes no bytes.
///
/// A step is one lane of four words that a kernel of `lanes` goes over, or one word
/// that another loop does.
#[derive(Clone)]
pub struct Steps {
    tally: Snapshot<Tally>,
}

impl Steps {
    /// No step yet.
    ///
    /// ```text
    /// let mut steps = Steps::new();
    /// lanes::zero(&mut [1; 9], &mut steps);
    /// assert_eq!(size_of::<Steps>(), 0);
    /// ```
    #[inline(always)]
    pub fn new() -> Steps {
        Steps {
            tally: Snapshot::of(&Tally::Zero),
        }
    }

    /// Counts one step more. It does nothing when the program runs.
    ///
    /// ```text
    /// let mut steps = Steps::new();
    /// steps.tick();
    /// lanes::zero(&mut [1; 9], &mut steps);
    /// assert_eq!(size_of_val(&steps), 0);
    /// ```
    #[inline(always)]
    pub fn tick(&mut self) {
        let before = mem::replace(&mut self.tally, Snapshot::of(&Tally::Zero));
        self.tally = Snapshot::of(&Tally::Next(before));
    }

    /// Counts `words / 4` steps more, rounded up: for a call of std that goes over so many words,
    /// and that no kernel is. It does nothing when the program runs.
    ///
    /// ```text
    /// let mut steps = Steps::new();
    /// steps.tick_lanes(9);
    /// assert_eq!(size_of_val(&steps), 0);
    /// ```
    #[inline(always)]
    pub fn tick_lanes(&mut self, words: usize) {
        for _ in 0..words.div_ceil(LANE) {
            self.tick();
        }
    }
}
