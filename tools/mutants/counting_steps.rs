//! A `Steps` that counts, in place of the one that only proofs read. `wrong_runs` puts it into its copy of bitlanes.

use crate::lanes::LANE;

#[derive(Drop)]
pub struct Steps {
    taken: usize,
}

impl Steps {
    pub fn new() -> Steps {
        Steps { taken: 0 }
    }

    pub fn tick(&mut self) {
        self.taken += 1;
    }

    pub fn tick_lanes(&mut self, words: usize) {
        self.taken += words.div_ceil(LANE);
    }

    pub fn taken(&self) -> usize {
        self.taken
    }
}
