//! Slow values as words, so that they are joined, copied and compared at once.

use bitlanes::word::{BITS, Block};
use fixedbitset::FixedBitSet;
use test_values::pairs::Join;

/// A length of up to 576, and the positions below it: position 65 is bit 1 of word 1.
#[derive(Clone, Copy)]
pub struct Slow {
    pub length: usize,
    words: [Block; 9],
}

impl Slow {
    /// The slow value of these flags.
    pub fn of(flags: &[bool]) -> Slow {
        let (length, mut words) = (flags.len(), [0; 9]);
        for position in 0..length {
            words[position / BITS] |= Block::from(flags[position]) << (position % BITS);
        }
        Slow { length, words }
    }

    pub fn has(&self, position: usize) -> bool {
        position < 576 && self.words[position / BITS] >> (position % BITS) & 1 == 1
    }

    pub fn set(&mut self, position: usize, enabled: bool) {
        let bit = 1 << (position % BITS);
        self.words[position / BITS] &= !bit;
        if enabled {
            self.words[position / BITS] |= bit;
        }
    }

    /// The value of this length, where the new positions are as the flag says.
    pub fn resized(mut self, length: usize, enabled: bool) -> Slow {
        for position in length..self.length {
            self.set(position, false);
        }
        for position in self.length..length {
            self.set(position, enabled);
        }
        self.length = length;
        self
    }

    /// The value of this length that has the positions of the join, which are all below it.
    pub fn joined(&self, other: &Slow, join: Join, length: usize) -> Slow {
        let mut words = [0; 9];
        for index in 0..9 {
            let (a, b) = (self.words[index], other.words[index]);
            words[index] = match join {
                Join::First => a,
                Join::Either => a | b,
                Join::Both => a & b,
                Join::FirstAlone => a & !b,
                Join::SecondAlone => !a & b,
                Join::One => a ^ b,
            };
        }
        Slow { length, words }
    }

    /// How many positions the join has.
    pub fn count_joined(&self, other: &Slow, join: Join) -> usize {
        let joined = self.joined(other, join, 576);
        let mut count = 0;
        for index in 0..9 {
            count += joined.words[index].count_ones() as usize;
        }
        count
    }

    /// Whether the set has this length and these words.
    pub fn is(&self, set: &FixedBitSet) -> bool {
        let (words, count) = (set.as_slice(), self.length.div_ceil(BITS));
        let mut different = 0;
        for index in 0..words.len().min(count) {
            different |= words[index] ^ self.words[index];
        }
        set.len() == self.length && words.len() == count && different == 0
    }

    /// The same, and whether the set answers so of each position, as far as the word after the next, and of the greatest.
    pub fn is_at_each(&self, set: &FixedBitSet) -> bool {
        for position in 0..self.length + 65 {
            let word = if position < self.length {
                self.words[position / BITS]
            } else {
                0
            };
            if set.contains(position) != (word >> (position % BITS) & 1 == 1) {
                return false;
            }
        }
        !set.contains(usize::MAX) && self.is(set)
    }

    /// The same, where a set that is like the last one that was asked is not asked again.
    pub fn is_at_each_anew(&self, last: &mut Slow, set: &FixedBitSet) -> bool {
        if self.length == last.length && self.words == last.words {
            return self.is(set);
        }
        *last = *self;
        self.is_at_each(set)
    }
}
