// Made by front/erase from crates/fixedbitset/src/views/positions.rt: change that, and not this.
//! Views of words, and single positions.

use crate::proved::fixedbitset::views::{Bits, BitsMut};
use crate::proved::bitlanes::word::{BITS, Block, ones_below};
use crate::proved::bitlanes::{Steps, lanes};
use crate::proved::bitwords::positions;

// Up to how many words a set is asked lane by lane whether it is clear. In a longer one a search is
// faster, since it looks at sixteen words at a time.
const SHORT: usize = 4 * lanes::LANE;

impl<'a> Bits<'a> {
    /// Whether the words are those of a set of `length` positions as they stand: as many whole
    /// lanes as the length needs, and no bit past it. It changes nothing.
    ///
    /// It looks at the word of the length and at those after it, which are at most one lane.
    ///
    /// ```text
    /// assert!(Bits::fits(&[8, 63, 0, 0], 70));
    /// assert!(!Bits::fits(&[8, 64, 0, 0], 70));
    /// assert!(!Bits::fits(&[8, 63], 70));
    /// ```
    #[inline]
    pub fn fits(words: &[Block], length: usize) -> bool {
        words.len() == storage_words(length) && positions::none_from(words, length)
    }

    /// The words as a set of `length` positions, or `None` where they are not those of one as they
    /// stand ([`fits`](Self::fits)). So words from elsewhere can be refused, where `settle` would
    /// clear what does not fit.
    ///
    /// It looks at the word of the length and at those after it, which are at most one lane.
    ///
    /// ```text
    /// assert!(Bits::over(&[8, 63, 0, 0], 70).is_some());
    /// assert!(Bits::over(&[8, 64, 0, 0], 70).is_none());
    /// assert!(Bits::over(&[8, 63], 70).is_none());
    /// ```
    #[inline]
    pub fn over(words: &'a [Block], length: usize) -> Option<Self> {
        if Bits::fits(words, length) {
            Some(Bits { words, length })
        } else {
            None
        }
    }

    /// The words that the length needs, without those after them that make up a whole lane: those
    /// that [`as_slice`](crate::proved::fixedbitset::FixedBitSet::as_slice) returns. The iterators go over these.
    ///
    /// ```text
    /// let mut words = [9, 2, 0, 0];
    /// let set = BitsMut::settle(&mut words, 70, 70);
    /// assert_eq!(set.as_bits().as_slice(), [9, 2].as_slice());
    /// ```
    #[inline(always)]
    pub fn as_slice(self) -> &'a [Block] {
        used_words(self.words, self.length)
    }

    /// Whether the position is set: `false` at or past the length.
    ///
    /// ```text
    /// let mut words = [8, 1, 0, 0];
    /// let set = BitsMut::settle(&mut words, 70, 70);
    /// assert!(set.as_bits().contains(64));
    /// assert!(!set.as_bits().contains(500));
    /// ```
    #[inline(always)]
    pub fn contains(self, bit: usize) -> bool {
        positions::contains(self.words, bit)
    }

    /// Whether the position, which has to be below the length, is set.
    ///
    /// ```text
    /// let mut words = [8, 1, 0, 0];
    /// let set = BitsMut::settle(&mut words, 70, 70);
    /// assert!(set.as_bits().contains_unchecked(64));
    /// ```
    #[inline(always)]
    pub fn contains_unchecked(self, bit: usize) -> bool {
        self.words[bit / BITS] & (1 << (bit % BITS)) != 0
    }

    /// Writes for each position of the list whether it is set: `false` at or past the length. There
    /// have to be as many results as positions. It looks at one word at most for each item.
    ///
    /// ```text
    /// let mut words = [9, 2, 0, 0];
    /// let set = BitsMut::settle(&mut words, 70, 70);
    /// let mut answers = [false; 3];
    /// set.as_bits().contains_each(&[65, 64, 500], &mut answers);
    /// assert_eq!(answers, [true, false, false]);
    /// ```
    #[inline]
    pub fn contains_each(self, positions: &[usize], answers: &mut [bool]) {
        for index in 0..positions.len() {
            answers[index] = self.contains(positions[index]);
        }
    }

    /// Whether no position is set.
    ///
    /// It takes one step for each lane up to the first position that is set, or for all of them.
    ///
    /// ```text
    /// let mut words = [0, 64, 0, 0];
    /// let set = BitsMut::settle(&mut words, 70, 70);
    /// assert!(set.as_bits().is_clear(&mut Steps::new()));
    /// ```
    #[inline(always)]
    pub fn is_clear(self, steps: &mut Steps) -> bool {
        let words = self.words.len();
        if words > SHORT {
            self.minimum(steps).is_none()
        } else {
            self.is_disjoint(self, steps)
        }
    }

    /// The first position that is set, or `None` where none is.
    ///
    /// It takes one step for each lane from the first on up to the one that has the
    /// position, or for all of them.
    ///
    /// ```text
    /// let mut words = [0, 6, 0, 0];
    /// let set = BitsMut::settle(&mut words, 70, 70);
    /// assert_eq!(set.as_bits().minimum(&mut Steps::new()), Some(65));
    /// ```
    #[inline(always)]
    pub fn minimum(self, steps: &mut Steps) -> Option<usize> {
        positions::first(self.words, steps)
    }

    /// The last position that is set, or `None` where none is.
    ///
    /// It takes one step for each lane from the last on down to the one that has the
    /// position, or for all of them.
    ///
    /// ```text
    /// let mut words = [9, Block::MAX, 0, 0];
    /// let set = BitsMut::settle(&mut words, 70, 70);
    /// assert_eq!(set.as_bits().maximum(&mut Steps::new()), Some(69));
    /// ```
    #[inline(always)]
    pub fn maximum(self, steps: &mut Steps) -> Option<usize> {
        positions::last(self.words, steps)
    }
}

impl<'a> BitsMut<'a> {
    /// Makes any words those of a set of `length` positions: of the positions that they have
    /// those below `kept` stay.
    ///
    /// So with `kept` 0 no position is set, with `kept` the length none below it is lost, and with
    /// the length of before the set has grown. There have to be as many words as a set of this
    /// length keeps. It writes the word of `kept` and those after it.
    ///
    /// ```text
    /// let mut words = [8, Block::MAX, 1, 0];
    /// BitsMut::settle(&mut words, 70, 66);
    /// assert_eq!(words, [8, 3, 0, 0]);
    /// ```
    #[inline(always)]
    pub fn settle(words: &'a mut [Block], length: usize, kept: usize) -> Self {
        positions::clear_from(words, kept);
        BitsMut { words, length }
    }

    /// [`Bits::over`], to be changed: `None` where the words are not those of a set of `length`
    /// positions as they stand ([`Bits::fits`]). The words then stay as they are.
    ///
    /// ```text
    /// let mut words = [8, 64, 0, 0];
    /// assert!(BitsMut::over(&mut words, 70).is_none());
    /// assert!(BitsMut::over(&mut words, 71).is_some());
    /// ```
    #[inline]
    pub fn over(words: &'a mut [Block], length: usize) -> Option<Self> {
        if !Bits::fits(words, length) {
            return None;
        }
        Some(BitsMut { words, length })
    }

    /// The set to be read.
    ///
    /// ```text
    /// let mut words = [8, 1, 0, 0];
    /// let set = BitsMut::settle(&mut words, 70, 70);
    /// assert!(set.as_bits().contains(3));
    /// ```
    #[inline(always)]
    pub fn as_bits(&self) -> Bits<'_> {
        Bits {
            words: self.words,
            length: self.length,
        }
    }

    /// Sets the position, which has to be below the length.
    ///
    /// ```text
    /// let mut words = [8, 0, 0, 0];
    /// let mut set = BitsMut::settle(&mut words, 70, 70);
    /// set.insert(64);
    /// assert_eq!(words, [8, 1, 0, 0]);
    /// ```
    #[inline(always)]
    pub fn insert(&mut self, bit: usize) {
        self.words[bit / BITS] |= 1 << (bit % BITS);
    }

    /// Clears the position, which has to be below the length.
    ///
    /// ```text
    /// let mut words = [9, 1, 0, 0];
    /// let mut set = BitsMut::settle(&mut words, 70, 70);
    /// set.remove(64);
    /// assert_eq!(words, [9, 0, 0, 0]);
    /// ```
    #[inline(always)]
    pub fn remove(&mut self, bit: usize) {
        self.words[bit / BITS] &= !(1 << (bit % BITS));
    }

    /// Sets the position if it is clear and clears it if it is set. It has to be below the length.
    ///
    /// ```text
    /// let mut words = [9, 0, 0, 0];
    /// let mut set = BitsMut::settle(&mut words, 70, 70);
    /// set.toggle(0);
    /// assert_eq!(words, [8, 0, 0, 0]);
    /// ```
    #[inline(always)]
    pub fn toggle(&mut self, bit: usize) {
        self.words[bit / BITS] ^= 1 << (bit % BITS);
    }

    /// Sets the position, which has to be below the length, and returns whether it was set before.
    ///
    /// ```text
    /// let mut words = [8, 0, 0, 0];
    /// let mut set = BitsMut::settle(&mut words, 70, 70);
    /// assert!(!set.put(0));
    /// assert_eq!(words, [9, 0, 0, 0]);
    /// ```
    #[inline(always)]
    pub fn put(&mut self, bit: usize) -> bool {
        let was_set = self.as_bits().contains_unchecked(bit);
        self.insert(bit);
        was_set
    }

    /// Clears the position, which has to be below the length, and returns whether it was set
    /// before.
    ///
    /// ```text
    /// let mut words = [9, 0, 0, 0];
    /// let mut set = BitsMut::settle(&mut words, 70, 70);
    /// assert!(set.take(3));
    /// assert!(!set.take(3));
    /// assert_eq!(words, [1, 0, 0, 0]);
    /// ```
    #[inline(always)]
    pub fn take(&mut self, bit: usize) -> bool {
        let is_taken = self.as_bits().contains_unchecked(bit);
        self.remove(bit);
        is_taken
    }

    /// Clears the first position that is set, and returns it. Where none is set, the set stays as
    /// it was and the result is `None`.
    ///
    /// It takes one step for each lane from the first on up to the one that has the position, or
    /// for all of them, and writes one word at most.
    ///
    /// ```text
    /// let mut words = [9, 1, 0, 0];
    /// let mut set = BitsMut::settle(&mut words, 70, 70);
    /// assert_eq!(set.pop_first(&mut Steps::new()), Some(0));
    /// assert_eq!(words, [8, 1, 0, 0]);
    /// ```
    #[inline(always)]
    pub fn pop_first(&mut self, steps: &mut Steps) -> Option<usize> {
        let first = self.as_bits().minimum(steps)?;
        self.remove(first);
        Some(first)
    }

    /// Clears the last position that is set, and returns it. Where none is set, the set stays as
    /// it was and the result is `None`.
    ///
    /// It takes one step for each lane from the last on down to the one that has the position, or
    /// for all of them, and writes one word at most.
    ///
    /// ```text
    /// let mut words = [9, 1, 0, 0];
    /// let mut set = BitsMut::settle(&mut words, 70, 70);
    /// assert_eq!(set.pop_last(&mut Steps::new()), Some(64));
    /// assert_eq!(words, [9, 0, 0, 0]);
    /// ```
    #[inline(always)]
    pub fn pop_last(&mut self, steps: &mut Steps) -> Option<usize> {
        let last = self.as_bits().maximum(steps)?;
        self.remove(last);
        Some(last)
    }

    /// Sets the position, or clears it where `enabled` is false. It has to be below the length.
    ///
    /// ```text
    /// let mut words = [9, 0, 0, 0];
    /// let mut set = BitsMut::settle(&mut words, 70, 70);
    /// set.set(0, false);
    /// assert_eq!(words, [8, 0, 0, 0]);
    /// ```
    #[inline(always)]
    pub fn set(&mut self, bit: usize, enabled: bool) {
        if enabled {
            self.insert(bit);
        } else {
            self.remove(bit);
        }
    }

    /// Makes position `to`, which has to be below the length, what position `from` is. Past the
    /// length none is set.
    ///
    /// ```text
    /// let mut words = [9, 0, 0, 0];
    /// let mut set = BitsMut::settle(&mut words, 70, 70);
    /// set.copy_bit(3, 65);
    /// set.copy_bit(500, 0);
    /// assert_eq!(words, [8, 2, 0, 0]);
    /// ```
    #[inline(always)]
    pub fn copy_bit(&mut self, from: usize, to: usize) {
        let enabled = self.as_bits().contains(from);
        self.set(to, enabled);
    }

    /// Sets each position of the list. All of them have to be below the length. It writes one word
    /// for each item.
    ///
    /// ```text
    /// let mut words = [9, 0, 0, 0];
    /// let mut set = BitsMut::settle(&mut words, 70, 70);
    /// set.insert_all(&[64, 2, 64]);
    /// assert_eq!(words, [13, 1, 0, 0]);
    /// ```
    #[inline]
    pub fn insert_all(&mut self, positions: &[usize]) {
        // Taken apart, so that a turn need not look again where the words lie.
        let (words, length) = (&mut *self.words, self.length);
        for position in positions {
            let words = &mut *words;
            BitsMut { words, length }.insert(*position);
        }
    }

    /// Clears each position of the list. All of them have to be below the length. It writes one
    /// word for each item.
    ///
    /// ```text
    /// let mut words = [13, 1, 0, 0];
    /// let mut set = BitsMut::settle(&mut words, 70, 70);
    /// set.remove_all(&[64, 2, 64, 69]);
    /// assert_eq!(words, [9, 0, 0, 0]);
    /// ```
    #[inline]
    pub fn remove_all(&mut self, positions: &[usize]) {
        let (words, length) = (&mut *self.words, self.length);
        for position in positions {
            let words = &mut *words;
            BitsMut { words, length }.remove(*position);
        }
    }

    /// Makes word `index` the given one. Bits past the length are dropped. The word has to be one
    /// that the length needs.
    ///
    /// ```text
    /// let mut words = [9, 0, 0, 0];
    /// let mut set = BitsMut::settle(&mut words, 70, 70);
    /// set.set_block(1, Block::MAX);
    /// assert_eq!(words, [9, 63, 0, 0]);
    /// ```
    #[inline(always)]
    pub fn set_block(&mut self, index: usize, value: Block) {
        let used = used_bits(self.length, index);
        self.words[index] = value & ones_below(used);
    }

    /// Clears all positions. It takes one step for each lane.
    ///
    /// ```text
    /// let mut words = [9, 1, 0, 0];
    /// let mut set = BitsMut::settle(&mut words, 70, 70);
    /// set.clear(&mut Steps::new());
    /// assert_eq!(words, [0, 0, 0, 0]);
    /// ```
    #[inline(always)]
    pub fn clear(&mut self, steps: &mut Steps) {
        zero_row(self.words, steps);
    }
}

/// How many words a set of so many positions keeps: those that the length needs, and up to three
/// more, so that they make whole lanes of four.
///
/// ```text
/// assert_eq!(views::storage_words(70), 4);
/// assert_eq!(views::storage_words(257), 8);
/// ```
#[inline]
pub const fn storage_words(bits: usize) -> usize {
    lanes::LANE * bits.div_ceil(BITS).div_ceil(lanes::LANE)
}

// Makes each word 0. A single lane is written by itself: `memset` would write it by one store of 64
// bytes of which half is masked, and a load within these waits for it.
#[inline(always)]
fn zero_row(words: &mut [Block], steps: &mut Steps) {
    if words.len() == lanes::LANE {
        steps.tick();
        words[0] = 0;
        words[1] = 0;
        words[2] = 0;
        words[3] = 0;
    } else {
        zero_long(words, steps);
    }
}

// It is a call of its own, so that it is not joined with the stores of a lane.
#[inline(never)]
fn zero_long(words: &mut [Block], steps: &mut Steps) {
    lanes::zero(words, steps);
}

// The first of the words, as many as the length needs.
#[inline(always)]
fn used_words<'a>(words: &'a [Block], length: usize) -> &'a [Block] {
    &words[..length.div_ceil(BITS)]
}

// How many positions of word `index` are below the length.
#[inline(always)]
fn used_bits(length: usize, index: usize) -> usize {
    if index == length / BITS {
        length % BITS
    } else {
        BITS
    }
}
