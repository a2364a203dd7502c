// Made by front/erase from crates/fixedbitset/src/views/ranges.rt: change that, and not this.
//! Ranges of positions, from `start` up to and without `end`. But for `range_is_valid` the
//! range has to be valid.
//!
//! A change or a count takes exactly one step for each word that holds a position of the range: so
//! none for an empty range, and never more than `(end - start) / 64 + 2`. A test takes no more: one
//! step for each lane of four of the words that are wholly in the range, and one for each other
//! word that holds a position of it. It stops at the first that decides, and takes exactly those up
//! to that one, or exactly all where none does.

use crate::proved::fixedbitset::views::{Bits, BitsMut};
use crate::proved::bitlanes::Steps;
use crate::proved::bitlanes::ops::{And, AndNot, Or, WordOp, Xor};

impl BitsMut<'_> {
    /// Sets the positions of the range.
    ///
    /// ```text
    /// let mut words = [9, 0, 0, 0];
    /// let mut set = BitsMut::settle(&mut words, 70, 70);
    /// set.insert_range(62, 66, &mut Steps::new());
    /// assert_eq!(words, [9 | 3 << 62, 3, 0, 0]);
    /// ```
    #[inline(always)]
    pub fn insert_range(&mut self, start: usize, end: usize, steps: &mut Steps) {
        self.change_in::<Or>(start, end, steps);
    }

    /// Clears the positions of the range.
    ///
    /// ```text
    /// let mut words = [9, 1, 0, 0];
    /// let mut set = BitsMut::settle(&mut words, 70, 70);
    /// set.remove_range(1, 70, &mut Steps::new());
    /// assert_eq!(words, [1, 0, 0, 0]);
    /// ```
    #[inline(always)]
    pub fn remove_range(&mut self, start: usize, end: usize, steps: &mut Steps) {
        self.change_in::<AndNot>(start, end, steps);
    }

    /// Sets each position of the range that is clear and clears each that is set.
    ///
    /// ```text
    /// let mut words = [9, 0, 0, 0];
    /// let mut set = BitsMut::settle(&mut words, 70, 70);
    /// set.toggle_range(0, 3, &mut Steps::new());
    /// assert_eq!(words, [14, 0, 0, 0]);
    /// ```
    #[inline(always)]
    pub fn toggle_range(&mut self, start: usize, end: usize, steps: &mut Steps) {
        self.change_in::<Xor>(start, end, steps);
    }

    /// Sets the positions of the range, or clears them where `enabled` is false.
    ///
    /// ```text
    /// let mut words = [9, 1, 0, 0];
    /// let mut set = BitsMut::settle(&mut words, 70, 70);
    /// set.set_range(1, 4, true, &mut Steps::new());
    /// assert_eq!(words, [15, 1, 0, 0]);
    /// ```
    #[inline(always)]
    pub fn set_range(&mut self, start: usize, end: usize, enabled: bool, steps: &mut Steps) {
        if enabled {
            self.insert_range(start, end, steps);
        } else {
            self.remove_range(start, end, steps);
        }
    }

    // Joins the range, as the positions of a second set, to the set.
    #[inline(always)]
    fn change_in<O: WordOp>(&mut self, start: usize, end: usize, steps: &mut Steps) {
        crate::proved::bitwords::ranges::change::<O>(self.words, start, end, steps);
    }
}

impl Bits<'_> {
    /// Whether the range is valid: its start is not past its end, and its end not past the length.
    /// Any range is allowed.
    ///
    /// ```text
    /// let mut words = [9, 0, 0, 0];
    /// let set = BitsMut::settle(&mut words, 70, 70);
    /// assert!(set.as_bits().range_is_valid(60, 70));
    /// assert!(!set.as_bits().range_is_valid(60, 71));
    /// ```
    #[inline(always)]
    pub fn range_is_valid(self, start: usize, end: usize) -> bool {
        start <= end && end <= self.length
    }

    /// How many positions of the range are set.
    ///
    /// ```text
    /// let mut words = [9, 3, 0, 0];
    /// let set = BitsMut::settle(&mut words, 70, 70);
    /// assert_eq!(set.as_bits().count_ones(1, 65, &mut Steps::new()), 2);
    /// ```
    #[inline(always)]
    pub fn count_ones(self, start: usize, end: usize, steps: &mut Steps) -> usize {
        self.count_in::<And>(start, end, steps)
    }

    /// How many positions of the range are not set.
    ///
    /// ```text
    /// let mut words = [9, 3, 0, 0];
    /// let set = BitsMut::settle(&mut words, 70, 70);
    /// assert_eq!(set.as_bits().count_zeroes(1, 65, &mut Steps::new()), 62);
    /// ```
    #[inline(always)]
    pub fn count_zeroes(self, start: usize, end: usize, steps: &mut Steps) -> usize {
        self.count_in::<AndNot>(start, end, steps)
    }

    /// Whether each position of the range is set.
    ///
    /// ```text
    /// let mut words = [9, 3, 0, 0];
    /// let set = BitsMut::settle(&mut words, 70, 70);
    /// assert!(set.as_bits().contains_all_in_range(64, 66, &mut Steps::new()));
    /// ```
    #[inline(always)]
    pub fn contains_all_in_range(self, start: usize, end: usize, steps: &mut Steps) -> bool {
        self.none_in::<AndNot>(start, end, steps)
    }

    /// Whether each position below the length is set.
    ///
    /// ```text
    /// let mut words = [Block::MAX, 63, 0, 0];
    /// let set = BitsMut::settle(&mut words, 70, 70);
    /// assert!(set.as_bits().is_full(&mut Steps::new()));
    /// ```
    #[inline(always)]
    pub fn is_full(self, steps: &mut Steps) -> bool {
        self.contains_all_in_range(0, self.length, steps)
    }

    /// Whether some position of the range is set.
    ///
    /// ```text
    /// let mut words = [9, 3, 0, 0];
    /// let set = BitsMut::settle(&mut words, 70, 70);
    /// assert!(!set.as_bits().contains_any_in_range(4, 64, &mut Steps::new()));
    /// ```
    #[inline(always)]
    pub fn contains_any_in_range(self, start: usize, end: usize, steps: &mut Steps) -> bool {
        !self.none_in::<And>(start, end, steps)
    }

    // How many positions of the range are in it joined with the set.
    #[inline(always)]
    fn count_in<O: WordOp>(self, start: usize, end: usize, steps: &mut Steps) -> usize {
        crate::proved::bitwords::ranges::count::<O>(self.words, start, end, steps)
    }

    // Whether no position of the range is in it joined with the set.
    #[inline(always)]
    fn none_in<O: WordOp>(self, start: usize, end: usize, steps: &mut Steps) -> bool {
        crate::proved::bitwords::ranges::none::<O>(self.words, start, end, steps)
    }
}
