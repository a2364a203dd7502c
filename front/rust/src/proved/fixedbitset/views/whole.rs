// Made by front/erase from crates/fixedbitset/src/views/whole.rt: change that, and not this.
//! Two whole sets, of any two lengths.
//!
//! A change or a count takes exactly one step for each lane that both sets have, and one for each
//! that only one of them has, where these are cleared or counted. A comparison that returns `true`
//! takes exactly as many, and one that returns `false` exactly those up to the lane that decides.

use crate::proved::fixedbitset::views::{Bits, BitsMut};
use crate::proved::bitlanes::Steps;
use crate::proved::bitlanes::lanes::LANE;
use crate::proved::bitlanes::ops::{And, AndNot, Or, WordOp, Xor};
use crate::proved::bitlanes::word::BITS;
use crate::proved::bitwords::joins;
use core::cmp::Ordering;

impl BitsMut<'_> {
    /// Leaves the positions of either set. The second may not be longer.
    ///
    /// ```text
    /// let (mut words, mut other) = ([9, 0, 0, 0], [3, 0, 0, 0]);
    /// let mut set = BitsMut::settle(&mut words, 70, 70);
    /// let other = BitsMut::settle(&mut other, 9, 9);
    /// set.union_with(other.as_bits(), &mut Steps::new());
    /// assert_eq!(words, [11, 0, 0, 0]);
    /// ```
    #[inline(always)]
    pub fn union_with(&mut self, other: Bits<'_>, steps: &mut Steps) {
        self.join::<Or>(other, steps);
    }

    /// Leaves the positions of exactly one of the sets. The second may not be longer.
    ///
    /// ```text
    /// let (mut words, mut other) = ([9, 0, 0, 0], [3, 0, 0, 0]);
    /// let mut set = BitsMut::settle(&mut words, 70, 70);
    /// let other = BitsMut::settle(&mut other, 9, 9);
    /// set.symmetric_difference_with(other.as_bits(), &mut Steps::new());
    /// assert_eq!(words, [10, 0, 0, 0]);
    /// ```
    #[inline(always)]
    pub fn symmetric_difference_with(&mut self, other: Bits<'_>, steps: &mut Steps) {
        self.join::<Xor>(other, steps);
    }

    /// Leaves the positions of both sets, and the length.
    ///
    /// ```text
    /// let (mut words, mut other) = ([9, 1, 0, 0], [3, 0, 0, 0]);
    /// let mut set = BitsMut::settle(&mut words, 70, 70);
    /// let other = BitsMut::settle(&mut other, 9, 9);
    /// set.intersect_with(other.as_bits(), &mut Steps::new());
    /// assert_eq!(words, [1, 0, 0, 0]);
    /// ```
    #[inline(always)]
    pub fn intersect_with(&mut self, other: Bits<'_>, steps: &mut Steps) {
        self.join::<And>(other, steps);
    }

    /// Leaves the positions of the first set that the second lacks, and the length.
    ///
    /// ```text
    /// let (mut words, mut other) = ([9, 1, 0, 0], [3, 0, 0, 0]);
    /// let mut set = BitsMut::settle(&mut words, 70, 70);
    /// let other = BitsMut::settle(&mut other, 9, 9);
    /// set.difference_with(other.as_bits(), &mut Steps::new());
    /// assert_eq!(words, [8, 1, 0, 0]);
    /// ```
    #[inline(always)]
    pub fn difference_with(&mut self, other: Bits<'_>, steps: &mut Steps) {
        self.join::<AndNot>(other, steps);
    }

    // Joins the second set to the first.
    #[inline(always)]
    pub(crate) fn join<O: WordOp>(&mut self, other: Bits<'_>, steps: &mut Steps) {
        joins::join::<O>(self.words, other.words, steps);
    }
}

impl Bits<'_> {
    /// How many positions are in either set.
    ///
    /// ```text
    /// let (mut words, mut other) = ([9, 1, 0, 0], [3, 0, 0, 0]);
    /// let set = BitsMut::settle(&mut words, 70, 70);
    /// let other = BitsMut::settle(&mut other, 9, 9);
    /// assert_eq!(set.as_bits().union_count(other.as_bits(), &mut Steps::new()), 4);
    /// ```
    #[inline(always)]
    pub fn union_count(self, other: Bits<'_>, steps: &mut Steps) -> usize {
        self.count::<Or>(other, steps)
    }

    /// How many positions are in both sets.
    ///
    /// ```text
    /// let (mut words, mut other) = ([9, 1, 0, 0], [3, 0, 0, 0]);
    /// let set = BitsMut::settle(&mut words, 70, 70);
    /// let other = BitsMut::settle(&mut other, 9, 9);
    /// assert_eq!(set.as_bits().intersection_count(other.as_bits(), &mut Steps::new()), 1);
    /// ```
    #[inline(always)]
    pub fn intersection_count(self, other: Bits<'_>, steps: &mut Steps) -> usize {
        self.count::<And>(other, steps)
    }

    /// How many positions of the first set the second lacks.
    ///
    /// ```text
    /// let (mut words, mut other) = ([9, 1, 0, 0], [3, 0, 0, 0]);
    /// let set = BitsMut::settle(&mut words, 70, 70);
    /// let other = BitsMut::settle(&mut other, 9, 9);
    /// assert_eq!(set.as_bits().difference_count(other.as_bits(), &mut Steps::new()), 2);
    /// ```
    #[inline(always)]
    pub fn difference_count(self, other: Bits<'_>, steps: &mut Steps) -> usize {
        self.count::<AndNot>(other, steps)
    }

    /// How many positions are in exactly one of the sets.
    ///
    /// ```text
    /// let (mut words, mut other) = ([9, 1, 0, 0], [3, 0, 0, 0]);
    /// let set = BitsMut::settle(&mut words, 70, 70);
    /// let other = BitsMut::settle(&mut other, 9, 9);
    /// let count = set.as_bits().symmetric_difference_count(other.as_bits(), &mut Steps::new());
    /// assert_eq!(count, 3);
    /// ```
    #[inline(always)]
    pub fn symmetric_difference_count(self, other: Bits<'_>, steps: &mut Steps) -> usize {
        self.count::<Xor>(other, steps)
    }

    /// Whether no position is in both sets.
    ///
    /// ```text
    /// let (mut words, mut other) = ([9, 1, 0, 0], [6, 0, 0, 0]);
    /// let set = BitsMut::settle(&mut words, 70, 70);
    /// let other = BitsMut::settle(&mut other, 9, 9);
    /// assert!(set.as_bits().is_disjoint(other.as_bits(), &mut Steps::new()));
    /// ```
    #[inline(always)]
    pub fn is_disjoint(self, other: Bits<'_>, steps: &mut Steps) -> bool {
        self.none::<And>(other, steps)
    }

    /// Whether each position of the first set is one of the second.
    ///
    /// ```text
    /// let (mut words, mut other) = ([9, 0, 0, 0], [11, 0, 0, 0]);
    /// let set = BitsMut::settle(&mut words, 70, 70);
    /// let other = BitsMut::settle(&mut other, 9, 9);
    /// assert!(set.as_bits().is_subset(other.as_bits(), &mut Steps::new()));
    /// ```
    #[inline(always)]
    pub fn is_subset(self, other: Bits<'_>, steps: &mut Steps) -> bool {
        self.none::<AndNot>(other, steps)
    }

    /// Whether each position of the second set is one of the first.
    ///
    /// ```text
    /// let (mut words, mut other) = ([11, 0, 0, 0], [9, 0, 0, 0]);
    /// let set = BitsMut::settle(&mut words, 9, 9);
    /// let other = BitsMut::settle(&mut other, 70, 70);
    /// assert!(set.as_bits().is_superset(other.as_bits(), &mut Steps::new()));
    /// ```
    #[inline(always)]
    pub fn is_superset(self, other: Bits<'_>, steps: &mut Steps) -> bool {
        other.is_subset(self, steps)
    }

    /// The least position of the second set that the first lacks, or `None` where it lacks none.
    ///
    /// It takes exactly the steps up to the lane of the position, or all where there is none.
    ///
    /// ```text
    /// let (mut words, mut other) = ([9, 0, 0, 0], [11, 1, 0, 0]);
    /// let set = BitsMut::settle(&mut words, 9, 9);
    /// let other = BitsMut::settle(&mut other, 70, 70);
    /// let lacking = set.as_bits().first_lacking(other.as_bits(), &mut Steps::new());
    /// assert_eq!(lacking, Some(1));
    /// ```
    #[inline(always)]
    pub fn first_lacking(self, other: Bits<'_>, steps: &mut Steps) -> Option<usize> {
        joins::first_of_difference(other.words, self.words, steps)
    }

    /// Whether the lengths and the positions are equal. It takes no step where the lengths differ.
    ///
    /// ```text
    /// let (mut words, mut other) = ([9, 0, 0, 0], [9, 0, 0, 0]);
    /// let set = BitsMut::settle(&mut words, 70, 70);
    /// let other = BitsMut::settle(&mut other, 9, 9);
    /// assert!(!set.as_bits().is_equal(other.as_bits(), &mut Steps::new()));
    /// ```
    #[inline(always)]
    pub fn is_equal(self, other: Bits<'_>, steps: &mut Steps) -> bool {
        self.length == other.length && self.none::<Xor>(other, steps)
    }

    /// Which of the sets comes first, in the order of `FixedBitSet`.
    ///
    /// It counts a step for each lane where the lengths are alike, and none where they differ: std
    /// compares the words, and may stop before all that are counted.
    ///
    /// ```text
    /// let (mut words, mut other) = ([9, 0, 0, 0], [11, 0, 0, 0]);
    /// let set = BitsMut::settle(&mut words, 70, 70);
    /// let other = BitsMut::settle(&mut other, 9, 9);
    /// let order = set.as_bits().compare(other.as_bits(), &mut Steps::new());
    /// assert_eq!(order, Ordering::Greater);
    /// ```
    #[inline(always)]
    pub fn compare(self, other: Bits<'_>, steps: &mut Steps) -> Ordering {
        match self.length.cmp(&other.length) {
            Ordering::Equal => {
                steps.tick_lanes(self.words.len());
                self.as_slice().cmp(other.as_slice())
            }
            unequal => unequal,
        }
    }

    // How many positions of either set pass the operation's truth function.
    #[inline(always)]
    fn count<O: WordOp>(self, other: Bits<'_>, steps: &mut Steps) -> usize {
        joins::count::<O>(self.words, other.words, steps)
    }

    // The same, where sets of one lane are counted by the words that the longer length needs.
    // Compiled by the kit for AVX2, the four words of a lane become one vector, which takes
    // longer than two words.
    #[inline(always)]
    pub(crate) fn count_used<O: WordOp>(self, other: Bits<'_>, steps: &mut Steps) -> usize {
        if self.words.len() == LANE && other.words.len() == LANE {
            let used = self.length.max(other.length).div_ceil(BITS).min(LANE);
            return joins::count::<O>(&self.words[..used], &other.words[..used], steps);
        }
        self.count::<O>(other, steps)
    }

    // Whether no position of either set passes the operation's truth function.
    #[inline(always)]
    fn none<O: WordOp>(self, other: Bits<'_>, steps: &mut Steps) -> bool {
        joins::none::<O>(self.words, other.words, steps)
    }
}
