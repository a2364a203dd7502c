// Made by front/erase from crates/fixedbitset/src/views/changes.rt: change that, and not this.
//! Two whole sets joined, which also returns whether a position of the first one changed. Each
//! takes the steps of the call without the result.

use crate::proved::fixedbitset::views::{Bits, BitsMut};
use crate::proved::bitlanes::Steps;
use crate::proved::bitlanes::ops::{And, AndNot, Or, WordOp, Xor};
use crate::proved::bitwords::joins;

impl BitsMut<'_> {
    /// [`union_with`](BitsMut::union_with), which also returns whether a position came in.
    ///
    /// ```text
    /// let (mut words, mut other) = ([9, 0, 0, 0], [3, 0, 0, 0]);
    /// let mut set = BitsMut::settle(&mut words, 70, 70);
    /// let other = BitsMut::settle(&mut other, 9, 9);
    /// assert!(set.union_with_change(other.as_bits(), &mut Steps::new()));
    /// assert!(!set.union_with_change(other.as_bits(), &mut Steps::new()));
    /// ```
    #[inline(always)]
    pub fn union_with_change(&mut self, other: Bits<'_>, steps: &mut Steps) -> bool {
        self.join_with_change::<Or>(other, steps)
    }

    /// [`symmetric_difference_with`](BitsMut::symmetric_difference_with), which also returns
    /// whether a position came in or went: whether the second set has one.
    ///
    /// ```text
    /// let (mut words, mut other) = ([9, 0, 0, 0], [3, 0, 0, 0]);
    /// let mut set = BitsMut::settle(&mut words, 70, 70);
    /// let mut other = BitsMut::settle(&mut other, 9, 9);
    /// assert!(set.symmetric_difference_with_change(other.as_bits(), &mut Steps::new()));
    /// other.clear(&mut Steps::new());
    /// assert!(!set.symmetric_difference_with_change(other.as_bits(), &mut Steps::new()));
    /// ```
    #[inline(always)]
    pub fn symmetric_difference_with_change(&mut self, other: Bits<'_>, steps: &mut Steps) -> bool {
        self.join_with_change::<Xor>(other, steps)
    }

    /// [`intersect_with`](BitsMut::intersect_with), which also returns whether a position went.
    ///
    /// ```text
    /// let (mut words, mut other) = ([9, 1, 0, 0], [3, 0, 0, 0]);
    /// let mut set = BitsMut::settle(&mut words, 70, 70);
    /// let other = BitsMut::settle(&mut other, 9, 9);
    /// assert!(set.intersect_with_change(other.as_bits(), &mut Steps::new()));
    /// assert!(!set.intersect_with_change(other.as_bits(), &mut Steps::new()));
    /// ```
    #[inline(always)]
    pub fn intersect_with_change(&mut self, other: Bits<'_>, steps: &mut Steps) -> bool {
        self.join_with_change::<And>(other, steps)
    }

    /// [`difference_with`](BitsMut::difference_with), which also returns whether a position went.
    ///
    /// ```text
    /// let (mut words, mut other) = ([9, 1, 0, 0], [3, 0, 0, 0]);
    /// let mut set = BitsMut::settle(&mut words, 70, 70);
    /// let other = BitsMut::settle(&mut other, 9, 9);
    /// assert!(set.difference_with_change(other.as_bits(), &mut Steps::new()));
    /// assert!(!set.difference_with_change(other.as_bits(), &mut Steps::new()));
    /// ```
    #[inline(always)]
    pub fn difference_with_change(&mut self, other: Bits<'_>, steps: &mut Steps) -> bool {
        self.join_with_change::<AndNot>(other, steps)
    }

    /// Takes in the positions of the second set that the third lacks, and returns whether one came
    /// in. The second may not be longer than the first.
    ///
    /// ```text
    /// let (mut words, mut gens, mut kills) = ([1, 0, 0, 0], [7, 0, 0, 0], [4, 1, 0, 0]);
    /// let mut set = BitsMut::settle(&mut words, 9, 9);
    /// let (gens, kills) = (BitsMut::settle(&mut gens, 9, 9), BitsMut::settle(&mut kills, 70, 70));
    /// let (gens, kills) = (gens.as_bits(), kills.as_bits());
    /// assert!(set.union_with_difference(gens, kills, &mut Steps::new()));
    /// assert!(!set.union_with_difference(gens, kills, &mut Steps::new()));
    /// ```
    #[inline(always)]
    pub fn union_with_difference(
        &mut self,
        gens: Bits<'_>,
        kills: Bits<'_>,
        steps: &mut Steps,
    ) -> bool {
        self.join_difference(gens, kills, steps)
    }

    // Joins the second set, but for the positions of the third, to the first, and returns whether a
    // position changed.
    #[inline(always)]
    pub(crate) fn join_difference(
        &mut self,
        gens: Bits<'_>,
        kills: Bits<'_>,
        steps: &mut Steps,
    ) -> bool {
        joins::union_with_difference(self.words, gens.words, kills.words, steps)
    }

    // Joins the second set to the first, and returns whether a position changed.
    #[inline(always)]
    pub(crate) fn join_with_change<O: WordOp>(&mut self, other: Bits<'_>, steps: &mut Steps) -> bool {
        joins::join_with_change::<O>(self.words, other.words, steps)
    }
}
