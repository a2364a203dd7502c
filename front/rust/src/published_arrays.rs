// Made by front/publish from the sources in crates: change these, and not this.
//! The calls of a set in an array, by those of views.
use crate::proved::bitlanes::Steps;
use crate::{ArrayBitSet, Block, Difference, IndexRange, Intersection, Ones, Zeroes};

impl<const WORDS: usize> ArrayBitSet<WORDS> {
    /// The words that the length needs, without those after them that make up a whole lane: those
    /// that [`as_slice`](crate::FixedBitSet::as_slice) returns. The iterators go over these.
    ///
    /// Proved: the words, for all sets ([contract](crate::contracts#fixedbitsetbitsas_slice)).
    ///
    /// ```
    /// # use fixedbitset::ArrayBitSet;
    /// let mut set = ArrayBitSet::<4>::new(66);
    /// set.extend([63, 64, 65]);
    /// assert_eq!(set.as_slice(), [1 << 63, 3].as_slice());
    /// ```
    #[inline]
    #[must_use]
    pub fn as_slice(&self) -> &[Block] {
        self.as_bits().as_slice()
    }

    /// Whether the position is set: `false` at or past the length.
    ///
    /// Proved: the result, for all sets and all numbers
    /// ([contract](crate::contracts#fixedbitsetbitscontains)).
    ///
    /// ```
    /// # use fixedbitset::ArrayBitSet;
    /// let mut set = ArrayBitSet::<4>::new(65);
    /// set.extend([3, 64]);
    /// assert!(set.contains(64));
    /// assert!(!set.contains(63));
    /// assert!(!set.contains(usize::MAX));
    /// ```
    #[inline]
    #[must_use]
    pub fn contains(&self, bit: usize) -> bool {
        self.as_bits().contains(bit)
    }

    /// Sets the position, which has to be below the length.
    ///
    /// **Panics** where it is at or past the length.
    ///
    /// Proved: what it leaves, for all sets, wherever it does not panic
    /// ([contract](crate::contracts#fixedbitsetbitsmutinsert)).
    ///
    /// ```
    /// # use fixedbitset::ArrayBitSet;
    /// let mut set = ArrayBitSet::<4>::new(70);
    /// set.insert(64);
    /// assert!(set.contains(64));
    /// assert_eq!(set.as_slice(), [0, 1].as_slice());
    /// ```
    #[inline]
    #[track_caller]
    pub fn insert(&mut self, bit: usize) {
        self.as_bits_mut().insert(bit);
    }

    /// Clears the position, which has to be below the length.
    ///
    /// **Panics** where it is at or past the length.
    ///
    /// Proved: what it leaves, for all sets, wherever it does not panic
    /// ([contract](crate::contracts#fixedbitsetbitsmutremove)).
    ///
    /// ```
    /// # use fixedbitset::ArrayBitSet;
    /// let mut set = ArrayBitSet::<4>::new(70);
    /// set.insert_range(..);
    /// set.remove(64);
    /// assert!(!set.contains(64));
    /// assert_eq!(set.count_ones(..), 69);
    /// ```
    #[inline]
    #[track_caller]
    pub fn remove(&mut self, bit: usize) {
        self.as_bits_mut().remove(bit);
    }

    /// Sets the position, which has to be below the length, and returns whether it was set before.
    ///
    /// **Panics** where it is at or past the length.
    ///
    /// Proved: the result and what it leaves, for all sets, wherever it does not panic
    /// ([contract](crate::contracts#fixedbitsetbitsmutput)).
    ///
    /// ```
    /// # use fixedbitset::ArrayBitSet;
    /// let mut set = ArrayBitSet::<4>::new(70);
    /// assert!(!set.put(64));
    /// assert!(set.put(64));
    /// assert_eq!(set.count_ones(..), 1);
    /// ```
    #[inline]
    #[track_caller]
    pub fn put(&mut self, bit: usize) -> bool {
        self.as_bits_mut().put(bit)
    }

    /// Clears the position, which has to be below the length, and returns whether it was set
    /// before.
    ///
    /// **Panics** where it is at or past the length.
    ///
    /// Proved: the result and what it leaves, for all sets, wherever it does not panic
    /// ([contract](crate::contracts#fixedbitsetbitsmuttake)).
    ///
    /// ```
    /// # use fixedbitset::ArrayBitSet;
    /// let mut set = ArrayBitSet::<4>::new(65);
    /// set.extend([3, 64]);
    /// assert_eq!(set.len(), 65);
    /// assert!(set.take(64) && set.count_ones(..) == 1);
    /// assert!(!set.take(64));
    /// ```
    #[inline]
    #[track_caller]
    pub fn take(&mut self, bit: usize) -> bool {
        self.as_bits_mut().take(bit)
    }

    /// Sets the position if it is clear and clears it if it is set. It has to be below the length.
    ///
    /// **Panics** where it is at or past the length.
    ///
    /// Proved: what it leaves, for all sets, wherever it does not panic
    /// ([contract](crate::contracts#fixedbitsetbitsmuttoggle)).
    ///
    /// ```
    /// # use fixedbitset::ArrayBitSet;
    /// let mut set = ArrayBitSet::<4>::new(70);
    /// set.insert(1);
    /// set.toggle(1);
    /// set.toggle(64);
    /// assert_eq!(set.as_slice(), [0, 1].as_slice());
    /// ```
    #[inline]
    #[track_caller]
    pub fn toggle(&mut self, bit: usize) {
        self.as_bits_mut().toggle(bit);
    }

    /// Sets the position, or clears it where `enabled` is false. It has to be below the length.
    ///
    /// **Panics** where it is at or past the length.
    ///
    /// Proved: what it leaves, for all sets, wherever it does not panic
    /// ([contract](crate::contracts#fixedbitsetbitsmutset)).
    ///
    /// ```
    /// # use fixedbitset::ArrayBitSet;
    /// let mut set = ArrayBitSet::<4>::new(70);
    /// set.set(63, true);
    /// set.set(64, true);
    /// set.set(63, false);
    /// assert_eq!(set.as_slice(), [0, 1].as_slice());
    /// ```
    #[inline]
    #[track_caller]
    pub fn set(&mut self, bit: usize, enabled: bool) {
        self.as_bits_mut().set(bit, enabled);
    }

    /// How many positions of the range are set.
    ///
    /// **Panics** where the range is not valid.
    ///
    /// Proved: the result, for all sets, wherever it does not panic
    /// ([contract](crate::contracts#fixedbitsetbitscount_ones)).
    ///
    /// ```
    /// # use fixedbitset::ArrayBitSet;
    /// let mut set = ArrayBitSet::<4>::new(200);
    /// set.insert_range(60..130);
    /// assert_eq!(set.count_ones(..), 70);
    /// assert_eq!(set.count_ones(63..=64), 2);
    /// assert_eq!(set.count_ones(9..9), 0);
    /// ```
    #[inline]
    #[must_use]
    #[track_caller]
    pub fn count_ones<T: IndexRange>(&self, range: T) -> usize {
        self.as_bits().count_ones(range)
    }

    /// Sets the positions of the range.
    ///
    /// **Panics** where the range is not valid.
    ///
    /// Proved: what it leaves, for all sets, wherever it does not panic
    /// ([contract](crate::contracts#fixedbitsetbitsmutinsert_range)).
    ///
    /// ```
    /// # use fixedbitset::ArrayBitSet;
    /// let mut set = ArrayBitSet::<4>::new(70);
    /// set.insert_range(63..66);
    /// assert_eq!(set.as_slice(), [1 << 63, 3].as_slice());
    /// ```
    #[inline]
    #[track_caller]
    pub fn insert_range<T: IndexRange>(&mut self, range: T) {
        let (start, end) = self.as_bits().part(&range);
        self
            .as_bits_mut().view.insert_range(start, end, &mut Steps::new());
    }

    /// Clears the positions of the range.
    ///
    /// **Panics** where the range is not valid.
    ///
    /// Proved: what it leaves, for all sets, wherever it does not panic
    /// ([contract](crate::contracts#fixedbitsetbitsmutremove_range)).
    ///
    /// ```
    /// # use fixedbitset::ArrayBitSet;
    /// let mut set = ArrayBitSet::<4>::new(70);
    /// set.insert_range(..);
    /// set.remove_range(1..=64);
    /// assert_eq!(set.as_slice(), [1, 62].as_slice());
    /// ```
    #[inline]
    #[track_caller]
    pub fn remove_range<T: IndexRange>(&mut self, range: T) {
        let (start, end) = self.as_bits().part(&range);
        self
            .as_bits_mut().view.remove_range(start, end, &mut Steps::new());
    }

    /// Whether no position is set.
    ///
    /// It takes one step for each lane up to the first position that is set, or for all of them.
    ///
    /// Proved: the result, for all sets ([contract](crate::contracts#fixedbitsetbitsis_clear)).
    ///
    /// ```
    /// # use fixedbitset::ArrayBitSet;
    /// let mut set = ArrayBitSet::<4>::new(70);
    /// assert!(set.is_clear());
    /// set.insert(69);
    /// assert!(!set.is_clear());
    /// ```
    #[inline]
    #[must_use]
    pub fn is_clear(&self) -> bool {
        self.as_bits().is_clear()
    }

    /// The first position that is set, or `None` where none is.
    ///
    /// It takes one step for each lane from the first on up to the one that has the
    /// position, or for all of them.
    ///
    /// Proved: the result, for all sets ([contract](crate::contracts#fixedbitsetbitsminimum)).
    ///
    /// ```
    /// # use fixedbitset::ArrayBitSet;
    /// let mut set = ArrayBitSet::<4>::new(200);
    /// assert_eq!(set.minimum(), None);
    /// set.insert_range(64..130);
    /// assert_eq!(set.minimum(), Some(64));
    /// ```
    #[inline]
    #[must_use]
    pub fn minimum(&self) -> Option<usize> {
        self.as_bits().minimum()
    }

    /// The last position that is set, or `None` where none is.
    ///
    /// It takes one step for each lane from the last on down to the one that has the
    /// position, or for all of them.
    ///
    /// Proved: the result, for all sets ([contract](crate::contracts#fixedbitsetbitsmaximum)).
    ///
    /// ```
    /// # use fixedbitset::ArrayBitSet;
    /// let mut set = ArrayBitSet::<4>::new(200);
    /// assert_eq!(set.maximum(), None);
    /// set.insert_range(64..130);
    /// assert_eq!(set.maximum(), Some(129));
    /// ```
    #[inline]
    #[must_use]
    pub fn maximum(&self) -> Option<usize> {
        self.as_bits().maximum()
    }

    /// Leaves the positions of either set. The second may not be longer.
    ///
    /// **Panics** where `other` is longer, as this set does not grow.
    ///
    /// Proved: what it leaves, for any two sets, wherever it does not panic
    /// ([contract](crate::contracts#fixedbitsetbitsmutunion_with)).
    ///
    /// ```
    /// # use fixedbitset::ArrayBitSet;
    /// let mut set = ArrayBitSet::<4>::new(65);
    /// set.extend([1, 3]);
    /// let mut other = ArrayBitSet::<4>::new(65);
    /// other.extend([3, 64]);
    /// set.union_with(&other);
    /// assert_eq!(set.len(), 65);
    /// assert_eq!(set.as_slice(), [10, 1].as_slice());
    /// ```
    #[inline]
    #[track_caller]
    pub fn union_with(&mut self, other: &Self) {
        self.as_bits_mut().union_with(other.as_bits());
    }

    /// Leaves the positions of exactly one of the sets. The second may not be longer.
    ///
    /// **Panics** where `other` is longer, as this set does not grow.
    ///
    /// Proved: what it leaves, for any two sets, wherever it does not panic
    /// ([contract](crate::contracts#fixedbitsetbitsmutsymmetric_difference_with)).
    ///
    /// ```
    /// # use fixedbitset::ArrayBitSet;
    /// let mut set = ArrayBitSet::<4>::new(65);
    /// set.extend([1, 3]);
    /// let mut other = ArrayBitSet::<4>::new(65);
    /// other.extend([3, 64]);
    /// set.symmetric_difference_with(&other);
    /// assert_eq!(set.len(), 65);
    /// assert_eq!(set.as_slice(), [2, 1].as_slice());
    /// ```
    #[inline]
    #[track_caller]
    pub fn symmetric_difference_with(&mut self, other: &Self) {
        self
            .as_bits_mut().symmetric_difference_with(other.as_bits());
    }

    /// Leaves the positions of both sets, and the length.
    ///
    /// Proved: what it leaves, for any two sets
    /// ([contract](crate::contracts#fixedbitsetbitsmutintersect_with)).
    ///
    /// ```
    /// # use fixedbitset::ArrayBitSet;
    /// let mut set = ArrayBitSet::<4>::new(65);
    /// set.extend([1, 3, 64]);
    /// let mut other = ArrayBitSet::<4>::new(65);
    /// other.extend([3, 5]);
    /// set.intersect_with(&other);
    /// assert_eq!(set.len(), 65);
    /// assert_eq!(set.as_slice(), [8, 0].as_slice());
    /// ```
    #[inline]
    pub fn intersect_with(&mut self, other: &Self) {
        self.as_bits_mut().intersect_with(other.as_bits());
    }

    /// Leaves the positions of the first set that the second lacks, and the length.
    ///
    /// Proved: what it leaves, for any two sets
    /// ([contract](crate::contracts#fixedbitsetbitsmutdifference_with)).
    ///
    /// ```
    /// # use fixedbitset::ArrayBitSet;
    /// let mut set = ArrayBitSet::<4>::new(65);
    /// set.extend([1, 3, 64]);
    /// let mut other = ArrayBitSet::<4>::new(65);
    /// other.extend([3, 5]);
    /// set.difference_with(&other);
    /// assert_eq!(set.as_slice(), [2, 1].as_slice());
    /// ```
    #[inline]
    pub fn difference_with(&mut self, other: &Self) {
        self.as_bits_mut().difference_with(other.as_bits());
    }

    /// [`union_with`](crate::BitsMut::union_with), which also returns whether a position came in.
    ///
    /// **Panics** where `other` is longer, as this set does not grow.
    ///
    /// Proved: the result and what it leaves, for any two sets, wherever it does not panic
    /// ([contract](crate::contracts#fixedbitsetbitsmutunion_with_change)).
    ///
    /// ```
    /// # use fixedbitset::ArrayBitSet;
    /// let mut set = ArrayBitSet::<4>::new(65);
    /// set.extend([1, 3]);
    /// let mut other = ArrayBitSet::<4>::new(65);
    /// other.extend([3, 64]);
    /// assert!(set.union_with_change(&other));
    /// assert!(!set.union_with_change(&other));
    /// ```
    #[inline]
    #[track_caller]
    pub fn union_with_change(&mut self, other: &Self) -> bool {
        self.as_bits_mut().union_with_change(other.as_bits())
    }

    /// How many positions are in both sets.
    ///
    /// Proved: the result, for any two sets
    /// ([contract](crate::contracts#fixedbitsetbitsintersection_count)).
    ///
    /// ```
    /// # use fixedbitset::ArrayBitSet;
    /// let mut set = ArrayBitSet::<4>::new(65);
    /// set.extend([1, 3, 64]);
    /// let mut other = ArrayBitSet::<4>::new(65);
    /// other.extend([3, 5]);
    /// assert_eq!(set.intersection_count(&other), 1);
    /// ```
    #[inline]
    #[must_use]
    pub fn intersection_count(&self, other: &Self) -> usize {
        self.as_bits().intersection_count(other.as_bits())
    }

    /// Whether no position is in both sets.
    ///
    /// Proved: the result, for any two sets ([contract](crate::contracts#fixedbitsetbitsis_disjoint)).
    ///
    /// ```
    /// # use fixedbitset::ArrayBitSet;
    /// let mut set = ArrayBitSet::<4>::new(66);
    /// set.extend([1, 64]);
    /// let mut other = ArrayBitSet::<4>::new(66);
    /// other.extend([3, 64, 65]);
    /// assert!(!set.is_disjoint(&other));
    /// ```
    #[inline]
    #[must_use]
    pub fn is_disjoint(&self, other: &Self) -> bool {
        self.as_bits().is_disjoint(other.as_bits())
    }

    /// Whether each position of the first set is one of the second.
    ///
    /// Proved: the result, for any two sets ([contract](crate::contracts#fixedbitsetbitsis_subset)).
    ///
    /// ```
    /// # use fixedbitset::ArrayBitSet;
    /// let mut set = ArrayBitSet::<4>::new(200);
    /// set.insert(3);
    /// let mut other = ArrayBitSet::<4>::new(200);
    /// other.extend([1, 3]);
    /// assert!(set.is_subset(&other));
    /// assert!(!other.is_subset(&set));
    /// ```
    #[inline]
    #[must_use]
    pub fn is_subset(&self, other: &Self) -> bool {
        self.as_bits().is_subset(other.as_bits())
    }

    /// The least position of the second set that the first lacks, or `None` where it lacks none.
    ///
    /// It takes exactly the steps up to the lane of the position, or all where there is none.
    ///
    /// Proved: the result, for any two sets ([contract](crate::contracts#fixedbitsetbitsfirst_lacking)).
    ///
    /// ```
    /// # use fixedbitset::ArrayBitSet;
    /// let mut set = ArrayBitSet::<4>::new(71);
    /// set.extend([1, 3]);
    /// let mut other = ArrayBitSet::<4>::new(71);
    /// other.extend([3, 64, 70]);
    /// assert_eq!(set.first_lacking(&other), Some(64));
    /// assert_eq!(other.first_lacking(&set), Some(1));
    /// ```
    #[inline]
    #[must_use]
    pub fn first_lacking(&self, other: &Self) -> Option<usize> {
        self.as_bits().first_lacking(other.as_bits())
    }

    /// The least position at or past `from` that is set, or `None` where none is.
    ///
    /// Proved: the result, for all sets and all numbers
    /// ([contract](crate::contracts#fixedbitsetbitsnext_one)).
    ///
    /// ```
    /// # use fixedbitset::ArrayBitSet;
    /// let mut set = ArrayBitSet::<4>::new(200);
    /// set.insert_range(64..130);
    /// assert_eq!(set.next_one(3), Some(64));
    /// assert_eq!(set.next_one(130), None);
    /// ```
    #[inline]
    #[must_use]
    pub fn next_one(&self, from: usize) -> Option<usize> {
        self.as_bits().next_one(from)
    }

    /// The least position at or past `from` and below the length that is not set, or
    /// `None` where there is none.
    ///
    /// Proved: the result, for all sets and all numbers
    /// ([contract](crate::contracts#fixedbitsetbitsnext_zero)).
    ///
    /// ```
    /// # use fixedbitset::ArrayBitSet;
    /// let mut set = ArrayBitSet::<4>::new(200);
    /// set.insert_range(64..130);
    /// assert_eq!(set.next_zero(64), Some(130));
    /// assert_eq!(set.next_zero(200), None);
    /// ```
    #[inline]
    #[must_use]
    pub fn next_zero(&self, from: usize) -> Option<usize> {
        self.as_bits().next_zero(from)
    }

    /// The least number at or past `from` with `count` clear positions from there on, or
    /// `None` where there is none.
    ///
    /// It takes one step for each lane from that of `from` up to the end of the gap. Where
    /// there is none they are at least those up to the last place with room for one, and at
    /// most those up to the length.
    ///
    /// Proved: the result, for all sets and all numbers
    /// ([contract](crate::contracts#fixedbitsetbitsfirst_gap)).
    ///
    /// ```
    /// # use fixedbitset::ArrayBitSet;
    /// let mut set = ArrayBitSet::<4>::new(91);
    /// set.extend([3, 6, 90]);
    /// assert_eq!(set.first_gap(2, 0), Some(0));
    /// assert_eq!(set.first_gap(3, 1), Some(7));
    /// assert_eq!(set.first_gap(100, 0), None);
    /// ```
    #[inline]
    #[must_use]
    pub fn first_gap(&self, count: usize, from: usize) -> Option<usize> {
        self.as_bits().first_gap(count, from)
    }

    /// The positions that are set, in ascending order.
    ///
    /// Proved: each item, for all sets and any mix of calls from both ends
    /// ([contract](crate::contracts#fixedbitsetbitsones)).
    ///
    /// ```
    /// # use fixedbitset::ArrayBitSet;
    /// let mut set = ArrayBitSet::<4>::new(65);
    /// set.extend([64, 3]);
    /// let items: Vec<usize> = set.ones().collect();
    /// assert_eq!(items.as_slice(), [3, 64].as_slice());
    /// ```
    #[inline]
    #[must_use]
    pub fn ones(&self) -> Ones<'_> {
        self.as_bits().ones()
    }

    /// The positions below the length that are not set, in ascending order.
    ///
    /// Proved: each item, for all sets and any mix of calls from both ends
    /// ([contract](crate::contracts#fixedbitsetbitszeroes)).
    ///
    /// ```
    /// # use fixedbitset::ArrayBitSet;
    /// let mut set = ArrayBitSet::<4>::new(66);
    /// set.insert_range(1..65);
    /// let items: Vec<usize> = set.zeroes().collect();
    /// assert_eq!(items.as_slice(), [0, 65].as_slice());
    /// ```
    #[inline]
    #[must_use]
    pub fn zeroes(&self) -> Zeroes<'_> {
        self.as_bits().zeroes()
    }

    /// The positions that both sets have, in ascending order. It looks at no word
    /// that only one of them has.
    ///
    /// Proved: each item, for any two sets and any mix of calls from both ends
    /// ([contract](crate::contracts#fixedbitsetbitsintersection)).
    ///
    /// ```
    /// # use fixedbitset::ArrayBitSet;
    /// let mut set = ArrayBitSet::<4>::new(201);
    /// set.extend([1, 3, 64]);
    /// let mut other = ArrayBitSet::<4>::new(201);
    /// other.extend([3, 5, 64, 200]);
    /// let items: Vec<usize> = set.intersection(&other).collect();
    /// assert_eq!(items.as_slice(), [3, 64].as_slice());
    /// ```
    #[inline]
    #[must_use]
    pub fn intersection<'a>(&'a self, other: &'a Self) -> Intersection<'a> {
        self.as_bits().intersection(other.as_bits())
    }

    /// The positions of the first set that the second lacks, in ascending order.
    ///
    /// Proved: each item, for any two sets and any mix of calls from both ends
    /// ([contract](crate::contracts#fixedbitsetbitsdifference)).
    ///
    /// ```
    /// # use fixedbitset::ArrayBitSet;
    /// let mut set = ArrayBitSet::<4>::new(201);
    /// set.extend([1, 3, 200]);
    /// let mut other = ArrayBitSet::<4>::new(201);
    /// other.extend([3, 64]);
    /// let items: Vec<usize> = set.difference(&other).collect();
    /// assert_eq!(items.as_slice(), [1, 200].as_slice());
    /// ```
    #[inline]
    #[must_use]
    pub fn difference<'a>(&'a self, other: &'a Self) -> Difference<'a> {
        self.as_bits().difference(other.as_bits())
    }
}
