// Made by front/publish from the sources in crates: change these, and not this.
//! The calls of the views that read a set over borrowed words.
use crate::proved::bitlanes::Steps;
use crate::proved::fixedbitset::views;
use crate::{
    Bits, Block, Difference, IndexRange, Intersection, Ones, Runs, SymmetricDifference, Union,
    Zeroes,
};

impl<'a> Bits<'a> {
    /// The least number at or past `from` with `count` clear positions from there on, or
    /// `None` where there is none.
    ///
    /// It takes one step for each lane from that of `from` up to the end of the gap. Where
    /// there is none they are at least those up to the last place with room for one, and at
    /// most those up to the length.
    ///
    /// Proved: the result, for all sets and all numbers
    /// ([contract](crate::contracts#fixedbitsetbitsfirst_gap)).
    ///
    /// ```
    /// # use fixedbitset::BitsMut;
    /// let mut words = [9, 2, 0, 0];
    /// let set = BitsMut::settle(&mut words, 70, 70);
    /// assert_eq!(set.as_bits().first_gap(3, 0), Some(4));
    /// assert_eq!(set.as_bits().first_gap(5, 62), None);
    /// ```
    #[inline]
    #[must_use]
    pub fn first_gap(self, count: usize, from: usize) -> Option<usize> {
        self.view.first_gap(count, from, &mut Steps::new())
    }

    /// The least multiple of `align` from `start` on with `count` clear positions from there
    /// on, all below `end`, or `None` where there is none. The only multiple of 0 is 0. The
    /// range has to be valid.
    ///
    /// It takes at most two steps for each lane of the range, and one for each multiple that may
    /// stand in it; where `align` is 0 or 1, at most one for each lane. Where there is such a gap
    /// they are at least those of its own lanes.
    ///
    /// `start` and `end` are the ends of `range`.
    ///
    /// **Panics** where the range is not valid.
    ///
    /// Proved: the result, for all sets, wherever it does not panic
    /// ([contract](crate::contracts#fixedbitsetbitsfirst_aligned_gap)).
    ///
    /// ```
    /// # use fixedbitset::BitsMut;
    /// let mut words = [9, 2, 0, 0];
    /// let set = BitsMut::settle(&mut words, 70, 70);
    /// assert_eq!(set.as_bits().first_aligned_gap(2, 4, 1..70), Some(4));
    /// assert_eq!(set.as_bits().first_aligned_gap(5, 32, 1..70), Some(32));
    /// assert_eq!(set.as_bits().first_aligned_gap(5, 32, 1..36), None);
    /// ```
    #[inline]
    #[must_use]
    #[track_caller]
    pub fn first_aligned_gap<T: IndexRange>(
        self,
        count: usize,
        align: usize,
        range: T,
    ) -> Option<usize> {
        let (start, end) = self.part(&range);
        self.view
            .first_aligned_gap(count, align, start, end, &mut Steps::new())
    }

    /// The greatest number with `count` clear positions from there on, all of them below `below`,
    /// or `None` where there is none.
    ///
    /// It goes over the runs of clear positions below `below`, the last one first. So it takes at
    /// most two steps for each run of positions that are set and begins there, two more, and one
    /// for each word that has such a position. They are at least one for each lane from that of
    /// the gap up to `below`, or to the length; where there is none, from that of `count` on.
    ///
    /// Proved: the result, for all sets and all numbers
    /// ([contract](crate::contracts#fixedbitsetbitslast_gap)).
    ///
    /// ```
    /// # use fixedbitset::BitsMut;
    /// let mut words = [9, 2, 0, 0];
    /// let set = BitsMut::settle(&mut words, 70, 70);
    /// assert_eq!(set.as_bits().last_gap(3, 70), Some(67));
    /// assert_eq!(set.as_bits().last_gap(5, 70), Some(60));
    /// assert_eq!(set.as_bits().last_gap(62, 70), None);
    /// ```
    #[inline]
    #[must_use]
    pub fn last_gap(self, count: usize, below: usize) -> Option<usize> {
        self.view.last_gap(count, below, &mut Steps::new())
    }

    /// The least position at or past `from` that is set, or `None` where none is.
    ///
    /// Proved: the result, for all sets and all numbers
    /// ([contract](crate::contracts#fixedbitsetbitsnext_one)).
    ///
    /// ```
    /// # use fixedbitset::BitsMut;
    /// let mut words = [9, 2, 0, 0];
    /// let set = BitsMut::settle(&mut words, 70, 70);
    /// assert_eq!(set.as_bits().next_one(3), Some(3));
    /// assert_eq!(set.as_bits().next_one(4), Some(65));
    /// assert_eq!(set.as_bits().next_one(66), None);
    /// ```
    #[inline]
    #[must_use]
    pub fn next_one(self, from: usize) -> Option<usize> {
        self.view.next_one(from, &mut Steps::new())
    }

    /// The least position at or past `from` and below the length that is not set, or
    /// `None` where there is none.
    ///
    /// Proved: the result, for all sets and all numbers
    /// ([contract](crate::contracts#fixedbitsetbitsnext_zero)).
    ///
    /// ```
    /// # use fixedbitset::BitsMut;
    /// let mut words = [9, 63, 0, 0];
    /// let set = BitsMut::settle(&mut words, 70, 70);
    /// assert_eq!(set.as_bits().next_zero(0), Some(1));
    /// assert_eq!(set.as_bits().next_zero(64), None);
    /// ```
    #[inline]
    #[must_use]
    pub fn next_zero(self, from: usize) -> Option<usize> {
        self.view.next_zero(from, &mut Steps::new())
    }

    /// The least position at or past `from` that both sets have, or `None` where there is none. The
    /// lengths are not compared.
    ///
    /// It looks at the word of `from` in each set, and then at four words of each at a time, up to
    /// those that have the position or to the end of the shorter set.
    ///
    /// Proved: the result, for any two sets and all numbers
    /// ([contract](crate::contracts#fixedbitsetbitsnext_common)).
    ///
    /// ```
    /// # use fixedbitset::BitsMut;
    /// let (mut words, mut other) = ([9, 2, 0, 0], [1, 3, 0, 0]);
    /// let set = BitsMut::settle(&mut words, 70, 70);
    /// let other = BitsMut::settle(&mut other, 66, 66);
    /// let next = set.as_bits().next_common(other.as_bits(), 1);
    /// assert_eq!(next, Some(65));
    /// ```
    #[inline]
    #[must_use]
    pub fn next_common(self, other: Bits<'_>, from: usize) -> Option<usize> {
        self.view.next_common(other.view, from, &mut Steps::new())
    }

    /// The position that has exactly `index` positions of the set below it: the first has index 0.
    /// `None` where the set has no more positions than `index`.
    ///
    /// It counts word by word, up to the one that has the position, and takes a step
    /// for each of these words.
    ///
    /// Proved: the result, for all sets and all numbers
    /// ([contract](crate::contracts#fixedbitsetbitsnth_one)).
    ///
    /// ```
    /// # use fixedbitset::BitsMut;
    /// let mut words = [9, 2, 0, 0];
    /// let set = BitsMut::settle(&mut words, 70, 70);
    /// assert_eq!(set.as_bits().nth_one(2), Some(65));
    /// assert_eq!(set.as_bits().nth_one(3), None);
    /// ```
    #[inline]
    #[must_use]
    pub fn nth_one(self, index: usize) -> Option<usize> {
        self.view.nth_one(index, &mut Steps::new())
    }

    /// The greatest position below `below` that is set, or `None` where none is.
    ///
    /// Proved: the result, for all sets and all numbers
    /// ([contract](crate::contracts#fixedbitsetbitsprevious_one)).
    ///
    /// ```
    /// # use fixedbitset::BitsMut;
    /// let mut words = [9, 2, 0, 0];
    /// let set = BitsMut::settle(&mut words, 70, 70);
    /// assert_eq!(set.as_bits().previous_one(65), Some(3));
    /// assert_eq!(set.as_bits().previous_one(500), Some(65));
    /// assert_eq!(set.as_bits().previous_one(0), None);
    /// ```
    #[inline]
    #[must_use]
    pub fn previous_one(self, below: usize) -> Option<usize> {
        self.view.previous_one(below, &mut Steps::new())
    }

    /// The greatest position below `below` and below the length that is not set, or
    /// `None` where there is none.
    ///
    /// Proved: the result, for all sets and all numbers
    /// ([contract](crate::contracts#fixedbitsetbitsprevious_zero)).
    ///
    /// ```
    /// # use fixedbitset::BitsMut;
    /// let mut words = [9, 63, 0, 0];
    /// let set = BitsMut::settle(&mut words, 70, 70);
    /// assert_eq!(set.as_bits().previous_zero(70), Some(63));
    /// assert_eq!(set.as_bits().previous_zero(1), None);
    /// ```
    #[inline]
    #[must_use]
    pub fn previous_zero(self, below: usize) -> Option<usize> {
        self.view.previous_zero(below, &mut Steps::new())
    }

    /// Whether the words are those of a set of `length` positions as they stand: as many whole lanes as the
    /// length needs, and no bit past it. It changes nothing.
    ///
    /// It looks at the word of the length and at those after it, which are at most one lane.
    ///
    /// Proved: the result, for all words and all numbers
    /// ([contract](crate::contracts#fixedbitsetbitsfits)).
    ///
    /// ```
    /// # use fixedbitset::Bits;
    /// assert!(Bits::fits(&[8, 63, 0, 0], 70));
    /// assert!(!Bits::fits(&[8, 64, 0, 0], 70));
    /// assert!(!Bits::fits(&[8, 63], 70));
    /// ```
    #[inline]
    #[must_use]
    pub fn fits(words: &[Block], length: usize) -> bool {
        views::Bits::fits(words, length)
    }

    /// The words as a set of `length` positions, or `None` where they are not those of one as they stand
    /// ([`fits`](Self::fits)). So words from elsewhere can be refused, where `settle` would clear what does
    /// not fit.
    ///
    /// It looks at the word of the length and at those after it, which are at most one lane.
    ///
    /// Proved: the result, for all words and all numbers
    /// ([contract](crate::contracts#fixedbitsetbitsover)).
    ///
    /// ```
    /// # use fixedbitset::Bits;
    /// assert!(Bits::over(&[8, 63, 0, 0], 70).is_some());
    /// assert!(Bits::over(&[8, 64, 0, 0], 70).is_none());
    /// assert!(Bits::over(&[8, 63], 70).is_none());
    /// ```
    #[inline]
    #[must_use]
    pub fn over(words: &'a [Block], length: usize) -> Option<Self> {
        let view = views::Bits::over(words, length)?;
        Some(Bits { view })
    }

    /// The words that the length needs, without those after them that make up a whole lane: those
    /// that [`as_slice`](crate::FixedBitSet::as_slice) returns. The iterators go over these.
    ///
    /// Proved: the words, for all sets ([contract](crate::contracts#fixedbitsetbitsas_slice)).
    ///
    /// ```
    /// # use fixedbitset::BitsMut;
    /// let mut words = [9, 2, 0, 0];
    /// let set = BitsMut::settle(&mut words, 70, 70);
    /// assert_eq!(set.as_bits().as_slice(), [9, 2].as_slice());
    /// ```
    #[inline]
    #[must_use]
    pub fn as_slice(self) -> &'a [Block] {
        self.view.as_slice()
    }

    /// Whether the position is set: `false` at or past the length.
    ///
    /// Proved: the result, for all sets and all numbers
    /// ([contract](crate::contracts#fixedbitsetbitscontains)).
    ///
    /// ```
    /// # use fixedbitset::BitsMut;
    /// let mut words = [8, 1, 0, 0];
    /// let set = BitsMut::settle(&mut words, 70, 70);
    /// assert!(set.as_bits().contains(64));
    /// assert!(!set.as_bits().contains(500));
    /// ```
    #[inline]
    #[must_use]
    pub fn contains(self, bit: usize) -> bool {
        self.view.contains(bit)
    }

    /// Writes for each position of the list whether it is set: `false` at or past the length. There
    /// have to be as many results as positions. It looks at one word at most for each item.
    ///
    /// **Panics** where there are not as many results as positions.
    ///
    /// Proved: , for all sets, wherever it does not panic
    /// ([contract](crate::contracts#fixedbitsetbitscontains_each)).
    ///
    /// ```
    /// # use fixedbitset::BitsMut;
    /// let mut words = [9, 2, 0, 0];
    /// let set = BitsMut::settle(&mut words, 70, 70);
    /// let mut answers = [false; 3];
    /// set.as_bits().contains_each(&[65, 64, 500], &mut answers);
    /// assert_eq!(answers, [true, false, false]);
    /// ```
    #[inline]
    #[track_caller]
    pub fn contains_each(self, positions: &[usize], answers: &mut [bool]) {
        self.assert_like(positions, answers);
        self.view.contains_each(positions, answers);
    }

    /// Whether no position is set.
    ///
    /// It takes one step for each lane up to the first position that is set, or for all of them.
    ///
    /// Proved: the result, for all sets ([contract](crate::contracts#fixedbitsetbitsis_clear)).
    ///
    /// ```
    /// # use fixedbitset::BitsMut;
    /// let mut words = [0, 64, 0, 0];
    /// let set = BitsMut::settle(&mut words, 70, 70);
    /// assert!(set.as_bits().is_clear());
    /// ```
    #[inline]
    #[must_use]
    pub fn is_clear(self) -> bool {
        self.view.is_clear(&mut Steps::new())
    }

    /// The first position that is set, or `None` where none is.
    ///
    /// It takes one step for each lane from the first on up to the one that has the
    /// position, or for all of them.
    ///
    /// Proved: the result, for all sets ([contract](crate::contracts#fixedbitsetbitsminimum)).
    ///
    /// ```
    /// # use fixedbitset::BitsMut;
    /// let mut words = [0, 6, 0, 0];
    /// let set = BitsMut::settle(&mut words, 70, 70);
    /// assert_eq!(set.as_bits().minimum(), Some(65));
    /// ```
    #[inline]
    #[must_use]
    pub fn minimum(self) -> Option<usize> {
        self.view.minimum(&mut Steps::new())
    }

    /// The last position that is set, or `None` where none is.
    ///
    /// It takes one step for each lane from the last on down to the one that has the
    /// position, or for all of them.
    ///
    /// Proved: the result, for all sets ([contract](crate::contracts#fixedbitsetbitsmaximum)).
    ///
    /// ```
    /// # use fixedbitset::{BitsMut, Block};
    /// let mut words = [9, Block::MAX, 0, 0];
    /// let set = BitsMut::settle(&mut words, 70, 70);
    /// assert_eq!(set.as_bits().maximum(), Some(69));
    /// ```
    #[inline]
    #[must_use]
    pub fn maximum(self) -> Option<usize> {
        self.view.maximum(&mut Steps::new())
    }

    /// How many positions of the range are set.
    ///
    /// **Panics** where the range is not valid.
    ///
    /// Proved: the result, for all sets, wherever it does not panic
    /// ([contract](crate::contracts#fixedbitsetbitscount_ones)).
    ///
    /// ```
    /// # use fixedbitset::BitsMut;
    /// let mut words = [9, 3, 0, 0];
    /// let set = BitsMut::settle(&mut words, 70, 70);
    /// assert_eq!(set.as_bits().count_ones(1..65), 2);
    /// ```
    #[inline(always)]
    #[must_use]
    #[track_caller]
    pub fn count_ones<T: IndexRange>(self, range: T) -> usize {
        let (start, end) = self.part(&range);
        self.view.count_ones(start, end, &mut Steps::new())
    }

    /// How many positions of the range are not set.
    ///
    /// **Panics** where the range is not valid.
    ///
    /// Proved: the result, for all sets, wherever it does not panic
    /// ([contract](crate::contracts#fixedbitsetbitscount_zeroes)).
    ///
    /// ```
    /// # use fixedbitset::BitsMut;
    /// let mut words = [9, 3, 0, 0];
    /// let set = BitsMut::settle(&mut words, 70, 70);
    /// assert_eq!(set.as_bits().count_zeroes(1..65), 62);
    /// ```
    #[inline(always)]
    #[must_use]
    #[track_caller]
    pub fn count_zeroes<T: IndexRange>(self, range: T) -> usize {
        let (start, end) = self.part(&range);
        self.view.count_zeroes(start, end, &mut Steps::new())
    }

    /// Whether each position of the range is set.
    ///
    /// **Panics** where the range is not valid.
    ///
    /// Proved: the result, for all sets, wherever it does not panic
    /// ([contract](crate::contracts#fixedbitsetbitscontains_all_in_range)).
    ///
    /// ```
    /// # use fixedbitset::BitsMut;
    /// let mut words = [9, 3, 0, 0];
    /// let set = BitsMut::settle(&mut words, 70, 70);
    /// assert!(set.as_bits().contains_all_in_range(64..66));
    /// ```
    #[inline]
    #[must_use]
    #[track_caller]
    pub fn contains_all_in_range<T: IndexRange>(self, range: T) -> bool {
        let (start, end) = self.part(&range);
        self.view
            .contains_all_in_range(start, end, &mut Steps::new())
    }

    /// Whether each position below the length is set.
    ///
    /// Proved: the result, for all sets ([contract](crate::contracts#fixedbitsetbitsis_full)).
    ///
    /// ```
    /// # use fixedbitset::{BitsMut, Block};
    /// let mut words = [Block::MAX, 63, 0, 0];
    /// let set = BitsMut::settle(&mut words, 70, 70);
    /// assert!(set.as_bits().is_full());
    /// ```
    #[inline]
    #[must_use]
    pub fn is_full(self) -> bool {
        self.view.is_full(&mut Steps::new())
    }

    /// Whether some position of the range is set.
    ///
    /// **Panics** where the range is not valid.
    ///
    /// Proved: the result, for all sets, wherever it does not panic
    /// ([contract](crate::contracts#fixedbitsetbitscontains_any_in_range)).
    ///
    /// ```
    /// # use fixedbitset::BitsMut;
    /// let mut words = [9, 3, 0, 0];
    /// let set = BitsMut::settle(&mut words, 70, 70);
    /// assert!(!set.as_bits().contains_any_in_range(4..64));
    /// ```
    #[inline]
    #[must_use]
    #[track_caller]
    pub fn contains_any_in_range<T: IndexRange>(self, range: T) -> bool {
        let (start, end) = self.part(&range);
        self.view
            .contains_any_in_range(start, end, &mut Steps::new())
    }

    /// The `width` positions from `start` on as a number: its bit `i` is position `start + i`.
    ///
    /// The width may be 64 at most, and the positions have to be below the length. It looks at one
    /// word, or at two.
    ///
    /// **Panics** where the width is over 64, and where the positions are not all below the length.
    ///
    /// Proved: the result, for all sets, wherever it does not panic
    /// ([contract](crate::contracts#fixedbitsetbitsload)).
    ///
    /// ```
    /// # use fixedbitset::BitsMut;
    /// let mut words = [9 | 1 << 63, 2, 0, 0];
    /// let set = BitsMut::settle(&mut words, 70, 70);
    /// assert_eq!(set.as_bits().load(62, 4), 10);
    /// assert_eq!(set.as_bits().load(0, 64), 9 | 1 << 63);
    /// ```
    #[inline]
    #[must_use]
    #[track_caller]
    pub fn load(self, start: usize, width: usize) -> u64 {
        self.assert_part(start, width);
        self.view.load(start, width) as u64
    }

    /// The positions that are set, in ascending order.
    ///
    /// Proved: each item, for all sets and any mix of calls from both ends
    /// ([contract](crate::contracts#fixedbitsetbitsones)).
    ///
    /// ```
    /// # use fixedbitset::BitsMut;
    /// let mut words = [9, 2, 0, 0];
    /// let set = BitsMut::settle(&mut words, 70, 70);
    /// assert!(set.as_bits().ones().eq([0, 3, 65]));
    /// ```
    #[inline]
    #[must_use]
    pub fn ones(self) -> Ones<'a> {
        let walk = self.view.ones();
        Ones { walk }
    }

    /// The positions that both sets have, in ascending order. It looks at no word
    /// that only one of them has.
    ///
    /// Proved: each item, for any two sets and any mix of calls from both ends
    /// ([contract](crate::contracts#fixedbitsetbitsintersection)).
    ///
    /// ```
    /// # use fixedbitset::BitsMut;
    /// let (mut words, mut other) = ([9, 2, 0, 0], [1, 2, 0, 0]);
    /// let set = BitsMut::settle(&mut words, 70, 70);
    /// let other = BitsMut::settle(&mut other, 66, 66);
    /// assert!(set.as_bits().intersection(other.as_bits()).eq([0, 65]));
    /// ```
    #[inline]
    #[must_use]
    pub fn intersection(self, other: Bits<'a>) -> Intersection<'a> {
        let walk = self.view.intersection(other.view);
        Intersection { walk }
    }

    /// The positions of the first set that the second lacks, in ascending order.
    ///
    /// Proved: each item, for any two sets and any mix of calls from both ends
    /// ([contract](crate::contracts#fixedbitsetbitsdifference)).
    ///
    /// ```
    /// # use fixedbitset::BitsMut;
    /// let (mut words, mut other) = ([9, 2, 0, 0], [1, 2, 0, 0]);
    /// let set = BitsMut::settle(&mut words, 70, 70);
    /// let other = BitsMut::settle(&mut other, 66, 66);
    /// assert!(set.as_bits().difference(other.as_bits()).eq([3]));
    /// ```
    #[inline]
    #[must_use]
    pub fn difference(self, other: Bits<'a>) -> Difference<'a> {
        let walk = self.view.difference(other.view);
        Difference { walk }
    }

    /// The positions of the first set, and then those of the second that the first lacks, each part
    /// in ascending order.
    ///
    /// Proved: each item, for any two sets and any mix of calls from both ends
    /// ([contract](crate::contracts#fixedbitsetbitsunion)).
    ///
    /// ```
    /// # use fixedbitset::BitsMut;
    /// let (mut words, mut other) = ([9, 2, 0, 0], [3, 0, 0, 0]);
    /// let set = BitsMut::settle(&mut words, 70, 70);
    /// let other = BitsMut::settle(&mut other, 9, 9);
    /// let mut walk = set.as_bits().union(other.as_bits());
    /// assert_eq!((walk.next(), walk.next_back()), (Some(0), Some(1)));
    /// ```
    #[inline]
    #[must_use]
    pub fn union(self, other: Bits<'a>) -> Union<'a> {
        let walk = self.view.union(other.view);
        Union { walk }
    }

    /// The positions of the first set that the second lacks, and then those of the second that the
    /// first lacks, each part in ascending order.
    ///
    /// Proved: each item, for any two sets and any mix of calls from both ends
    /// ([contract](crate::contracts#fixedbitsetbitssymmetric_difference)).
    ///
    /// ```
    /// # use fixedbitset::BitsMut;
    /// let (mut words, mut other) = ([9, 2, 0, 0], [3, 0, 0, 0]);
    /// let set = BitsMut::settle(&mut words, 70, 70);
    /// let other = BitsMut::settle(&mut other, 9, 9);
    /// let mut walk = set.as_bits().symmetric_difference(other.as_bits());
    /// assert_eq!((walk.next(), walk.next_back()), (Some(3), Some(1)));
    /// ```
    #[inline]
    #[must_use]
    pub fn symmetric_difference(self, other: Bits<'a>) -> SymmetricDifference<'a> {
        let walk = self.view.symmetric_difference(other.view);
        SymmetricDifference { walk }
    }

    /// The positions below the length that are not set, in ascending order.
    ///
    /// Proved: each item, for all sets and any mix of calls from both ends
    /// ([contract](crate::contracts#fixedbitsetbitszeroes)).
    ///
    /// ```
    /// # use fixedbitset::{BitsMut, Block};
    /// let mut words = [Block::MAX - 8, 60, 0, 0];
    /// let set = BitsMut::settle(&mut words, 70, 70);
    /// assert!(set.as_bits().zeroes().eq([3, 64, 65]));
    /// ```
    #[inline]
    #[must_use]
    pub fn zeroes(self) -> Zeroes<'a> {
        let walk = self.view.zeroes();
        Zeroes { walk }
    }

    /// The runs of positions that are set, as start and end, in ascending order.
    ///
    /// Proved: each stretch, for all sets and any mix of calls from both ends
    /// ([contract](crate::contracts#fixedbitsetbitsruns)).
    ///
    /// ```
    /// # use fixedbitset::{BitsMut, Block};
    /// let mut words = [Block::MAX, 1, 0, 0];
    /// let set = BitsMut::settle(&mut words, 70, 70);
    /// assert!(set.as_bits().runs().eq([(0, 65)]));
    /// ```
    #[inline]
    #[must_use]
    pub fn runs(self) -> Runs<'a> {
        let walk = self.view.runs();
        Runs { walk }
    }

    /// The runs of positions below the length that are not set, as start and end, in ascending
    /// order.
    ///
    /// Proved: each stretch, for all sets and any mix of calls from both ends
    /// ([contract](crate::contracts#fixedbitsetbitszero_runs)).
    ///
    /// ```
    /// # use fixedbitset::{BitsMut, Block};
    /// let mut words = [Block::MAX, 1, 0, 0];
    /// let set = BitsMut::settle(&mut words, 70, 70);
    /// assert!(set.as_bits().zero_runs().eq([(65, 70)]));
    /// ```
    #[inline]
    #[must_use]
    pub fn zero_runs(self) -> Runs<'a> {
        let walk = self.view.zero_runs();
        Runs { walk }
    }

    /// The positions that are set, from `start` up to and without `end`, in ascending order. The
    /// range has to be valid.
    ///
    /// `start` and `end` are the ends of `range`.
    ///
    /// **Panics** where the range is not valid.
    ///
    /// Proved: each item, for all sets and any mix of calls from both ends, wherever it does not panic
    /// ([contract](crate::contracts#fixedbitsetbitsones_in)).
    ///
    /// ```
    /// # use fixedbitset::BitsMut;
    /// let mut words = [9, 2, 0, 0];
    /// let set = BitsMut::settle(&mut words, 70, 70);
    /// assert!(set.as_bits().ones_in(1..66).eq([3, 65]));
    /// ```
    #[inline]
    #[must_use]
    #[track_caller]
    pub fn ones_in<T: IndexRange>(self, range: T) -> Ones<'a> {
        let (start, end) = self.part(&range);
        let walk = self.view.ones_in(start, end);
        Ones { walk }
    }

    /// The positions that are not set, from `start` up to and without `end`, in ascending order.
    /// The range has to be valid.
    ///
    /// `start` and `end` are the ends of `range`.
    ///
    /// **Panics** where the range is not valid.
    ///
    /// Proved: each item, for all sets and any mix of calls from both ends, wherever it does not panic
    /// ([contract](crate::contracts#fixedbitsetbitszeroes_in)).
    ///
    /// ```
    /// # use fixedbitset::{BitsMut, Block};
    /// let mut words = [Block::MAX - 8, 60, 0, 0];
    /// let set = BitsMut::settle(&mut words, 70, 70);
    /// assert!(set.as_bits().zeroes_in(4..65).eq([64]));
    /// ```
    #[inline]
    #[must_use]
    #[track_caller]
    pub fn zeroes_in<T: IndexRange>(self, range: T) -> Zeroes<'a> {
        let (start, end) = self.part(&range);
        let walk = self.view.zeroes_in(start, end);
        Zeroes { walk }
    }

    /// How many positions are in either set.
    ///
    /// Proved: the result, for any two sets ([contract](crate::contracts#fixedbitsetbitsunion_count)).
    ///
    /// ```
    /// # use fixedbitset::BitsMut;
    /// let (mut words, mut other) = ([9, 1, 0, 0], [3, 0, 0, 0]);
    /// let set = BitsMut::settle(&mut words, 70, 70);
    /// let other = BitsMut::settle(&mut other, 9, 9);
    /// assert_eq!(set.as_bits().union_count(other.as_bits()), 4);
    /// ```
    #[inline]
    #[must_use]
    pub fn union_count(self, other: Bits<'_>) -> usize {
        self.view.union_count(other.view, &mut Steps::new())
    }

    /// How many positions are in both sets.
    ///
    /// Proved: the result, for any two sets
    /// ([contract](crate::contracts#fixedbitsetbitsintersection_count)).
    ///
    /// ```
    /// # use fixedbitset::BitsMut;
    /// let (mut words, mut other) = ([9, 1, 0, 0], [3, 0, 0, 0]);
    /// let set = BitsMut::settle(&mut words, 70, 70);
    /// let other = BitsMut::settle(&mut other, 9, 9);
    /// assert_eq!(set.as_bits().intersection_count(other.as_bits()), 1);
    /// ```
    #[inline]
    #[must_use]
    pub fn intersection_count(self, other: Bits<'_>) -> usize {
        self.view.intersection_count(other.view, &mut Steps::new())
    }

    /// How many positions of the first set the second lacks.
    ///
    /// Proved: the result, for any two sets ([contract](crate::contracts#fixedbitsetbitsdifference_count)).
    ///
    /// ```
    /// # use fixedbitset::BitsMut;
    /// let (mut words, mut other) = ([9, 1, 0, 0], [3, 0, 0, 0]);
    /// let set = BitsMut::settle(&mut words, 70, 70);
    /// let other = BitsMut::settle(&mut other, 9, 9);
    /// assert_eq!(set.as_bits().difference_count(other.as_bits()), 2);
    /// ```
    #[inline]
    #[must_use]
    pub fn difference_count(self, other: Bits<'_>) -> usize {
        self.view.difference_count(other.view, &mut Steps::new())
    }

    /// How many positions are in exactly one of the sets.
    ///
    /// Proved: the result, for any two sets
    /// ([contract](crate::contracts#fixedbitsetbitssymmetric_difference_count)).
    ///
    /// ```
    /// # use fixedbitset::BitsMut;
    /// let (mut words, mut other) = ([9, 1, 0, 0], [3, 0, 0, 0]);
    /// let set = BitsMut::settle(&mut words, 70, 70);
    /// let other = BitsMut::settle(&mut other, 9, 9);
    /// let count = set.as_bits().symmetric_difference_count(other.as_bits());
    /// assert_eq!(count, 3);
    /// ```
    #[inline]
    #[must_use]
    pub fn symmetric_difference_count(self, other: Bits<'_>) -> usize {
        self.view
            .symmetric_difference_count(other.view, &mut Steps::new())
    }

    /// Whether no position is in both sets.
    ///
    /// Proved: the result, for any two sets ([contract](crate::contracts#fixedbitsetbitsis_disjoint)).
    ///
    /// ```
    /// # use fixedbitset::BitsMut;
    /// let (mut words, mut other) = ([9, 1, 0, 0], [6, 0, 0, 0]);
    /// let set = BitsMut::settle(&mut words, 70, 70);
    /// let other = BitsMut::settle(&mut other, 9, 9);
    /// assert!(set.as_bits().is_disjoint(other.as_bits()));
    /// ```
    #[inline]
    #[must_use]
    pub fn is_disjoint(self, other: Bits<'_>) -> bool {
        self.view.is_disjoint(other.view, &mut Steps::new())
    }

    /// Whether each position of the first set is one of the second.
    ///
    /// Proved: the result, for any two sets ([contract](crate::contracts#fixedbitsetbitsis_subset)).
    ///
    /// ```
    /// # use fixedbitset::BitsMut;
    /// let (mut words, mut other) = ([9, 0, 0, 0], [11, 0, 0, 0]);
    /// let set = BitsMut::settle(&mut words, 70, 70);
    /// let other = BitsMut::settle(&mut other, 9, 9);
    /// assert!(set.as_bits().is_subset(other.as_bits()));
    /// ```
    #[inline]
    #[must_use]
    pub fn is_subset(self, other: Bits<'_>) -> bool {
        self.view.is_subset(other.view, &mut Steps::new())
    }

    /// Whether each position of the second set is one of the first.
    ///
    /// Proved: the result, for any two sets ([contract](crate::contracts#fixedbitsetbitsis_superset)).
    ///
    /// ```
    /// # use fixedbitset::BitsMut;
    /// let (mut words, mut other) = ([11, 0, 0, 0], [9, 0, 0, 0]);
    /// let set = BitsMut::settle(&mut words, 9, 9);
    /// let other = BitsMut::settle(&mut other, 70, 70);
    /// assert!(set.as_bits().is_superset(other.as_bits()));
    /// ```
    #[inline]
    #[must_use]
    pub fn is_superset(self, other: Bits<'_>) -> bool {
        self.view.is_superset(other.view, &mut Steps::new())
    }

    /// The least position of the second set that the first lacks, or `None` where it lacks none.
    ///
    /// It takes exactly the steps up to the lane of the position, or all where there is none.
    ///
    /// Proved: the result, for any two sets ([contract](crate::contracts#fixedbitsetbitsfirst_lacking)).
    ///
    /// ```
    /// # use fixedbitset::BitsMut;
    /// let (mut words, mut other) = ([9, 0, 0, 0], [11, 1, 0, 0]);
    /// let set = BitsMut::settle(&mut words, 9, 9);
    /// let other = BitsMut::settle(&mut other, 70, 70);
    /// let lacking = set.as_bits().first_lacking(other.as_bits());
    /// assert_eq!(lacking, Some(1));
    /// ```
    #[inline]
    #[must_use]
    pub fn first_lacking(self, other: Bits<'_>) -> Option<usize> {
        self.view.first_lacking(other.view, &mut Steps::new())
    }
}
