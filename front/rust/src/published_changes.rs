// Made by front/publish from the sources in crates: change these, and not this.
//! The calls of the views that change a set over borrowed words.
use crate::proved::bitlanes::Steps;
use crate::proved::fixedbitset::views;
use crate::{panics, storage_words, Bits, BitsMut, Block, IndexRange};

impl<'a> BitsMut<'a> {
    /// Leaves the positions that bytes say: position `p` is set where bit `p % 8` of byte `p / 8`
    /// is. Bytes that are missing count as 0, and bits past the length are dropped.
    ///
    /// It looks at each byte at most once, and writes over each word.
    ///
    /// Proved: what it leaves, for all sets ([contract](crate::contracts#fixedbitsetbitsmutassign_bytes)).
    ///
    /// ```
    /// # use fixedbitset::BitsMut;
    /// let mut words = [0; 4];
    /// let mut set = BitsMut::settle(&mut words, 10, 10);
    /// set.assign_bytes(&[76, 255]);
    /// assert_eq!(words, [844, 0, 0, 0]);
    /// ```
    #[inline]
    pub fn assign_bytes(&mut self, source: &[u8]) {
        self.view.assign_bytes(source);
    }

    /// [`union_with`](BitsMut::union_with), which also returns whether a position came in.
    ///
    /// **Panics** where `other` is longer, as this set does not grow.
    ///
    /// Proved: the result and what it leaves, for any two sets, wherever it does not panic
    /// ([contract](crate::contracts#fixedbitsetbitsmutunion_with_change)).
    ///
    /// ```
    /// # use fixedbitset::BitsMut;
    /// let (mut words, mut other) = ([9, 0, 0, 0], [3, 0, 0, 0]);
    /// let mut set = BitsMut::settle(&mut words, 70, 70);
    /// let other = BitsMut::settle(&mut other, 9, 9);
    /// assert!(set.union_with_change(other.as_bits()));
    /// assert!(!set.union_with_change(other.as_bits()));
    /// ```
    #[inline]
    #[track_caller]
    pub fn union_with_change(&mut self, other: Bits<'_>) -> bool {
        self.assert_no_longer(other);
        self.view.union_with_change(other.view, &mut Steps::new())
    }

    /// [`symmetric_difference_with`](BitsMut::symmetric_difference_with), which also returns
    /// whether a position came in or went: whether the second set has one.
    ///
    /// **Panics** where `other` is longer, as this set does not grow.
    ///
    /// Proved: the result and what it leaves, for any two sets, wherever it does not panic
    /// ([contract](crate::contracts#fixedbitsetbitsmutsymmetric_difference_with_change)).
    ///
    /// ```
    /// # use fixedbitset::BitsMut;
    /// let (mut words, mut other) = ([9, 0, 0, 0], [3, 0, 0, 0]);
    /// let mut set = BitsMut::settle(&mut words, 70, 70);
    /// let mut other = BitsMut::settle(&mut other, 9, 9);
    /// assert!(set.symmetric_difference_with_change(other.as_bits()));
    /// other.clear();
    /// assert!(!set.symmetric_difference_with_change(other.as_bits()));
    /// ```
    #[inline]
    #[track_caller]
    pub fn symmetric_difference_with_change(&mut self, other: Bits<'_>) -> bool {
        self.assert_no_longer(other);
        self.view
            .symmetric_difference_with_change(other.view, &mut Steps::new())
    }

    /// [`intersect_with`](BitsMut::intersect_with), which also returns whether a position went.
    ///
    /// Proved: the result and what it leaves, for any two sets
    /// ([contract](crate::contracts#fixedbitsetbitsmutintersect_with_change)).
    ///
    /// ```
    /// # use fixedbitset::BitsMut;
    /// let (mut words, mut other) = ([9, 1, 0, 0], [3, 0, 0, 0]);
    /// let mut set = BitsMut::settle(&mut words, 70, 70);
    /// let other = BitsMut::settle(&mut other, 9, 9);
    /// assert!(set.intersect_with_change(other.as_bits()));
    /// assert!(!set.intersect_with_change(other.as_bits()));
    /// ```
    #[inline]
    pub fn intersect_with_change(&mut self, other: Bits<'_>) -> bool {
        self.view
            .intersect_with_change(other.view, &mut Steps::new())
    }

    /// [`difference_with`](BitsMut::difference_with), which also returns whether a position went.
    ///
    /// Proved: the result and what it leaves, for any two sets
    /// ([contract](crate::contracts#fixedbitsetbitsmutdifference_with_change)).
    ///
    /// ```
    /// # use fixedbitset::BitsMut;
    /// let (mut words, mut other) = ([9, 1, 0, 0], [3, 0, 0, 0]);
    /// let mut set = BitsMut::settle(&mut words, 70, 70);
    /// let other = BitsMut::settle(&mut other, 9, 9);
    /// assert!(set.difference_with_change(other.as_bits()));
    /// assert!(!set.difference_with_change(other.as_bits()));
    /// ```
    #[inline]
    pub fn difference_with_change(&mut self, other: Bits<'_>) -> bool {
        self.view
            .difference_with_change(other.view, &mut Steps::new())
    }

    /// Takes in the positions of the second set that the third lacks, and returns whether one came
    /// in. The second may not be longer than the first.
    ///
    /// **Panics** where `gens` is longer, as this set does not grow.
    ///
    /// Proved: the result and what it leaves, for any three sets, wherever it does not panic
    /// ([contract](crate::contracts#fixedbitsetbitsmutunion_with_difference)).
    ///
    /// ```
    /// # use fixedbitset::BitsMut;
    /// let (mut words, mut gens, mut kills) = ([1, 0, 0, 0], [7, 0, 0, 0], [4, 1, 0, 0]);
    /// let mut set = BitsMut::settle(&mut words, 9, 9);
    /// let (gens, kills) = (BitsMut::settle(&mut gens, 9, 9), BitsMut::settle(&mut kills, 70, 70));
    /// let (gens, kills) = (gens.as_bits(), kills.as_bits());
    /// assert!(set.union_with_difference(gens, kills));
    /// assert!(!set.union_with_difference(gens, kills));
    /// ```
    #[inline]
    #[track_caller]
    pub fn union_with_difference(&mut self, gens: Bits<'_>, kills: Bits<'_>) -> bool {
        self.assert_no_longer(gens);
        self.view
            .union_with_difference(gens.view, kills.view, &mut Steps::new())
    }

    /// Makes this set the union of two others. Its length has to be the greater of theirs; which
    /// positions it had does not matter.
    ///
    /// **Panics** where the length is not that of the result.
    ///
    /// Proved: what it leaves, for any three sets, wherever it does not panic
    /// ([contract](crate::contracts#fixedbitsetbitsmutunion_of)).
    ///
    /// ```
    /// # use fixedbitset::BitsMut;
    /// let (mut to, mut words, mut other) = ([7; 4], [9, 1, 0, 0], [3, 0, 0, 0]);
    /// let set = BitsMut::settle(&mut words, 70, 70);
    /// let other = BitsMut::settle(&mut other, 9, 9);
    /// BitsMut::settle(&mut to, 70, 0).union_of(set.as_bits(), other.as_bits());
    /// assert_eq!(to, [11, 1, 0, 0]);
    /// ```
    #[inline]
    #[track_caller]
    pub fn union_of(&mut self, one: Bits<'_>, other: Bits<'_>) {
        self.assert_length(one.len().max(other.len()));
        self.view.union_of(one.view, other.view);
    }

    /// Makes this set the positions of exactly one of two others. Its length has to be the greater
    /// of theirs.
    ///
    /// **Panics** where the length is not that of the result.
    ///
    /// Proved: what it leaves, for any three sets, wherever it does not panic
    /// ([contract](crate::contracts#fixedbitsetbitsmutsymmetric_difference_of)).
    ///
    /// ```
    /// # use fixedbitset::BitsMut;
    /// let (mut to, mut words, mut other) = ([7; 4], [9, 1, 0, 0], [3, 0, 0, 0]);
    /// let set = BitsMut::settle(&mut words, 70, 70);
    /// let other = BitsMut::settle(&mut other, 9, 9);
    /// BitsMut::settle(&mut to, 70, 0).symmetric_difference_of(set.as_bits(), other.as_bits());
    /// assert_eq!(to, [10, 1, 0, 0]);
    /// ```
    #[inline]
    #[track_caller]
    pub fn symmetric_difference_of(&mut self, one: Bits<'_>, other: Bits<'_>) {
        self.assert_length(one.len().max(other.len()));
        self.view.symmetric_difference_of(one.view, other.view);
    }

    /// Makes this set the positions of both of two others. Its length has to be the lesser
    /// of theirs.
    ///
    /// **Panics** where the length is not that of the result.
    ///
    /// Proved: what it leaves, for any three sets, wherever it does not panic
    /// ([contract](crate::contracts#fixedbitsetbitsmutintersection_of)).
    ///
    /// ```
    /// # use fixedbitset::BitsMut;
    /// let (mut to, mut words, mut other) = ([7; 4], [9, 1, 0, 0], [3, 0, 0, 0]);
    /// let set = BitsMut::settle(&mut words, 70, 70);
    /// let other = BitsMut::settle(&mut other, 9, 9);
    /// BitsMut::settle(&mut to, 9, 0).intersection_of(set.as_bits(), other.as_bits());
    /// assert_eq!(to, [1, 0, 0, 0]);
    /// ```
    #[inline]
    #[track_caller]
    pub fn intersection_of(&mut self, one: Bits<'_>, other: Bits<'_>) {
        self.assert_length(one.len().min(other.len()));
        self.view.intersection_of(one.view, other.view);
    }

    /// Makes this set the positions of the first of two others that the second lacks. Its length
    /// has to be that of the first.
    ///
    /// **Panics** where the length is not that of the result.
    ///
    /// Proved: what it leaves, for any three sets, wherever it does not panic
    /// ([contract](crate::contracts#fixedbitsetbitsmutdifference_of)).
    ///
    /// ```
    /// # use fixedbitset::BitsMut;
    /// let (mut to, mut words, mut other) = ([7; 4], [9, 1, 0, 0], [3, 0, 0, 0]);
    /// let set = BitsMut::settle(&mut words, 70, 70);
    /// let other = BitsMut::settle(&mut other, 9, 9);
    /// BitsMut::settle(&mut to, 70, 0).difference_of(set.as_bits(), other.as_bits());
    /// assert_eq!(to, [8, 1, 0, 0]);
    /// ```
    #[inline]
    #[track_caller]
    pub fn difference_of(&mut self, one: Bits<'_>, other: Bits<'_>) {
        self.assert_length(one.len());
        self.view.difference_of(one.view, other.view);
    }

    /// Makes any words those of a set of `length` positions: of the positions that they have those below
    /// `kept` stay.
    ///
    /// So with `kept` 0 no position is set, with `kept` the length none below it is lost, and with the
    /// length of before the set has grown. There have to be as many words as a set of this length keeps. It
    /// writes the word of `kept` and those after it.
    ///
    /// **Panics** where there are not [`storage_words`](crate::storage_words) of them, and where `kept` is
    /// past the length.
    ///
    /// Proved: the set, for all words and all numbers, wherever it does not panic
    /// ([contract](crate::contracts#fixedbitsetbitsmutsettle)).
    ///
    /// ```
    /// # use fixedbitset::{BitsMut, Block};
    /// let mut words = [8, Block::MAX, 1, 0];
    /// BitsMut::settle(&mut words, 70, 66);
    /// assert_eq!(words, [8, 3, 0, 0]);
    /// ```
    #[inline]
    #[must_use]
    #[track_caller]
    pub fn settle(words: &'a mut [Block], length: usize, kept: usize) -> Self {
        if words.len() != storage_words(length) {
            panics::miscounted(words.len(), length);
        }
        if kept > length {
            panics::past("keep below", kept, length);
        }
        let view = views::BitsMut::settle(words, length, kept);
        BitsMut { view }
    }

    /// [`Bits::over`], to be changed: `None` where the words are not those of a set of `length` positions
    /// as they stand ([`Bits::fits`]). The words then stay as they are.
    ///
    /// Proved: the result, for all words and all numbers
    /// ([contract](crate::contracts#fixedbitsetbitsmutover)).
    ///
    /// ```
    /// # use fixedbitset::BitsMut;
    /// let mut words = [8, 64, 0, 0];
    /// assert!(BitsMut::over(&mut words, 70).is_none());
    /// assert!(BitsMut::over(&mut words, 71).is_some());
    /// ```
    #[inline]
    #[must_use]
    pub fn over(words: &'a mut [Block], length: usize) -> Option<Self> {
        let view = views::BitsMut::over(words, length)?;
        Some(BitsMut { view })
    }

    /// The set to be read.
    ///
    /// Proved: the set, for all sets ([contract](crate::contracts#fixedbitsetbitsmutas_bits)).
    ///
    /// ```
    /// # use fixedbitset::BitsMut;
    /// let mut words = [8, 1, 0, 0];
    /// let set = BitsMut::settle(&mut words, 70, 70);
    /// assert!(set.as_bits().contains(3));
    /// ```
    #[inline]
    #[must_use]
    pub fn as_bits(&self) -> Bits<'_> {
        let view = self.view.as_bits();
        Bits { view }
    }

    /// Sets the position, which has to be below the length.
    ///
    /// **Panics** where it is at or past the length.
    ///
    /// Proved: what it leaves, for all sets, wherever it does not panic
    /// ([contract](crate::contracts#fixedbitsetbitsmutinsert)).
    ///
    /// ```
    /// # use fixedbitset::BitsMut;
    /// let mut words = [8, 0, 0, 0];
    /// let mut set = BitsMut::settle(&mut words, 70, 70);
    /// set.insert(64);
    /// assert_eq!(words, [8, 1, 0, 0]);
    /// ```
    #[inline]
    #[track_caller]
    pub fn insert(&mut self, bit: usize) {
        self.assert_below("insert at", bit);
        self.view.insert(bit);
    }

    /// Clears the position, which has to be below the length.
    ///
    /// **Panics** where it is at or past the length.
    ///
    /// Proved: what it leaves, for all sets, wherever it does not panic
    /// ([contract](crate::contracts#fixedbitsetbitsmutremove)).
    ///
    /// ```
    /// # use fixedbitset::BitsMut;
    /// let mut words = [9, 1, 0, 0];
    /// let mut set = BitsMut::settle(&mut words, 70, 70);
    /// set.remove(64);
    /// assert_eq!(words, [9, 0, 0, 0]);
    /// ```
    #[inline]
    #[track_caller]
    pub fn remove(&mut self, bit: usize) {
        self.assert_below("remove at", bit);
        self.view.remove(bit);
    }

    /// Sets the position if it is clear and clears it if it is set. It has to be below the length.
    ///
    /// **Panics** where it is at or past the length.
    ///
    /// Proved: what it leaves, for all sets, wherever it does not panic
    /// ([contract](crate::contracts#fixedbitsetbitsmuttoggle)).
    ///
    /// ```
    /// # use fixedbitset::BitsMut;
    /// let mut words = [9, 0, 0, 0];
    /// let mut set = BitsMut::settle(&mut words, 70, 70);
    /// set.toggle(0);
    /// assert_eq!(words, [8, 0, 0, 0]);
    /// ```
    #[inline]
    #[track_caller]
    pub fn toggle(&mut self, bit: usize) {
        self.assert_below("toggle at", bit);
        self.view.toggle(bit);
    }

    /// Sets the position, which has to be below the length, and returns whether it was set before.
    ///
    /// **Panics** where it is at or past the length.
    ///
    /// Proved: the result and what it leaves, for all sets, wherever it does not panic
    /// ([contract](crate::contracts#fixedbitsetbitsmutput)).
    ///
    /// ```
    /// # use fixedbitset::BitsMut;
    /// let mut words = [8, 0, 0, 0];
    /// let mut set = BitsMut::settle(&mut words, 70, 70);
    /// assert!(!set.put(0));
    /// assert_eq!(words, [9, 0, 0, 0]);
    /// ```
    #[inline]
    #[track_caller]
    pub fn put(&mut self, bit: usize) -> bool {
        self.assert_below("put at", bit);
        self.view.put(bit)
    }

    /// Clears the position, which has to be below the length, and returns whether it was set
    /// before.
    ///
    /// **Panics** where it is at or past the length.
    ///
    /// Proved: the result and what it leaves, for all sets, wherever it does not panic
    /// ([contract](crate::contracts#fixedbitsetbitsmuttake)).
    ///
    /// ```
    /// # use fixedbitset::BitsMut;
    /// let mut words = [9, 0, 0, 0];
    /// let mut set = BitsMut::settle(&mut words, 70, 70);
    /// assert!(set.take(3));
    /// assert!(!set.take(3));
    /// assert_eq!(words, [1, 0, 0, 0]);
    /// ```
    #[inline]
    #[track_caller]
    pub fn take(&mut self, bit: usize) -> bool {
        self.assert_below("take at", bit);
        self.view.take(bit)
    }

    /// Clears the first position that is set, and returns it. Where none is set, the set stays as
    /// it was and the result is `None`.
    ///
    /// It takes one step for each lane from the first on up to the one that has the position, or
    /// for all of them, and writes one word at most.
    ///
    /// Proved: the result and what it leaves, for all sets
    /// ([contract](crate::contracts#fixedbitsetbitsmutpop_first)).
    ///
    /// ```
    /// # use fixedbitset::BitsMut;
    /// let mut words = [9, 1, 0, 0];
    /// let mut set = BitsMut::settle(&mut words, 70, 70);
    /// assert_eq!(set.pop_first(), Some(0));
    /// assert_eq!(words, [8, 1, 0, 0]);
    /// ```
    #[inline]
    pub fn pop_first(&mut self) -> Option<usize> {
        self.view.pop_first(&mut Steps::new())
    }

    /// Clears the last position that is set, and returns it. Where none is set, the set stays as
    /// it was and the result is `None`.
    ///
    /// It takes one step for each lane from the last on down to the one that has the position, or
    /// for all of them, and writes one word at most.
    ///
    /// Proved: the result and what it leaves, for all sets
    /// ([contract](crate::contracts#fixedbitsetbitsmutpop_last)).
    ///
    /// ```
    /// # use fixedbitset::BitsMut;
    /// let mut words = [9, 1, 0, 0];
    /// let mut set = BitsMut::settle(&mut words, 70, 70);
    /// assert_eq!(set.pop_last(), Some(64));
    /// assert_eq!(words, [9, 0, 0, 0]);
    /// ```
    #[inline]
    pub fn pop_last(&mut self) -> Option<usize> {
        self.view.pop_last(&mut Steps::new())
    }

    /// Sets the position, or clears it where `enabled` is false. It has to be below the length.
    ///
    /// **Panics** where it is at or past the length.
    ///
    /// Proved: what it leaves, for all sets, wherever it does not panic
    /// ([contract](crate::contracts#fixedbitsetbitsmutset)).
    ///
    /// ```
    /// # use fixedbitset::BitsMut;
    /// let mut words = [9, 0, 0, 0];
    /// let mut set = BitsMut::settle(&mut words, 70, 70);
    /// set.set(0, false);
    /// assert_eq!(words, [8, 0, 0, 0]);
    /// ```
    #[inline]
    #[track_caller]
    pub fn set(&mut self, bit: usize, enabled: bool) {
        self.assert_below("set at", bit);
        self.view.set(bit, enabled);
    }

    /// Makes position `to`, which has to be below the length, what position `from` is. Past the
    /// length none is set.
    ///
    /// **Panics** where `to` is at or past the length.
    ///
    /// Proved: what it leaves, for all sets, wherever it does not panic
    /// ([contract](crate::contracts#fixedbitsetbitsmutcopy_bit)).
    ///
    /// ```
    /// # use fixedbitset::BitsMut;
    /// let mut words = [9, 0, 0, 0];
    /// let mut set = BitsMut::settle(&mut words, 70, 70);
    /// set.copy_bit(3, 65);
    /// set.copy_bit(500, 0);
    /// assert_eq!(words, [8, 2, 0, 0]);
    /// ```
    #[inline]
    #[track_caller]
    pub fn copy_bit(&mut self, from: usize, to: usize) {
        self.assert_below("copy to", to);
        self.view.copy_bit(from, to);
    }

    /// Sets each position of the list. All of them have to be below the length. It writes one word
    /// for each item.
    ///
    /// **Panics** where one is at or past the length, with the first that is; then nothing changes.
    ///
    /// Proved: what it leaves, for all sets, wherever it does not panic
    /// ([contract](crate::contracts#fixedbitsetbitsmutinsert_all)).
    ///
    /// ```
    /// # use fixedbitset::BitsMut;
    /// let mut words = [9, 0, 0, 0];
    /// let mut set = BitsMut::settle(&mut words, 70, 70);
    /// set.insert_all(&[64, 2, 64]);
    /// assert_eq!(words, [13, 1, 0, 0]);
    /// ```
    #[inline]
    #[track_caller]
    pub fn insert_all(&mut self, positions: &[usize]) {
        self.assert_all_below("insert at", positions);
        self.view.insert_all(positions);
    }

    /// Clears each position of the list. All of them have to be below the length. It writes one
    /// word for each item.
    ///
    /// **Panics** where one is at or past the length, with the first that is; then nothing changes.
    ///
    /// Proved: what it leaves, for all sets, wherever it does not panic
    /// ([contract](crate::contracts#fixedbitsetbitsmutremove_all)).
    ///
    /// ```
    /// # use fixedbitset::BitsMut;
    /// let mut words = [13, 1, 0, 0];
    /// let mut set = BitsMut::settle(&mut words, 70, 70);
    /// set.remove_all(&[64, 2, 64, 69]);
    /// assert_eq!(words, [9, 0, 0, 0]);
    /// ```
    #[inline]
    #[track_caller]
    pub fn remove_all(&mut self, positions: &[usize]) {
        self.assert_all_below("remove at", positions);
        self.view.remove_all(positions);
    }

    /// Makes word `index` the given one. Bits past the length are dropped. The word has to be one
    /// that the length needs.
    ///
    /// **Panics** where the length needs no word of this index.
    ///
    /// Proved: what it leaves, for all sets, wherever it does not panic
    /// ([contract](crate::contracts#fixedbitsetbitsmutset_block)).
    ///
    /// ```
    /// # use fixedbitset::{BitsMut, Block};
    /// let mut words = [9, 0, 0, 0];
    /// let mut set = BitsMut::settle(&mut words, 70, 70);
    /// set.set_block(1, Block::MAX);
    /// assert_eq!(words, [9, 63, 0, 0]);
    /// ```
    #[inline]
    #[track_caller]
    pub fn set_block(&mut self, index: usize, value: Block) {
        self.assert_needed("set block at", index);
        self.view.set_block(index, value);
    }

    /// Clears all positions. It takes one step for each lane.
    ///
    /// Proved: what it leaves, for all sets ([contract](crate::contracts#fixedbitsetbitsmutclear)).
    ///
    /// ```
    /// # use fixedbitset::BitsMut;
    /// let mut words = [9, 1, 0, 0];
    /// let mut set = BitsMut::settle(&mut words, 70, 70);
    /// set.clear();
    /// assert_eq!(words, [0, 0, 0, 0]);
    /// ```
    #[inline]
    pub fn clear(&mut self) {
        self.view.clear(&mut Steps::new());
    }

    /// Sets the positions of the range.
    ///
    /// **Panics** where the range is not valid.
    ///
    /// Proved: what it leaves, for all sets, wherever it does not panic
    /// ([contract](crate::contracts#fixedbitsetbitsmutinsert_range)).
    ///
    /// ```
    /// # use fixedbitset::BitsMut;
    /// let mut words = [9, 0, 0, 0];
    /// let mut set = BitsMut::settle(&mut words, 70, 70);
    /// set.insert_range(62..66);
    /// assert_eq!(words, [9 | 3 << 62, 3, 0, 0]);
    /// ```
    #[inline]
    #[track_caller]
    pub fn insert_range<T: IndexRange>(&mut self, range: T) {
        let (start, end) = self.as_bits().part(&range);
        self.view.insert_range(start, end, &mut Steps::new());
    }

    /// Clears the positions of the range.
    ///
    /// **Panics** where the range is not valid.
    ///
    /// Proved: what it leaves, for all sets, wherever it does not panic
    /// ([contract](crate::contracts#fixedbitsetbitsmutremove_range)).
    ///
    /// ```
    /// # use fixedbitset::BitsMut;
    /// let mut words = [9, 1, 0, 0];
    /// let mut set = BitsMut::settle(&mut words, 70, 70);
    /// set.remove_range(1..70);
    /// assert_eq!(words, [1, 0, 0, 0]);
    /// ```
    #[inline]
    #[track_caller]
    pub fn remove_range<T: IndexRange>(&mut self, range: T) {
        let (start, end) = self.as_bits().part(&range);
        self.view.remove_range(start, end, &mut Steps::new());
    }

    /// Sets each position of the range that is clear and clears each that is set.
    ///
    /// **Panics** where the range is not valid.
    ///
    /// Proved: what it leaves, for all sets, wherever it does not panic
    /// ([contract](crate::contracts#fixedbitsetbitsmuttoggle_range)).
    ///
    /// ```
    /// # use fixedbitset::BitsMut;
    /// let mut words = [9, 0, 0, 0];
    /// let mut set = BitsMut::settle(&mut words, 70, 70);
    /// set.toggle_range(0..3);
    /// assert_eq!(words, [14, 0, 0, 0]);
    /// ```
    #[inline]
    #[track_caller]
    pub fn toggle_range<T: IndexRange>(&mut self, range: T) {
        let (start, end) = self.as_bits().part(&range);
        self.view.toggle_range(start, end, &mut Steps::new());
    }

    /// Sets the positions of the range, or clears them where `enabled` is false.
    ///
    /// **Panics** where the range is not valid.
    ///
    /// Proved: what it leaves, for all sets, wherever it does not panic
    /// ([contract](crate::contracts#fixedbitsetbitsmutset_range)).
    ///
    /// ```
    /// # use fixedbitset::BitsMut;
    /// let mut words = [9, 1, 0, 0];
    /// let mut set = BitsMut::settle(&mut words, 70, 70);
    /// set.set_range(1..4, true);
    /// assert_eq!(words, [15, 1, 0, 0]);
    /// ```
    #[inline]
    #[track_caller]
    pub fn set_range<T: IndexRange>(&mut self, range: T, enabled: bool) {
        let (start, end) = self.as_bits().part(&range);
        self.view.set_range(start, end, enabled, &mut Steps::new());
    }

    /// Moves each position up by `by`. Those that are not below the length then fall away.
    ///
    /// Proved: what it leaves, for all sets and all numbers
    /// ([contract](crate::contracts#fixedbitsetbitsmutshift_up)).
    ///
    /// ```
    /// # use fixedbitset::BitsMut;
    /// let mut words = [9, 0, 0, 0];
    /// let mut set = BitsMut::settle(&mut words, 70, 70);
    /// set.shift_up(64);
    /// set.shift_up(3);
    /// assert_eq!(words, [0, 8, 0, 0]);
    /// ```
    #[inline]
    pub fn shift_up(&mut self, by: usize) {
        self.view.shift_up(by, &mut Steps::new());
    }

    /// Moves each position down by `by`. Those below `by` fall away.
    ///
    /// Proved: what it leaves, for all sets and all numbers
    /// ([contract](crate::contracts#fixedbitsetbitsmutshift_down)).
    ///
    /// ```
    /// # use fixedbitset::BitsMut;
    /// let mut words = [9, 8, 0, 0];
    /// let mut set = BitsMut::settle(&mut words, 70, 70);
    /// set.shift_down(3);
    /// assert_eq!(words, [1, 1, 0, 0]);
    /// ```
    #[inline]
    pub fn shift_down(&mut self, by: usize) {
        self.view.shift_down(by, &mut Steps::new());
    }

    /// Takes in each position of the second set moved up by `by`, as far as it is
    /// below the length then.
    ///
    /// Proved: what it leaves, for any two sets and all numbers
    /// ([contract](crate::contracts#fixedbitsetbitsmutunion_with_shifted)).
    ///
    /// ```
    /// # use fixedbitset::BitsMut;
    /// let (mut words, mut other) = ([9, 0, 0, 0], [7, 0, 0, 0]);
    /// let mut set = BitsMut::settle(&mut words, 70, 70);
    /// let other = BitsMut::settle(&mut other, 9, 9);
    /// set.union_with_shifted(other.as_bits(), 68);
    /// assert_eq!(words, [9, 48, 0, 0]);
    /// ```
    #[inline]
    pub fn union_with_shifted(&mut self, other: Bits<'_>, by: usize) {
        self.view
            .union_with_shifted(other.view, by, &mut Steps::new());
    }

    /// Takes in each position of the set itself moved up by `by`, as far as it is
    /// below the length then.
    ///
    /// So where the set has the sums of some numbers, it then has those of these numbers and `by`.
    ///
    /// Proved: what it leaves, for all sets and all numbers
    /// ([contract](crate::contracts#fixedbitsetbitsmutunion_with_own_shift)).
    ///
    /// ```
    /// # use fixedbitset::BitsMut;
    /// let mut words = [1, 0, 0, 0];
    /// let mut set = BitsMut::settle(&mut words, 70, 70);
    /// set.union_with_own_shift(3);
    /// set.union_with_own_shift(65);
    /// assert_eq!(words, [9, 18, 0, 0]);
    /// ```
    #[inline]
    pub fn union_with_own_shift(&mut self, by: usize) {
        self.view.union_with_own_shift(by, &mut Steps::new());
    }

    /// Writes the positions of the other set from `start` up to and without `end` over those of the
    /// set from `at` on. All others stay.
    ///
    /// The range may not begin after its end, nor end past the other length. From `at` on it has to
    /// end within the length. It takes exactly one step for each lane of the words that it writes
    /// whole, the last of which may have fewer, and one for each other word that it writes.
    ///
    /// `start` and `end` are the ends of `range`.
    ///
    /// **Panics** where the range is not valid in `other`, and where from `at` on it does not end within
    /// this set.
    ///
    /// Proved: what it leaves, for any two sets, wherever it does not panic
    /// ([contract](crate::contracts#fixedbitsetbitsmutcopy_range)).
    ///
    /// ```
    /// # use fixedbitset::BitsMut;
    /// let (mut words, mut other) = ([5, 34, 0, 0], [2 | 1 << 63, 2, 0, 0]);
    /// let mut set = BitsMut::settle(&mut words, 70, 70);
    /// let other = BitsMut::settle(&mut other, 66, 66);
    /// set.copy_range(other.as_bits(), 62..66, 1);
    /// assert_eq!(words, [21, 34, 0, 0]);
    /// ```
    #[inline]
    #[track_caller]
    pub fn copy_range<T: IndexRange>(&mut self, other: Bits<'_>, range: T, at: usize) {
        let (start, end) = other.part(&range);
        self.assert_room(at, end - start);
        self.view
            .copy_range(other.view, start, end, at, &mut Steps::new());
    }

    /// Makes the `width` positions from `start` on the lowest bits of the number: position
    /// `start + i` becomes its bit `i`. All others stay.
    ///
    /// The width may be 64 at most, and the positions have to be below the length. It writes one
    /// word, or two.
    ///
    /// **Panics** where the width is over 64, and where the positions are not all below the length.
    ///
    /// Proved: what it leaves, for all sets, wherever it does not panic
    /// ([contract](crate::contracts#fixedbitsetbitsmutstore)).
    ///
    /// ```
    /// # use fixedbitset::BitsMut;
    /// let mut words = [9 | 1 << 63, 2, 0, 0];
    /// let mut set = BitsMut::settle(&mut words, 70, 70);
    /// set.store(62, 4, 5);
    /// assert_eq!(words, [9 | 1 << 62, 1, 0, 0]);
    /// ```
    #[inline]
    #[track_caller]
    pub fn store(&mut self, start: usize, width: usize, number: u64) {
        self.as_bits().assert_part(start, width);
        self.view.store(start, width, number as Block);
    }

    /// Leaves the positions of either set. The second may not be longer.
    ///
    /// **Panics** where `other` is longer, as this set does not grow.
    ///
    /// Proved: what it leaves, for any two sets, wherever it does not panic
    /// ([contract](crate::contracts#fixedbitsetbitsmutunion_with)).
    ///
    /// ```
    /// # use fixedbitset::BitsMut;
    /// let (mut words, mut other) = ([9, 0, 0, 0], [3, 0, 0, 0]);
    /// let mut set = BitsMut::settle(&mut words, 70, 70);
    /// let other = BitsMut::settle(&mut other, 9, 9);
    /// set.union_with(other.as_bits());
    /// assert_eq!(words, [11, 0, 0, 0]);
    /// ```
    #[inline]
    #[track_caller]
    pub fn union_with(&mut self, other: Bits<'_>) {
        self.assert_no_longer(other);
        self.view.union_with(other.view, &mut Steps::new());
    }

    /// Leaves the positions of exactly one of the sets. The second may not be longer.
    ///
    /// **Panics** where `other` is longer, as this set does not grow.
    ///
    /// Proved: what it leaves, for any two sets, wherever it does not panic
    /// ([contract](crate::contracts#fixedbitsetbitsmutsymmetric_difference_with)).
    ///
    /// ```
    /// # use fixedbitset::BitsMut;
    /// let (mut words, mut other) = ([9, 0, 0, 0], [3, 0, 0, 0]);
    /// let mut set = BitsMut::settle(&mut words, 70, 70);
    /// let other = BitsMut::settle(&mut other, 9, 9);
    /// set.symmetric_difference_with(other.as_bits());
    /// assert_eq!(words, [10, 0, 0, 0]);
    /// ```
    #[inline]
    #[track_caller]
    pub fn symmetric_difference_with(&mut self, other: Bits<'_>) {
        self.assert_no_longer(other);
        self.view
            .symmetric_difference_with(other.view, &mut Steps::new());
    }

    /// Leaves the positions of both sets, and the length.
    ///
    /// Proved: what it leaves, for any two sets
    /// ([contract](crate::contracts#fixedbitsetbitsmutintersect_with)).
    ///
    /// ```
    /// # use fixedbitset::BitsMut;
    /// let (mut words, mut other) = ([9, 1, 0, 0], [3, 0, 0, 0]);
    /// let mut set = BitsMut::settle(&mut words, 70, 70);
    /// let other = BitsMut::settle(&mut other, 9, 9);
    /// set.intersect_with(other.as_bits());
    /// assert_eq!(words, [1, 0, 0, 0]);
    /// ```
    #[inline]
    pub fn intersect_with(&mut self, other: Bits<'_>) {
        self.view.intersect_with(other.view, &mut Steps::new());
    }

    /// Leaves the positions of the first set that the second lacks, and the length.
    ///
    /// Proved: what it leaves, for any two sets
    /// ([contract](crate::contracts#fixedbitsetbitsmutdifference_with)).
    ///
    /// ```
    /// # use fixedbitset::BitsMut;
    /// let (mut words, mut other) = ([9, 1, 0, 0], [3, 0, 0, 0]);
    /// let mut set = BitsMut::settle(&mut words, 70, 70);
    /// let other = BitsMut::settle(&mut other, 9, 9);
    /// set.difference_with(other.as_bits());
    /// assert_eq!(words, [8, 1, 0, 0]);
    /// ```
    #[inline]
    pub fn difference_with(&mut self, other: Bits<'_>) {
        self.view.difference_with(other.view, &mut Steps::new());
    }
}
