// Made by front/publish from the sources in crates: change these, and not this.
//! The calls of a set, by those of views and by its own.
use crate::memory::OrAbort;
use crate::proved::bitlanes::Steps;
use crate::proved::fixedbitset::set;
use crate::shim::alloc::Global;
use crate::{
    AllocError, Bits, Block, Difference, ExtendFault, FixedBitSet, IndexRange, Intersection, IntoOnes, Ones, Runs,
    SymmetricDifference, Union, Zeroes,
};
use alloc::vec::Vec;

impl FixedBitSet {
    /// A set of `bits` positions, none of them set.
    ///
    /// If an allocation fails, the program ends; [`try_with_capacity`](Self::try_with_capacity) returns an
    /// error instead.
    ///
    /// Proved: the set, for all numbers ([contract](crate::contracts#fixedbitsetfixedbitsetwith_capacity)).
    ///
    /// ```
    /// # use fixedbitset::FixedBitSet;
    /// let set = FixedBitSet::with_capacity(70);
    /// assert_eq!(set.len(), 70);
    /// assert_eq!(set.as_slice(), [0, 0].as_slice());
    /// ```
    #[inline]
    #[must_use]
    pub fn with_capacity(bits: usize) -> Self {
        let set = set::FixedBitSet::with_capacity(Global::Abort, bits).or_abort();
        FixedBitSet { set }
    }

    /// [`with_capacity`](Self::with_capacity), which returns an error if an allocation fails.
    ///
    /// Proved: the set, for all numbers ([contract](crate::contracts#fixedbitsetfixedbitsetwith_capacity)).
    ///
    /// ```
    /// # use fixedbitset::FixedBitSet;
    /// let set = FixedBitSet::try_with_capacity(70)?;
    /// assert_eq!(set.len(), 70);
    /// assert_eq!(set.as_slice(), [0, 0].as_slice());
    /// # Ok::<(), fixedbitset::AllocError>(())
    /// ```
    #[inline]
    pub fn try_with_capacity(bits: usize) -> Result<Self, AllocError> {
        let set = set::FixedBitSet::with_capacity(Global::Try, bits)?;
        Ok(FixedBitSet { set })
    }

    /// A set of `bits` positions, whose words are the first items of `blocks`. Words that no item comes for
    /// are 0.
    ///
    /// It takes no more items than there are words, which are `bits / 64`, rounded up. So `blocks` need not
    /// end. Bits past the length are cleared; upstream keeps those of its last word.
    ///
    /// If an allocation fails, the program ends;
    /// [`try_with_capacity_and_blocks`](Self::try_with_capacity_and_blocks) returns an error instead.
    ///
    /// Proved: the set, for all numbers
    /// ([contract](crate::contracts#fixedbitsetfixedbitsetwith_capacity_and_blocks)).
    ///
    /// ```
    /// # use fixedbitset::FixedBitSet;
    /// let set = FixedBitSet::with_capacity_and_blocks(67, [1, 255]);
    /// assert_eq!(set.as_slice(), [1, 7].as_slice());
    /// assert!(set.contains(66) && !set.contains(67));
    /// ```
    #[inline]
    #[must_use]
    pub fn with_capacity_and_blocks<I: IntoIterator<Item = Block>>(bits: usize, blocks: I) -> Self {
        let set = set::FixedBitSet::with_capacity_and_blocks(Global::Abort, bits, blocks).or_abort();
        FixedBitSet { set }
    }

    /// [`with_capacity_and_blocks`](Self::with_capacity_and_blocks), which returns an error if an
    /// allocation fails.
    ///
    /// Proved: the set, for all numbers
    /// ([contract](crate::contracts#fixedbitsetfixedbitsetwith_capacity_and_blocks)).
    ///
    /// ```
    /// # use fixedbitset::FixedBitSet;
    /// let set = FixedBitSet::try_with_capacity_and_blocks(67, [1, 255])?;
    /// assert_eq!(set.as_slice(), [1, 7].as_slice());
    /// assert!(set.contains(66) && !set.contains(67));
    /// # Ok::<(), fixedbitset::AllocError>(())
    /// ```
    #[inline]
    pub fn try_with_capacity_and_blocks<I: IntoIterator<Item = Block>>(
        bits: usize,
        blocks: I,
    ) -> Result<Self, AllocError> {
        let set = set::FixedBitSet::with_capacity_and_blocks(Global::Try, bits, blocks)?;
        Ok(FixedBitSet { set })
    }

    /// Makes the length the greater of itself and `bits`. The new positions are not set; a set never
    /// shrinks.
    ///
    /// A call that needs no more words cannot fail. It writes the new words alone, and where the allocation
    /// has to move also the old ones.
    ///
    /// If an allocation fails, the program ends; [`try_grow`](Self::try_grow) returns an error instead.
    ///
    /// Proved: what it leaves, for all sets and all numbers
    /// ([contract](crate::contracts#fixedbitsetfixedbitsetgrow)).
    ///
    /// ```
    /// # use fixedbitset::FixedBitSet;
    /// let mut set = FixedBitSet::with_capacity_and_blocks(2, [3]);
    /// set.grow(70);
    /// set.grow(9);
    /// assert_eq!(set.len(), 70);
    /// assert_eq!(set.as_slice(), [3, 0].as_slice());
    /// ```
    #[inline]
    pub fn grow(&mut self, bits: usize) {
        self.set.grow(bits).or_abort();
    }

    /// [`grow`](Self::grow), which returns an error if an allocation fails. The set is then as it was.
    ///
    /// Proved: what it leaves, also where an allocation fails, for all sets and all numbers
    /// ([contract](crate::contracts#fixedbitsetfixedbitsetgrow)).
    ///
    /// ```
    /// # use fixedbitset::FixedBitSet;
    /// let mut set = FixedBitSet::with_capacity_and_blocks(2, [3]);
    /// set.try_grow(70)?;
    /// set.try_grow(9)?;
    /// assert_eq!(set.len(), 70);
    /// assert_eq!(set.as_slice(), [3, 0].as_slice());
    /// # Ok::<(), fixedbitset::AllocError>(())
    /// ```
    #[inline]
    pub fn try_grow(&mut self, bits: usize) -> Result<(), AllocError> {
        self.set.grow(bits)
    }

    /// [`clone_from`](Self::clone_from), which returns an error if an allocation fails. The set is then as
    /// it was.
    ///
    /// Proved: what it leaves, also where an allocation fails, for any two sets
    /// ([contract](crate::contracts#fixedbitsetfixedbitsetclone_from)).
    ///
    /// ```
    /// # use fixedbitset::FixedBitSet;
    /// let source = FixedBitSet::with_capacity_and_blocks(3, [5]);
    /// let mut set = FixedBitSet::with_capacity_and_blocks(70, [8, 1]);
    /// set.try_clone_from(&source)?;
    /// assert_eq!(set.len(), 3);
    /// assert_eq!(set.as_slice(), [5].as_slice());
    /// # Ok::<(), fixedbitset::AllocError>(())
    /// ```
    #[inline]
    pub fn try_clone_from(&mut self, source: &FixedBitSet) -> Result<(), AllocError> {
        self.set.clone_from(&source.set)
    }

    /// A set of the length and the positions of a view, in an allocation of its own. It writes each word
    /// once.
    ///
    /// Upstream has no such call.
    ///
    /// If an allocation fails, the program ends; [`try_from_bits`](Self::try_from_bits) returns an error
    /// instead.
    ///
    /// Proved: the set, for all views ([contract](crate::contracts#fixedbitsetfixedbitsetfrom_bits)).
    ///
    /// ```
    /// # use fixedbitset::{BitsMut, FixedBitSet};
    /// let mut words = [9, 2, 0, 0];
    /// let lent = BitsMut::settle(&mut words, 70, 70);
    /// let set = FixedBitSet::from_bits(lent.as_bits());
    /// assert_eq!(set.as_slice(), [9, 2].as_slice());
    /// ```
    #[inline]
    #[must_use]
    pub fn from_bits(bits: Bits<'_>) -> Self {
        let set = set::FixedBitSet::from_bits(Global::Abort, bits.view).or_abort();
        FixedBitSet { set }
    }

    /// [`from_bits`](Self::from_bits), which returns an error if an allocation fails.
    ///
    /// Proved: the set, for all views ([contract](crate::contracts#fixedbitsetfixedbitsetfrom_bits)).
    ///
    /// ```
    /// # use fixedbitset::{BitsMut, FixedBitSet};
    /// let mut words = [9, 2, 0, 0];
    /// let lent = BitsMut::settle(&mut words, 70, 70);
    /// let set = FixedBitSet::try_from_bits(lent.as_bits())?;
    /// assert_eq!(set.as_slice(), [9, 2].as_slice());
    /// # Ok::<(), fixedbitset::AllocError>(())
    /// ```
    #[inline]
    pub fn try_from_bits(bits: Bits<'_>) -> Result<Self, AllocError> {
        let set = set::FixedBitSet::from_bits(Global::Try, bits.view)?;
        Ok(FixedBitSet { set })
    }

    /// The set as a view, to be read: no word is copied.
    ///
    /// Upstream has no such call.
    ///
    /// Proved: the set, for all sets ([contract](crate::contracts#fixedbitsetfixedbitsetas_bits)).
    ///
    /// ```
    /// # use fixedbitset::FixedBitSet;
    /// let set = FixedBitSet::from_iter([3, 64]);
    /// assert!(set.as_bits().contains(64));
    /// ```
    #[inline]
    #[must_use]
    pub fn as_bits(&self) -> Bits<'_> {
        let view = self.set.as_bits();
        Bits { view }
    }

    /// Makes word `index` the given one. Bits past the length are dropped. The word has to be one
    /// that the length needs.
    ///
    /// **Panics** where the length needs no word of this index.
    ///
    /// Proved: what it leaves, for all sets, wherever it does not panic
    /// ([contract](crate::contracts#fixedbitsetbitsmutset_block)).
    ///
    /// ```
    /// # use fixedbitset::{Block, FixedBitSet};
    /// let mut set = FixedBitSet::with_capacity(70);
    /// assert_eq!(set.as_slice().len(), 2);
    /// set.set_block(1, Block::MAX);
    /// assert_eq!(set.as_slice(), [0, 63].as_slice());
    /// ```
    #[inline]
    #[track_caller]
    pub fn set_block(&mut self, index: usize, value: Block) {
        self.as_bits_mut().set_block(index, value);
    }

    /// Clears all positions. It takes one step for each lane.
    ///
    /// Proved: what it leaves, for all sets ([contract](crate::contracts#fixedbitsetbitsmutclear)).
    ///
    /// ```
    /// # use fixedbitset::FixedBitSet;
    /// let mut set = FixedBitSet::with_capacity_and_blocks(70, [8, 1]);
    /// set.clear();
    /// assert_eq!(set.len(), 70);
    /// assert_eq!(set.as_slice(), [0, 0].as_slice());
    /// ```
    #[inline]
    pub fn clear(&mut self) {
        self.as_bits_mut().clear();
    }

    /// The length in bits: set positions and others.
    ///
    /// Proved: the result, for all sets ([contract](crate::contracts#fixedbitsetfixedbitsetlen)).
    ///
    /// ```
    /// # use fixedbitset::FixedBitSet;
    /// let set = FixedBitSet::from_iter([3, 70]);
    /// assert_eq!(set.len(), 71);
    /// assert_eq!(set.count_ones(..), 2);
    /// ```
    #[inline]
    #[must_use]
    pub fn len(&self) -> usize {
        self.set.len()
    }

    /// The words that the length needs, without those after them that make up a whole lane: those
    /// that [`as_slice`](crate::FixedBitSet::as_slice) returns. The iterators go over these.
    ///
    /// Proved: the words, for all sets ([contract](crate::contracts#fixedbitsetbitsas_slice)).
    ///
    /// ```
    /// # use fixedbitset::FixedBitSet;
    /// let set = FixedBitSet::from_iter([63, 64, 65]);
    /// assert_eq!(set.as_slice(), [1 << 63, 3].as_slice());
    /// ```
    #[inline]
    #[must_use]
    pub fn as_slice(&self) -> &[Block] {
        self.as_bits().as_slice()
    }

    /// Whether the position is set: `false` at or past the length.
    ///
    /// Proved: the result, for all sets and all numbers
    /// ([contract](crate::contracts#fixedbitsetbitscontains)).
    ///
    /// ```
    /// # use fixedbitset::FixedBitSet;
    /// let set = FixedBitSet::from_iter([3, 64]);
    /// assert!(set.contains(64));
    /// assert!(!set.contains(63));
    /// assert!(!set.contains(usize::MAX));
    /// ```
    #[inline]
    #[must_use]
    pub fn contains(&self, bit: usize) -> bool {
        self.as_bits().contains(bit)
    }

    /// Writes for each position of the list whether it is set: `false` at or past the length. There
    /// have to be as many results as positions. It looks at one word at most for each item.
    ///
    /// **Panics** where there are not as many results as positions.
    ///
    /// Proved: , for all sets, wherever it does not panic
    /// ([contract](crate::contracts#fixedbitsetbitscontains_each)).
    ///
    /// ```
    /// # use fixedbitset::FixedBitSet;
    /// let set = FixedBitSet::from_iter([3, 64]);
    /// let mut answers = [false; 3];
    /// set.contains_each(&[64, 63, 500], &mut answers);
    /// assert_eq!(answers, [true, false, false]);
    /// ```
    #[inline]
    #[track_caller]
    pub fn contains_each(&self, positions: &[usize], answers: &mut [bool]) {
        self.as_bits().contains_each(positions, answers);
    }

    /// Sets the position, which has to be below the length.
    ///
    /// **Panics** where it is at or past the length.
    ///
    /// Proved: what it leaves, for all sets, wherever it does not panic
    /// ([contract](crate::contracts#fixedbitsetbitsmutinsert)).
    ///
    /// ```
    /// # use fixedbitset::FixedBitSet;
    /// let mut set = FixedBitSet::with_capacity(70);
    /// set.insert(64);
    /// assert!(set.contains(64));
    /// assert_eq!(set.as_slice(), [0, 1].as_slice());
    /// ```
    #[inline]
    #[track_caller]
    pub fn insert(&mut self, bit: usize) {
        self.as_bits_mut().insert(bit);
    }

    /// Clears the position, which has to be below the length.
    ///
    /// **Panics** where it is at or past the length.
    ///
    /// Proved: what it leaves, for all sets, wherever it does not panic
    /// ([contract](crate::contracts#fixedbitsetbitsmutremove)).
    ///
    /// ```
    /// # use fixedbitset::FixedBitSet;
    /// let mut set = FixedBitSet::with_capacity(70);
    /// set.insert_range(..);
    /// set.remove(64);
    /// assert!(!set.contains(64));
    /// assert_eq!(set.count_ones(..), 69);
    /// ```
    #[inline]
    #[track_caller]
    pub fn remove(&mut self, bit: usize) {
        self.as_bits_mut().remove(bit);
    }

    /// Sets the position, which has to be below the length, and returns whether it was set before.
    ///
    /// **Panics** where it is at or past the length.
    ///
    /// Proved: the result and what it leaves, for all sets, wherever it does not panic
    /// ([contract](crate::contracts#fixedbitsetbitsmutput)).
    ///
    /// ```
    /// # use fixedbitset::FixedBitSet;
    /// let mut set = FixedBitSet::with_capacity(70);
    /// assert!(!set.put(64));
    /// assert!(set.put(64));
    /// assert_eq!(set.count_ones(..), 1);
    /// ```
    #[inline]
    #[track_caller]
    pub fn put(&mut self, bit: usize) -> bool {
        self.as_bits_mut().put(bit)
    }

    /// Clears the position, which has to be below the length, and returns whether it was set
    /// before.
    ///
    /// **Panics** where it is at or past the length.
    ///
    /// Proved: the result and what it leaves, for all sets, wherever it does not panic
    /// ([contract](crate::contracts#fixedbitsetbitsmuttake)).
    ///
    /// ```
    /// # use fixedbitset::FixedBitSet;
    /// let mut set = FixedBitSet::from_iter([3, 64]);
    /// assert_eq!(set.len(), 65);
    /// assert!(set.take(64) && set.count_ones(..) == 1);
    /// assert!(!set.take(64));
    /// ```
    #[inline]
    #[track_caller]
    pub fn take(&mut self, bit: usize) -> bool {
        self.as_bits_mut().take(bit)
    }

    /// Sets each position of the list. All of them have to be below the length. It writes one word
    /// for each item.
    ///
    /// **Panics** where one is at or past the length, with the first that is; then nothing changes.
    ///
    /// Proved: what it leaves, for all sets, wherever it does not panic
    /// ([contract](crate::contracts#fixedbitsetbitsmutinsert_all)).
    ///
    /// ```
    /// # use fixedbitset::FixedBitSet;
    /// let mut set = FixedBitSet::with_capacity(70);
    /// set.insert_all(&[64, 3, 64]);
    /// assert_eq!(set.as_slice(), [8, 1].as_slice());
    /// ```
    #[inline]
    #[track_caller]
    pub fn insert_all(&mut self, positions: &[usize]) {
        self.as_bits_mut().insert_all(positions);
    }

    /// Clears each position of the list. All of them have to be below the length. It writes one
    /// word for each item.
    ///
    /// **Panics** where one is at or past the length, with the first that is; then nothing changes.
    ///
    /// Proved: what it leaves, for all sets, wherever it does not panic
    /// ([contract](crate::contracts#fixedbitsetbitsmutremove_all)).
    ///
    /// ```
    /// # use fixedbitset::FixedBitSet;
    /// let mut set = FixedBitSet::from_iter([3, 64, 69]);
    /// assert_eq!(set.len(), 70);
    /// set.remove_all(&[69, 3, 69]);
    /// assert_eq!(set.as_slice(), [0, 1].as_slice());
    /// ```
    #[inline]
    #[track_caller]
    pub fn remove_all(&mut self, positions: &[usize]) {
        self.as_bits_mut().remove_all(positions);
    }

    /// Sets the position if it is clear and clears it if it is set. It has to be below the length.
    ///
    /// **Panics** where it is at or past the length.
    ///
    /// Proved: what it leaves, for all sets, wherever it does not panic
    /// ([contract](crate::contracts#fixedbitsetbitsmuttoggle)).
    ///
    /// ```
    /// # use fixedbitset::FixedBitSet;
    /// let mut set = FixedBitSet::with_capacity(70);
    /// set.insert(1);
    /// set.toggle(1);
    /// set.toggle(64);
    /// assert_eq!(set.as_slice(), [0, 1].as_slice());
    /// ```
    #[inline]
    #[track_caller]
    pub fn toggle(&mut self, bit: usize) {
        self.as_bits_mut().toggle(bit);
    }

    /// Sets the position, or clears it where `enabled` is false. It has to be below the length.
    ///
    /// **Panics** where it is at or past the length.
    ///
    /// Proved: what it leaves, for all sets, wherever it does not panic
    /// ([contract](crate::contracts#fixedbitsetbitsmutset)).
    ///
    /// ```
    /// # use fixedbitset::FixedBitSet;
    /// let mut set = FixedBitSet::with_capacity(70);
    /// set.set(63, true);
    /// set.set(64, true);
    /// set.set(63, false);
    /// assert_eq!(set.as_slice(), [0, 1].as_slice());
    /// ```
    #[inline]
    #[track_caller]
    pub fn set(&mut self, bit: usize, enabled: bool) {
        self.as_bits_mut().set(bit, enabled);
    }

    /// Makes position `to`, which has to be below the length, what position `from` is. Past the
    /// length none is set.
    ///
    /// **Panics** where `to` is at or past the length.
    ///
    /// Proved: what it leaves, for all sets, wherever it does not panic
    /// ([contract](crate::contracts#fixedbitsetbitsmutcopy_bit)).
    ///
    /// ```
    /// # use fixedbitset::FixedBitSet;
    /// let mut set = FixedBitSet::with_capacity(70);
    /// set.insert(1);
    /// set.copy_bit(1, 64);
    /// set.copy_bit(usize::MAX, 1);
    /// assert_eq!(set.as_slice(), [0, 1].as_slice());
    /// ```
    #[inline]
    #[track_caller]
    pub fn copy_bit(&mut self, from: usize, to: usize) {
        self.as_bits_mut().copy_bit(from, to);
    }

    /// How many positions of the range are set.
    ///
    /// **Panics** where the range is not valid.
    ///
    /// Proved: the result, for all sets, wherever it does not panic
    /// ([contract](crate::contracts#fixedbitsetbitscount_ones)).
    ///
    /// ```
    /// # use fixedbitset::FixedBitSet;
    /// let mut set = FixedBitSet::with_capacity(200);
    /// set.insert_range(60..130);
    /// assert_eq!(set.count_ones(..), 70);
    /// assert_eq!(set.count_ones(63..=64), 2);
    /// assert_eq!(set.count_ones(9..9), 0);
    /// ```
    #[inline]
    #[must_use]
    #[track_caller]
    pub fn count_ones<T: IndexRange>(&self, range: T) -> usize {
        self.as_bits().count_ones(range)
    }

    /// How many positions of the range are not set.
    ///
    /// **Panics** where the range is not valid.
    ///
    /// Proved: the result, for all sets, wherever it does not panic
    /// ([contract](crate::contracts#fixedbitsetbitscount_zeroes)).
    ///
    /// ```
    /// # use fixedbitset::FixedBitSet;
    /// let mut set = FixedBitSet::with_capacity(70);
    /// set.insert(64);
    /// assert_eq!(set.count_zeroes(..), 69);
    /// assert_eq!(set.count_zeroes(63..66), 2);
    /// ```
    #[inline]
    #[must_use]
    #[track_caller]
    pub fn count_zeroes<T: IndexRange>(&self, range: T) -> usize {
        self.as_bits().count_zeroes(range)
    }

    /// Sets the positions of the range, or clears them where `enabled` is false.
    ///
    /// **Panics** where the range is not valid.
    ///
    /// Proved: what it leaves, for all sets, wherever it does not panic
    /// ([contract](crate::contracts#fixedbitsetbitsmutset_range)).
    ///
    /// ```
    /// # use fixedbitset::FixedBitSet;
    /// let mut set = FixedBitSet::with_capacity(70);
    /// set.set_range(60.., true);
    /// set.set_range(62..=66, false);
    /// assert_eq!(set.as_slice(), [3 << 60, 56].as_slice());
    /// ```
    #[inline]
    #[track_caller]
    pub fn set_range<T: IndexRange>(&mut self, range: T, enabled: bool) {
        let (start, end) = self.as_bits().part(&range);
        self
            .as_bits_mut().view.set_range(start, end, enabled, &mut Steps::new());
    }

    /// Sets the positions of the range.
    ///
    /// **Panics** where the range is not valid.
    ///
    /// Proved: what it leaves, for all sets, wherever it does not panic
    /// ([contract](crate::contracts#fixedbitsetbitsmutinsert_range)).
    ///
    /// ```
    /// # use fixedbitset::FixedBitSet;
    /// let mut set = FixedBitSet::with_capacity(70);
    /// set.insert_range(63..66);
    /// assert_eq!(set.as_slice(), [1 << 63, 3].as_slice());
    /// ```
    #[inline]
    #[track_caller]
    pub fn insert_range<T: IndexRange>(&mut self, range: T) {
        let (start, end) = self.as_bits().part(&range);
        self
            .as_bits_mut().view.insert_range(start, end, &mut Steps::new());
    }

    /// Clears the positions of the range.
    ///
    /// **Panics** where the range is not valid.
    ///
    /// Proved: what it leaves, for all sets, wherever it does not panic
    /// ([contract](crate::contracts#fixedbitsetbitsmutremove_range)).
    ///
    /// ```
    /// # use fixedbitset::FixedBitSet;
    /// let mut set = FixedBitSet::with_capacity(70);
    /// set.insert_range(..);
    /// set.remove_range(1..=64);
    /// assert_eq!(set.as_slice(), [1, 62].as_slice());
    /// ```
    #[inline]
    #[track_caller]
    pub fn remove_range<T: IndexRange>(&mut self, range: T) {
        let (start, end) = self.as_bits().part(&range);
        self
            .as_bits_mut().view.remove_range(start, end, &mut Steps::new());
    }

    /// Sets each position of the range that is clear and clears each that is set.
    ///
    /// **Panics** where the range is not valid.
    ///
    /// Proved: what it leaves, for all sets, wherever it does not panic
    /// ([contract](crate::contracts#fixedbitsetbitsmuttoggle_range)).
    ///
    /// ```
    /// # use fixedbitset::FixedBitSet;
    /// let mut set = FixedBitSet::with_capacity(70);
    /// set.insert_range(60..66);
    /// set.toggle_range(62..);
    /// assert_eq!(set.as_slice(), [3 << 60, 60].as_slice());
    /// ```
    #[inline]
    #[track_caller]
    pub fn toggle_range<T: IndexRange>(&mut self, range: T) {
        let (start, end) = self.as_bits().part(&range);
        self
            .as_bits_mut().view.toggle_range(start, end, &mut Steps::new());
    }

    /// Whether each position of the range is set.
    ///
    /// **Panics** where the range is not valid.
    ///
    /// Proved: the result, for all sets, wherever it does not panic
    /// ([contract](crate::contracts#fixedbitsetbitscontains_all_in_range)).
    ///
    /// ```
    /// # use fixedbitset::FixedBitSet;
    /// let mut set = FixedBitSet::with_capacity(200);
    /// set.insert_range(60..130);
    /// assert!(set.contains_all_in_range(60..=129));
    /// assert!(!set.contains_all_in_range(60..=130));
    /// assert!(set.contains_all_in_range(9..9));
    /// ```
    #[inline]
    #[must_use]
    #[track_caller]
    pub fn contains_all_in_range<T: IndexRange>(&self, range: T) -> bool {
        self.as_bits().contains_all_in_range(range)
    }

    /// Whether some position of the range is set.
    ///
    /// **Panics** where the range is not valid.
    ///
    /// Proved: the result, for all sets, wherever it does not panic
    /// ([contract](crate::contracts#fixedbitsetbitscontains_any_in_range)).
    ///
    /// ```
    /// # use fixedbitset::FixedBitSet;
    /// let mut set = FixedBitSet::with_capacity(200);
    /// set.insert_range(60..130);
    /// assert!(set.contains_any_in_range(..=60));
    /// assert!(!set.contains_any_in_range(130..));
    /// assert!(!set.contains_any_in_range(64..64));
    /// ```
    #[inline]
    #[must_use]
    #[track_caller]
    pub fn contains_any_in_range<T: IndexRange>(&self, range: T) -> bool {
        self.as_bits().contains_any_in_range(range)
    }

    /// Whether the length is 0. A set of another length is not empty, even where no position is set: see
    /// `is_clear`.
    ///
    /// Proved: the result, for all sets ([contract](crate::contracts#fixedbitsetfixedbitsetis_empty)).
    ///
    /// ```
    /// # use fixedbitset::FixedBitSet;
    /// assert!(FixedBitSet::new().is_empty());
    /// let set = FixedBitSet::with_capacity(3);
    /// assert!(set.is_clear() && !set.is_empty());
    /// ```
    #[inline]
    #[must_use]
    pub fn is_empty(&self) -> bool {
        self.set.is_empty()
    }

    /// Whether no position is set.
    ///
    /// It takes one step for each lane up to the first position that is set, or for all of them.
    ///
    /// Proved: the result, for all sets ([contract](crate::contracts#fixedbitsetbitsis_clear)).
    ///
    /// ```
    /// # use fixedbitset::FixedBitSet;
    /// let mut set = FixedBitSet::with_capacity(70);
    /// assert!(set.is_clear());
    /// set.insert(69);
    /// assert!(!set.is_clear());
    /// ```
    #[inline]
    #[must_use]
    pub fn is_clear(&self) -> bool {
        self.as_bits().is_clear()
    }

    /// The first position that is set, or `None` where none is.
    ///
    /// It takes one step for each lane from the first on up to the one that has the
    /// position, or for all of them.
    ///
    /// Proved: the result, for all sets ([contract](crate::contracts#fixedbitsetbitsminimum)).
    ///
    /// ```
    /// # use fixedbitset::FixedBitSet;
    /// let mut set = FixedBitSet::with_capacity(200);
    /// assert_eq!(set.minimum(), None);
    /// set.insert_range(64..130);
    /// assert_eq!(set.minimum(), Some(64));
    /// ```
    #[inline]
    #[must_use]
    pub fn minimum(&self) -> Option<usize> {
        self.as_bits().minimum()
    }

    /// The last position that is set, or `None` where none is.
    ///
    /// It takes one step for each lane from the last on down to the one that has the
    /// position, or for all of them.
    ///
    /// Proved: the result, for all sets ([contract](crate::contracts#fixedbitsetbitsmaximum)).
    ///
    /// ```
    /// # use fixedbitset::FixedBitSet;
    /// let mut set = FixedBitSet::with_capacity(200);
    /// assert_eq!(set.maximum(), None);
    /// set.insert_range(64..130);
    /// assert_eq!(set.maximum(), Some(129));
    /// ```
    #[inline]
    #[must_use]
    pub fn maximum(&self) -> Option<usize> {
        self.as_bits().maximum()
    }

    /// Clears the first position that is set, and returns it. Where none is set, the set stays as
    /// it was and the result is `None`.
    ///
    /// It takes one step for each lane from the first on up to the one that has the position, or
    /// for all of them, and writes one word at most.
    ///
    /// Proved: the result and what it leaves, for all sets
    /// ([contract](crate::contracts#fixedbitsetbitsmutpop_first)).
    ///
    /// ```
    /// # use fixedbitset::FixedBitSet;
    /// let mut set = FixedBitSet::from_iter([3, 64]);
    /// assert_eq!(set.pop_first(), Some(3));
    /// assert_eq!(set.pop_first(), Some(64));
    /// assert!(set.pop_first().is_none() && set.len() == 65);
    /// ```
    #[inline]
    pub fn pop_first(&mut self) -> Option<usize> {
        self.as_bits_mut().pop_first()
    }

    /// Clears the last position that is set, and returns it. Where none is set, the set stays as
    /// it was and the result is `None`.
    ///
    /// It takes one step for each lane from the last on down to the one that has the position, or
    /// for all of them, and writes one word at most.
    ///
    /// Proved: the result and what it leaves, for all sets
    /// ([contract](crate::contracts#fixedbitsetbitsmutpop_last)).
    ///
    /// ```
    /// # use fixedbitset::FixedBitSet;
    /// let mut set = FixedBitSet::from_iter([3, 64]);
    /// assert_eq!(set.pop_last(), Some(64));
    /// assert_eq!(set.pop_last(), Some(3));
    /// assert!(set.pop_last().is_none() && set.len() == 65);
    /// ```
    #[inline]
    pub fn pop_last(&mut self) -> Option<usize> {
        self.as_bits_mut().pop_last()
    }

    /// Whether each position below the length is set.
    ///
    /// Proved: the result, for all sets ([contract](crate::contracts#fixedbitsetbitsis_full)).
    ///
    /// ```
    /// # use fixedbitset::FixedBitSet;
    /// let mut set = FixedBitSet::with_capacity(70);
    /// set.insert_range(..69);
    /// assert!(!set.is_full());
    /// set.insert(69);
    /// assert!(set.is_full());
    /// ```
    #[inline]
    #[must_use]
    pub fn is_full(&self) -> bool {
        self.as_bits().is_full()
    }

    /// Leaves the greater of the two lengths, and the positions of either set.
    ///
    /// Where `other` needs no more words, the call does not allocate and cannot fail. It takes one step for
    /// each lane of `other`; new words are written once before.
    ///
    /// If an allocation fails, the program ends; [`try_union_with`](Self::try_union_with) returns an error
    /// instead.
    ///
    /// Proved: what it leaves, for any two sets
    /// ([contract](crate::contracts#fixedbitsetfixedbitsetunion_with)).
    ///
    /// ```
    /// # use fixedbitset::FixedBitSet;
    /// let mut set = FixedBitSet::from_iter([1, 3]);
    /// let other = FixedBitSet::from_iter([3, 64]);
    /// set.union_with(&other);
    /// assert_eq!(set.len(), 65);
    /// assert_eq!(set.as_slice(), [10, 1].as_slice());
    /// ```
    pub fn union_with(&mut self, other: &FixedBitSet) {
        self.set.union_with(&other.set).or_abort();
    }

    /// [`union_with`](Self::union_with), which returns an error if an allocation fails. The set is then as
    /// it was.
    ///
    /// Proved: what it leaves, also where an allocation fails, for any two sets
    /// ([contract](crate::contracts#fixedbitsetfixedbitsetunion_with)).
    ///
    /// ```
    /// # use fixedbitset::FixedBitSet;
    /// let mut set = FixedBitSet::from_iter([1, 3]);
    /// let other = FixedBitSet::from_iter([3, 64]);
    /// set.try_union_with(&other)?;
    /// assert_eq!(set.len(), 65);
    /// assert_eq!(set.as_slice(), [10, 1].as_slice());
    /// # Ok::<(), fixedbitset::AllocError>(())
    /// ```
    pub fn try_union_with(&mut self, other: &FixedBitSet) -> Result<(), AllocError> {
        self.set.union_with(&other.set)
    }

    /// Leaves the greater of the two lengths, and the positions of exactly one of the sets.
    ///
    /// Memory, errors and steps are those of [`union_with`](Self::union_with).
    ///
    /// If an allocation fails, the program ends;
    /// [`try_symmetric_difference_with`](Self::try_symmetric_difference_with) returns an error instead.
    ///
    /// Proved: what it leaves, for any two sets
    /// ([contract](crate::contracts#fixedbitsetfixedbitsetsymmetric_difference_with)).
    ///
    /// ```
    /// # use fixedbitset::FixedBitSet;
    /// let mut set = FixedBitSet::from_iter([1, 3]);
    /// let other = FixedBitSet::from_iter([3, 64]);
    /// set.symmetric_difference_with(&other);
    /// assert_eq!(set.len(), 65);
    /// assert_eq!(set.as_slice(), [2, 1].as_slice());
    /// ```
    pub fn symmetric_difference_with(&mut self, other: &FixedBitSet) {
        self.set.symmetric_difference_with(&other.set).or_abort();
    }

    /// [`symmetric_difference_with`](Self::symmetric_difference_with), which returns an error if an
    /// allocation fails. The set is then as it was.
    ///
    /// Proved: what it leaves, also where an allocation fails, for any two sets
    /// ([contract](crate::contracts#fixedbitsetfixedbitsetsymmetric_difference_with)).
    ///
    /// ```
    /// # use fixedbitset::FixedBitSet;
    /// let mut set = FixedBitSet::from_iter([1, 3]);
    /// let other = FixedBitSet::from_iter([3, 64]);
    /// set.try_symmetric_difference_with(&other)?;
    /// assert_eq!(set.len(), 65);
    /// assert_eq!(set.as_slice(), [2, 1].as_slice());
    /// # Ok::<(), fixedbitset::AllocError>(())
    /// ```
    pub fn try_symmetric_difference_with(&mut self, other: &FixedBitSet) -> Result<(), AllocError> {
        self.set.symmetric_difference_with(&other.set)
    }

    /// Leaves the positions of both sets, and the length.
    ///
    /// Proved: what it leaves, for any two sets
    /// ([contract](crate::contracts#fixedbitsetbitsmutintersect_with)).
    ///
    /// ```
    /// # use fixedbitset::FixedBitSet;
    /// let mut set = FixedBitSet::from_iter([1, 3, 64]);
    /// let other = FixedBitSet::from_iter([3, 5]);
    /// set.intersect_with(&other);
    /// assert_eq!(set.len(), 65);
    /// assert_eq!(set.as_slice(), [8, 0].as_slice());
    /// ```
    #[inline]
    pub fn intersect_with(&mut self, other: &FixedBitSet) {
        self.as_bits_mut().intersect_with(other.as_bits());
    }

    /// Leaves the positions of the first set that the second lacks, and the length.
    ///
    /// Proved: what it leaves, for any two sets
    /// ([contract](crate::contracts#fixedbitsetbitsmutdifference_with)).
    ///
    /// ```
    /// # use fixedbitset::FixedBitSet;
    /// let mut set = FixedBitSet::from_iter([1, 3, 64]);
    /// let other = FixedBitSet::from_iter([3, 5]);
    /// set.difference_with(&other);
    /// assert_eq!(set.as_slice(), [2, 1].as_slice());
    /// ```
    #[inline]
    pub fn difference_with(&mut self, other: &FixedBitSet) {
        self.as_bits_mut().difference_with(other.as_bits());
    }

    /// [`union_with`](Self::union_with), which also returns whether a position came in: whether `other` has
    /// one that this set lacked. The length may become greater even where none came in; two calls of
    /// [`len`](Self::len) tell that.
    ///
    /// If an allocation fails, the program ends; [`try_union_with_change`](Self::try_union_with_change)
    /// returns an error instead.
    ///
    /// Proved: the result and what it leaves, for any two sets
    /// ([contract](crate::contracts#fixedbitsetfixedbitsetunion_with_change)).
    ///
    /// ```
    /// # use fixedbitset::FixedBitSet;
    /// let mut set = FixedBitSet::from_iter([1, 3]);
    /// let other = FixedBitSet::from_iter([3, 64]);
    /// assert!(set.union_with_change(&other));
    /// assert!(!set.union_with_change(&other));
    /// ```
    pub fn union_with_change(&mut self, other: &FixedBitSet) -> bool {
        self.set.union_with_change(&other.set).or_abort()
    }

    /// [`union_with_change`](Self::union_with_change), which returns an error if an allocation fails. The
    /// set is then as it was.
    ///
    /// Proved: the result and what it leaves, also where an allocation fails, for any two sets
    /// ([contract](crate::contracts#fixedbitsetfixedbitsetunion_with_change)).
    ///
    /// ```
    /// # use fixedbitset::FixedBitSet;
    /// let mut set = FixedBitSet::from_iter([1, 3]);
    /// let other = FixedBitSet::from_iter([3, 64]);
    /// assert!(set.try_union_with_change(&other)?);
    /// assert!(!set.try_union_with_change(&other)?);
    /// # Ok::<(), fixedbitset::AllocError>(())
    /// ```
    pub fn try_union_with_change(&mut self, other: &FixedBitSet) -> Result<bool, AllocError> {
        self.set.union_with_change(&other.set)
    }

    /// [`symmetric_difference_with`](Self::symmetric_difference_with), which also returns whether a
    /// position came in or went: whether `other` has one. The length may become greater even where none
    /// did.
    ///
    /// If an allocation fails, the program ends;
    /// [`try_symmetric_difference_with_change`](Self::try_symmetric_difference_with_change) returns an
    /// error instead.
    ///
    /// Proved: the result and what it leaves, for any two sets
    /// ([contract](crate::contracts#fixedbitsetfixedbitsetsymmetric_difference_with_change)).
    ///
    /// ```
    /// # use fixedbitset::FixedBitSet;
    /// let mut set = FixedBitSet::from_iter([1, 3]);
    /// let other = FixedBitSet::from_iter([3, 64]);
    /// assert!(set.symmetric_difference_with_change(&other));
    /// assert!(!set.symmetric_difference_with_change(&FixedBitSet::new()));
    /// ```
    pub fn symmetric_difference_with_change(&mut self, other: &FixedBitSet) -> bool {
        self.set.symmetric_difference_with_change(&other.set).or_abort()
    }

    /// [`symmetric_difference_with_change`](Self::symmetric_difference_with_change), which returns an error
    /// if an allocation fails. The set is then as it was.
    ///
    /// Proved: the result and what it leaves, also where an allocation fails, for any two sets
    /// ([contract](crate::contracts#fixedbitsetfixedbitsetsymmetric_difference_with_change)).
    ///
    /// ```
    /// # use fixedbitset::FixedBitSet;
    /// let mut set = FixedBitSet::from_iter([1, 3]);
    /// let other = FixedBitSet::from_iter([3, 64]);
    /// assert!(set.try_symmetric_difference_with_change(&other)?);
    /// assert!(!set.try_symmetric_difference_with_change(&FixedBitSet::new())?);
    /// # Ok::<(), fixedbitset::AllocError>(())
    /// ```
    pub fn try_symmetric_difference_with_change(
        &mut self,
        other: &FixedBitSet,
    ) -> Result<bool, AllocError> {
        self.set.symmetric_difference_with_change(&other.set)
    }

    /// [`intersect_with`](Self::intersect_with), which also returns whether a position went.
    ///
    /// Proved: the result and what it leaves, for any two sets
    /// ([contract](crate::contracts#fixedbitsetbitsmutintersect_with_change)).
    ///
    /// ```
    /// # use fixedbitset::FixedBitSet;
    /// let mut set = FixedBitSet::from_iter([1, 3, 64]);
    /// let other = FixedBitSet::from_iter([3, 5]);
    /// assert!(set.intersect_with_change(&other));
    /// assert!(!set.intersect_with_change(&other));
    /// ```
    #[inline]
    pub fn intersect_with_change(&mut self, other: &FixedBitSet) -> bool {
        self.as_bits_mut().intersect_with_change(other.as_bits())
    }

    /// [`difference_with`](Self::difference_with), which also returns whether a position went.
    ///
    /// Proved: the result and what it leaves, for any two sets
    /// ([contract](crate::contracts#fixedbitsetbitsmutdifference_with_change)).
    ///
    /// ```
    /// # use fixedbitset::FixedBitSet;
    /// let mut set = FixedBitSet::from_iter([1, 3, 64]);
    /// let other = FixedBitSet::from_iter([3, 5]);
    /// assert!(set.difference_with_change(&other));
    /// assert!(!set.difference_with_change(&other));
    /// ```
    #[inline]
    pub fn difference_with_change(&mut self, other: &FixedBitSet) -> bool {
        self.as_bits_mut().difference_with_change(other.as_bits())
    }

    /// Takes in the positions of `gens` that `kills` lacks, and returns whether one came in: whether this
    /// set lacked one of them. The length is then the greater one of this set and of `gens`.
    ///
    /// Memory and errors are those of [`union_with`](Self::union_with) with `gens`; the length of `kills`
    /// does not matter. It takes one step for each lane of `gens`: it reads each word once, and makes no
    /// set between. Upstream has no such call.
    ///
    /// If an allocation fails, the program ends;
    /// [`try_union_with_difference`](Self::try_union_with_difference) returns an error instead.
    ///
    /// Proved: the result and what it leaves, for any three sets
    /// ([contract](crate::contracts#fixedbitsetfixedbitsetunion_with_difference)).
    ///
    /// ```
    /// # use fixedbitset::FixedBitSet;
    /// let mut set = FixedBitSet::from_iter([1, 3]);
    /// let gens = FixedBitSet::from_iter([4, 64]);
    /// let kills = FixedBitSet::from_iter([4, 200]);
    /// assert!(set.union_with_difference(&gens, &kills));
    /// assert_eq!(set.as_slice(), [10, 1].as_slice());
    /// ```
    pub fn union_with_difference(&mut self, gens: &FixedBitSet, kills: &FixedBitSet) -> bool {
        self.set.union_with_difference(&gens.set, &kills.set).or_abort()
    }

    /// [`union_with_difference`](Self::union_with_difference), which returns an error if an allocation
    /// fails. The set is then as it was.
    ///
    /// Proved: the result and what it leaves, also where an allocation fails, for any three sets
    /// ([contract](crate::contracts#fixedbitsetfixedbitsetunion_with_difference)).
    ///
    /// ```
    /// # use fixedbitset::FixedBitSet;
    /// let mut set = FixedBitSet::from_iter([1, 3]);
    /// let gens = FixedBitSet::from_iter([4, 64]);
    /// let kills = FixedBitSet::from_iter([4, 200]);
    /// assert!(set.try_union_with_difference(&gens, &kills)?);
    /// assert_eq!(set.as_slice(), [10, 1].as_slice());
    /// # Ok::<(), fixedbitset::AllocError>(())
    /// ```
    pub fn try_union_with_difference(
        &mut self,
        gens: &FixedBitSet,
        kills: &FixedBitSet,
    ) -> Result<bool, AllocError> {
        self.set.union_with_difference(&gens.set, &kills.set)
    }

    /// How many positions are in either set.
    ///
    /// Proved: the result, for any two sets ([contract](crate::contracts#fixedbitsetbitsunion_count)).
    ///
    /// ```
    /// # use fixedbitset::FixedBitSet;
    /// let set = FixedBitSet::from_iter([1, 3, 64]);
    /// let other = FixedBitSet::from_iter([3, 5]);
    /// assert_eq!(set.union_count(&other), 4);
    /// ```
    #[inline]
    #[must_use]
    pub fn union_count(&self, other: &FixedBitSet) -> usize {
        self.as_bits().union_count(other.as_bits())
    }

    /// How many positions are in both sets.
    ///
    /// Proved: the result, for any two sets
    /// ([contract](crate::contracts#fixedbitsetbitsintersection_count)).
    ///
    /// ```
    /// # use fixedbitset::FixedBitSet;
    /// let set = FixedBitSet::from_iter([1, 3, 64]);
    /// let other = FixedBitSet::from_iter([3, 5]);
    /// assert_eq!(set.intersection_count(&other), 1);
    /// ```
    #[inline]
    #[must_use]
    pub fn intersection_count(&self, other: &FixedBitSet) -> usize {
        self.as_bits().intersection_count(other.as_bits())
    }

    /// How many positions of the first set the second lacks.
    ///
    /// Proved: the result, for any two sets ([contract](crate::contracts#fixedbitsetbitsdifference_count)).
    ///
    /// ```
    /// # use fixedbitset::FixedBitSet;
    /// let set = FixedBitSet::from_iter([1, 3, 64]);
    /// let other = FixedBitSet::from_iter([3, 5]);
    /// assert_eq!(set.difference_count(&other), 2);
    /// assert_eq!(other.difference_count(&set), 1);
    /// ```
    #[inline]
    #[must_use]
    pub fn difference_count(&self, other: &FixedBitSet) -> usize {
        self.as_bits().difference_count(other.as_bits())
    }

    /// How many positions are in exactly one of the sets.
    ///
    /// Proved: the result, for any two sets
    /// ([contract](crate::contracts#fixedbitsetbitssymmetric_difference_count)).
    ///
    /// ```
    /// # use fixedbitset::FixedBitSet;
    /// let set = FixedBitSet::from_iter([1, 3, 64]);
    /// let other = FixedBitSet::from_iter([3, 5]);
    /// assert_eq!(set.symmetric_difference_count(&other), 3);
    /// ```
    #[inline]
    #[must_use]
    pub fn symmetric_difference_count(&self, other: &FixedBitSet) -> usize {
        self.as_bits().symmetric_difference_count(other.as_bits())
    }

    /// Whether no position is in both sets.
    ///
    /// Proved: the result, for any two sets ([contract](crate::contracts#fixedbitsetbitsis_disjoint)).
    ///
    /// ```
    /// # use fixedbitset::FixedBitSet;
    /// let set = FixedBitSet::from_iter([1, 64]);
    /// let other = FixedBitSet::from_iter([3, 64, 65]);
    /// assert!(!set.is_disjoint(&other));
    /// assert!(set.is_disjoint(&FixedBitSet::from_iter([0, 65])));
    /// ```
    #[inline]
    #[must_use]
    pub fn is_disjoint(&self, other: &FixedBitSet) -> bool {
        self.as_bits().is_disjoint(other.as_bits())
    }

    /// Whether each position of the first set is one of the second.
    ///
    /// Proved: the result, for any two sets ([contract](crate::contracts#fixedbitsetbitsis_subset)).
    ///
    /// ```
    /// # use fixedbitset::FixedBitSet;
    /// let mut set = FixedBitSet::with_capacity(200);
    /// set.insert(3);
    /// let other = FixedBitSet::from_iter([1, 3]);
    /// assert!(set.is_subset(&other));
    /// assert!(!other.is_subset(&set));
    /// ```
    #[inline]
    #[must_use]
    pub fn is_subset(&self, other: &FixedBitSet) -> bool {
        self.as_bits().is_subset(other.as_bits())
    }

    /// Whether each position of the second set is one of the first.
    ///
    /// Proved: the result, for any two sets ([contract](crate::contracts#fixedbitsetbitsis_superset)).
    ///
    /// ```
    /// # use fixedbitset::FixedBitSet;
    /// let set = FixedBitSet::from_iter([1, 3]);
    /// let longer = FixedBitSet::with_capacity(200);
    /// assert!(set.is_superset(&longer));
    /// assert!(!longer.is_superset(&set));
    /// ```
    #[inline]
    #[must_use]
    pub fn is_superset(&self, other: &FixedBitSet) -> bool {
        self.as_bits().is_superset(other.as_bits())
    }

    /// The least position of the second set that the first lacks, or `None` where it lacks none.
    ///
    /// It takes exactly the steps up to the lane of the position, or all where there is none.
    ///
    /// Proved: the result, for any two sets ([contract](crate::contracts#fixedbitsetbitsfirst_lacking)).
    ///
    /// ```
    /// # use fixedbitset::FixedBitSet;
    /// let set = FixedBitSet::from_iter([1, 3]);
    /// let other = FixedBitSet::from_iter([3, 64, 70]);
    /// assert_eq!(set.first_lacking(&other), Some(64));
    /// assert_eq!(other.first_lacking(&set), Some(1));
    /// ```
    #[inline]
    #[must_use]
    pub fn first_lacking(&self, other: &FixedBitSet) -> Option<usize> {
        self.as_bits().first_lacking(other.as_bits())
    }

    /// Makes this set the union of two others: the greater of their lengths, and the positions of either.
    ///
    /// A call that needs no more words cannot fail. Upstream has no such call.
    ///
    /// If an allocation fails, the program ends; [`try_union_of`](Self::try_union_of) returns an error
    /// instead.
    ///
    /// Proved: what it leaves, for any three sets
    /// ([contract](crate::contracts#fixedbitsetfixedbitsetunion_of)).
    ///
    /// ```
    /// # use fixedbitset::FixedBitSet;
    /// let one = FixedBitSet::from_iter([1, 3]);
    /// let other = FixedBitSet::from_iter([3, 64]);
    /// let mut set = FixedBitSet::with_capacity(200);
    /// set.union_of(&one, &other);
    /// assert_eq!(set.as_slice(), [10, 1].as_slice());
    /// ```
    #[inline]
    pub fn union_of(&mut self, one: &FixedBitSet, other: &FixedBitSet) {
        self.set.union_of(&one.set, &other.set).or_abort();
    }

    /// [`union_of`](Self::union_of), which returns an error if an allocation fails. The set is then as it
    /// was.
    ///
    /// Proved: what it leaves, also where an allocation fails, for any three sets
    /// ([contract](crate::contracts#fixedbitsetfixedbitsetunion_of)).
    ///
    /// ```
    /// # use fixedbitset::FixedBitSet;
    /// let one = FixedBitSet::from_iter([1, 3]);
    /// let other = FixedBitSet::from_iter([3, 64]);
    /// let mut set = FixedBitSet::with_capacity(200);
    /// set.try_union_of(&one, &other)?;
    /// assert_eq!(set.as_slice(), [10, 1].as_slice());
    /// # Ok::<(), fixedbitset::AllocError>(())
    /// ```
    #[inline]
    pub fn try_union_of(
        &mut self,
        one: &FixedBitSet,
        other: &FixedBitSet,
    ) -> Result<(), AllocError> {
        self.set.union_of(&one.set, &other.set)
    }

    /// Makes this set the greater of the lengths of two others, and the positions of exactly one of them.
    ///
    /// Memory and errors are those of [`union_of`](Self::union_of).
    ///
    /// If an allocation fails, the program ends;
    /// [`try_symmetric_difference_of`](Self::try_symmetric_difference_of) returns an error instead.
    ///
    /// Proved: what it leaves, for any three sets
    /// ([contract](crate::contracts#fixedbitsetfixedbitsetsymmetric_difference_of)).
    ///
    /// ```
    /// # use fixedbitset::FixedBitSet;
    /// let one = FixedBitSet::from_iter([1, 3]);
    /// let other = FixedBitSet::from_iter([3, 64]);
    /// let mut set = FixedBitSet::with_capacity(200);
    /// set.symmetric_difference_of(&one, &other);
    /// assert_eq!(set.as_slice(), [2, 1].as_slice());
    /// ```
    #[inline]
    pub fn symmetric_difference_of(&mut self, one: &FixedBitSet, other: &FixedBitSet) {
        self.set.symmetric_difference_of(&one.set, &other.set).or_abort();
    }

    /// [`symmetric_difference_of`](Self::symmetric_difference_of), which returns an error if an allocation
    /// fails. The set is then as it was.
    ///
    /// Proved: what it leaves, also where an allocation fails, for any three sets
    /// ([contract](crate::contracts#fixedbitsetfixedbitsetsymmetric_difference_of)).
    ///
    /// ```
    /// # use fixedbitset::FixedBitSet;
    /// let one = FixedBitSet::from_iter([1, 3]);
    /// let other = FixedBitSet::from_iter([3, 64]);
    /// let mut set = FixedBitSet::with_capacity(200);
    /// set.try_symmetric_difference_of(&one, &other)?;
    /// assert_eq!(set.as_slice(), [2, 1].as_slice());
    /// # Ok::<(), fixedbitset::AllocError>(())
    /// ```
    #[inline]
    pub fn try_symmetric_difference_of(
        &mut self,
        one: &FixedBitSet,
        other: &FixedBitSet,
    ) -> Result<(), AllocError> {
        self.set.symmetric_difference_of(&one.set, &other.set)
    }

    /// Makes this set the lesser of the lengths of two others, and the positions of both.
    ///
    /// Memory and errors are those of [`union_of`](Self::union_of).
    ///
    /// If an allocation fails, the program ends; [`try_intersection_of`](Self::try_intersection_of) returns
    /// an error instead.
    ///
    /// Proved: what it leaves, for any three sets
    /// ([contract](crate::contracts#fixedbitsetfixedbitsetintersection_of)).
    ///
    /// ```
    /// # use fixedbitset::FixedBitSet;
    /// let one = FixedBitSet::from_iter([1, 3]);
    /// let other = FixedBitSet::from_iter([3, 64]);
    /// let mut set = FixedBitSet::with_capacity(200);
    /// set.intersection_of(&one, &other);
    /// assert_eq!(set.as_slice(), [8].as_slice());
    /// ```
    #[inline]
    pub fn intersection_of(&mut self, one: &FixedBitSet, other: &FixedBitSet) {
        self.set.intersection_of(&one.set, &other.set).or_abort();
    }

    /// [`intersection_of`](Self::intersection_of), which returns an error if an allocation fails. The set
    /// is then as it was.
    ///
    /// Proved: what it leaves, also where an allocation fails, for any three sets
    /// ([contract](crate::contracts#fixedbitsetfixedbitsetintersection_of)).
    ///
    /// ```
    /// # use fixedbitset::FixedBitSet;
    /// let one = FixedBitSet::from_iter([1, 3]);
    /// let other = FixedBitSet::from_iter([3, 64]);
    /// let mut set = FixedBitSet::with_capacity(200);
    /// set.try_intersection_of(&one, &other)?;
    /// assert_eq!(set.as_slice(), [8].as_slice());
    /// # Ok::<(), fixedbitset::AllocError>(())
    /// ```
    #[inline]
    pub fn try_intersection_of(
        &mut self,
        one: &FixedBitSet,
        other: &FixedBitSet,
    ) -> Result<(), AllocError> {
        self.set.intersection_of(&one.set, &other.set)
    }

    /// Makes this set the first of two others without the positions of the second. The length is that of
    /// the first.
    ///
    /// Memory and errors are those of [`union_of`](Self::union_of).
    ///
    /// If an allocation fails, the program ends; [`try_difference_of`](Self::try_difference_of) returns an
    /// error instead.
    ///
    /// Proved: what it leaves, for any three sets
    /// ([contract](crate::contracts#fixedbitsetfixedbitsetdifference_of)).
    ///
    /// ```
    /// # use fixedbitset::FixedBitSet;
    /// let one = FixedBitSet::from_iter([1, 3]);
    /// let other = FixedBitSet::from_iter([3, 64]);
    /// let mut set = FixedBitSet::with_capacity(200);
    /// set.difference_of(&one, &other);
    /// assert_eq!(set.as_slice(), [2].as_slice());
    /// ```
    #[inline]
    pub fn difference_of(&mut self, one: &FixedBitSet, other: &FixedBitSet) {
        self.set.difference_of(&one.set, &other.set).or_abort();
    }

    /// [`difference_of`](Self::difference_of), which returns an error if an allocation fails. The set is
    /// then as it was.
    ///
    /// Proved: what it leaves, also where an allocation fails, for any three sets
    /// ([contract](crate::contracts#fixedbitsetfixedbitsetdifference_of)).
    ///
    /// ```
    /// # use fixedbitset::FixedBitSet;
    /// let one = FixedBitSet::from_iter([1, 3]);
    /// let other = FixedBitSet::from_iter([3, 64]);
    /// let mut set = FixedBitSet::with_capacity(200);
    /// set.try_difference_of(&one, &other)?;
    /// assert_eq!(set.as_slice(), [2].as_slice());
    /// # Ok::<(), fixedbitset::AllocError>(())
    /// ```
    #[inline]
    pub fn try_difference_of(
        &mut self,
        one: &FixedBitSet,
        other: &FixedBitSet,
    ) -> Result<(), AllocError> {
        self.set.difference_of(&one.set, &other.set)
    }

    /// A set of the length of the range: its positions that this set has, less its start.
    ///
    /// It writes each word of the new set twice. Upstream has no such call.
    ///
    /// If an allocation fails, the program ends; [`try_slice`](Self::try_slice) returns an error instead.
    ///
    /// **Panics** where the range is not valid.
    ///
    /// Proved: the set, for all sets, wherever it does not panic
    /// ([contract](crate::contracts#fixedbitsetfixedbitsetslice)).
    ///
    /// ```
    /// # use fixedbitset::FixedBitSet;
    /// let set = FixedBitSet::from_iter([1, 63, 65, 69]);
    /// assert_eq!(set.len(), 70);
    /// let part = set.slice(63..68);
    /// assert!(part.ones().eq([0, 2]));
    /// ```
    #[inline]
    #[must_use]
    #[track_caller]
    pub fn slice<T: IndexRange>(&self, range: T) -> Self {
        let (start, end) = self.as_bits().part(&range);
        let set = self.set.slice(Global::Abort, start..end).or_abort();
        FixedBitSet { set }
    }

    /// [`slice`](Self::slice), which returns an error if an allocation fails.
    ///
    /// **Panics** where the range is not valid.
    ///
    /// Proved: the set, for all sets, wherever it does not panic
    /// ([contract](crate::contracts#fixedbitsetfixedbitsetslice)).
    ///
    /// ```
    /// # use fixedbitset::FixedBitSet;
    /// let set = FixedBitSet::from_iter([1, 63, 65, 69]);
    /// assert_eq!(set.len(), 70);
    /// let part = set.try_slice(63..68)?;
    /// assert!(part.ones().eq([0, 2]));
    /// # Ok::<(), fixedbitset::AllocError>(())
    /// ```
    #[inline]
    #[track_caller]
    pub fn try_slice<T: IndexRange>(&self, range: T) -> Result<Self, AllocError> {
        let (start, end) = self.as_bits().part(&range);
        let set = self.set.slice(Global::Try, start..end)?;
        Ok(FixedBitSet { set })
    }

    /// Writes the positions of the other set from `start` up to and without `end` over those of the
    /// set from `at` on. All others stay.
    ///
    /// The range may not begin after its end, nor end past the other length. From `at` on it has to
    /// end within the length. It takes exactly one step for each lane of the words that it writes
    /// whole, the last of which may have fewer, and one for each other word that it writes.
    ///
    /// `start` and `end` are the ends of `range`.
    ///
    /// **Panics** where the range is not valid in `other`, and where from `at` on it does not end within
    /// this set.
    ///
    /// Proved: what it leaves, for any two sets, wherever it does not panic
    /// ([contract](crate::contracts#fixedbitsetbitsmutcopy_range)).
    ///
    /// ```
    /// # use fixedbitset::FixedBitSet;
    /// let mut set = FixedBitSet::from_iter([0, 2, 65, 69]);
    /// let other = FixedBitSet::from_iter([1, 63, 65]);
    /// assert!(set.len() == 70 && other.len() == 66);
    /// set.copy_range(&other, 62..66, 1);
    /// assert!(set.ones().eq([0, 2, 4, 65, 69]));
    /// ```
    #[inline]
    #[track_caller]
    pub fn copy_range<T: IndexRange>(&mut self, other: &FixedBitSet, range: T, at: usize) {
        self.as_bits_mut().copy_range(other.as_bits(), range, at);
    }

    /// The `width` positions from `start` on as a number: its bit `i` is position `start + i`.
    ///
    /// The width may be 64 at most, and the positions have to be below the length. It looks at one
    /// word, or at two.
    ///
    /// **Panics** where the width is over 64, and where the positions are not all below the length.
    ///
    /// Proved: the result, for all sets, wherever it does not panic
    /// ([contract](crate::contracts#fixedbitsetbitsload)).
    ///
    /// ```
    /// # use fixedbitset::FixedBitSet;
    /// let set = FixedBitSet::from_iter([1, 63, 65, 69]);
    /// assert_eq!(set.len(), 70);
    /// assert_eq!(set.load(62, 8), 138);
    /// assert_eq!(set.load(70, 0), 0);
    /// ```
    #[inline]
    #[must_use]
    #[track_caller]
    pub fn load(&self, start: usize, width: usize) -> u64 {
        self.as_bits().load(start, width)
    }

    /// Makes the `width` positions from `start` on the lowest bits of the number: position
    /// `start + i` becomes its bit `i`. All others stay.
    ///
    /// The width may be 64 at most, and the positions have to be below the length. It writes one
    /// word, or two.
    ///
    /// **Panics** where the width is over 64, and where the positions are not all below the length.
    ///
    /// Proved: what it leaves, for all sets, wherever it does not panic
    /// ([contract](crate::contracts#fixedbitsetbitsmutstore)).
    ///
    /// ```
    /// # use fixedbitset::FixedBitSet;
    /// let mut set = FixedBitSet::from_iter([1, 63, 65, 69]);
    /// assert_eq!(set.len(), 70);
    /// set.store(62, 4, 5);
    /// assert!(set.ones().eq([1, 62, 64, 69]));
    /// ```
    #[inline]
    #[track_caller]
    pub fn store(&mut self, start: usize, width: usize, number: u64) {
        self.as_bits_mut().store(start, width, number);
    }

    /// Puts the positions of `other` after those of this set: the lengths are added, which has to give a
    /// length.
    ///
    /// A call that needs no more words cannot fail. It reads each word of `other` once. Upstream has no
    /// such call.
    ///
    /// If an allocation fails, the program ends; [`try_append`](Self::try_append) returns an error instead.
    ///
    /// **Panics** where the sum of the lengths is past `usize::MAX`.
    ///
    /// Proved: what it leaves, for any two sets, wherever it does not panic
    /// ([contract](crate::contracts#fixedbitsetfixedbitsetappend)).
    ///
    /// ```
    /// # use fixedbitset::FixedBitSet;
    /// let mut set = FixedBitSet::with_capacity(4);
    /// let mut other = FixedBitSet::with_capacity(65);
    /// other.insert(64);
    /// set.append(&other);
    /// assert!(set.len() == 69 && set.contains(68));
    /// ```
    #[inline]
    #[track_caller]
    pub fn append(&mut self, other: &FixedBitSet) {
        self.assert_sum(other);
        self.set.append(&other.set).or_abort();
    }

    /// [`append`](Self::append), which returns an error if an allocation fails. The set is then as it was.
    ///
    /// **Panics** where the sum of the lengths is past `usize::MAX`.
    ///
    /// Proved: what it leaves, also where an allocation fails, for any two sets, wherever it does not panic
    /// ([contract](crate::contracts#fixedbitsetfixedbitsetappend)).
    ///
    /// ```
    /// # use fixedbitset::FixedBitSet;
    /// let mut set = FixedBitSet::with_capacity(4);
    /// let mut other = FixedBitSet::with_capacity(65);
    /// other.insert(64);
    /// set.try_append(&other)?;
    /// assert!(set.len() == 69 && set.contains(68));
    /// # Ok::<(), fixedbitset::AllocError>(())
    /// ```
    #[inline]
    #[track_caller]
    pub fn try_append(&mut self, other: &FixedBitSet) -> Result<(), AllocError> {
        self.assert_sum(other);
        self.set.append(&other.set)
    }

    /// Makes the length the lesser of itself and `bits`. The positions that are not below it fall away.
    ///
    /// It writes one word, and those up to a whole lane. Memory is kept. Upstream has no such call.
    ///
    /// Proved: what it leaves, for all sets and all numbers
    /// ([contract](crate::contracts#fixedbitsetfixedbitsettruncate)).
    ///
    /// ```
    /// # use fixedbitset::FixedBitSet;
    /// let mut set = FixedBitSet::from_iter([1, 3, 64]);
    /// set.truncate(3);
    /// set.truncate(70);
    /// assert_eq!(set.len(), 3);
    /// assert_eq!(set.as_slice(), [2].as_slice());
    /// ```
    #[inline]
    pub fn truncate(&mut self, bits: usize) {
        self.set.truncate(bits);
    }

    /// Makes the length `bits`. Where it was greater, the positions that are not below `bits` fall away;
    /// where it was less, each new position is set or not, as `enabled` says.
    ///
    /// A call that needs no more words cannot fail. Upstream has no such call.
    ///
    /// If an allocation fails, the program ends; [`try_resize`](Self::try_resize) returns an error instead.
    ///
    /// Proved: what it leaves, for all sets and all numbers
    /// ([contract](crate::contracts#fixedbitsetfixedbitsetresize)).
    ///
    /// ```
    /// # use fixedbitset::FixedBitSet;
    /// let mut set = FixedBitSet::from_iter([1, 3]);
    /// set.resize(66, true);
    /// assert_eq!(set.count_ones(..), 64);
    /// set.resize(3, true);
    /// assert!(set.ones().eq([1]));
    /// ```
    #[inline]
    pub fn resize(&mut self, bits: usize, enabled: bool) {
        self.set.resize(bits, enabled).or_abort();
    }

    /// [`resize`](Self::resize), which returns an error if an allocation fails. The set is then as it was.
    ///
    /// Proved: what it leaves, also where an allocation fails, for all sets and all numbers
    /// ([contract](crate::contracts#fixedbitsetfixedbitsetresize)).
    ///
    /// ```
    /// # use fixedbitset::FixedBitSet;
    /// let mut set = FixedBitSet::from_iter([1, 3]);
    /// set.try_resize(66, true)?;
    /// assert_eq!(set.count_ones(..), 64);
    /// set.try_resize(3, true)?;
    /// assert!(set.ones().eq([1]));
    /// # Ok::<(), fixedbitset::AllocError>(())
    /// ```
    #[inline]
    pub fn try_resize(&mut self, bits: usize, enabled: bool) -> Result<(), AllocError> {
        self.set.resize(bits, enabled)
    }

    /// A set of `bits` positions, set as bytes say: position `p` is set where bit `p % 8` of byte `p / 8`
    /// is. Bytes that are missing count as 0, and bits past the length are dropped.
    ///
    /// It looks at each byte at most once, and writes each word once. Upstream has no such call.
    ///
    /// If an allocation fails, the program ends; [`try_from_bytes`](Self::try_from_bytes) returns an error
    /// instead.
    ///
    /// Proved: the set, for all numbers ([contract](crate::contracts#fixedbitsetfixedbitsetfrom_bytes)).
    ///
    /// ```
    /// # use fixedbitset::FixedBitSet;
    /// let set = FixedBitSet::from_bytes(10, &[76, 255]);
    /// assert_eq!(set.len(), 10);
    /// assert_eq!(set.as_slice(), [844].as_slice());
    /// ```
    #[inline]
    #[must_use]
    pub fn from_bytes(bits: usize, source: &[u8]) -> Self {
        let set = set::FixedBitSet::from_bytes(Global::Abort, bits, source).or_abort();
        FixedBitSet { set }
    }

    /// [`from_bytes`](Self::from_bytes), which returns an error if an allocation fails.
    ///
    /// Proved: the set, for all numbers ([contract](crate::contracts#fixedbitsetfixedbitsetfrom_bytes)).
    ///
    /// ```
    /// # use fixedbitset::FixedBitSet;
    /// let set = FixedBitSet::try_from_bytes(10, &[76, 255])?;
    /// assert_eq!(set.len(), 10);
    /// assert_eq!(set.as_slice(), [844].as_slice());
    /// # Ok::<(), fixedbitset::AllocError>(())
    /// ```
    #[inline]
    pub fn try_from_bytes(bits: usize, source: &[u8]) -> Result<Self, AllocError> {
        let set = set::FixedBitSet::from_bytes(Global::Try, bits, source)?;
        Ok(FixedBitSet { set })
    }

    /// There are eight for each word of `as_slice`, so those at the end may be 0.
    ///
    /// It writes each byte once. Upstream has no such call.
    ///
    /// If an allocation fails, the program ends; [`try_to_bytes`](Self::try_to_bytes) returns an error
    /// instead.
    ///
    /// Proved: the bytes, for all sets ([contract](crate::contracts#fixedbitsetfixedbitsetto_bytes)).
    ///
    /// ```
    /// # use fixedbitset::FixedBitSet;
    /// let set = FixedBitSet::from_iter([2, 9]);
    /// let data = set.to_bytes();
    /// assert_eq!(data.as_slice(), [4, 2, 0, 0, 0, 0, 0, 0].as_slice());
    /// ```
    #[inline]
    #[must_use]
    pub fn to_bytes(&self) -> Vec<u8> {
        self.set.to_bytes(Global::Abort).or_abort().0
    }

    /// [`to_bytes`](Self::to_bytes), which returns an error if an allocation fails.
    ///
    /// Proved: the bytes, for all sets ([contract](crate::contracts#fixedbitsetfixedbitsetto_bytes)).
    ///
    /// ```
    /// # use fixedbitset::FixedBitSet;
    /// let set = FixedBitSet::from_iter([2, 9]);
    /// let data = set.try_to_bytes()?;
    /// assert_eq!(data.as_slice(), [4, 2, 0, 0, 0, 0, 0, 0].as_slice());
    /// # Ok::<(), fixedbitset::AllocError>(())
    /// ```
    #[inline]
    pub fn try_to_bytes(&self) -> Result<Vec<u8>, AllocError> {
        Ok(self.set.to_bytes(Global::Try)?.0)
    }

    /// Moves each position up by `by`. Those that are not below the length then fall away.
    ///
    /// Proved: what it leaves, for all sets and all numbers
    /// ([contract](crate::contracts#fixedbitsetbitsmutshift_up)).
    ///
    /// ```
    /// # use fixedbitset::FixedBitSet;
    /// let mut set = FixedBitSet::from_iter([0, 3, 69]);
    /// set.shift_up(64);
    /// assert_eq!(set.as_slice(), [0, 9].as_slice());
    /// set.shift_up(usize::MAX);
    /// assert!(set.is_clear() && set.len() == 70);
    /// ```
    #[inline]
    pub fn shift_up(&mut self, by: usize) {
        self.as_bits_mut().shift_up(by);
    }

    /// Moves each position down by `by`. Those below `by` fall away.
    ///
    /// Proved: what it leaves, for all sets and all numbers
    /// ([contract](crate::contracts#fixedbitsetbitsmutshift_down)).
    ///
    /// ```
    /// # use fixedbitset::FixedBitSet;
    /// let mut set = FixedBitSet::from_iter([0, 3, 69]);
    /// set.shift_down(3);
    /// assert_eq!(set.as_slice(), [1, 4].as_slice());
    /// assert_eq!(set.len(), 70);
    /// ```
    #[inline]
    pub fn shift_down(&mut self, by: usize) {
        self.as_bits_mut().shift_down(by);
    }

    /// Takes in each position of the second set moved up by `by`, as far as it is
    /// below the length then.
    ///
    /// Proved: what it leaves, for any two sets and all numbers
    /// ([contract](crate::contracts#fixedbitsetbitsmutunion_with_shifted)).
    ///
    /// ```
    /// # use fixedbitset::FixedBitSet;
    /// let mut set = FixedBitSet::from_iter([0, 69]);
    /// let other = FixedBitSet::from_iter([0, 1, 5]);
    /// set.union_with_shifted(&other, 65);
    /// assert!(set.ones().eq([0, 65, 66, 69]));
    /// ```
    #[inline]
    pub fn union_with_shifted(&mut self, other: &FixedBitSet, by: usize) {
        self.as_bits_mut().union_with_shifted(other.as_bits(), by);
    }

    /// Takes in each position of the set itself moved up by `by`, as far as it is
    /// below the length then.
    ///
    /// So where the set has the sums of some numbers, it then has those of these numbers and `by`.
    ///
    /// Proved: what it leaves, for all sets and all numbers
    /// ([contract](crate::contracts#fixedbitsetbitsmutunion_with_own_shift)).
    ///
    /// ```
    /// # use fixedbitset::FixedBitSet;
    /// let mut set = FixedBitSet::with_capacity(100);
    /// set.insert(0);
    /// set.union_with_own_shift(3);
    /// set.union_with_own_shift(70);
    /// assert!(set.ones().eq([0, 3, 70, 73]));
    /// ```
    #[inline]
    pub fn union_with_own_shift(&mut self, by: usize) {
        self.as_bits_mut().union_with_own_shift(by);
    }

    /// The least position at or past `from` that is set, or `None` where none is.
    ///
    /// Proved: the result, for all sets and all numbers
    /// ([contract](crate::contracts#fixedbitsetbitsnext_one)).
    ///
    /// ```
    /// # use fixedbitset::FixedBitSet;
    /// let mut set = FixedBitSet::with_capacity(200);
    /// set.insert_range(64..130);
    /// assert_eq!(set.next_one(3), Some(64));
    /// assert_eq!(set.next_one(130), None);
    /// ```
    #[inline]
    #[must_use]
    pub fn next_one(&self, from: usize) -> Option<usize> {
        self.as_bits().next_one(from)
    }

    /// The least position at or past `from` and below the length that is not set, or
    /// `None` where there is none.
    ///
    /// Proved: the result, for all sets and all numbers
    /// ([contract](crate::contracts#fixedbitsetbitsnext_zero)).
    ///
    /// ```
    /// # use fixedbitset::FixedBitSet;
    /// let mut set = FixedBitSet::with_capacity(200);
    /// set.insert_range(64..130);
    /// assert_eq!(set.next_zero(64), Some(130));
    /// assert_eq!(set.next_zero(200), None);
    /// ```
    #[inline]
    #[must_use]
    pub fn next_zero(&self, from: usize) -> Option<usize> {
        self.as_bits().next_zero(from)
    }

    /// The least position at or past `from` that both sets have, or `None` where there is none. The
    /// lengths are not compared.
    ///
    /// It looks at the word of `from` in each set, and then at four words of each at a time, up to
    /// those that have the position or to the end of the shorter set.
    ///
    /// Proved: the result, for any two sets and all numbers
    /// ([contract](crate::contracts#fixedbitsetbitsnext_common)).
    ///
    /// ```
    /// # use fixedbitset::FixedBitSet;
    /// let set = FixedBitSet::from_iter([1, 3, 70]);
    /// let other = FixedBitSet::from_iter([3, 64, 70, 500]);
    /// assert_eq!(set.next_common(&other, 0), Some(3));
    /// assert_eq!(set.next_common(&other, 4), Some(70));
    /// assert_eq!(set.next_common(&other, 71), None);
    /// ```
    #[inline]
    #[must_use]
    pub fn next_common(&self, other: &FixedBitSet, from: usize) -> Option<usize> {
        self.as_bits().next_common(other.as_bits(), from)
    }

    /// The position that has exactly `index` positions of the set below it: the first has index 0.
    /// `None` where the set has no more positions than `index`.
    ///
    /// It counts word by word, up to the one that has the position, and takes a step
    /// for each of these words.
    ///
    /// Proved: the result, for all sets and all numbers
    /// ([contract](crate::contracts#fixedbitsetbitsnth_one)).
    ///
    /// ```
    /// # use fixedbitset::FixedBitSet;
    /// let set = FixedBitSet::from_iter([3, 64, 70]);
    /// assert_eq!(set.nth_one(0), Some(3));
    /// assert_eq!(set.nth_one(2), Some(70));
    /// assert_eq!(set.nth_one(3), None);
    /// ```
    #[inline]
    #[must_use]
    pub fn nth_one(&self, index: usize) -> Option<usize> {
        self.as_bits().nth_one(index)
    }

    /// The least number at or past `from` with `count` clear positions from there on, or
    /// `None` where there is none.
    ///
    /// It takes one step for each lane from that of `from` up to the end of the gap. Where
    /// there is none they are at least those up to the last place with room for one, and at
    /// most those up to the length.
    ///
    /// Proved: the result, for all sets and all numbers
    /// ([contract](crate::contracts#fixedbitsetbitsfirst_gap)).
    ///
    /// ```
    /// # use fixedbitset::FixedBitSet;
    /// let mut set = FixedBitSet::from_iter([3, 6, 90]);
    /// assert_eq!(set.first_gap(2, 0), Some(0));
    /// assert_eq!(set.first_gap(3, 1), Some(7));
    /// assert_eq!(set.first_gap(100, 0), None);
    /// ```
    #[inline]
    #[must_use]
    pub fn first_gap(&self, count: usize, from: usize) -> Option<usize> {
        self.as_bits().first_gap(count, from)
    }

    /// The greatest number with `count` clear positions from there on, all of them below `below`,
    /// or `None` where there is none.
    ///
    /// It goes over the runs of clear positions below `below`, the last one first. So it takes at
    /// most two steps for each run of positions that are set and begins there, two more, and one
    /// for each word that has such a position. They are at least one for each lane from that of
    /// the gap up to `below`, or to the length; where there is none, from that of `count` on.
    ///
    /// Proved: the result, for all sets and all numbers
    /// ([contract](crate::contracts#fixedbitsetbitslast_gap)).
    ///
    /// ```
    /// # use fixedbitset::FixedBitSet;
    /// let mut set = FixedBitSet::from_iter([3, 6, 90]);
    /// assert_eq!(set.last_gap(2, 90), Some(88));
    /// assert_eq!(set.last_gap(3, 9), Some(0));
    /// assert_eq!(set.last_gap(100, 90), None);
    /// ```
    #[inline]
    #[must_use]
    pub fn last_gap(&self, count: usize, below: usize) -> Option<usize> {
        self.as_bits().last_gap(count, below)
    }

    /// The least multiple of `align` from `start` on with `count` clear positions from there
    /// on, all below `end`, or `None` where there is none. The only multiple of 0 is 0. The
    /// range has to be valid.
    ///
    /// It takes at most two steps for each lane of the range, and one for each multiple that may
    /// stand in it; where `align` is 0 or 1, at most one for each lane. Where there is such a gap
    /// they are at least those of its own lanes.
    ///
    /// `start` and `end` are the ends of `range`.
    ///
    /// **Panics** where the range is not valid.
    ///
    /// Proved: the result, for all sets, wherever it does not panic
    /// ([contract](crate::contracts#fixedbitsetbitsfirst_aligned_gap)).
    ///
    /// ```
    /// # use fixedbitset::FixedBitSet;
    /// let mut set = FixedBitSet::from_iter([3, 6, 90]);
    /// assert!(set.len() == 91 && set.first_aligned_gap(3, 4, 1..) == Some(8));
    /// assert_eq!(set.first_aligned_gap(3, 4, 9..), Some(12));
    /// assert_eq!(set.first_aligned_gap(3, 4, 9..14), None);
    /// ```
    #[inline]
    #[must_use]
    #[track_caller]
    pub fn first_aligned_gap<T: IndexRange>(
        &self,
        count: usize,
        align: usize,
        range: T,
    ) -> Option<usize> {
        self.as_bits().first_aligned_gap(count, align, range)
    }

    /// The greatest position below `below` that is set, or `None` where none is.
    ///
    /// Proved: the result, for all sets and all numbers
    /// ([contract](crate::contracts#fixedbitsetbitsprevious_one)).
    ///
    /// ```
    /// # use fixedbitset::FixedBitSet;
    /// let mut set = FixedBitSet::with_capacity(200);
    /// set.insert_range(64..130);
    /// assert_eq!(set.previous_one(usize::MAX), Some(129));
    /// assert_eq!(set.previous_one(64), None);
    /// ```
    #[inline]
    #[must_use]
    pub fn previous_one(&self, below: usize) -> Option<usize> {
        self.as_bits().previous_one(below)
    }

    /// The greatest position below `below` and below the length that is not set, or
    /// `None` where there is none.
    ///
    /// Proved: the result, for all sets and all numbers
    /// ([contract](crate::contracts#fixedbitsetbitsprevious_zero)).
    ///
    /// ```
    /// # use fixedbitset::FixedBitSet;
    /// let mut set = FixedBitSet::with_capacity(200);
    /// set.insert_range(64..130);
    /// assert_eq!(set.previous_zero(130), Some(63));
    /// assert_eq!(set.previous_zero(0), None);
    /// ```
    #[inline]
    #[must_use]
    pub fn previous_zero(&self, below: usize) -> Option<usize> {
        self.as_bits().previous_zero(below)
    }

    /// The positions that are set, in ascending order.
    ///
    /// Proved: each item, for all sets and any mix of calls from both ends
    /// ([contract](crate::contracts#fixedbitsetbitsones)).
    ///
    /// ```
    /// # use fixedbitset::FixedBitSet;
    /// let set = FixedBitSet::from_iter([64, 3]);
    /// let items: Vec<usize> = set.ones().collect();
    /// assert_eq!(items.as_slice(), [3, 64].as_slice());
    /// ```
    #[inline]
    #[must_use]
    pub fn ones(&self) -> Ones<'_> {
        self.as_bits().ones()
    }

    /// The set positions, in ascending order, from an iterator that owns the words of the set. It does not
    /// allocate, and reads the first and the last word; those between are not yet taken.
    ///
    /// Proved: each item, for all sets ([contract](crate::contracts#fixedbitsetfixedbitsetinto_ones)).
    ///
    /// ```
    /// # use fixedbitset::FixedBitSet;
    /// let set = FixedBitSet::from_iter([64, 3, 9]);
    /// let items: Vec<usize> = set.into_ones().rev().collect();
    /// assert_eq!(items.as_slice(), [64, 9, 3].as_slice());
    /// ```
    #[inline]
    #[must_use]
    pub fn into_ones(self) -> IntoOnes {
        let walk = self.set.into_ones();
        IntoOnes { walk }
    }

    /// The positions below the length that are not set, in ascending order.
    ///
    /// Proved: each item, for all sets and any mix of calls from both ends
    /// ([contract](crate::contracts#fixedbitsetbitszeroes)).
    ///
    /// ```
    /// # use fixedbitset::FixedBitSet;
    /// let mut set = FixedBitSet::with_capacity(66);
    /// set.insert_range(1..65);
    /// let items: Vec<usize> = set.zeroes().collect();
    /// assert_eq!(items.as_slice(), [0, 65].as_slice());
    /// ```
    #[inline]
    #[must_use]
    pub fn zeroes(&self) -> Zeroes<'_> {
        self.as_bits().zeroes()
    }

    /// The positions that are set, from `start` up to and without `end`, in ascending order. The
    /// range has to be valid.
    ///
    /// `start` and `end` are the ends of `range`.
    ///
    /// **Panics** where the range is not valid.
    ///
    /// Proved: each item, for all sets and any mix of calls from both ends, wherever it does not panic
    /// ([contract](crate::contracts#fixedbitsetbitsones_in)).
    ///
    /// ```
    /// # use fixedbitset::FixedBitSet;
    /// let mut set = FixedBitSet::with_capacity(200);
    /// set.insert_range(60..130);
    /// assert!(set.ones_in(128..).eq([128, 129]));
    /// assert_eq!(set.ones_in(..=60).next(), Some(60));
    /// ```
    #[inline]
    #[must_use]
    #[track_caller]
    pub fn ones_in<T: IndexRange>(&self, range: T) -> Ones<'_> {
        self.as_bits().ones_in(range)
    }

    /// The positions that are not set, from `start` up to and without `end`, in ascending order.
    /// The range has to be valid.
    ///
    /// `start` and `end` are the ends of `range`.
    ///
    /// **Panics** where the range is not valid.
    ///
    /// Proved: each item, for all sets and any mix of calls from both ends, wherever it does not panic
    /// ([contract](crate::contracts#fixedbitsetbitszeroes_in)).
    ///
    /// ```
    /// # use fixedbitset::FixedBitSet;
    /// let mut set = FixedBitSet::with_capacity(200);
    /// set.insert_range(60..130);
    /// assert!(set.zeroes_in(58..132).eq([58, 59, 130, 131]));
    /// ```
    #[inline]
    #[must_use]
    #[track_caller]
    pub fn zeroes_in<T: IndexRange>(&self, range: T) -> Zeroes<'_> {
        self.as_bits().zeroes_in(range)
    }

    /// The runs of positions that are set, as start and end, in ascending order.
    ///
    /// Proved: each stretch, for all sets and any mix of calls from both ends
    /// ([contract](crate::contracts#fixedbitsetbitsruns)).
    ///
    /// ```
    /// # use fixedbitset::FixedBitSet;
    /// let mut set = FixedBitSet::with_capacity(200);
    /// set.insert_range(60..130);
    /// set.insert(3);
    /// assert!(set.runs().eq([(3, 4), (60, 130)]));
    /// ```
    #[inline]
    #[must_use]
    pub fn runs(&self) -> Runs<'_> {
        self.as_bits().runs()
    }

    /// The runs of positions below the length that are not set, as start and end, in ascending
    /// order.
    ///
    /// Proved: each stretch, for all sets and any mix of calls from both ends
    /// ([contract](crate::contracts#fixedbitsetbitszero_runs)).
    ///
    /// ```
    /// # use fixedbitset::FixedBitSet;
    /// let mut set = FixedBitSet::with_capacity(200);
    /// set.insert_range(60..130);
    /// assert!(set.zero_runs().eq([(0, 60), (130, 200)]));
    /// ```
    #[inline]
    #[must_use]
    pub fn zero_runs(&self) -> Runs<'_> {
        self.as_bits().zero_runs()
    }

    /// The positions that both sets have, in ascending order. It looks at no word
    /// that only one of them has.
    ///
    /// Proved: each item, for any two sets and any mix of calls from both ends
    /// ([contract](crate::contracts#fixedbitsetbitsintersection)).
    ///
    /// ```
    /// # use fixedbitset::FixedBitSet;
    /// let set = FixedBitSet::from_iter([1, 3, 64]);
    /// let other = FixedBitSet::from_iter([3, 5, 64, 200]);
    /// let items: Vec<usize> = set.intersection(&other).collect();
    /// assert_eq!(items.as_slice(), [3, 64].as_slice());
    /// ```
    #[inline]
    #[must_use]
    pub fn intersection<'a>(&'a self, other: &'a FixedBitSet) -> Intersection<'a> {
        self.as_bits().intersection(other.as_bits())
    }

    /// The positions of the first set that the second lacks, in ascending order.
    ///
    /// Proved: each item, for any two sets and any mix of calls from both ends
    /// ([contract](crate::contracts#fixedbitsetbitsdifference)).
    ///
    /// ```
    /// # use fixedbitset::FixedBitSet;
    /// let set = FixedBitSet::from_iter([1, 3, 200]);
    /// let other = FixedBitSet::from_iter([3, 64]);
    /// let items: Vec<usize> = set.difference(&other).collect();
    /// assert_eq!(items.as_slice(), [1, 200].as_slice());
    /// ```
    #[inline]
    #[must_use]
    pub fn difference<'a>(&'a self, other: &'a FixedBitSet) -> Difference<'a> {
        self.as_bits().difference(other.as_bits())
    }

    /// The positions of the first set, and then those of the second that the first lacks, each part
    /// in ascending order.
    ///
    /// Proved: each item, for any two sets and any mix of calls from both ends
    /// ([contract](crate::contracts#fixedbitsetbitsunion)).
    ///
    /// ```
    /// # use fixedbitset::FixedBitSet;
    /// let set = FixedBitSet::from_iter([9, 200]);
    /// let other = FixedBitSet::from_iter([3, 9]);
    /// let items: Vec<usize> = set.union(&other).collect();
    /// assert_eq!(items.as_slice(), [9, 200, 3].as_slice());
    /// ```
    #[inline]
    #[must_use]
    pub fn union<'a>(&'a self, other: &'a FixedBitSet) -> Union<'a> {
        self.as_bits().union(other.as_bits())
    }

    /// The positions of the first set that the second lacks, and then those of the second that the
    /// first lacks, each part in ascending order.
    ///
    /// Proved: each item, for any two sets and any mix of calls from both ends
    /// ([contract](crate::contracts#fixedbitsetbitssymmetric_difference)).
    ///
    /// ```
    /// # use fixedbitset::FixedBitSet;
    /// let set = FixedBitSet::from_iter([9, 200]);
    /// let other = FixedBitSet::from_iter([3, 9]);
    /// let items: Vec<usize> = set.symmetric_difference(&other).collect();
    /// assert_eq!(items.as_slice(), [200, 3].as_slice());
    /// ```
    #[inline]
    #[must_use]
    pub fn symmetric_difference<'a>(&'a self, other: &'a FixedBitSet) -> SymmetricDifference<'a> {
        self.as_bits().symmetric_difference(other.as_bits())
    }

    /// [`grow_and_insert`](Self::grow_and_insert), which returns an error if an allocation fails. The set
    /// is then as it was.
    ///
    /// **Panics** where `bits` is `usize::MAX`.
    ///
    /// Proved: what it leaves, also where an allocation fails, for all sets, wherever it does not panic
    /// ([contract](crate::contracts#fixedbitsetfixedbitsetgrow_and_insert)).
    ///
    /// ```
    /// # use fixedbitset::FixedBitSet;
    /// let mut set = FixedBitSet::with_capacity(2);
    /// set.try_grow_and_insert(64)?;
    /// set.try_grow_and_insert(0)?;
    /// assert_eq!(set.len(), 65);
    /// assert_eq!(set.as_slice(), [1, 1].as_slice());
    /// # Ok::<(), fixedbitset::AllocError>(())
    /// ```
    #[inline]
    #[track_caller]
    pub fn try_grow_and_insert(&mut self, bits: usize) -> Result<(), AllocError> {
        self.assert_position(bits);
        self.set.grow_and_insert(bits)
    }

    /// [`grow_and_insert`](Self::grow_and_insert), which also returns whether the position was set before:
    /// `false` at or past the old length.
    ///
    /// The position has to be below `usize::MAX`: no length is greater than that.
    ///
    /// A call that needs no more words cannot fail. It writes the word of the position and the new words,
    /// and where the allocation has to move also the old ones.
    ///
    /// Upstream has no such call.
    ///
    /// If an allocation fails, the program ends; [`try_grow_and_put`](Self::try_grow_and_put) returns an
    /// error instead.
    ///
    /// **Panics** where `bits` is `usize::MAX`.
    ///
    /// Proved: the result and what it leaves, for all sets, wherever it does not panic
    /// ([contract](crate::contracts#fixedbitsetfixedbitsetgrow_and_put)).
    ///
    /// ```
    /// # use fixedbitset::FixedBitSet;
    /// let mut set = FixedBitSet::with_capacity(2);
    /// assert!(!set.grow_and_put(64));
    /// assert!(set.grow_and_put(64));
    /// assert_eq!(set.len(), 65);
    /// assert_eq!(set.as_slice(), [0, 1].as_slice());
    /// ```
    #[inline]
    #[track_caller]
    pub fn grow_and_put(&mut self, bits: usize) -> bool {
        self.assert_position(bits);
        self.set.grow_and_put(bits).or_abort()
    }

    /// [`grow_and_put`](Self::grow_and_put), which returns an error if an allocation fails. The set is then
    /// as it was.
    ///
    /// **Panics** where `bits` is `usize::MAX`.
    ///
    /// Proved: the result and what it leaves, also where an allocation fails, for all sets, wherever it
    /// does not panic ([contract](crate::contracts#fixedbitsetfixedbitsetgrow_and_put)).
    ///
    /// ```
    /// # use fixedbitset::FixedBitSet;
    /// let mut set = FixedBitSet::with_capacity(2);
    /// assert!(!set.try_grow_and_put(64)?);
    /// assert!(set.try_grow_and_put(64)?);
    /// assert_eq!(set.len(), 65);
    /// assert_eq!(set.as_slice(), [0, 1].as_slice());
    /// # Ok::<(), fixedbitset::AllocError>(())
    /// ```
    #[inline]
    #[track_caller]
    pub fn try_grow_and_put(&mut self, bits: usize) -> Result<bool, AllocError> {
        self.assert_position(bits);
        self.set.grow_and_put(bits)
    }

    /// [`extend`](Self::extend), which returns what stops it: the position `usize::MAX`, or an allocation
    /// that fails. The positions before it are then in the set.
    ///
    /// Proved: what it leaves, also where it is stopped, for all sets
    /// ([contract](crate::contracts#fixedbitsetfixedbitsetextend)).
    ///
    /// ```
    /// # use fixedbitset::FixedBitSet;
    /// let mut set = FixedBitSet::with_capacity(10);
    /// set.try_extend([64, 3, 64])?;
    /// assert_eq!(set.len(), 65);
    /// assert_eq!(set.as_slice(), [8, 1].as_slice());
    /// # Ok::<(), fixedbitset::ExtendFault>(())
    /// ```
    #[inline]
    pub fn try_extend<I: IntoIterator<Item = usize>>(
        &mut self,
        items: I,
    ) -> Result<(), ExtendFault> {
        self.set.extend(items)
    }

    /// [`from_iter`](Self::from_iter), which returns what stops it: the position `usize::MAX`, or an
    /// allocation that fails.
    ///
    /// Proved: the set, for all positions ([contract](crate::contracts#fixedbitsetfixedbitsetfrom_iter)).
    ///
    /// ```
    /// # use fixedbitset::FixedBitSet;
    /// let set = FixedBitSet::try_from_iter([64, 3])?;
    /// assert_eq!(set.len(), 65);
    /// assert_eq!(set.as_slice(), [8, 1].as_slice());
    /// # Ok::<(), fixedbitset::ExtendFault>(())
    /// ```
    #[inline]
    pub fn try_from_iter<I: IntoIterator<Item = usize>>(items: I) -> Result<Self, ExtendFault> {
        let set = set::FixedBitSet::from_iter(Global::Try, items)?;
        Ok(FixedBitSet { set })
    }
}
