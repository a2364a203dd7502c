// Made by front/publish from the sources in crates: change these, and not this.
//! The calls of ranks, slots and tables.
use crate::memory::OrAbort;
use crate::proved::{bitranks::ranks, bitrows::table, bitslots::slots};
use crate::shim::alloc::Global;
use crate::{AllocError, BitRows, Bits, FixedBitSet, Ranks, RowsMut, Slots};

impl<'a> Ranks<'a> {
    /// The ranks of a set. It looks at each word of the set once at most.
    ///
    /// If an allocation fails, the program ends; [`try_of`](Self::try_of) returns an error instead.
    ///
    /// Proved: the set, for all sets ([contract](crate::contracts#bitranksranksof)).
    ///
    /// ```
    /// # use fixedbitset::{FixedBitSet, Ranks};
    /// let set = FixedBitSet::from_iter([3, 64, 70]);
    /// let ranks = Ranks::of(&set);
    /// assert_eq!(ranks.rank(70), 2);
    /// assert_eq!(ranks.select(2), Some(70));
    /// ```
    #[inline]
    #[must_use]
    pub fn of(set: &'a FixedBitSet) -> Self {
        let ranks = ranks::Ranks::of(Global::Abort, &set.set).or_abort();
        Ranks { set, ranks }
    }

    /// [`of`](Self::of), which returns an error if an allocation fails.
    ///
    /// Proved: the set, for all sets ([contract](crate::contracts#bitranksranksof)).
    ///
    /// ```
    /// # use fixedbitset::{FixedBitSet, Ranks};
    /// let set = FixedBitSet::from_iter([3, 64, 70]);
    /// let ranks = Ranks::try_of(&set)?;
    /// assert_eq!(ranks.rank(70), 2);
    /// assert_eq!(ranks.select(2), Some(70));
    /// # Ok::<(), fixedbitset::AllocError>(())
    /// ```
    #[inline]
    pub fn try_of(set: &'a FixedBitSet) -> Result<Self, AllocError> {
        let ranks = ranks::Ranks::of(Global::Try, &set.set)?;
        Ok(Ranks { set, ranks })
    }

    /// How many positions below this one are set. The position may be any number; past the length all are
    /// below it.
    ///
    /// It looks at one entry of the directory and at eight words of the set at most.
    ///
    /// Proved: the result, for all sets and all numbers ([contract](crate::contracts#bitranksranksrank)).
    ///
    /// ```
    /// # use fixedbitset::{FixedBitSet, Ranks};
    /// let set = FixedBitSet::from_iter([3, 64, 70]);
    /// let ranks = Ranks::of(&set);
    /// assert_eq!(ranks.rank(64), 1);
    /// assert_eq!(ranks.rank(65), 2);
    /// assert_eq!(ranks.rank(usize::MAX), 3);
    /// ```
    #[inline]
    #[must_use]
    pub fn rank(&self, position: usize) -> usize {
        self.ranks.rank(position)
    }

    /// The position with so many positions of the set below it: the first has index 0. `None` where the set
    /// has no more positions than that.
    ///
    /// It looks at one entry of the directory for each time that it can be halved, and at eight words of
    /// the set at most.
    ///
    /// Proved: the result, for all sets and all numbers ([contract](crate::contracts#bitranksranksselect)).
    ///
    /// ```
    /// # use fixedbitset::{FixedBitSet, Ranks};
    /// let set = FixedBitSet::from_iter([3, 64, 70]);
    /// let ranks = Ranks::of(&set);
    /// assert_eq!(ranks.select(0), Some(3));
    /// assert_eq!(ranks.select(1), Some(64));
    /// assert_eq!(ranks.select(3), None);
    /// ```
    #[inline]
    #[must_use]
    pub fn select(&self, index: usize) -> Option<usize> {
        self.ranks.select(index)
    }
}

#[allow(clippy::len_without_is_empty)]
impl Slots {
    /// So many slots, all free.
    ///
    /// If an allocation fails, the program ends; [`try_new`](Self::try_new) returns an error instead.
    ///
    /// Proved: the slots, for all numbers ([contract](crate::contracts#bitslotsslotsnew)).
    ///
    /// ```
    /// # use fixedbitset::Slots;
    /// assert_eq!(Slots::new(100).free(), 100);
    /// ```
    #[inline]
    #[must_use]
    pub fn new(many: usize) -> Self {
        let slots = slots::Slots::new(Global::Abort, many).or_abort();
        Slots { slots }
    }

    /// [`new`](Self::new), which returns an error if an allocation fails.
    ///
    /// Proved: the slots, for all numbers ([contract](crate::contracts#bitslotsslotsnew)).
    ///
    /// ```
    /// # use fixedbitset::Slots;
    /// assert_eq!(Slots::try_new(100)?.free(), 100);
    /// # Ok::<(), fixedbitset::AllocError>(())
    /// ```
    #[inline]
    pub fn try_new(many: usize) -> Result<Self, AllocError> {
        let slots = slots::Slots::new(Global::Try, many)?;
        Ok(Slots { slots })
    }

    /// Takes the least free slot. `None` is returned exactly where all are taken.
    ///
    /// It looks at the words from the least slot that was given back since the last call on, or from behind
    /// the slot that this call returned, to that of the slot.
    ///
    /// Proved: the result and what it leaves, for all slots
    /// ([contract](crate::contracts#bitslotsslotstake)).
    ///
    /// ```
    /// # use fixedbitset::Slots;
    /// let mut slots = Slots::new(1);
    /// assert_eq!((slots.take(), slots.take()), (Some(0), None));
    /// ```
    #[inline]
    pub fn take(&mut self) -> Option<usize> {
        self.slots.take()
    }

    /// Makes a slot free that is taken.
    ///
    /// **Panics** where it is not taken.
    ///
    /// Proved: what it leaves, for all slots, wherever it does not panic
    /// ([contract](crate::contracts#bitslotsslotsgive_back)).
    ///
    /// ```
    /// # use fixedbitset::Slots;
    /// let mut slots = Slots::new(2);
    /// if let Some(slot) = slots.take() {
    ///     slots.give_back(slot);
    /// }
    /// assert_eq!(slots.free(), 2);
    /// ```
    #[inline]
    #[track_caller]
    pub fn give_back(&mut self, slot: usize) {
        self.assert_taken(self.is_taken(slot), slot, 1);
        self.slots.give_back(slot);
    }

    /// Takes `count` slots one after the other, from the least start at or past `from` where all of them
    /// are free, and returns that start. `None` is returned exactly where there is no such start, and then
    /// nothing changes.
    ///
    /// Proved: the result and what it leaves, for all slots and all numbers
    /// ([contract](crate::contracts#bitslotsslotstake_stretch)).
    ///
    /// ```
    /// # use fixedbitset::Slots;
    /// let mut slots = Slots::new(8);
    /// assert_eq!(slots.take_stretch(3, 2), Some(2));
    /// assert_eq!((slots.take_stretch(3, 0), slots.take_stretch(4, 0)), (Some(5), None));
    /// ```
    #[inline]
    pub fn take_stretch(&mut self, count: usize, from: usize) -> Option<usize> {
        self.slots.take_stretch(count, from)
    }

    /// Takes `count` slots one after the other, from the least multiple of `align` on where all of them are
    /// free, and returns that start. `None` is returned exactly where there is no such start, and then
    /// nothing changes. The only multiple of 0 is 0.
    ///
    /// Proved: the result and what it leaves, for all slots and all numbers
    /// ([contract](crate::contracts#bitslotsslotstake_aligned_stretch)).
    ///
    /// ```
    /// # use fixedbitset::Slots;
    /// let mut slots = Slots::new(16);
    /// assert_eq!(slots.take(), Some(0));
    /// assert_eq!(slots.take_aligned_stretch(4, 4), Some(4));
    /// ```
    #[inline]
    pub fn take_aligned_stretch(&mut self, count: usize, align: usize) -> Option<usize> {
        self.slots.take_aligned_stretch(count, align)
    }

    /// Makes the `count` slots from `start` on free, each of which is taken.
    ///
    /// **Panics** where one of them is not taken.
    ///
    /// Proved: what it leaves, for all slots, wherever it does not panic
    /// ([contract](crate::contracts#bitslotsslotsgive_back_stretch)).
    ///
    /// ```
    /// # use fixedbitset::Slots;
    /// let mut slots = Slots::new(8);
    /// if let Some(start) = slots.take_stretch(8, 0) {
    ///     slots.give_back_stretch(start, 8);
    /// }
    /// assert_eq!(slots.free(), 8);
    /// ```
    #[inline]
    #[track_caller]
    pub fn give_back_stretch(&mut self, start: usize, count: usize) {
        self.assert_taken(self.slots.is_taken_stretch(start, count), start, count);
        self.slots.give_back_stretch(start, count);
    }

    /// Whether the slot is taken. A slot past the end is not.
    ///
    /// Proved: the result, for all slots and all numbers
    /// ([contract](crate::contracts#bitslotsslotsis_taken)).
    ///
    /// ```
    /// # use fixedbitset::Slots;
    /// let mut slots = Slots::new(2);
    /// assert_eq!(slots.take_stretch(1, 1), Some(1));
    /// assert!(slots.is_taken(1) && !slots.is_taken(0));
    /// ```
    #[inline]
    #[must_use]
    pub fn is_taken(&self, slot: usize) -> bool {
        self.slots.is_taken(slot)
    }

    /// How many slots there are.
    ///
    /// Proved: the result, for all slots ([contract](crate::contracts#bitslotsslotslen)).
    ///
    /// ```
    /// # use fixedbitset::Slots;
    /// assert_eq!(Slots::new(100).len(), 100);
    /// ```
    #[inline]
    #[must_use]
    pub fn len(&self) -> usize {
        self.slots.len()
    }

    /// The slots that are taken.
    ///
    /// Proved: the set, for all slots ([contract](crate::contracts#bitslotsslotstaken)).
    ///
    /// ```
    /// # use fixedbitset::Slots;
    /// let mut slots = Slots::new(100);
    /// assert_eq!(slots.take_stretch(2, 60), Some(60));
    /// assert!(slots.taken().ones().eq([60, 61]));
    /// ```
    #[inline]
    #[must_use]
    pub fn taken(&self) -> Bits<'_> {
        let view = self.slots.taken();
        Bits { view }
    }

    /// How many slots are free. They and those that are taken are all slots.
    ///
    /// Proved: the result, for all slots ([contract](crate::contracts#bitslotsslotsfree)).
    ///
    /// ```
    /// # use fixedbitset::Slots;
    /// let mut slots = Slots::new(5);
    /// let _first = slots.take();
    /// assert_eq!(slots.free(), 4);
    /// ```
    #[inline]
    #[must_use]
    pub fn free(&self) -> usize {
        self.slots.free()
    }
}

impl BitRows {
    /// A table of `rows` rows and `columns` columns, with no bit.
    ///
    /// If an allocation fails, the program ends; [`try_new`](Self::try_new) returns an error instead.
    ///
    /// **Panics** where its words would be more than a vector can have.
    ///
    /// Proved: the table, for all numbers, wherever it does not panic
    /// ([contract](crate::contracts#bitrowsbitrowsnew)).
    ///
    /// ```
    /// # use fixedbitset::BitRows;
    /// let table = BitRows::new(3, 70);
    /// assert_eq!(table.rows(), 3);
    /// assert_eq!(table.columns(), 70);
    /// assert!(!table.get(2, 69));
    /// ```
    #[inline]
    #[must_use]
    #[track_caller]
    pub fn new(rows: usize, columns: usize) -> Self {
        let table = table::BitRows::new(Global::Abort, rows, columns).or_abort();
        BitRows { table }
    }

    /// [`new`](Self::new), which returns an error if an allocation fails.
    ///
    /// Proved: the table, for all numbers ([contract](crate::contracts#bitrowsbitrowsnew)).
    ///
    /// ```
    /// # use fixedbitset::BitRows;
    /// let table = BitRows::try_new(3, 70)?;
    /// assert_eq!(table.rows(), 3);
    /// assert_eq!(table.columns(), 70);
    /// assert!(!table.get(2, 69));
    /// # Ok::<(), fixedbitset::AllocError>(())
    /// ```
    #[inline]
    pub fn try_new(rows: usize, columns: usize) -> Result<Self, AllocError> {
        let table = table::BitRows::new(Global::Try, rows, columns)?;
        Ok(BitRows { table })
    }

    /// How many rows there are.
    ///
    /// Proved: the result, for all tables ([contract](crate::contracts#bitrowsbitrowsrows)).
    ///
    /// ```
    /// # use fixedbitset::BitRows;
    /// let table = BitRows::new(3, 70);
    /// assert_eq!(table.rows(), 3);
    /// ```
    #[inline]
    #[must_use]
    pub fn rows(&self) -> usize {
        self.table.rows()
    }

    /// How many columns there are. Each row is a set of this length.
    ///
    /// Proved: the result, for all tables ([contract](crate::contracts#bitrowsbitrowscolumns)).
    ///
    /// ```
    /// # use fixedbitset::BitRows;
    /// let table = BitRows::new(3, 70);
    /// assert_eq!(table.columns(), 70);
    /// ```
    #[inline]
    #[must_use]
    pub fn columns(&self) -> usize {
        self.table.columns()
    }

    /// Whether the row has a bit at the column: `false` past the rows and past the columns.
    ///
    /// Proved: the result, for all tables and all numbers ([contract](crate::contracts#bitrowsbitrowsget)).
    ///
    /// ```
    /// # use fixedbitset::BitRows;
    /// let mut table = BitRows::new(3, 70);
    /// table.set(1, 69, true);
    /// assert!(table.get(1, 69) && !table.get(2, 69));
    /// assert!(!table.get(1, 500) && !table.get(3, 69));
    /// ```
    #[inline]
    #[must_use]
    pub fn get(&self, row: usize, column: usize) -> bool {
        self.table.get(row, column)
    }

    /// Sets the bit of the row at the column, or clears it where `enabled` is false. The table has to have
    /// both. It writes one word.
    ///
    /// **Panics** where the table has no such row or no such column.
    ///
    /// Proved: what it leaves, for all tables, wherever it does not panic
    /// ([contract](crate::contracts#bitrowsbitrowsset)).
    ///
    /// ```
    /// # use fixedbitset::BitRows;
    /// let mut table = BitRows::new(3, 70);
    /// table.set(1, 69, true);
    /// table.set(1, 3, true);
    /// table.set(1, 69, false);
    /// assert!(table.row(1).eq([3]));
    /// ```
    #[inline]
    #[track_caller]
    pub fn set(&mut self, row: usize, column: usize, enabled: bool) {
        self.assert_cell(row, column);
        self.table.set(row, column, enabled);
    }

    /// Row `into` takes in the bits of row `from`, and the other rows stay. It returns whether a bit came
    /// in. The table has to have both rows; where they are one, nothing changes. It reads each word of the
    /// two rows once.
    ///
    /// **Panics** where the table has not both rows.
    ///
    /// Proved: the result and what it leaves, for all tables, wherever it does not panic
    /// ([contract](crate::contracts#bitrowsbitrowsunion_rows)).
    ///
    /// ```
    /// # use fixedbitset::BitRows;
    /// let mut table = BitRows::new(3, 70);
    /// table.set(0, 69, true);
    /// assert!(table.union_rows(0, 2));
    /// assert!(!table.union_rows(0, 2) && !table.union_rows(0, 0));
    /// assert!(table.get(2, 69) && !table.get(1, 69));
    /// ```
    #[inline]
    #[track_caller]
    pub fn union_rows(&mut self, from: usize, into: usize) -> bool {
        self.assert_pair(from, into);
        self.table.union_rows(from, into)
    }

    /// The transitive closure of the graph that has an edge from each row to each column at which the row
    /// has a bit: afterwards row `a` has a bit at column `b` exactly if some path of one or more edges led
    /// from `a` to `b`.
    ///
    /// Nothing leads on from a column that is no row. It does not allocate. With `n` rows and `m` columns
    /// it looks at `n * min(n, m)` bits, and joins two rows for each bit that it finds set.
    ///
    /// Proved: what it leaves, for all tables ([contract](crate::contracts#bitrowsbitrowsclose)).
    ///
    /// ```
    /// # use fixedbitset::BitRows;
    /// let mut table = BitRows::new(3, 3);
    /// table.set(0, 2, true);
    /// table.set(2, 1, true);
    /// table.close();
    /// assert!(table.row(0).eq([1, 2]));
    /// assert!(table.get(2, 1) && !table.get(1, 0));
    /// ```
    #[inline]
    pub fn close(&mut self) {
        self.table.close();
    }
}

impl RowsMut<'_> {
    /// How many rows there are.
    ///
    /// Proved: the result, for all tables ([contract](crate::contracts#bitrowsrowsmutas_rows)).
    ///
    /// ```
    /// # use fixedbitset::BitRows;
    /// let table = BitRows::new(3, 70);
    /// assert_eq!(table.rows(), 3);
    /// ```
    #[inline]
    #[must_use]
    pub fn rows(&self) -> usize {
        self.table.rows
    }

    /// How many columns there are. Each row is a set of this length.
    ///
    /// Proved: the result, for all tables ([contract](crate::contracts#bitrowsrowsmutas_rows)).
    ///
    /// ```
    /// # use fixedbitset::BitRows;
    /// let table = BitRows::new(3, 70);
    /// assert_eq!(table.columns(), 70);
    /// ```
    #[inline]
    #[must_use]
    pub fn columns(&self) -> usize {
        self.table.columns
    }

    /// Whether the row has a bit at the column: `false` past the rows and past the columns.
    ///
    /// Proved: the result, for all tables and each of their rows ([contract](crate::contracts#bitrowsrowsget)).
    ///
    /// ```
    /// # use fixedbitset::BitRows;
    /// let mut table = BitRows::new(3, 70);
    /// table.set(1, 69, true);
    /// assert!(table.get(1, 69) && !table.get(2, 69));
    /// assert!(!table.get(1, 500) && !table.get(3, 69));
    /// ```
    #[inline]
    #[must_use]
    pub fn get(&self, row: usize, column: usize) -> bool {
        row < self.rows() && self.table.as_rows().get(row, column)
    }

    /// Sets the bit of the row at the column, or clears it where `enabled` is false. The table has to have
    /// both. It writes one word.
    ///
    /// **Panics** where the table has no such row or no such column.
    ///
    /// Proved: what it leaves, for all tables, wherever it does not panic
    /// ([contract](crate::contracts#bitrowsrowsmutset)).
    ///
    /// ```
    /// # use fixedbitset::BitRows;
    /// let mut table = BitRows::new(3, 70);
    /// table.set(1, 69, true);
    /// table.set(1, 3, true);
    /// table.set(1, 69, false);
    /// assert!(table.row(1).eq([3]));
    /// ```
    #[inline]
    #[track_caller]
    pub fn set(&mut self, row: usize, column: usize, enabled: bool) {
        self.assert_cell(row, column);
        self.table.set(row, column, enabled);
    }

    /// Row `into` takes in the bits of row `from`, and the other rows stay. It returns whether a bit came
    /// in. The table has to have both rows; where they are one, nothing changes. It reads each word of the
    /// two rows once.
    ///
    /// **Panics** where the table has not both rows.
    ///
    /// Proved: the result and what it leaves, for all tables, wherever it does not panic
    /// ([contract](crate::contracts#bitrowsrowsmutunion_rows)).
    ///
    /// ```
    /// # use fixedbitset::BitRows;
    /// let mut table = BitRows::new(3, 70);
    /// table.set(0, 69, true);
    /// assert!(table.union_rows(0, 2));
    /// assert!(!table.union_rows(0, 2) && !table.union_rows(0, 0));
    /// assert!(table.get(2, 69) && !table.get(1, 69));
    /// ```
    #[inline]
    #[track_caller]
    pub fn union_rows(&mut self, from: usize, into: usize) -> bool {
        self.assert_pair(from, into);
        self.table.union_rows(from, into)
    }
}
