// Made by front/erase from crates/bitslots/src/slots.rt: change that, and not this.
//! Slots, each of them taken or free.
//!
//! Contracts see the slots as a length, how many there are, and the set of those that are taken
//! (`specs/Slots.antt`).

use crate::proved::fixedbitset::FixedBitSet;
use crate::shim::alloc::{AllocError, Global};

/// So many slots, numbered from 0, each taken or free. In every run of calls a slot that was taken
/// twice, alone or in a stretch, was given back in between ([`never_twice`]).
///
/// ```text
/// let mut slots = Slots::new(alloc, 3)?;
/// assert_eq!((slots.take(), slots.take(), slots.take()), (Some(0), Some(1), Some(2)));
/// slots.give_back(1);
/// assert_eq!((slots.take(), slots.take()), (Some(1), None));
/// ```
///
/// It keeps a bit for each slot, and a number below which all slots are taken. There
/// [`take`](Self::take) begins to look.
pub struct Slots {
    taken: FixedBitSet,
    low: usize,
}

impl Slots {
    /// So many slots, all free. `Err` is returned only on allocation failure.
    ///
    /// ```text
    /// assert_eq!(Slots::new(alloc, 100)?.free(), 100);
    /// ```
    pub fn new(alloc: Global, many: usize) -> Result<Slots, AllocError> {
        let taken = FixedBitSet::with_capacity(alloc, many)?;
        Ok(Slots { taken, low: 0 })
    }

    /// Takes the least free slot. `None` is returned exactly where all are taken.
    ///
    /// It looks at the words from the least slot that was given back since the last call on, or
    /// from behind the slot that this call returned, to that of the slot.
    ///
    /// ```text
    /// let mut slots = Slots::new(alloc, 1)?;
    /// assert_eq!((slots.take(), slots.take()), (Some(0), None));
    /// ```
    #[inline]
    pub fn take(&mut self) -> Option<usize> {
        let _many = self.taken.len();
        let slot = self.taken.next_zero(self.low)?;
        self.taken.insert(slot);
        self.low = slot + 1;
        Some(slot)
    }

    /// Makes a slot free that is taken.
    ///
    /// ```text
    /// let mut slots = Slots::new(alloc, 2)?;
    /// if let Some(slot) = slots.take() {
    ///     slots.give_back(slot);
    /// }
    /// assert_eq!(slots.free(), 2);
    /// ```
    #[inline]
    pub fn give_back(&mut self, slot: usize) {
        self.taken.remove(slot);
        self.low = self.low.min(slot);
    }

    /// Takes `count` slots one after the other, from the least start at or past `from` where all of
    /// them are free, and returns that start. `None` is returned exactly where there is no such
    /// start, and then nothing changes.
    ///
    /// ```text
    /// let mut slots = Slots::new(alloc, 8)?;
    /// assert_eq!(slots.take_stretch(3, 2), Some(2));
    /// assert_eq!((slots.take_stretch(3, 0), slots.take_stretch(4, 0)), (Some(5), None));
    /// ```
    pub fn take_stretch(&mut self, count: usize, from: usize) -> Option<usize> {
        let _many = self.taken.len();
        let start = self.taken.first_gap(count, from)?;
        self.taken.insert_range(start..start + count);
        Some(start)
    }

    /// Takes `count` slots one after the other, from the least multiple of `align` on where all of
    /// them are free, and returns that start. `None` is returned exactly where there is no such
    /// start, and then nothing changes. The only multiple of 0 is 0.
    ///
    /// ```text
    /// let mut slots = Slots::new(alloc, 16)?;
    /// assert_eq!(slots.take(), Some(0));
    /// assert_eq!(slots.take_aligned_stretch(4, 4), Some(4));
    /// ```
    pub fn take_aligned_stretch(&mut self, count: usize, align: usize) -> Option<usize> {
        let many = self.taken.len();
        let start = self.taken.first_aligned_gap(count, align, 0..many)?;
        self.taken.insert_range(start..start + count);
        Some(start)
    }

    /// Makes the `count` slots from `start` on free, each of which is taken.
    ///
    /// ```text
    /// let mut slots = Slots::new(alloc, 8)?;
    /// if let Some(start) = slots.take_stretch(8, 0) {
    ///     slots.give_back_stretch(start, 8);
    /// }
    /// assert_eq!(slots.free(), 8);
    /// ```
    pub fn give_back_stretch(&mut self, start: usize, count: usize) {
        let _many = self.taken.len();
        self.taken.remove_range(start..start + count);
        self.low = self.low.min(start);
    }

    /// Whether the slot is taken. A slot past the end is not.
    ///
    /// ```text
    /// let mut slots = Slots::new(alloc, 2)?;
    /// assert_eq!(slots.take_stretch(1, 1), Some(1));
    /// assert!(slots.is_taken(1) && !slots.is_taken(0));
    /// ```
    #[inline]
    pub fn is_taken(&self, slot: usize) -> bool {
        self.taken.contains(slot)
    }

    /// Whether there are the `count` slots from `start` on, and each of them is taken.
    ///
    /// ```text
    /// let mut slots = Slots::new(alloc, 4)?;
    /// assert_eq!(slots.take_stretch(2, 1), Some(1));
    /// assert!(slots.is_taken_stretch(1, 2) && !slots.is_taken_stretch(0, 2));
    /// ```
    pub fn is_taken_stretch(&self, start: usize, count: usize) -> bool {
        let many = self.taken.len();
        start <= many
            && count <= many - start
            && self.taken.contains_all_in_range(start..start + count)
    }

    /// How many slots there are.
    ///
    /// ```text
    /// assert_eq!(Slots::new(alloc, 100)?.len(), 100);
    /// ```
    #[inline]
    pub fn len(&self) -> usize {
        self.taken.len()
    }

    /// The slots that are taken.
    ///
    /// ```text
    /// let mut slots = Slots::new(alloc, 100)?;
    /// assert_eq!(slots.take_stretch(2, 60), Some(60));
    /// assert!(slots.taken().ones().eq([60, 61]));
    /// ```
    #[inline]
    pub fn taken(&self) -> crate::proved::fixedbitset::Bits<'_> {
        self.taken.as_bits()
    }

    /// How many slots are free. They and those that are taken are all slots.
    ///
    /// ```text
    /// let mut slots = Slots::new(alloc, 5)?;
    /// let _first = slots.take();
    /// assert_eq!(slots.free(), 4);
    /// ```
    pub fn free(&self) -> usize {
        self.taken.count_zeroes(..)
    }

    /// Moves what is in a slot to the front: gives the slot back and takes the least free
    /// one, which is not past it.
    ///
    /// ```text
    /// let mut slots = Slots::new(alloc, 9)?;
    /// assert_eq!(slots.take_stretch(1, 7), Some(7));
    /// assert_eq!(slots.lower(7), 0);
    /// ```
    pub fn lower(&mut self, slot: usize) -> usize {
        self.give_back(slot);
        self.take().unwrap_or(slot)
    }
}

/// In every run of calls a slot that two of them take, alone or in a stretch, was
/// given back in between. It does nothing: its contract is a law of what the calls
/// that take and give back ensure.
///
/// ```text
/// let mut slots = Slots::new(alloc, 1)?;
/// let first = slots.take();
/// bitslots::never_twice();
/// assert!(first == Some(0) && slots.take().is_none());
/// ```
pub fn never_twice() {}
