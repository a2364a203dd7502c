//! An allocator's slots. Upstream has none.
use crate::changes::asserts;
use crate::panics;
use crate::proved::bitslots;
use core::fmt::{Debug, Formatter, Result as Written};

/// So many slots, numbered from 0, each taken or free: for example the registers of a compiler, the blocks of a disk, or the places
/// of an arena.
///
/// Proved: what its calls return and leave ([contract](crate::contracts#bitslotsslotstake)), and that in every run of calls a
/// slot that was taken twice was given back in between ([contract](crate::contracts#bitslotsnever_twice)).
///
/// ```
/// use fixedbitset::Slots;
///
/// // Which register does a variable get?
/// let mut registers = Slots::new(3);
/// assert_eq!([registers.take(), registers.take()], [Some(0), Some(1)]);
/// registers.give_back(0);
/// assert_eq!([registers.take(), registers.take(), registers.take()], [Some(0), Some(2), None]);
/// ```
pub struct Slots {
    pub(crate) slots: bitslots::Slots,
}

impl Slots {
    asserts! {
        assert_taken(&self, are_taken: bool, start: usize, count: usize)
            !are_taken => panics::not_taken(start, start.saturating_add(count), self.len());
    }
}

/// Proved: the positions ([contract](crate::contracts#fixedbitsetbitsones)). The text around them is not.
impl Debug for Slots {
    /// The set of those.
    fn fmt(&self, f: &mut Formatter<'_>) -> Written {
        f.debug_struct("Slots")
            .field("taken", &self.taken())
            .finish()
    }
}
