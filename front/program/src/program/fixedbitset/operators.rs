// Made by front/erase from crates/fixedbitset/src/operators.rt: change that, and not this.
//! The operators on sets.

use crate::program::fixedbitset::set::FixedBitSet;
use core::ops::{BitAndAssign, Index};

// What an index returns.
static TRUE: bool = true;

static FALSE: bool = false;

/// `set &= other` is `set.intersect_with(&other)`: the length stays, and the positions that both
/// have. It does not allocate.
///
/// ```text
/// let mut set = FixedBitSet::from_iter(alloc, [1, 3, 64])?;
/// set &= FixedBitSet::from_iter(alloc, [3, 5])?;
/// assert_eq!(set.len(), 65);
/// assert_eq!(set.as_slice(), [8, 0].as_slice());
/// ```
impl BitAndAssign for FixedBitSet {
    fn bitand_assign(&mut self, other: FixedBitSet) {
        self.intersect_with(&other);
    }
}

/// `set &= &other` is `set.intersect_with(&other)`: the length stays, and the positions that both
/// have. It does not allocate.
///
/// ```text
/// let mut set = FixedBitSet::from_iter(alloc, [3, 5])?;
/// let other = FixedBitSet::from_iter(alloc, [1, 3, 64])?;
/// set &= &other;
/// assert_eq!(set.as_slice(), [8].as_slice());
/// assert_eq!(other.count_ones(..), 3);
/// ```
impl BitAndAssign<&FixedBitSet> for FixedBitSet {
    fn bitand_assign(&mut self, other: &FixedBitSet) {
        self.intersect_with(other);
    }
}

/// `set[bit]` is `set.contains(bit)`: `false` at or past the length.
///
/// ```text
/// let set = FixedBitSet::from_iter(alloc, [3, 64])?;
/// assert!(set[64] && !set[63]);
/// assert!(!set[usize::MAX]);
/// ```
impl Index<usize> for FixedBitSet {
    type Output = bool;

    fn index(&self, bit: usize) -> &bool {
        if self.contains(bit) { &TRUE } else { &FALSE }
    }
}
