//! How many positions stand below a given one, and which is the k-th. Upstream has no such calls.
use crate::proved::bitranks;
use crate::FixedBitSet;
use core::fmt::{Debug, Formatter, Result as Written};

/// A set that is borrowed, with a directory that returns how many positions stand below a given one.
///
/// The directory takes one word of memory for eight words of the set. While it lives the set cannot change.
///
/// Proved: what `rank` and `select` return ([contract](crate::contracts#bitranksranksrank)).
///
/// ```
/// use fixedbitset::{FixedBitSet, Ranks};
///
/// let set: FixedBitSet = [3, 64, 70].into_iter().collect();
/// let ranks = Ranks::of(&set);
/// assert_eq!((ranks.rank(64), ranks.select(2)), (1, Some(70)));
/// assert_eq!(format!("{ranks:?}"), "Ranks { set: FixedBitSet { length: 71, ones: {3, 64, 70} } }");
/// ```
pub struct Ranks<'a> {
    pub(crate) set: &'a FixedBitSet,
    pub(crate) ranks: bitranks::Ranks<'a>,
}

impl<'a> Ranks<'a> {
    /// The set.
    ///
    /// Not proved: it returns what is kept.
    ///
    /// ```
    /// # use fixedbitset::{FixedBitSet, Ranks};
    /// let set: FixedBitSet = [3, 64, 70].into_iter().collect();
    /// assert_eq!(Ranks::of(&set).set().len(), 71);
    /// ```
    #[inline]
    #[must_use]
    pub fn set(&self) -> &'a FixedBitSet {
        self.set
    }
}

/// Proved: the positions ([contract](crate::contracts#fixedbitsetbitsones)). The text around them is not.
impl Debug for Ranks<'_> {
    /// The set.
    fn fmt(&self, f: &mut Formatter<'_>) -> Written {
        f.debug_struct("Ranks").field("set", self.set).finish()
    }
}
