// Made by front/erase from crates/bitcommands/src/commands/arguments.rt: change that, and not this.
//! What commands are given besides numbers: a range of positions, and the ends of an iterator.

use crate::program::fixedbitset::IndexRange;

/// A range of positions: from `start`, or 0, up to and without `end`, or the length.
///
/// ```text
/// let set = FixedBitSet::with_capacity(alloc, 70)?;
/// let span = Span {
///     start: Some(60),
///     end: None,
/// };
/// assert_eq!(set.count_zeroes(span), 10);
/// ```
#[derive(Clone, Copy, Debug)]
pub struct Span {
    pub start: Option<usize>,
    pub end: Option<usize>,
}

impl IndexRange<usize> for Span {
    fn start(&self) -> Option<usize> {
        self.start
    }

    fn end(&self) -> Option<usize> {
        self.end
    }
}

/// The end of an iterator from which an item is asked.
pub enum End {
    /// The first of the items that are left.
    Front,
    /// The last of them.
    Back,
}
