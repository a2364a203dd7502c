//! Sets beside slow lists of their positions.

use fixedbitset::FixedBitSet;
use std::alloc::{AllocError, Global};
use std::process::Abort;

/// The set of this length with those of these positions that are below it.
pub fn set_of(
    alloc: Global,
    length: usize,
    positions: &[usize],
) -> Result<FixedBitSet, AllocError> {
    let mut set = FixedBitSet::with_capacity(alloc, length)?;
    for position in positions {
        if *position < length {
            set.insert(*position);
        }
    }
    Ok(set)
}

/// Which positions of a set are set.
#[derive(Clone, Copy, Debug)]
pub enum Filling {
    Sevenths,
    All,
    Nothing,
    First,
    Last,
}

pub const FILLINGS: [Filling; 5] = [
    Filling::Sevenths,
    Filling::All,
    Filling::Nothing,
    Filling::First,
    Filling::Last,
];

impl Filling {
    // Whether a set of this length has the position.
    fn has(self, length: usize, position: usize) -> bool {
        match self {
            Filling::Sevenths => position % 7 == 0,
            Filling::All => true,
            Filling::Nothing => false,
            Filling::First => position == 0,
            Filling::Last => position == length.saturating_sub(1),
        }
    }

    /// The positions below the length that are set, or those that are not.
    pub fn positions(
        self,
        alloc: Global,
        length: usize,
        is_set: bool,
    ) -> Result<Vec<usize>, AllocError> {
        let mut list = Vec::new(alloc);
        for position in 0..length {
            if self.has(length, position) == is_set {
                list.push(position)?;
            }
        }
        Ok(list)
    }
}

/// The positions of `example`.
pub const EXAMPLE: [usize; 5] = [0, 7, 63, 64, 130];

/// A set of three words, with positions at the edges of words.
pub fn example(alloc: Global) -> Result<FixedBitSet, AllocError> {
    set_of(alloc, 131, EXAMPLE.as_slice())
}

/// The list has these items.
pub fn assert_items(rt: &impl Abort, list: &[usize], wanted: &[usize]) {
    assert_eq!(rt; list, wanted);
}

/// The answer is this one.
pub fn assert_answer(rt: &impl Abort, answer: Option<usize>, wanted: Option<usize>) {
    assert_eq!(rt; answer, wanted);
}

/// The number is this one.
pub fn assert_number(rt: &impl Abort, number: usize, wanted: usize) {
    assert_eq!(rt; number, wanted);
}
