// Made by front/erase from crates/bitcommands/src/commands/calling.rt: change that, and not this.
//! Calls of an iterator from its ends, one after the other.

use crate::shim::prelude::Vec;
use crate::program::bitcommands::commands::arguments::End;
use crate::program::bitcommands::commands::refusals::Refusal;
use crate::program::bitcommands::commands::replies::Reply;
use crate::program::fixedbitset::{Difference, Intersection, IntoOnes, Ones, SymmetricDifference, Union, Zeroes};
use crate::shim::alloc::Global;

// An iterator that is called from its two ends.
pub(super) trait TwoEnds {
    // The items that are left.

    // The first item that is left, or `None`.
    fn front(&mut self) -> Option<usize>;

    // The last item that is left, or `None`.
    fn back(&mut self) -> Option<usize>;
}

impl<'a> TwoEnds for Ones<'a> {
    fn front(&mut self) -> Option<usize> {
        self.next()
    }

    fn back(&mut self) -> Option<usize> {
        self.next_back()
    }
}

impl TwoEnds for IntoOnes {
    fn front(&mut self) -> Option<usize> {
        self.next()
    }

    fn back(&mut self) -> Option<usize> {
        self.next_back()
    }
}

impl<'a> TwoEnds for Zeroes<'a> {
    fn front(&mut self) -> Option<usize> {
        self.next()
    }

    fn back(&mut self) -> Option<usize> {
        self.next_back()
    }
}

impl<'a> TwoEnds for Union<'a> {
    fn front(&mut self) -> Option<usize> {
        self.next()
    }

    fn back(&mut self) -> Option<usize> {
        self.next_back()
    }
}

impl<'a> TwoEnds for Intersection<'a> {
    fn front(&mut self) -> Option<usize> {
        self.next()
    }

    fn back(&mut self) -> Option<usize> {
        self.next_back()
    }
}

impl<'a> TwoEnds for Difference<'a> {
    fn front(&mut self) -> Option<usize> {
        self.next()
    }

    fn back(&mut self) -> Option<usize> {
        self.next_back()
    }
}

impl<'a> TwoEnds for SymmetricDifference<'a> {
    fn front(&mut self) -> Option<usize> {
        self.next()
    }

    fn back(&mut self) -> Option<usize> {
        self.next_back()
    }
}

// The reply of one call an end, in order. All places are reserved before the first call.
pub(super) fn call_all<W: TwoEnds>(
    alloc: Global,
    walk: W,
    ends: &[End],
) -> Result<Reply, Refusal> {
    let places = Vec::with_capacity(alloc, ends.len())?;
    Ok(Reply::Items(call_each(walk, ends, places)))
}

// The same, where the list is empty and has a place for each result.
pub(super) fn call_each<W: TwoEnds>(
    mut walk: W,
    ends: &[End],
    mut items: Vec<Option<usize>>,
) -> Vec<Option<usize>> {
    for end in ends {
        let item = call(&mut walk, end);
        items.push(item).unwrap();
    }
    items
}

// One call from this end.
fn call<W: TwoEnds>(walk: &mut W, end: &End) -> Option<usize> {
    match end {
        End::Front => walk.front(),
        End::Back => walk.back(),
    }
}
