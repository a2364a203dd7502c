// Made by front/erase from crates/bitcommands/src/commands/walking.rt: change that, and not this.
//! Commands that iterate over the positions of a set, or of two.

use crate::shim::prelude::Vec;
use crate::program::bitcommands::commands::arguments::End;
use crate::program::bitcommands::commands::calling::{call_all, call_each};
use crate::program::bitcommands::commands::refusals::{Refusal, check_set, set_at, sets_at};
use crate::program::bitcommands::commands::replies::Reply;
use crate::program::fixedbitset::FixedBitSet;
use crate::shim::alloc::Global;
use core::mem;

/// A command that iterates over positions, and returns what each call of the iterator gives, in
/// order.
///
/// The places of all results are reserved first: where that fails, no set has changed.
pub enum Walk {
    /// The positions of the set `set`, in ascending order, by one call for each of `ends`.
    Ones { set: usize, ends: Vec<End> },
    /// The same of a set that the iterator takes: an empty set of length 0 is left in its place.
    IntoOnes { set: usize, ends: Vec<End> },
    /// The positions below the length that the set `set` lacks, in ascending order.
    Zeroes { set: usize, ends: Vec<End> },
    /// The positions of the set `a`, and then those of the set `b` that `a` lacks.
    Union { a: usize, b: usize, ends: Vec<End> },
    /// The positions that both sets have, in ascending order.
    Intersection { a: usize, b: usize, ends: Vec<End> },
    /// The positions of the set `a` that the set `b` lacks, in ascending order.
    Difference { a: usize, b: usize, ends: Vec<End> },
    /// The positions of the set `a` that the set `b` lacks, and then those of `b` that `a` lacks.
    SymmetricDifference { a: usize, b: usize, ends: Vec<End> },
}

pub(super) fn apply_walk(
    alloc: Global,
    sets: &mut [FixedBitSet],
    command: &Walk,
    limit: usize,
) -> Result<Reply, Refusal> {
    match command {
        Walk::Ones { set, ends } => ones(alloc, sets, *set, ends.as_slice()),
        Walk::IntoOnes { set, ends } => into_ones(alloc, sets, *set, ends.as_slice()),
        Walk::Zeroes { set, ends } => zeroes(alloc, sets, *set, ends.as_slice()),
        Walk::Union { a, b, ends } => union(alloc, sets, *a, *b, ends.as_slice()),
        Walk::Intersection { a, b, ends } => intersection(alloc, sets, *a, *b, ends.as_slice()),
        Walk::Difference { a, b, ends } => difference(alloc, sets, *a, *b, ends.as_slice()),
        Walk::SymmetricDifference { a, b, ends } => {
            symmetric_difference(alloc, sets, *a, *b, ends.as_slice())
        }
    }
}

fn ones(alloc: Global, sets: &[FixedBitSet], set: usize, ends: &[End]) -> Result<Reply, Refusal> {
    call_all(alloc, set_at(sets, set)?.ones(), ends)
}

fn into_ones(
    alloc: Global,
    sets: &mut [FixedBitSet],
    set: usize,
    ends: &[End],
) -> Result<Reply, Refusal> {
    check_set(sets, set)?;
    let places = Vec::with_capacity(alloc, ends.len())?;
    let taken = mem::replace(&mut sets[set], FixedBitSet::new(alloc));
    let items = call_each(taken.into_ones(), ends, places);
    Ok(Reply::Items(items))
}

fn zeroes(alloc: Global, sets: &[FixedBitSet], set: usize, ends: &[End]) -> Result<Reply, Refusal> {
    call_all(alloc, set_at(sets, set)?.zeroes(), ends)
}

fn union(
    alloc: Global,
    sets: &[FixedBitSet],
    a: usize,
    b: usize,
    ends: &[End],
) -> Result<Reply, Refusal> {
    let (first, second) = sets_at(sets, a, b)?;
    call_all(alloc, first.union(second), ends)
}

fn intersection(
    alloc: Global,
    sets: &[FixedBitSet],
    a: usize,
    b: usize,
    ends: &[End],
) -> Result<Reply, Refusal> {
    let (first, second) = sets_at(sets, a, b)?;
    call_all(alloc, first.intersection(second), ends)
}

fn difference(
    alloc: Global,
    sets: &[FixedBitSet],
    a: usize,
    b: usize,
    ends: &[End],
) -> Result<Reply, Refusal> {
    let (first, second) = sets_at(sets, a, b)?;
    call_all(alloc, first.difference(second), ends)
}

fn symmetric_difference(
    alloc: Global,
    sets: &[FixedBitSet],
    a: usize,
    b: usize,
    ends: &[End],
) -> Result<Reply, Refusal> {
    let (first, second) = sets_at(sets, a, b)?;
    call_all(alloc, first.symmetric_difference(second), ends)
}
