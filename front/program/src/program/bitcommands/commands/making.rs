// Made by front/erase from crates/bitcommands/src/commands/making.rt: change that, and not this.
//! Commands that put a new value in a set's place.

use crate::shim::prelude::{Clone, Vec};
use crate::program::bitcommands::commands::refusals::{
    Refusal, check_items, check_length, check_set, check_sets, check_value, sets_at,
};
use crate::program::bitcommands::commands::replies::Reply;
use crate::program::fixedbitset::{Block, FixedBitSet};
use crate::shim::serde_json::Value;
use crate::shim::alloc::{AllocError, Global};
use core::mem;

/// A command that puts a new value in the place of the set `target`.
pub enum Make {
    /// A set of length 0, by `new`.
    New {
        target: usize,
    },
    /// The same, by `default`.
    Default {
        target: usize,
    },
    /// A set of `bits` positions, none of them set.
    WithCapacity {
        target: usize,
        bits: usize,
    },
    /// A set of `bits` positions, of which those are set that the words have.
    WithCapacityAndBlocks {
        target: usize,
        bits: usize,
        blocks: Vec<usize>,
    },
    /// A copy of the set `source`, in an allocation of its own.
    Clone {
        target: usize,
        source: usize,
    },
    /// A copy of the set `source`, in the memory that `target` has, if that suffices.
    CloneFrom {
        target: usize,
        source: usize,
    },
    /// The items, and the length that the greatest of them needs.
    FromIter {
        target: usize,
        items: Vec<usize>,
    },
    /// The set that a JSON value in the form means.
    FromValue {
        target: usize,
        json: Value,
    },
    /// The smaller length, and the positions of both `a` and `b`.
    Bitand {
        target: usize,
        a: usize,
        b: usize,
    },
    /// The greater length, and the positions of `a` or `b`.
    Bitor {
        target: usize,
        a: usize,
        b: usize,
    },
    /// The greater length, and the positions of exactly one of `a` and `b`.
    Bitxor {
        target: usize,
        a: usize,
        b: usize,
    },
}

pub(super) fn apply_make(
    alloc: Global,
    sets: &mut [FixedBitSet],
    command: &Make,
    limit: usize,
) -> Result<Reply, Refusal> {
    match command {
        Make::New { target } => new(alloc, sets, *target),
        Make::Default { target } => default(alloc, sets, *target),
        Make::WithCapacity { target, bits } => with_capacity(alloc, sets, *target, *bits, limit),
        Make::WithCapacityAndBlocks {
            target,
            bits,
            blocks,
        } => with_capacity_and_blocks(alloc, sets, *target, *bits, blocks.as_slice(), limit),
        Make::Clone { target, source } => clone(sets, *target, *source),
        Make::CloneFrom { target, source } => clone_from(alloc, sets, *target, *source),
        Make::FromIter { target, items } => {
            from_iter(alloc, sets, *target, items.as_slice(), limit)
        }
        Make::FromValue { target, json } => from_value(alloc, sets, *target, json, limit),
        Make::Bitand { target, a, b } => bitand(sets, *target, *a, *b),
        Make::Bitor { target, a, b } => bitor(sets, *target, *a, *b),
        Make::Bitxor { target, a, b } => bitxor(sets, *target, *a, *b),
    }
}

fn new(alloc: Global, sets: &mut [FixedBitSet], target: usize) -> Result<Reply, Refusal> {
    check_set(sets, target)?;
    put(sets, target, Ok(FixedBitSet::new(alloc)))
}

fn default(alloc: Global, sets: &mut [FixedBitSet], target: usize) -> Result<Reply, Refusal> {
    check_set(sets, target)?;
    put(sets, target, Ok(FixedBitSet::default(alloc)))
}

fn with_capacity(
    alloc: Global,
    sets: &mut [FixedBitSet],
    target: usize,
    bits: usize,
    limit: usize,
) -> Result<Reply, Refusal> {
    check_length(limit, sets, target, bits)?;
    put(sets, target, FixedBitSet::with_capacity(alloc, bits))
}

fn with_capacity_and_blocks(
    alloc: Global,
    sets: &mut [FixedBitSet],
    target: usize,
    bits: usize,
    blocks: &[usize],
    limit: usize,
) -> Result<Reply, Refusal> {
    check_length(limit, sets, target, bits)?;
    put(sets, target, set_of_blocks(alloc, bits, blocks))
}

// A set of so many positions, of the words of a list.
fn set_of_blocks(alloc: Global, bits: usize, blocks: &[usize]) -> Result<FixedBitSet, AllocError> {
    let words = blocks.iter().map(|block| *block as Block);
    FixedBitSet::with_capacity_and_blocks(alloc, bits, words)
}

fn clone(sets: &mut [FixedBitSet], target: usize, source: usize) -> Result<Reply, Refusal> {
    check_sets(sets, target, source)?;
    let made: Result<_, _> = sets[source].clone();
    put(sets, target, made)
}

// A set that is copied into itself stays as it is.
fn clone_from(
    alloc: Global,
    sets: &mut [FixedBitSet],
    target: usize,
    source: usize,
) -> Result<Reply, Refusal> {
    check_sets(sets, target, source)?;
    if target == source {
        return Ok(Reply::Done);
    }
    let mut taken = mem::replace(&mut sets[target], FixedBitSet::new(alloc));
    let result = taken.clone_from(&sets[source]);
    sets[target] = taken;
    result?;
    Ok(Reply::Done)
}

// Where an item is not taken, the set stays as it was.
fn from_iter(
    alloc: Global,
    sets: &mut [FixedBitSet],
    target: usize,
    items: &[usize],
    limit: usize,
) -> Result<Reply, Refusal> {
    check_items(limit, sets, target, items)?;
    sets[target] = FixedBitSet::from_iter(alloc, items.iter().copied())?;
    Ok(Reply::Done)
}

// The length is looked at before memory is allocated.
fn from_value(
    alloc: Global,
    sets: &mut [FixedBitSet],
    target: usize,
    json: &Value,
    limit: usize,
) -> Result<Reply, Refusal> {
    check_value(limit, sets, target, json)?;
    sets[target] = FixedBitSet::from_value(alloc, json)?;
    Ok(Reply::Done)
}

fn bitand(sets: &mut [FixedBitSet], target: usize, a: usize, b: usize) -> Result<Reply, Refusal> {
    check_set(sets, target)?;
    let (first, second) = sets_at(sets, a, b)?;
    let made = first.bitand(second);
    put(sets, target, made)
}

fn bitor(sets: &mut [FixedBitSet], target: usize, a: usize, b: usize) -> Result<Reply, Refusal> {
    check_set(sets, target)?;
    let (first, second) = sets_at(sets, a, b)?;
    let made = first.bitor(second);
    put(sets, target, made)
}

fn bitxor(sets: &mut [FixedBitSet], target: usize, a: usize, b: usize) -> Result<Reply, Refusal> {
    check_set(sets, target)?;
    let (first, second) = sets_at(sets, a, b)?;
    let made = first.bitxor(second);
    put(sets, target, made)
}

// Puts the set that was made in the place of the set `target`, if there was memory for it.
fn put(
    sets: &mut [FixedBitSet],
    target: usize,
    made: Result<FixedBitSet, AllocError>,
) -> Result<Reply, Refusal> {
    sets[target] = made?;
    Ok(Reply::Done)
}
