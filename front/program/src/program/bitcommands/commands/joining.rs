// Made by front/erase from crates/bitcommands/src/commands/joining.rt: change that, and not this.
//! Commands that change one set by another one, or by itself.

use crate::program::bitcommands::commands::refusals::{Refusal, check_sets};
use crate::program::bitcommands::commands::replies::Reply;
use crate::program::fixedbitset::FixedBitSet;
use crate::shim::alloc::Global;
use core::mem;

/// A command that changes the set `a` by the set `b`, which may be the same.
pub enum Whole {
    /// `a` takes in the positions of `b`; its length becomes the greater of both.
    UnionWith { a: usize, b: usize },
    /// `a` becomes the positions of exactly one; its length becomes the greater of both.
    SymmetricDifferenceWith { a: usize, b: usize },
    /// The same as `UnionWith`.
    BitorAssign { a: usize, b: usize },
    /// The same as `SymmetricDifferenceWith`.
    BitxorAssign { a: usize, b: usize },
    /// `a` keeps the positions that `b` has too; its length stays.
    IntersectWith { a: usize, b: usize },
    /// `a` keeps the positions that `b` lacks; its length stays.
    DifferenceWith { a: usize, b: usize },
    /// The same as `IntersectWith`.
    BitandAssign { a: usize, b: usize },
}

pub(super) fn apply_whole(
    alloc: Global,
    sets: &mut [FixedBitSet],
    command: &Whole,
    limit: usize,
) -> Result<Reply, Refusal> {
    match command {
        Whole::UnionWith { a, b } => union_with(alloc, sets, *a, *b),
        Whole::SymmetricDifferenceWith { a, b } => symmetric_difference_with(alloc, sets, *a, *b),
        Whole::BitorAssign { a, b } => union_with(alloc, sets, *a, *b),
        Whole::BitxorAssign { a, b } => symmetric_difference_with(alloc, sets, *a, *b),
        Whole::IntersectWith { a, b } => intersect_with(alloc, sets, *a, *b),
        Whole::DifferenceWith { a, b } => difference_with(alloc, sets, *a, *b),
        Whole::BitandAssign { a, b } => intersect_with(alloc, sets, *a, *b),
    }
}

fn union_with(alloc: Global, sets: &mut [FixedBitSet], a: usize, b: usize) -> Result<Reply, Refusal> {
    check_sets(sets, a, b)?;
    if a == b {
        return Ok(Reply::Done);
    }
    let mut taken = mem::replace(&mut sets[a], FixedBitSet::new(alloc));
    let result = taken.union_with(&sets[b]);
    sets[a] = taken;
    result?;
    Ok(Reply::Done)
}

fn symmetric_difference_with(
    alloc: Global,
    sets: &mut [FixedBitSet],
    a: usize,
    b: usize,
) -> Result<Reply, Refusal> {
    check_sets(sets, a, b)?;
    if a == b {
        sets[a].clear();
        return Ok(Reply::Done);
    }
    let mut taken = mem::replace(&mut sets[a], FixedBitSet::new(alloc));
    let result = taken.symmetric_difference_with(&sets[b]);
    sets[a] = taken;
    result?;
    Ok(Reply::Done)
}

fn intersect_with(
    alloc: Global,
    sets: &mut [FixedBitSet],
    a: usize,
    b: usize,
) -> Result<Reply, Refusal> {
    check_sets(sets, a, b)?;
    if a == b {
        return Ok(Reply::Done);
    }
    let mut taken = mem::replace(&mut sets[a], FixedBitSet::new(alloc));
    taken.intersect_with(&sets[b]);
    sets[a] = taken;
    Ok(Reply::Done)
}

fn difference_with(
    alloc: Global,
    sets: &mut [FixedBitSet],
    a: usize,
    b: usize,
) -> Result<Reply, Refusal> {
    check_sets(sets, a, b)?;
    if a == b {
        sets[a].clear();
        return Ok(Reply::Done);
    }
    let mut taken = mem::replace(&mut sets[a], FixedBitSet::new(alloc));
    taken.difference_with(&sets[b]);
    sets[a] = taken;
    Ok(Reply::Done)
}
