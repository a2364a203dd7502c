// Made by front/erase from crates/bitcommands/src/commands/comparing.rt: change that, and not this.
//! Commands that compare two sets and change nothing.

use crate::program::bitcommands::commands::refusals::{Refusal, check_sets};
use crate::program::bitcommands::commands::replies::Reply;
use crate::program::fixedbitset::FixedBitSet;

/// A command that compares the set `a` with the set `b`.
pub enum Compare {
    /// How many positions are in either.
    UnionCount { a: usize, b: usize },
    /// How many positions are in both.
    IntersectionCount { a: usize, b: usize },
    /// How many positions of `a` the set `b` lacks.
    DifferenceCount { a: usize, b: usize },
    /// How many positions are in exactly one.
    SymmetricDifferenceCount { a: usize, b: usize },
    /// Whether no position is in both.
    IsDisjoint { a: usize, b: usize },
    /// Whether `b` has each position of `a`.
    IsSubset { a: usize, b: usize },
    /// Whether `a` has each position of `b`.
    IsSuperset { a: usize, b: usize },
    /// Whether both have the same length and the same positions.
    Eq { a: usize, b: usize },
    /// Which comes first in the order of sets.
    Cmp { a: usize, b: usize },
}

pub(super) fn apply_compare(
    sets: &[FixedBitSet],
    command: &Compare,
    limit: usize,
) -> Result<Reply, Refusal> {
    match command {
        Compare::UnionCount { a, b } => union_count(sets, *a, *b),
        Compare::IntersectionCount { a, b } => intersection_count(sets, *a, *b),
        Compare::DifferenceCount { a, b } => difference_count(sets, *a, *b),
        Compare::SymmetricDifferenceCount { a, b } => symmetric_difference_count(sets, *a, *b),
        Compare::IsDisjoint { a, b } => is_disjoint(sets, *a, *b),
        Compare::IsSubset { a, b } => is_subset(sets, *a, *b),
        Compare::IsSuperset { a, b } => is_superset(sets, *a, *b),
        Compare::Eq { a, b } => eq(sets, *a, *b),
        Compare::Cmp { a, b } => cmp(sets, *a, *b),
    }
}

fn union_count(sets: &[FixedBitSet], a: usize, b: usize) -> Result<Reply, Refusal> {
    check_sets(sets, a, b)?;
    Ok(Reply::Number(sets[a].union_count(&sets[b])))
}

fn intersection_count(sets: &[FixedBitSet], a: usize, b: usize) -> Result<Reply, Refusal> {
    check_sets(sets, a, b)?;
    Ok(Reply::Number(sets[a].intersection_count(&sets[b])))
}

fn difference_count(sets: &[FixedBitSet], a: usize, b: usize) -> Result<Reply, Refusal> {
    check_sets(sets, a, b)?;
    Ok(Reply::Number(sets[a].difference_count(&sets[b])))
}

fn symmetric_difference_count(sets: &[FixedBitSet], a: usize, b: usize) -> Result<Reply, Refusal> {
    check_sets(sets, a, b)?;
    Ok(Reply::Number(sets[a].symmetric_difference_count(&sets[b])))
}

fn is_disjoint(sets: &[FixedBitSet], a: usize, b: usize) -> Result<Reply, Refusal> {
    check_sets(sets, a, b)?;
    Ok(Reply::Bool(sets[a].is_disjoint(&sets[b])))
}

fn is_subset(sets: &[FixedBitSet], a: usize, b: usize) -> Result<Reply, Refusal> {
    check_sets(sets, a, b)?;
    Ok(Reply::Bool(sets[a].is_subset(&sets[b])))
}

fn is_superset(sets: &[FixedBitSet], a: usize, b: usize) -> Result<Reply, Refusal> {
    check_sets(sets, a, b)?;
    Ok(Reply::Bool(sets[a].is_superset(&sets[b])))
}

fn eq(sets: &[FixedBitSet], a: usize, b: usize) -> Result<Reply, Refusal> {
    check_sets(sets, a, b)?;
    Ok(Reply::Bool(sets[a] == sets[b]))
}

fn cmp(sets: &[FixedBitSet], a: usize, b: usize) -> Result<Reply, Refusal> {
    check_sets(sets, a, b)?;
    Ok(Reply::Order(sets[a].cmp(&sets[b])))
}
