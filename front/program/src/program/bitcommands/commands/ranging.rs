// Made by front/erase from crates/bitcommands/src/commands/ranging.rt: change that, and not this.
//! Commands over a range of one set.

use crate::program::bitcommands::commands::arguments::Span;
use crate::program::bitcommands::commands::refusals::{Refusal, check_range, check_set};
use crate::program::bitcommands::commands::replies::Reply;
use crate::program::fixedbitset::FixedBitSet;

/// A command over a range of the set `set`.
pub enum Ranged {
    /// How many positions of the range are set.
    CountOnes {
        set: usize,
        range: Span,
    },
    /// How many positions of the range are not set.
    CountZeroes {
        set: usize,
        range: Span,
    },
    /// The positions of the range are set, or cleared where `value` is false.
    SetRange {
        set: usize,
        range: Span,
        value: bool,
    },
    /// The positions of the range are set.
    InsertRange {
        set: usize,
        range: Span,
    },
    /// The positions of the range are cleared.
    RemoveRange {
        set: usize,
        range: Span,
    },
    /// Each position of the range is set exactly if it was not.
    ToggleRange {
        set: usize,
        range: Span,
    },
    /// Whether each position of the range is set.
    ContainsAllInRange {
        set: usize,
        range: Span,
    },
    /// Whether some position of the range is set.
    ContainsAnyInRange {
        set: usize,
        range: Span,
    },
    /// Whether the range is valid.
    RangeIsValid {
        set: usize,
        range: Span,
    },
}

pub(super) fn apply_ranged(
    sets: &mut [FixedBitSet],
    command: &Ranged,
    limit: usize,
) -> Result<Reply, Refusal> {
    match command {
        Ranged::CountOnes { set, range } => count_ones(sets, *set, *range),
        Ranged::CountZeroes { set, range } => count_zeroes(sets, *set, *range),
        Ranged::SetRange { set, range, value } => set_range(sets, *set, *range, *value),
        Ranged::InsertRange { set, range } => insert_range(sets, *set, *range),
        Ranged::RemoveRange { set, range } => remove_range(sets, *set, *range),
        Ranged::ToggleRange { set, range } => toggle_range(sets, *set, *range),
        Ranged::ContainsAllInRange { set, range } => contains_all_in_range(sets, *set, *range),
        Ranged::ContainsAnyInRange { set, range } => contains_any_in_range(sets, *set, *range),
        Ranged::RangeIsValid { set, range } => range_is_valid(sets, *set, *range),
    }
}

fn count_ones(sets: &[FixedBitSet], set: usize, range: Span) -> Result<Reply, Refusal> {
    check_range(sets, set, range)?;
    Ok(Reply::Number(sets[set].count_ones(range)))
}

fn count_zeroes(sets: &[FixedBitSet], set: usize, range: Span) -> Result<Reply, Refusal> {
    check_range(sets, set, range)?;
    Ok(Reply::Number(sets[set].count_zeroes(range)))
}

fn set_range(
    sets: &mut [FixedBitSet],
    set: usize,
    range: Span,
    value: bool,
) -> Result<Reply, Refusal> {
    check_range(sets, set, range)?;
    sets[set].set_range(range, value);
    Ok(Reply::Done)
}

fn insert_range(sets: &mut [FixedBitSet], set: usize, range: Span) -> Result<Reply, Refusal> {
    check_range(sets, set, range)?;
    sets[set].insert_range(range);
    Ok(Reply::Done)
}

fn remove_range(sets: &mut [FixedBitSet], set: usize, range: Span) -> Result<Reply, Refusal> {
    check_range(sets, set, range)?;
    sets[set].remove_range(range);
    Ok(Reply::Done)
}

fn toggle_range(sets: &mut [FixedBitSet], set: usize, range: Span) -> Result<Reply, Refusal> {
    check_range(sets, set, range)?;
    sets[set].toggle_range(range);
    Ok(Reply::Done)
}

fn contains_all_in_range(sets: &[FixedBitSet], set: usize, range: Span) -> Result<Reply, Refusal> {
    check_range(sets, set, range)?;
    Ok(Reply::Bool(sets[set].contains_all_in_range(range)))
}

fn contains_any_in_range(sets: &[FixedBitSet], set: usize, range: Span) -> Result<Reply, Refusal> {
    check_range(sets, set, range)?;
    Ok(Reply::Bool(sets[set].contains_any_in_range(range)))
}

fn range_is_valid(sets: &[FixedBitSet], set: usize, range: Span) -> Result<Reply, Refusal> {
    check_set(sets, set)?;
    Ok(Reply::Bool(sets[set].range_is_valid(&range)))
}
