// Made by front/erase from crates/bitcommands/src/commands/looking.rt: change that, and not this.
//! Commands that look at one set and change nothing.

use crate::shim::prelude::{Vec, WriteText};
use crate::program::bitcommands::commands::refusals::{Refusal, set_at};
use crate::program::bitcommands::commands::replies::Reply;
use crate::program::fixedbitset::FixedBitSet;
use crate::shim::alloc::Global;

/// A command that looks at the set `set`.
pub enum Look {
    /// Its length in bits.
    Len { set: usize },
    /// Whether its length is 0.
    IsEmpty { set: usize },
    /// Whether no position is set.
    IsClear { set: usize },
    /// Whether each position below its length is set.
    IsFull { set: usize },
    /// The least position that is set, if there is one.
    Minimum { set: usize },
    /// The greatest position that is set, if there is one.
    Maximum { set: usize },
    /// Its words, the first 64 positions first.
    AsSlice { set: usize },
    /// Whether the position is set; `false` at or past the length.
    Contains { set: usize, bit: usize },
    /// The same, by `[]`.
    Index { set: usize, bit: usize },
    /// A character for each position below its length: `1` where it is set, and `0` where not.
    Text { set: usize },
    /// Its JSON form.
    ToValue { set: usize },
}

pub(super) fn apply_look(
    alloc: Global,
    sets: &[FixedBitSet],
    command: &Look,
    limit: usize,
) -> Result<Reply, Refusal> {
    match command {
        Look::Len { set } => len(sets, *set),
        Look::IsEmpty { set } => is_empty(sets, *set),
        Look::IsClear { set } => is_clear(sets, *set),
        Look::IsFull { set } => is_full(sets, *set),
        Look::Minimum { set } => minimum(sets, *set),
        Look::Maximum { set } => maximum(sets, *set),
        Look::AsSlice { set } => as_slice(alloc, sets, *set),
        Look::Contains { set, bit } => contains(sets, *set, *bit),
        Look::Index { set, bit } => index(sets, *set, *bit),
        Look::Text { set } => text(alloc, sets, *set),
        Look::ToValue { set } => to_value(alloc, sets, *set),
    }
}

fn len(sets: &[FixedBitSet], set: usize) -> Result<Reply, Refusal> {
    Ok(Reply::Number(set_at(sets, set)?.len()))
}

fn is_empty(sets: &[FixedBitSet], set: usize) -> Result<Reply, Refusal> {
    Ok(Reply::Bool(set_at(sets, set)?.is_empty()))
}

fn is_clear(sets: &[FixedBitSet], set: usize) -> Result<Reply, Refusal> {
    Ok(Reply::Bool(set_at(sets, set)?.is_clear()))
}

fn is_full(sets: &[FixedBitSet], set: usize) -> Result<Reply, Refusal> {
    Ok(Reply::Bool(set_at(sets, set)?.is_full()))
}

fn minimum(sets: &[FixedBitSet], set: usize) -> Result<Reply, Refusal> {
    Ok(Reply::Position(set_at(sets, set)?.minimum()))
}

fn maximum(sets: &[FixedBitSet], set: usize) -> Result<Reply, Refusal> {
    Ok(Reply::Position(set_at(sets, set)?.maximum()))
}

fn as_slice(alloc: Global, sets: &[FixedBitSet], set: usize) -> Result<Reply, Refusal> {
    let mut words = Vec::new(alloc);
    words.extend_from_slice(set_at(sets, set)?.as_slice())?;
    Ok(Reply::Words(words))
}

fn contains(sets: &[FixedBitSet], set: usize, bit: usize) -> Result<Reply, Refusal> {
    Ok(Reply::Bool(set_at(sets, set)?.contains(bit)))
}

fn index(sets: &[FixedBitSet], set: usize, bit: usize) -> Result<Reply, Refusal> {
    Ok(Reply::Bool(set_at(sets, set)?[bit]))
}

fn text(alloc: Global, sets: &[FixedBitSet], set: usize) -> Result<Reply, Refusal> {
    Ok(Reply::Text(set_at(sets, set)?.to_string(alloc)?))
}

fn to_value(alloc: Global, sets: &[FixedBitSet], set: usize) -> Result<Reply, Refusal> {
    Ok(Reply::Value(set_at(sets, set)?.to_value(alloc)?))
}
