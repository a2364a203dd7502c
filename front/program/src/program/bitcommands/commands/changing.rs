// Made by front/erase from crates/bitcommands/src/commands/changing.rt: change that, and not this.
//! Commands that change one set.

use crate::shim::prelude::Vec;
use crate::program::bitcommands::commands::refusals::{
    Refusal, check_item, check_items, check_length, check_position, check_set, check_word,
};
use crate::program::bitcommands::commands::replies::Reply;
use crate::program::fixedbitset::{Block, FixedBitSet};

/// A command that changes the set `set`.
pub enum Change {
    /// Each position is cleared, and the length stays.
    Clear {
        set: usize,
    },
    /// Its length becomes the greater of itself and `bits`.
    Grow {
        set: usize,
        bits: usize,
    },
    /// Its length becomes great enough for the position, which is set.
    GrowAndInsert {
        set: usize,
        bit: usize,
    },
    /// The position is set.
    Insert {
        set: usize,
        bit: usize,
    },
    /// The position is cleared.
    Remove {
        set: usize,
        bit: usize,
    },
    /// The position is set exactly if it was not.
    Toggle {
        set: usize,
        bit: usize,
    },
    /// The position is set, and the reply is whether it was before.
    Put {
        set: usize,
        bit: usize,
    },
    /// The position is set, or cleared where `value` is false.
    Set {
        set: usize,
        bit: usize,
        value: bool,
    },
    /// The position `to` becomes what the position `from` is.
    CopyBit {
        set: usize,
        from: usize,
        to: usize,
    },
    /// The word `index` becomes `value`, as far as the length goes.
    SetBlock {
        set: usize,
        index: usize,
        value: usize,
    },
    /// Its length becomes great enough for each item, and all of them are set.
    Extend {
        set: usize,
        items: Vec<usize>,
    },
}

pub(super) fn apply_change(
    sets: &mut [FixedBitSet],
    command: &Change,
    limit: usize,
) -> Result<Reply, Refusal> {
    match command {
        Change::Clear { set } => clear(sets, *set),
        Change::Grow { set, bits } => grow(sets, *set, *bits, limit),
        Change::GrowAndInsert { set, bit } => grow_and_insert(sets, *set, *bit, limit),
        Change::Insert { set, bit } => insert(sets, *set, *bit),
        Change::Remove { set, bit } => remove(sets, *set, *bit),
        Change::Toggle { set, bit } => toggle(sets, *set, *bit),
        Change::Put { set, bit } => put(sets, *set, *bit),
        Change::Set { set, bit, value } => set_to(sets, *set, *bit, *value),
        Change::CopyBit { set, from, to } => copy_bit(sets, *set, *from, *to),
        Change::SetBlock { set, index, value } => set_block(sets, *set, *index, *value),
        Change::Extend { set, items } => extend(sets, *set, items.as_slice(), limit),
    }
}

fn clear(sets: &mut [FixedBitSet], set: usize) -> Result<Reply, Refusal> {
    check_set(sets, set)?;
    sets[set].clear();
    Ok(Reply::Done)
}

fn grow(sets: &mut [FixedBitSet], set: usize, bits: usize, limit: usize) -> Result<Reply, Refusal> {
    check_length(limit, sets, set, bits)?;
    sets[set].grow(bits)?;
    Ok(Reply::Done)
}

fn grow_and_insert(
    sets: &mut [FixedBitSet],
    set: usize,
    bit: usize,
    limit: usize,
) -> Result<Reply, Refusal> {
    check_item(limit, sets, set, bit)?;
    sets[set].grow_and_insert(bit)?;
    Ok(Reply::Done)
}

fn insert(sets: &mut [FixedBitSet], set: usize, bit: usize) -> Result<Reply, Refusal> {
    check_position(sets, set, bit)?;
    sets[set].insert(bit);
    Ok(Reply::Done)
}

fn remove(sets: &mut [FixedBitSet], set: usize, bit: usize) -> Result<Reply, Refusal> {
    check_position(sets, set, bit)?;
    sets[set].remove(bit);
    Ok(Reply::Done)
}

fn toggle(sets: &mut [FixedBitSet], set: usize, bit: usize) -> Result<Reply, Refusal> {
    check_position(sets, set, bit)?;
    sets[set].toggle(bit);
    Ok(Reply::Done)
}

fn put(sets: &mut [FixedBitSet], set: usize, bit: usize) -> Result<Reply, Refusal> {
    check_position(sets, set, bit)?;
    Ok(Reply::Bool(sets[set].put(bit)))
}

fn set_to(sets: &mut [FixedBitSet], set: usize, bit: usize, value: bool) -> Result<Reply, Refusal> {
    check_position(sets, set, bit)?;
    sets[set].set(bit, value);
    Ok(Reply::Done)
}

fn copy_bit(sets: &mut [FixedBitSet], set: usize, from: usize, to: usize) -> Result<Reply, Refusal> {
    check_position(sets, set, to)?;
    sets[set].copy_bit(from, to);
    Ok(Reply::Done)
}

fn set_block(
    sets: &mut [FixedBitSet],
    set: usize,
    index: usize,
    value: usize,
) -> Result<Reply, Refusal> {
    check_word(sets, set, index)?;
    sets[set].set_block(index, value as Block);
    Ok(Reply::Done)
}

// The items before one that is not taken stand.
fn extend(
    sets: &mut [FixedBitSet],
    set: usize,
    items: &[usize],
    limit: usize,
) -> Result<Reply, Refusal> {
    check_items(limit, sets, set, items)?;
    sets[set].extend(items.iter().copied())?;
    Ok(Reply::Done)
}
