// Made by front/erase from crates/bitcommands/src/commands/refusals.rt: change that, and not this.
//! Why a command is refused, and the checks that find it out.

use crate::program::bitcommands::commands::arguments::Span;
use crate::program::fixedbitset::{ExtendFault, FixedBitSet, JsonFault};
use crate::shim::serde_json::Value;
use crate::shim::alloc::AllocError;
use core::fmt;

/// Why a command was not carried out. No set has changed then, but by `extend`: of its items those
/// stand that were taken in before the refusal.
///
/// ```text
/// let refusal = Refusal::from(ExtendFault::Position);
/// assert_eq!(refusal.to_string(alloc)?.as_str(), "F4 position too great");
/// let refusal = Refusal::from(JsonFault::Item(3));
/// assert_eq!(refusal.to_string(alloc)?.as_str(), "F5 J8 3");
/// assert!(matches!(Refusal::from(AllocError), Refusal::Memory));
/// ```
pub enum Refusal {
    /// F1: a set number isn't below the number of sets.
    NoSet,
    /// F2: a position that has to be below the length isn't.
    Position,
    /// F3: the range isn't valid: its start is past its end, or its end past the length.
    Range,
    /// F4: a position is the greatest number, `usize::MAX`, which no length is above.
    Greatest,
    /// F5: the JSON value is not in the form.
    Json(JsonFault),
    /// F6: an allocation failed.
    Memory,
    /// F7: a length that the command asks for is above the limit.
    Limit,
}

impl Refusal {
    /// The text that `Display` prints, and the number that stands after it, if one does.
    pub(super) fn text(&self) -> (&'static str, Option<usize>) {
        match self {
            Refusal::NoSet => ("F1 no such set", None),
            Refusal::Position => ("F2 position not below the length", None),
            Refusal::Range => ("F3 range not valid", None),
            Refusal::Greatest => ("F4 position too great", None),
            Refusal::Json(fault) => json_text(*fault),
            Refusal::Memory => ("F6 no memory", None),
            Refusal::Limit => ("F7 length above the limit", None),
        }
    }
}

impl fmt::Display for Refusal {
    fn fmt(&self, f: &mut fmt::Formatter<'_>) -> fmt::Result {
        match self.text() {
            (text, None) => f.write_str(text),
            (text, Some(number)) => write!(f, "{text}{number}"),
        }
    }
}

fn json_text(fault: JsonFault) -> (&'static str, Option<usize>) {
    match fault {
        JsonFault::Shape => ("F5 J1", None),
        JsonFault::Count => ("F5 J2", None),
        JsonFault::NoLength => ("F5 J3", None),
        JsonFault::NoData => ("F5 J4", None),
        JsonFault::Key => ("F5 J5", None),
        JsonFault::Length => ("F5 J6", None),
        JsonFault::Data => ("F5 J7", None),
        JsonFault::Item(index) => ("F5 J8 ", Some(index)),
        JsonFault::Memory => ("F5 J9", None),
    }
}

impl From<AllocError> for Refusal {
    fn from(_: AllocError) -> Refusal {
        Refusal::Memory
    }
}

impl From<ExtendFault> for Refusal {
    fn from(fault: ExtendFault) -> Refusal {
        match fault {
            ExtendFault::Position => Refusal::Greatest,
            ExtendFault::Memory => Refusal::Memory,
        }
    }
}

impl From<JsonFault> for Refusal {
    fn from(fault: JsonFault) -> Refusal {
        match fault {
            JsonFault::Memory => Refusal::Memory,
            fault => Refusal::Json(fault),
        }
    }
}

// There is such a set.
pub(super) fn check_set(sets: &[FixedBitSet], set: usize) -> Result<(), Refusal> {
    if set < sets.len() {
        Ok(())
    } else {
        Err(Refusal::NoSet)
    }
}

// The set, if there is one.
pub(super) fn set_at<'a>(sets: &'a [FixedBitSet], set: usize) -> Result<&'a FixedBitSet, Refusal> {
    sets.get(set).ok_or(Refusal::NoSet)
}

// The two sets, if there are both.
pub(super) fn sets_at<'a>(
    sets: &'a [FixedBitSet],
    first: usize,
    second: usize,
) -> Result<(&'a FixedBitSet, &'a FixedBitSet), Refusal> {
    Ok((set_at(sets, first)?, set_at(sets, second)?))
}

// There is such a set, and the position is below its length.
pub(super) fn check_position(sets: &[FixedBitSet], set: usize, bit: usize) -> Result<(), Refusal> {
    check_set(sets, set)?;
    if bit < sets[set].len() {
        Ok(())
    } else {
        Err(Refusal::Position)
    }
}

// There is such a set, and it has such a word.
pub(super) fn check_word(sets: &[FixedBitSet], set: usize, index: usize) -> Result<(), Refusal> {
    check_set(sets, set)?;
    if index < sets[set].as_slice().len() {
        Ok(())
    } else {
        Err(Refusal::Position)
    }
}

// There is such a set, and a set may grow for the position.
pub(super) fn check_item(
    limit: usize,
    sets: &[FixedBitSet],
    set: usize,
    bit: usize,
) -> Result<(), Refusal> {
    check_set(sets, set)?;
    if bit == usize::MAX {
        Err(Refusal::Greatest)
    } else if bit < limit {
        Ok(())
    } else {
        Err(Refusal::Limit)
    }
}

// There is such a set, and a set may grow for each of the items before the first `usize::MAX`.
pub(super) fn check_items(
    limit: usize,
    sets: &[FixedBitSet],
    set: usize,
    items: &[usize],
) -> Result<(), Refusal> {
    check_set(sets, set)?;
    if is_each_below(limit, items) {
        Ok(())
    } else {
        Err(Refusal::Limit)
    }
}

fn is_each_below(limit: usize, items: &[usize]) -> bool {
    items
        .iter()
        .take_while(|item| **item != usize::MAX)
        .all(|item| *item < limit)
}

// The length may be asked for.
fn check_limit(limit: usize, bits: usize) -> Result<(), Refusal> {
    if bits <= limit {
        Ok(())
    } else {
        Err(Refusal::Limit)
    }
}

// There is such a set, and it may have this length.
pub(super) fn check_length(
    limit: usize,
    sets: &[FixedBitSet],
    set: usize,
    bits: usize,
) -> Result<(), Refusal> {
    check_set(sets, set)?;
    check_limit(limit, bits)
}

// There is such a set, and the value means a set of a length that may be asked for.
pub(super) fn check_value(
    limit: usize,
    sets: &[FixedBitSet],
    set: usize,
    json: &Value,
) -> Result<(), Refusal> {
    check_set(sets, set)?;
    let length = FixedBitSet::check_value(json)?;
    check_limit(limit, length)
}

// There are both sets.
pub(super) fn check_sets(sets: &[FixedBitSet], first: usize, second: usize) -> Result<(), Refusal> {
    check_set(sets, first)?;
    check_set(sets, second)
}

// There is such a set, and the range is valid for it.
pub(super) fn check_range(sets: &[FixedBitSet], set: usize, range: Span) -> Result<(), Refusal> {
    check_set(sets, set)?;
    if sets[set].range_is_valid(&range) {
        Ok(())
    } else {
        Err(Refusal::Range)
    }
}
