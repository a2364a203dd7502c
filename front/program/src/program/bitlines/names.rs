// Made by front/erase from crates/bitlines/src/names.rt: change that, and not this.
//! The names of commands.

use crate::shim::prelude::Clone;
use crate::program::bitlines::words::is;

/// The name of a command, by what its arguments are.
#[derive(Clone, Copy)]
pub(crate) enum Name {
    /// A set.
    OneSet(OneSet),
    /// A set and a number.
    SetAndNumber(SetAndNumber),
    /// Two sets.
    TwoSets(TwoSets),
    /// Three sets.
    ThreeSets(ThreeSets),
    /// A set and a range.
    SetAndRange(SetAndRange),
    /// A set and the ends of an iterator.
    SetAndEnds(SetAndEnds),
    /// Two sets and the ends of an iterator.
    TwoSetsAndEnds(TwoSetsAndEnds),
    /// A set and two positions.
    CopyBit,
    /// A set, the index of a word, and the word.
    SetBlock,
    /// A set and a list of positions.
    FromIter,
    /// The same.
    Extend,
    /// A set, a length and a list of words.
    WithCapacityAndBlocks,
    /// A set and a JSON value.
    FromValue,
    /// A set, a position and whether it is set.
    Set,
    /// A set, a range and whether it is set.
    SetRange,
}

/// The name of a command on a set.
#[derive(Clone, Copy)]
pub(crate) enum OneSet {
    New,
    Default,
    Len,
    IsEmpty,
    IsClear,
    IsFull,
    Minimum,
    Maximum,
    AsSlice,
    Text,
    ToValue,
    Clear,
}

/// The name of a command on a set and a number.
#[derive(Clone, Copy)]
pub(crate) enum SetAndNumber {
    WithCapacity,
    Contains,
    Index,
    Grow,
    GrowAndInsert,
    Insert,
    Remove,
    Toggle,
    Put,
}

/// The name of a command on two sets.
#[derive(Clone, Copy)]
pub(crate) enum TwoSets {
    Clone,
    CloneFrom,
    UnionWith,
    SymmetricDifferenceWith,
    BitorAssign,
    BitxorAssign,
    IntersectWith,
    DifferenceWith,
    BitandAssign,
    UnionCount,
    IntersectionCount,
    DifferenceCount,
    SymmetricDifferenceCount,
    IsDisjoint,
    IsSubset,
    IsSuperset,
    Eq,
    Cmp,
}

/// The name of a command on three sets.
#[derive(Clone, Copy)]
pub(crate) enum ThreeSets {
    Bitand,
    Bitor,
    Bitxor,
}

/// The name of a command on a set and a range.
#[derive(Clone, Copy)]
pub(crate) enum SetAndRange {
    CountOnes,
    CountZeroes,
    InsertRange,
    RemoveRange,
    ToggleRange,
    ContainsAllInRange,
    ContainsAnyInRange,
    RangeIsValid,
}

/// The name of a command on a set and the ends of an iterator over it.
#[derive(Clone, Copy)]
pub(crate) enum SetAndEnds {
    Ones,
    IntoOnes,
    Zeroes,
}

/// The name of a command on two sets and the ends of an iterator over them.
#[derive(Clone, Copy)]
pub(crate) enum TwoSetsAndEnds {
    Union,
    Intersection,
    Difference,
    SymmetricDifference,
}

// The name for the text that the word is, if there is one.
macro_rules! name_in {
    ($word:expr; $($text:literal => $name:expr,)+) => {{
        $(if is($word, $text) {
            return Some($name);
        })+
        None
    }};
}

/// The name that a word is, if it is one.
#[inline]
pub(crate) fn name_of(word: &[u8]) -> Option<Name> {
    if let Some(name) = shortest_name(word) {
        return Some(name);
    }
    if let Some(name) = short_name(word) {
        return Some(name);
    }
    match long_name(word) {
        Some(name) => Some(name),
        None => longest_name(word),
    }
}

#[inline]
fn shortest_name(word: &[u8]) -> Option<Name> {
    name_in!(word;
        b"eq" => Name::TwoSets(TwoSets::Eq),
        b"cmp" => Name::TwoSets(TwoSets::Cmp),
        b"len" => Name::OneSet(OneSet::Len),
        b"new" => Name::OneSet(OneSet::New),
        b"put" => Name::SetAndNumber(SetAndNumber::Put),
        b"set" => Name::Set,
        b"grow" => Name::SetAndNumber(SetAndNumber::Grow),
        b"ones" => Name::SetAndEnds(SetAndEnds::Ones),
        b"text" => Name::OneSet(OneSet::Text),
        b"bitor" => Name::ThreeSets(ThreeSets::Bitor),
        b"clear" => Name::OneSet(OneSet::Clear),
        b"clone" => Name::TwoSets(TwoSets::Clone),
        b"index" => Name::SetAndNumber(SetAndNumber::Index),
        b"union" => Name::TwoSetsAndEnds(TwoSetsAndEnds::Union),
    )
}

#[inline]
fn short_name(word: &[u8]) -> Option<Name> {
    name_in!(word;
        b"bitand" => Name::ThreeSets(ThreeSets::Bitand),
        b"bitxor" => Name::ThreeSets(ThreeSets::Bitxor),
        b"extend" => Name::Extend,
        b"insert" => Name::SetAndNumber(SetAndNumber::Insert),
        b"remove" => Name::SetAndNumber(SetAndNumber::Remove),
        b"toggle" => Name::SetAndNumber(SetAndNumber::Toggle),
        b"zeroes" => Name::SetAndEnds(SetAndEnds::Zeroes),
        b"default" => Name::OneSet(OneSet::Default),
        b"is_full" => Name::OneSet(OneSet::IsFull),
        b"maximum" => Name::OneSet(OneSet::Maximum),
        b"minimum" => Name::OneSet(OneSet::Minimum),
        b"as_slice" => Name::OneSet(OneSet::AsSlice),
        b"contains" => Name::SetAndNumber(SetAndNumber::Contains),
        b"copy_bit" => Name::CopyBit,
        b"is_clear" => Name::OneSet(OneSet::IsClear),
        b"is_empty" => Name::OneSet(OneSet::IsEmpty),
        b"to_value" => Name::OneSet(OneSet::ToValue),
    )
}

fn long_name(word: &[u8]) -> Option<Name> {
    name_in!(word;
        b"from_iter" => Name::FromIter,
        b"into_ones" => Name::SetAndEnds(SetAndEnds::IntoOnes),
        b"is_subset" => Name::TwoSets(TwoSets::IsSubset),
        b"set_block" => Name::SetBlock,
        b"set_range" => Name::SetRange,
        b"clone_from" => Name::TwoSets(TwoSets::CloneFrom),
        b"count_ones" => Name::SetAndRange(SetAndRange::CountOnes),
        b"difference" => Name::TwoSetsAndEnds(TwoSetsAndEnds::Difference),
        b"from_value" => Name::FromValue,
        b"union_with" => Name::TwoSets(TwoSets::UnionWith),
        b"is_disjoint" => Name::TwoSets(TwoSets::IsDisjoint),
        b"is_superset" => Name::TwoSets(TwoSets::IsSuperset),
        b"union_count" => Name::TwoSets(TwoSets::UnionCount),
        b"bitor_assign" => Name::TwoSets(TwoSets::BitorAssign),
        b"count_zeroes" => Name::SetAndRange(SetAndRange::CountZeroes),
        b"insert_range" => Name::SetAndRange(SetAndRange::InsertRange),
        b"intersection" => Name::TwoSetsAndEnds(TwoSetsAndEnds::Intersection),
        b"remove_range" => Name::SetAndRange(SetAndRange::RemoveRange),
        b"toggle_range" => Name::SetAndRange(SetAndRange::ToggleRange),
    )
}

fn longest_name(word: &[u8]) -> Option<Name> {
    name_in!(word;
        b"bitand_assign" => Name::TwoSets(TwoSets::BitandAssign),
        b"bitxor_assign" => Name::TwoSets(TwoSets::BitxorAssign),
        b"with_capacity" => Name::SetAndNumber(SetAndNumber::WithCapacity),
        b"intersect_with" => Name::TwoSets(TwoSets::IntersectWith),
        b"range_is_valid" => Name::SetAndRange(SetAndRange::RangeIsValid),
        b"difference_with" => Name::TwoSets(TwoSets::DifferenceWith),
        b"grow_and_insert" => Name::SetAndNumber(SetAndNumber::GrowAndInsert),
        b"difference_count" => Name::TwoSets(TwoSets::DifferenceCount),
        b"intersection_count" => Name::TwoSets(TwoSets::IntersectionCount),
        b"symmetric_difference" => Name::TwoSetsAndEnds(TwoSetsAndEnds::SymmetricDifference),
        b"contains_all_in_range" => Name::SetAndRange(SetAndRange::ContainsAllInRange),
        b"contains_any_in_range" => Name::SetAndRange(SetAndRange::ContainsAnyInRange),
        b"with_capacity_and_blocks" => Name::WithCapacityAndBlocks,
        b"symmetric_difference_with" => Name::TwoSets(TwoSets::SymmetricDifferenceWith),
        b"symmetric_difference_count" => Name::TwoSets(TwoSets::SymmetricDifferenceCount),
    )
}
