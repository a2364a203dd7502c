// Made by front/erase from crates/bitlines/src/lines.rt: change that, and not this.
//! Lines as commands.

use crate::shim::prelude::{Clone, Vec};
use crate::program::bitlines::arguments::{
    one, one_and_ends, one_and_json, one_and_list, one_and_range, range_and_flag, three, two,
    two_and_ends, two_and_flag, two_and_list,
};
pub use crate::program::bitlines::fault::LineFault;
use crate::program::bitlines::names::{
    Name, OneSet, SetAndEnds, SetAndNumber, SetAndRange, ThreeSets, TwoSets, TwoSetsAndEnds,
    name_of,
};
use crate::program::bitlines::words::Words;
use crate::program::bitcommands::commands::{Change, Command, Compare, End, Look, Make, Ranged, Span, Walk, Whole};
use crate::shim::alloc::Global;

/// The command that a line stands for: a command word and its arguments, with exactly one space
/// between two of them and none at the ends (`docs/COMMANDS.md`). The JSON of `from_value` is all
/// the rest of the line, with whatever spaces it has. The line is given without its line end.
///
/// `NotACommand` is returned only where the line stands for none, and `Memory` only where the first
/// word is that of a command with a list or with JSON: `with_capacity_and_blocks`, `from_iter`,
/// `from_value`, `extend`, or an iterator, which is `ones`, `into_ones`, `zeroes`, `union`,
/// `intersection`, `difference` or `symmetric_difference`. Any other line does not allocate.
///
/// ```text
/// let command = lines::parse_line(alloc, b"insert 0 64")?;
/// assert!(matches!(command, Command::Change(Change::Insert { set: 0, bit: 64 })));
/// let fault = lines::parse_line(alloc, b"insert 0  64").err();
/// assert!(matches!(fault, Some(LineFault::NotACommand)));
/// ```
#[inline(always)]
pub fn parse_line(alloc: Global, line: &[u8]) -> Result<Command, LineFault> {
    let mut words = Words::new(line);
    let word = words.next().ok_or(LineFault::NotACommand)?;
    let name = name_of(word).ok_or(LineFault::NotACommand)?;
    command_by(alloc, name, words)
}

// The name decides which arguments are read.
#[inline(always)]
fn command_by(alloc: Global, name: Name, args: Words<'_>) -> Result<Command, LineFault> {
    match name {
        Name::OneSet(name) => {
            let set = one(args)?;
            Ok(of_one_set(name, set))
        }
        Name::SetAndNumber(name) => {
            let (set, number) = two(args)?;
            Ok(of_set_and_number(name, set, number))
        }
        Name::CopyBit => positions_for_one(args),
        Name::SetBlock => word_for_one(args),
        Name::FromIter => items_for_new(alloc, args),
        Name::Extend => items_for_one(alloc, args),
        Name::WithCapacityAndBlocks => blocks_for_one(alloc, args),
        Name::FromValue => value_for_one(alloc, args),
        Name::TwoSets(name) => {
            let (a, b) = two(args)?;
            Ok(of_two_sets(name, a, b))
        }
        Name::ThreeSets(name) => {
            let (target, a, b) = three(args)?;
            Ok(of_three_sets(name, target, a, b))
        }
        Name::SetAndRange(name) => {
            let (set, range) = one_and_range(args)?;
            Ok(of_set_and_range(name, set, range))
        }
        Name::Set => {
            let (set, bit, value) = two_and_flag(args)?;
            Ok(Command::Change(Change::Set { set, bit, value }))
        }
        Name::SetRange => {
            let (set, range, value) = range_and_flag(args)?;
            Ok(Command::Ranged(Ranged::SetRange { set, range, value }))
        }
        Name::SetAndEnds(name) => walk_over_one(alloc, name, args),
        Name::TwoSetsAndEnds(name) => walk_over_two(alloc, name, args),
    }
}

fn positions_for_one(args: Words<'_>) -> Result<Command, LineFault> {
    let (set, from, to) = three(args)?;
    Ok(Command::Change(Change::CopyBit { set, from, to }))
}

fn word_for_one(args: Words<'_>) -> Result<Command, LineFault> {
    let (set, index, value) = three(args)?;
    Ok(Command::Change(Change::SetBlock { set, index, value }))
}

fn items_for_new(alloc: Global, args: Words<'_>) -> Result<Command, LineFault> {
    let (target, items) = one_and_list(alloc, args)?;
    Ok(Command::Make(Make::FromIter { target, items }))
}

fn items_for_one(alloc: Global, args: Words<'_>) -> Result<Command, LineFault> {
    let (set, items) = one_and_list(alloc, args)?;
    Ok(Command::Change(Change::Extend { set, items }))
}

fn blocks_for_one(alloc: Global, args: Words<'_>) -> Result<Command, LineFault> {
    let (target, bits, blocks) = two_and_list(alloc, args)?;
    Ok(Command::Make(Make::WithCapacityAndBlocks {
        target,
        bits,
        blocks,
    }))
}

fn value_for_one(alloc: Global, args: Words<'_>) -> Result<Command, LineFault> {
    let (target, json) = one_and_json(alloc, args)?;
    Ok(Command::Make(Make::FromValue { target, json }))
}

fn walk_over_one(alloc: Global, name: SetAndEnds, args: Words<'_>) -> Result<Command, LineFault> {
    let (set, ends) = one_and_ends(alloc, args)?;
    Ok(of_set_and_ends(name, set, ends))
}

fn walk_over_two(alloc: Global, name: TwoSetsAndEnds, args: Words<'_>) -> Result<Command, LineFault> {
    let (a, b, ends) = two_and_ends(alloc, args)?;
    Ok(of_two_sets_and_ends(name, a, b, ends))
}

fn of_one_set(name: OneSet, set: usize) -> Command {
    match name {
        OneSet::New => Command::Make(Make::New { target: set }),
        OneSet::Default => Command::Make(Make::Default { target: set }),
        OneSet::Len => Command::Look(Look::Len { set }),
        OneSet::IsEmpty => Command::Look(Look::IsEmpty { set }),
        OneSet::IsClear => Command::Look(Look::IsClear { set }),
        OneSet::IsFull => Command::Look(Look::IsFull { set }),
        OneSet::Minimum => Command::Look(Look::Minimum { set }),
        OneSet::Maximum => Command::Look(Look::Maximum { set }),
        OneSet::AsSlice => Command::Look(Look::AsSlice { set }),
        OneSet::Text => Command::Look(Look::Text { set }),
        OneSet::ToValue => Command::Look(Look::ToValue { set }),
        OneSet::Clear => Command::Change(Change::Clear { set }),
    }
}

#[inline]
fn of_set_and_number(name: SetAndNumber, set: usize, number: usize) -> Command {
    let (target, bit, bits) = (set, number, number);
    match name {
        SetAndNumber::WithCapacity => Command::Make(Make::WithCapacity { target, bits }),
        SetAndNumber::Contains => Command::Look(Look::Contains { set, bit }),
        SetAndNumber::Index => Command::Look(Look::Index { set, bit }),
        SetAndNumber::Grow => Command::Change(Change::Grow { set, bits }),
        SetAndNumber::GrowAndInsert => Command::Change(Change::GrowAndInsert { set, bit }),
        SetAndNumber::Insert => Command::Change(Change::Insert { set, bit }),
        SetAndNumber::Remove => Command::Change(Change::Remove { set, bit }),
        SetAndNumber::Toggle => Command::Change(Change::Toggle { set, bit }),
        SetAndNumber::Put => Command::Change(Change::Put { set, bit }),
    }
}

fn of_two_sets(name: TwoSets, a: usize, b: usize) -> Command {
    let (target, source) = (a, b);
    match name {
        TwoSets::Clone => Command::Make(Make::Clone { target, source }),
        TwoSets::CloneFrom => Command::Make(Make::CloneFrom { target, source }),
        TwoSets::UnionWith => Command::Whole(Whole::UnionWith { a, b }),
        TwoSets::SymmetricDifferenceWith => Command::Whole(Whole::SymmetricDifferenceWith { a, b }),
        TwoSets::BitorAssign => Command::Whole(Whole::BitorAssign { a, b }),
        TwoSets::BitxorAssign => Command::Whole(Whole::BitxorAssign { a, b }),
        TwoSets::IntersectWith => Command::Whole(Whole::IntersectWith { a, b }),
        TwoSets::DifferenceWith => Command::Whole(Whole::DifferenceWith { a, b }),
        TwoSets::BitandAssign => Command::Whole(Whole::BitandAssign { a, b }),
        TwoSets::UnionCount => Command::Compare(Compare::UnionCount { a, b }),
        TwoSets::IntersectionCount => Command::Compare(Compare::IntersectionCount { a, b }),
        TwoSets::DifferenceCount => Command::Compare(Compare::DifferenceCount { a, b }),
        TwoSets::SymmetricDifferenceCount => Command::Compare(Compare::SymmetricDifferenceCount {
            a,
            b,
        }),
        TwoSets::IsDisjoint => Command::Compare(Compare::IsDisjoint { a, b }),
        TwoSets::IsSubset => Command::Compare(Compare::IsSubset { a, b }),
        TwoSets::IsSuperset => Command::Compare(Compare::IsSuperset { a, b }),
        TwoSets::Eq => Command::Compare(Compare::Eq { a, b }),
        TwoSets::Cmp => Command::Compare(Compare::Cmp { a, b }),
    }
}

fn of_three_sets(name: ThreeSets, target: usize, a: usize, b: usize) -> Command {
    match name {
        ThreeSets::Bitand => Command::Make(Make::Bitand { target, a, b }),
        ThreeSets::Bitor => Command::Make(Make::Bitor { target, a, b }),
        ThreeSets::Bitxor => Command::Make(Make::Bitxor { target, a, b }),
    }
}

fn of_set_and_range(name: SetAndRange, set: usize, range: Span) -> Command {
    match name {
        SetAndRange::CountOnes => Command::Ranged(Ranged::CountOnes { set, range }),
        SetAndRange::CountZeroes => Command::Ranged(Ranged::CountZeroes { set, range }),
        SetAndRange::InsertRange => Command::Ranged(Ranged::InsertRange { set, range }),
        SetAndRange::RemoveRange => Command::Ranged(Ranged::RemoveRange { set, range }),
        SetAndRange::ToggleRange => Command::Ranged(Ranged::ToggleRange { set, range }),
        SetAndRange::ContainsAllInRange => Command::Ranged(Ranged::ContainsAllInRange {
            set,
            range,
        }),
        SetAndRange::ContainsAnyInRange => Command::Ranged(Ranged::ContainsAnyInRange {
            set,
            range,
        }),
        SetAndRange::RangeIsValid => Command::Ranged(Ranged::RangeIsValid { set, range }),
    }
}

fn of_set_and_ends(name: SetAndEnds, set: usize, ends: Vec<End>) -> Command {
    match name {
        SetAndEnds::Ones => Command::Walk(Walk::Ones { set, ends }),
        SetAndEnds::IntoOnes => Command::Walk(Walk::IntoOnes { set, ends }),
        SetAndEnds::Zeroes => Command::Walk(Walk::Zeroes { set, ends }),
    }
}

fn of_two_sets_and_ends(name: TwoSetsAndEnds, a: usize, b: usize, ends: Vec<End>) -> Command {
    match name {
        TwoSetsAndEnds::Union => Command::Walk(Walk::Union { a, b, ends }),
        TwoSetsAndEnds::Intersection => Command::Walk(Walk::Intersection { a, b, ends }),
        TwoSetsAndEnds::Difference => Command::Walk(Walk::Difference { a, b, ends }),
        TwoSetsAndEnds::SymmetricDifference => {
            Command::Walk(Walk::SymmetricDifference { a, b, ends })
        }
    }
}
