//! The calls on two sets by name, so that tables can have them.

use fixedbitset::FixedBitSet;
use std::alloc::AllocError;

/// A call that joins two sets.
#[derive(Clone, Copy, Debug)]
pub enum Joining {
    UnionWith,
    BitorAssign,
    SymmetricDifferenceWith,
    BitxorAssign,
    IntersectWith,
    BitandAssign,
    BitandAssignOfValue,
    DifferenceWith,
    Bitand,
    Bitor,
    Bitxor,
    UnionOf,
    SymmetricDifferenceOf,
    IntersectionOf,
    DifferenceOf,
}

/// What the call makes of the sets: the first as it is left, or another one, which is a copy of the
/// second before it is made of both.
pub fn join(
    mut set: FixedBitSet,
    other: FixedBitSet,
    call: Joining,
) -> Result<FixedBitSet, AllocError> {
    match call {
        Joining::UnionWith => set.union_with(&other)?,
        Joining::BitorAssign => set.bitor_assign(&other)?,
        Joining::SymmetricDifferenceWith => set.symmetric_difference_with(&other)?,
        Joining::BitxorAssign => set.bitxor_assign(&other)?,
        Joining::IntersectWith => set.intersect_with(&other),
        Joining::BitandAssign => set &= &other,
        Joining::BitandAssignOfValue => set &= other,
        Joining::DifferenceWith => set.difference_with(&other),
        Joining::Bitand => return set.bitand(&other),
        Joining::Bitor => return set.bitor(&other),
        Joining::Bitxor => return set.bitxor(&other),
        _ => return made_of(&set, &other, call),
    }
    Ok(set)
}

fn made_of(
    set: &FixedBitSet,
    other: &FixedBitSet,
    call: Joining,
) -> Result<FixedBitSet, AllocError> {
    let mut made = other.clone()?;
    match call {
        Joining::UnionOf => made.union_of(set, other)?,
        Joining::SymmetricDifferenceOf => made.symmetric_difference_of(set, other)?,
        Joining::IntersectionOf => made.intersection_of(set, other)?,
        _ => made.difference_of(set, other)?,
    }
    Ok(made)
}

/// A call that joins two sets and answers whether a position of the first one changed.
#[derive(Clone, Copy, Debug)]
pub enum Changing {
    UnionWith,
    IntersectWith,
    DifferenceWith,
}

pub fn change(
    set: &mut FixedBitSet,
    other: &FixedBitSet,
    call: Changing,
) -> Result<bool, AllocError> {
    match call {
        Changing::UnionWith => set.union_with_change(other),
        Changing::IntersectWith => Ok(set.intersect_with_change(other)),
        Changing::DifferenceWith => Ok(set.difference_with_change(other)),
    }
}

/// A call that counts positions of two sets.
#[derive(Clone, Copy, Debug)]
pub enum Counting {
    Union,
    Intersection,
    Difference,
    SymmetricDifference,
}

pub fn count(set: &FixedBitSet, other: &FixedBitSet, call: Counting) -> usize {
    match call {
        Counting::Union => set.union_count(other),
        Counting::Intersection => set.intersection_count(other),
        Counting::Difference => set.difference_count(other),
        Counting::SymmetricDifference => set.symmetric_difference_count(other),
    }
}

/// A question about two sets.
#[derive(Clone, Copy, Debug)]
pub enum Question {
    IsDisjoint,
    IsSubset,
    IsSuperset,
}

pub fn is_so(set: &FixedBitSet, other: &FixedBitSet, question: Question) -> bool {
    match question {
        Question::IsDisjoint => set.is_disjoint(other),
        Question::IsSubset => set.is_subset(other),
        Question::IsSuperset => set.is_superset(other),
    }
}
