//! Calls of a set of the proved archive, as a program in C makes them: each so many times, on sets of its own.

use crate::archive::FixedBitSet;

/// Makes sets of so many positions, and a call so many times. It answers how many positions are left, or what the last call
/// answered.
pub type Rounds = fn(usize, usize) -> usize;

/// The set of so many positions, with those from `start` up to and without `end`.
fn filled(bits: usize, start: usize, end: usize) -> FixedBitSet {
    let mut set = FixedBitSet::with_capacity(bits);
    set.insert_range(start..end);
    set
}

/// A call that changes the lower half by the upper one.
macro_rules! change {
    (|$set:ident, $other:ident| $call:expr) => {
        |bits, rounds| {
            #[inline(never)]
            fn call($set: &mut FixedBitSet, $other: &FixedBitSet) {
                $call
            }
            let mut set = filled(bits, 0, bits / 2);
            let other = filled(bits, bits / 2, bits);
            for _ in 0..rounds {
                call(&mut set, &other);
            }
            set.count_ones(0..bits)
        }
    };
}

/// A call that asks of the positions below one bound and of those from another on, once and then so many times, each time after
/// the write of a bit that is set.
macro_rules! question {
    ($bits:ident => $end:expr, $start:expr, |$set:ident, $other:ident| $call:expr) => {
        |$bits, rounds| {
            #[inline(never)]
            fn call($set: &FixedBitSet, $other: &FixedBitSet) -> usize {
                usize::from($call)
            }
            let mut set = filled($bits, 0, $end);
            let other = filled($bits, $start, $bits);
            let mut answer = call(&set, &other);
            for round in 0..rounds {
                set.insert(round % 64);
                answer = call(&set, &other);
            }
            answer
        }
    };
}

pub const MAXIMUM: Rounds = question!(bits => 64, bits, |set, _other| set.maximum().unwrap_or(0));
pub const IS_CLEAR: Rounds = question!(bits => 64, bits, |_set, other| other.is_clear());
pub const IS_DISJOINT: Rounds =
    question!(bits => bits / 2, bits / 2, |set, other| set.is_disjoint(other));
pub const IS_SUBSET: Rounds = question!(bits => bits, 0, |set, other| set.is_subset(other));
pub const EQUAL: Rounds = question!(bits => bits, 0, |set, other| set == other);
pub const INSERT_RANGE: Rounds = change!(|set, _other| set.insert_range(0..set.len()));
pub const TOGGLE_RANGE: Rounds = change!(|set, _other| set.toggle_range(0..set.len()));
pub const UNION_WITH: Rounds = change!(|set, other| set.union_with(other));
pub const INTERSECT_WITH: Rounds = change!(|set, other| set.intersect_with(other));
pub const DIFFERENCE_WITH: Rounds = change!(|set, other| set.difference_with(other));
pub const SYMMETRIC_DIFFERENCE_WITH: Rounds =
    change!(|set, other| set.symmetric_difference_with(other));
pub const COUNT_ONES: Rounds =
    question!(bits => bits / 2, bits / 2, |set, _other| set.count_ones(0..set.len()));
pub const COUNT_ZEROES: Rounds =
    question!(bits => bits / 2, bits / 2, |set, _other| set.count_zeroes(0..set.len()));
pub const UNION_COUNT: Rounds =
    question!(bits => bits / 2, bits / 2, |set, other| set.union_count(other));
pub const INTERSECTION_COUNT: Rounds =
    question!(bits => bits / 2, bits / 2, |set, other| set.intersection_count(other));
pub const DIFFERENCE_COUNT: Rounds =
    question!(bits => bits / 2, bits / 2, |set, other| set.difference_count(other));
pub const SYMMETRIC_DIFFERENCE_COUNT: Rounds =
    question!(bits => bits / 2, bits / 2, |set, other| set.symmetric_difference_count(other));
