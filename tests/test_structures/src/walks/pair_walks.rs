//! The walks over two sets against slow lists, on every pair of fifteen lengths.

use crate::slow::Slow;
use crate::walks::gives::{ORDERS, assert_gives, assert_takes};
use std::alloc::{AllocError, Global};
use std::test::Fail;
use test_values::pairs::{Join, PAIRS, Pair, every_pair};
use test_values::slow::filled;

// The positions of one join, in ascending order, and then those of another.
fn listed(alloc: Global, pair: &Pair, joins: &[Join]) -> Result<Vec<usize>, AllocError> {
    let (a, b) = (Slow::of(&pair.a), Slow::of(&pair.b));
    let length = a.length.max(b.length);
    let mut list = Vec::new(alloc);
    for join in joins {
        let joined = a.joined(&b, *join, length);
        for position in 0..length {
            if joined.has(position) {
                list.push(position)?;
            }
        }
    }
    Ok(list)
}

#[test]
fn intersections_of_every_pair(rt: HostRuntime) -> Result<(), Fail> {
    let pairs = every_pair(rt.alloc())?;
    assert_eq!(rt; pairs.len(), PAIRS);
    for pair in &pairs {
        let set = filled(rt.alloc(), &pair.a)?;
        let other = filled(rt.alloc(), &pair.b)?;
        let items = listed(rt.alloc(), pair, &[Join::Both])?;
        for ends in ORDERS {
            assert_gives(&rt, set.intersection(&other), &items, ends);
        }
    }
    Ok(())
}

#[test]
fn differences_of_every_pair(rt: HostRuntime) -> Result<(), Fail> {
    let pairs = every_pair(rt.alloc())?;
    assert_eq!(rt; pairs.len(), PAIRS);
    for pair in &pairs {
        let set = filled(rt.alloc(), &pair.a)?;
        let other = filled(rt.alloc(), &pair.b)?;
        let items = listed(rt.alloc(), pair, &[Join::FirstAlone])?;
        for ends in ORDERS {
            assert_gives(&rt, set.difference(&other), &items, ends);
        }
    }
    Ok(())
}

// The first set, and then the second without it.
#[test]
fn unions_of_every_pair(rt: HostRuntime) -> Result<(), Fail> {
    let pairs = every_pair(rt.alloc())?;
    assert_eq!(rt; pairs.len(), PAIRS);
    for pair in &pairs {
        let set = filled(rt.alloc(), &pair.a)?;
        let other = filled(rt.alloc(), &pair.b)?;
        let items = listed(rt.alloc(), pair, &[Join::First, Join::SecondAlone])?;
        for ends in ORDERS {
            assert_gives(&rt, set.union(&other), &items, ends);
        }
    }
    Ok(())
}

#[test]
fn symmetric_differences_of_every_pair(rt: HostRuntime) -> Result<(), Fail> {
    let pairs = every_pair(rt.alloc())?;
    assert_eq!(rt; pairs.len(), PAIRS);
    for pair in &pairs {
        let set = filled(rt.alloc(), &pair.a)?;
        let other = filled(rt.alloc(), &pair.b)?;
        let items = listed(rt.alloc(), pair, &[Join::FirstAlone, Join::SecondAlone])?;
        for ends in ORDERS {
            assert_gives(&rt, set.symmetric_difference(&other), &items, ends);
        }
    }
    Ok(())
}

// Those of sets over lent words, which are no iterators.
#[test]
fn views_of_every_pair_in_turn(rt: HostRuntime) -> Result<(), Fail> {
    for pair in &every_pair(rt.alloc())? {
        let set = filled(rt.alloc(), &pair.a)?;
        let other = filled(rt.alloc(), &pair.b)?;
        let all = listed(rt.alloc(), pair, &[Join::First, Join::SecondAlone])?;
        let alone = listed(rt.alloc(), pair, &[Join::FirstAlone, Join::SecondAlone])?;
        for ends in ORDERS {
            let mut walk = set.as_bits().union(other.as_bits());
            let take = |is_front: bool| {
                if is_front {
                    walk.take_first()
                } else {
                    walk.take_last()
                }
            };
            assert_takes(&rt, take, &all, ends);
            let mut walk = set.as_bits().symmetric_difference(other.as_bits());
            let take = |is_front: bool| {
                if is_front {
                    walk.take_first()
                } else {
                    walk.take_last()
                }
            };
            assert_takes(&rt, take, &alone, ends);
        }
    }
    Ok(())
}
