//! Tests of the chains of `test_callers::chains`.

use crate::walks::slow::{EXAMPLE, assert_answer, assert_items, assert_number, example, set_of};
use fixedbitset::FixedBitSet;
use std::process::Abort;
use std::test::Fail;
use test_callers::chains::{
    after_few, all_below, all_in, any_from, chained, collected, count, count_of_even, extended,
    find, first_few, folded, greatest, last, least, member_from, nth, numbered, paired, place_of,
    stepped, sum, sum_of_rests, taken_below,
};

#[test]
fn numbers(rt: HostRuntime) -> Result<(), Fail> {
    let set = example(rt.alloc())?;
    assert_number(&rt, count(&set), 5);
    assert_number(&rt, sum(&set), 264);
    assert_number(&rt, sum_of_rests(&set), 5);
    assert_number(&rt, count_of_even(&set), 3);
    assert_number(&rt, folded(&set), 264);
    Ok(())
}

#[test]
fn greatest_and_least(rt: HostRuntime) -> Result<(), Fail> {
    let empty = FixedBitSet::with_capacity(rt.alloc(), 131)?;
    let set = example(rt.alloc())?;
    for (set, first, end) in [(&set, Some(0), Some(130)), (&empty, None, None)] {
        assert_answer(&rt, least(set), first);
        assert_answer(&rt, greatest(set), end);
        assert_answer(&rt, last(set), end);
    }
    Ok(())
}

#[test]
fn places(rt: HostRuntime) -> Result<(), Fail> {
    let set = example(rt.alloc())?;
    for place in 0..7 {
        assert_answer(&rt, nth(&set, place), EXAMPLE.get(place).copied());
    }
    for (low, wanted, place) in [
        (0, Some(0), Some(0)),
        (8, Some(63), Some(2)),
        (130, Some(130), Some(4)),
        (131, None, None),
    ] {
        assert_answer(&rt, find(&set, low), wanted);
        assert_answer(&rt, member_from(&set, low), wanted);
        assert_answer(&rt, place_of(&set, low), place);
        assert!(rt; any_from(&set, low) == wanted.is_some());
        assert!(rt; all_below(&set, low) == wanted.is_none());
    }
    Ok(())
}

#[test]
fn lists(rt: HostRuntime) -> Result<(), Fail> {
    let set = example(rt.alloc())?;
    let mut list = collected(rt.alloc(), &set)?;
    assert_items(&rt, &list, &EXAMPLE);
    extended(&mut list, &set)?;
    assert_items(&rt, &list, &chained(rt.alloc(), &set, &set)?);
    assert_items(&rt, &list, &[0, 7, 63, 64, 130, 0, 7, 63, 64, 130]);
    Ok(())
}

#[test]
fn parts_of_lists(rt: HostRuntime) -> Result<(), Fail> {
    let set = example(rt.alloc())?;
    assert_items(&rt, &first_few(rt.alloc(), &set, 2)?, &[0, 7]);
    assert_items(&rt, &first_few(rt.alloc(), &set, 9)?, &EXAMPLE);
    assert_items(&rt, &after_few(rt.alloc(), &set, 2)?, &[63, 64, 130]);
    assert_items(&rt, &after_few(rt.alloc(), &set, 9)?, &[]);
    assert_items(&rt, &taken_below(rt.alloc(), &set, 63)?, &[0, 7]);
    assert_items(&rt, &taken_below(rt.alloc(), &set, 131)?, &EXAMPLE);
    assert_items(&rt, &stepped(rt.alloc(), &set, 1)?, &EXAMPLE);
    assert_items(&rt, &stepped(rt.alloc(), &set, 3)?, &[0, 64]);
    Ok(())
}

fn assert_pairs(rt: &impl Abort, list: &[(usize, usize)], wanted: &[(usize, usize)]) {
    assert_eq!(rt; list, wanted);
}

#[test]
fn two_sets(rt: HostRuntime) -> Result<(), Fail> {
    let set = example(rt.alloc())?;
    let other = set_of(rt.alloc(), 200, &[63, 130, 199])?;
    assert!(rt; all_in(&set, &set) && !all_in(&set, &other));
    let pairs = paired(rt.alloc(), &set, &other)?;
    assert_pairs(&rt, &pairs, &[(0, 63), (7, 130), (63, 199)]);
    let pairs = numbered(rt.alloc(), &other)?;
    assert_pairs(&rt, &pairs, &[(0, 63), (1, 130), (2, 199)]);
    Ok(())
}
