//! Tests of the walks from either end of `test_callers::ends`.

use crate::walks::slow::{assert_answer, assert_items, set_of};
use std::process::Abort;
use std::test::Fail;
use test_callers::ends::{ascending_of, call_all, called, descending, descending_of, nth_back};

// Positions in no order.
const POSITIONS: [usize; 9] = [11, 12, 7, 35, 40, 77, 95, 50, 99];

const ASCENDING: [usize; 9] = [7, 11, 12, 35, 40, 50, 77, 95, 99];

const DESCENDING: [usize; 9] = [99, 95, 77, 50, 40, 35, 12, 11, 7];

#[test]
fn from_either_end(rt: HostRuntime) -> Result<(), Fail> {
    let set = set_of(rt.alloc(), 100, &POSITIONS)?;
    for place in 0..11 {
        assert_answer(&rt, nth_back(&set, place), DESCENDING.get(place).copied());
    }
    assert_items(&rt, &descending(rt.alloc(), &set)?, &DESCENDING);
    assert_items(&rt, &descending_of(rt.alloc(), set)?, &DESCENDING);
    let set = set_of(rt.alloc(), 100, &POSITIONS)?;
    assert_items(&rt, &ascending_of(rt.alloc(), set)?, &ASCENDING);
    Ok(())
}

// The first, the last, the second and so on, and then `None` for good.
const ANSWERS: [Option<usize>; 12] = [
    Some(7),
    Some(99),
    Some(11),
    Some(95),
    Some(12),
    Some(77),
    Some(35),
    Some(50),
    Some(40),
    None,
    None,
    None,
];

const ENDS: [bool; 12] = [
    true, false, true, false, true, false, true, false, true, false, true, false,
];

fn assert_answers(rt: &impl Abort, answers: &[Option<usize>], wanted: &[Option<usize>]) {
    assert_eq!(rt; answers, wanted);
}

#[test]
fn from_both_ends(rt: HostRuntime) -> Result<(), Fail> {
    let set = set_of(rt.alloc(), 100, &POSITIONS)?;
    assert_answers(&rt, &called(rt.alloc(), &set, &ENDS)?, &ANSWERS);
    Ok(())
}

#[test]
fn calls_go_on(rt: HostRuntime) -> Result<(), Fail> {
    let set = set_of(rt.alloc(), 100, &POSITIONS)?;
    let mut walk = set.ones();
    call_all(&mut walk, &[true, false, false, true]);
    assert_answer(&rt, walk.next(), Some(12));
    assert_answer(&rt, walk.next_back(), Some(77));
    call_all(&mut walk, &[false; 4]);
    assert_answer(&rt, walk.next(), None);
    Ok(())
}
