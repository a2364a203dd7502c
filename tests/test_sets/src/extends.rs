//! Sets that grow by the items that come: worked values, a sweep beside slow values, faults with their texts, and how many
//! items are asked for.

use crate::slow::Slow;
use fixedbitset::{ExtendFault, FixedBitSet};
use std::alloc::{AllocError, Global};
use std::process::Abort;
use std::test::Fail;
use test_callers::items::Counted;
use test_callers::sets::{add_weekend, remember, set_of};
use test_values::slow::{filled, is_same, multiples};

#[test]
fn texts_of_faults(rt: HostRuntime) -> Result<(), Fail> {
    let position = ExtendFault::Position.to_string(rt.alloc())?;
    let memory = ExtendFault::Memory.to_string(rt.alloc())?;
    assert_eq!(rt; position.as_str(), "position too great");
    assert_eq!(rt; memory.as_str(), "no memory");
    Ok(())
}

// ---- worked values

#[test]
fn a_set_of_items_has_these_alone(rt: HostRuntime) -> Result<(), Fail> {
    let items = [2, 7, 8, 11, 23, 31, 32];
    let set = FixedBitSet::from_iter(rt.alloc(), items).expect(&rt, "memory for one word");
    assert_eq!(rt; set.len(), 33);
    assert_eq!(rt; set.as_slice(), [0x1_8080_0984].as_slice());
    Ok(())
}

#[test]
fn no_items_make_an_empty_set(rt: HostRuntime) -> Result<(), Fail> {
    let set = FixedBitSet::from_iter(rt.alloc(), 0..0).expect(&rt, "no memory is asked for");
    assert!(rt; is_same(&set, &[]));
    Ok(())
}

#[test]
fn a_set_is_made_again_of_its_positions(rt: HostRuntime) -> Result<(), Fail> {
    let mut flags = multiples(rt.alloc(), 257, 7)?;
    flags.push(true)?;
    let set = filled(rt.alloc(), &flags)?;
    let again = FixedBitSet::from_iter(rt.alloc(), set.ones()).expect(&rt, "memory for five words");
    assert!(rt; is_same(&again, &flags));
    Ok(())
}

#[test]
fn ascending_items_set_each_position(rt: HostRuntime) -> Result<(), Fail> {
    let set = FixedBitSet::from_iter(rt.alloc(), 0..1_000).expect(&rt, "memory for 16 words");
    assert!(rt; is_same(&set, &multiples(rt.alloc(), 1_000, 1)?));
    Ok(())
}

// ---- beside slow values

// Eight positions below 150, each three times, beginning with the first.
fn repeats(alloc: Global, first: usize) -> Result<Vec<usize>, AllocError> {
    let mut items = Vec::new(alloc);
    for turn in 0..24 {
        items.push((first + turn % 8 * 37) % 150)?;
    }
    Ok(items)
}

// Sets the position of a slow value, which grows to it.
fn add(flags: &mut Vec<bool>, position: usize) -> Result<(), AllocError> {
    if position >= flags.len() {
        flags.resize(position + 1, false)?;
    }
    flags[position] = true;
    Ok(())
}

#[test]
fn items_with_repeats_are_added(rt: HostRuntime) -> Result<(), Fail> {
    for length in 0..131 {
        let mut flags = multiples(rt.alloc(), length, 5)?;
        let mut set = filled(rt.alloc(), &flags)?;
        let items = repeats(rt.alloc(), length)?;
        assert!(rt; set.extend(items.iter().copied()).is_ok());
        for item in &items {
            assert!(rt; *item < 150);
            add(&mut flags, *item)?;
        }
        assert!(rt; is_same(&set, &flags), "{length} extended");
    }
    Ok(())
}

#[test]
fn one_position_is_added(rt: HostRuntime) -> Result<(), Fail> {
    for length in 0..131 {
        let fifths = multiples(rt.alloc(), length, 5)?;
        let (slow, whole) = (Slow::of(&fifths), filled(rt.alloc(), &fifths)?);
        for position in 0..131 {
            let mut set = whole.clone()?;
            set.grow_and_insert(position)?;
            let mut wanted = slow.resized(length.max(position + 1), false);
            wanted.set(position, true);
            assert!(rt; wanted.is_at_each(&set), "{position} added to {length}");
        }
    }
    Ok(())
}

// ---- what stops the items

// The items 3, one that stops, and 5 on a set of length 0: the fault leaves 3 set, and 5 was not asked for.
fn fault_at(rt: &impl Abort, alloc: Global, stopping: usize) -> ExtendFault {
    let items = [3, stopping, 5];
    let mut counted = Counted {
        items: &items,
        asked: 0,
    };
    let mut set = FixedBitSet::new(alloc);
    let fault = set.extend(&mut counted).expect_err(rt, "an item stops it");
    assert_eq!(rt; counted.asked, 2);
    assert_eq!(rt; counted.next(), Some(5));
    assert!(rt; is_same(&set, &[false, false, false, true]));
    fault
}

#[test]
fn a_fault_ends_the_asking(rt: HostRuntime) {
    let alloc = rt.alloc();
    assert!(rt; matches!(fault_at(&rt, alloc, usize::MAX), ExtendFault::Position));
    for position in [usize::MAX - 1, 1 << 62] {
        assert!(rt; matches!(fault_at(&rt, alloc, position), ExtendFault::Memory));
    }
}

#[test]
fn a_fault_leaves_no_set(rt: HostRuntime) {
    for (stopping, is_position) in [(usize::MAX, true), (usize::MAX - 1, false)] {
        let fault = FixedBitSet::from_iter(rt.alloc(), [3, stopping, 5]).expect_err(
            &rt,
            "an item stops it",
        );
        assert_eq!(rt; matches!(fault, ExtendFault::Position), is_position);
    }
}

#[test]
fn items_to_the_end_are_asked_for_once(rt: HostRuntime) {
    let mut counted = Counted {
        items: &[64, 0, 64],
        asked: 0,
    };
    let mut set = FixedBitSet::new(rt.alloc());
    assert!(rt; set.extend(&mut counted).is_ok());
    assert_eq!(rt; counted.asked, 4);
    assert_eq!(rt; set.as_slice(), [1, 1].as_slice());
}

#[test]
fn callers_run(rt: HostRuntime) -> Result<(), Fail> {
    let mut days = set_of(rt.alloc(), &[2, 0]).expect(&rt, "memory for one word");
    assert!(rt; is_same(&days, &[true, false, true]));
    assert!(rt; add_weekend(&mut days).is_ok());
    assert!(rt; is_same(&days, &[true, false, true, false, false, true, true]));
    remember(&mut days, 8)?;
    assert_eq!(rt; days.len(), 9);
    assert!(rt; days.contains(8));
    Ok(())
}
