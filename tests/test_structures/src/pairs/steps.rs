//! Callers that know how many steps a call on two sets takes.

use fixedbitset::{FixedBitSet, Steps, counted};
use std::test::Fail;
use test_callers::steps::{
    any_up_to_70, disjoint_up_to_300, last_gap_from_word_1, none_steps, ones_of_nine_words,
    subset_up_to_300, unite_nine_words, unite_seven_words,
};

#[test]
fn callers_of_counted_calls(rt: HostRuntime) -> Result<(), Fail> {
    let mut seven = FixedBitSet::with_capacity(rt.alloc(), 448)?;
    let other = FixedBitSet::with_capacity(rt.alloc(), 448)?;
    unite_seven_words(&mut seven, &other, &mut Steps::new())?;
    let mut nine = FixedBitSet::with_capacity(rt.alloc(), 576)?;
    let other = FixedBitSet::with_capacity(rt.alloc(), 576)?;
    unite_nine_words(&mut nine, &other, &mut Steps::new())?;
    nine.insert_range(103..);
    assert_eq!(rt; ones_of_nine_words(nine.as_bits(), &mut Steps::new()), 473);
    assert_eq!(rt;
        last_gap_from_word_1(nine.as_bits(), &mut Steps::new()),
        Some(100)
    );
    Ok(())
}

#[test]
fn callers_of_tests_that_stop(rt: HostRuntime) -> Result<(), Fail> {
    let steps = &mut Steps::new();
    assert!(rt; !none_steps(&[0, 0, 0, 0, 1, 1], steps));
    let set = FixedBitSet::from_iter(rt.alloc(), [5, 300, 1999])?;
    let other = FixedBitSet::from_iter(rt.alloc(), [300, 700])?;
    assert!(rt; !disjoint_up_to_300(&set, &other, steps));
    let mut short = FixedBitSet::with_capacity(rt.alloc(), 100)?;
    short.insert(5);
    assert!(rt; !subset_up_to_300(&set, &short, steps));
    let set = FixedBitSet::from_iter(rt.alloc(), [70, 1999])?;
    assert!(rt; any_up_to_70(&set, steps));
    Ok(())
}
