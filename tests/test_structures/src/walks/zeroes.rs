//! Tests of the walks over the zeros of `test_callers::zeroes`.

use crate::walks::slow::{assert_answer, assert_items, set_of};
use fixedbitset::FixedBitSet;
use std::test::Fail;
use test_callers::zeroes::{
    collected, count, descending, first_clear, first_clear_from, first_clear_or_end,
    some_clear_from,
};

#[test]
fn free_slots(rt: HostRuntime) -> Result<(), Fail> {
    let mut set = FixedBitSet::with_capacity(rt.alloc(), 83)?;
    assert_answer(&rt, first_clear(&set), Some(0));
    assert!(rt; set.range_is_valid(&(..79)));
    set.insert_range(..79);
    assert_answer(&rt, first_clear(&set), Some(79));
    assert_eq!(rt; first_clear_or_end(&set), 79);
    assert_eq!(rt; count(&set), 4);
    assert_items(&rt, &collected(rt.alloc(), &set)?, &[79, 80, 81, 82]);
    assert_items(&rt, &descending(rt.alloc(), &set)?, &[82, 81, 80, 79]);
    for (low, wanted) in [(0, Some(79)), (81, Some(81)), (83, None)] {
        assert_answer(&rt, some_clear_from(&set, low), wanted);
        assert_answer(&rt, first_clear_from(&set, low), wanted);
    }
    Ok(())
}

#[test]
fn no_free_slot(rt: HostRuntime) -> Result<(), Fail> {
    let set = set_of(rt.alloc(), 1, &[0])?;
    assert_answer(&rt, first_clear(&set), None);
    assert_eq!(rt; first_clear_or_end(&set), 1);
    assert_answer(&rt, first_clear(&FixedBitSet::new(rt.alloc())), None);
    Ok(())
}
