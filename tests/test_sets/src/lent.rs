//! Iterators that are lent: what a call has not taken is left to the lender.

use fixedbitset::{Block, FixedBitSet};
use std::test::Fail;
use test_callers::items::Pausing;

// A set takes as many words as it needs.
#[test]
fn words_past_the_length_are_left(rt: HostRuntime) -> Result<(), Fail> {
    let words: [Block; 6] = [1, 2, 3, 4, 5, 6];
    for (bits, next) in [
        (0, Some(1)),
        (1, Some(2)),
        (64, Some(2)),
        (65, Some(3)),
        (257, Some(6)),
        (1_000, None),
    ] {
        let mut lent = words.iter().copied();
        let set = FixedBitSet::with_capacity_and_blocks(rt.alloc(), bits, lent.by_ref())?;
        assert_eq!(rt; set.len(), bits);
        assert_eq!(rt; lent.next(), next, "at {bits}");
    }
    Ok(())
}

// Items are taken up to the first `None`, or up to the one that stops the set.
#[test]
fn items_behind_the_last_one_asked_for_are_left(rt: HostRuntime) {
    for (steps, is_whole, left) in [
        ([Some(3), None, Some(5)], true, 1),
        ([None, Some(3), Some(5)], true, 2),
        ([Some(3), Some(5), None], true, 0),
        ([Some(3), Some(usize::MAX), Some(5)], false, 1),
        ([Some(usize::MAX - 1), Some(3), None], false, 2),
    ] {
        let mut lent = Pausing { steps: &steps };
        let made = FixedBitSet::from_iter(rt.alloc(), lent.by_ref());
        assert_eq!(rt; made.is_ok(), is_whole, "{is_whole}, {left} left");
        assert_eq!(rt; lent.steps.len(), left, "{is_whole}, {left} left");
        let mut lent = Pausing { steps: &steps };
        let mut set = FixedBitSet::new(rt.alloc());
        assert_eq!(rt;
            set.extend(lent.by_ref()).is_ok(),
            is_whole,
            "{is_whole}, {left} left"
        );
        assert_eq!(rt; lent.steps.len(), left, "{is_whole}, {left} left");
    }
}
