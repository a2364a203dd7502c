//! Functions over sets as a user writes them, run once. They are proved in `test_callers`.

use fixedbitset::FixedBitSet;
use std::test::Fail;
use test_callers::sets::{start, take, walked};

#[test]
fn the_start_is_visited(rt: HostRuntime) -> Result<(), Fail> {
    let visited = start(rt.alloc(), 70)?;
    assert!(rt; visited.contains(0));
    assert!(rt; !visited.contains(1));
    assert_eq!(rt; visited.as_slice(), [1, 0].as_slice());
    Ok(())
}

#[test]
fn the_last_slot_is_taken_too(rt: HostRuntime) -> Result<(), Fail> {
    let mut slots = FixedBitSet::with_capacity(rt.alloc(), 70)?;
    assert!(rt; take(&mut slots, 63, 64));
    assert!(rt; !take(&mut slots, 0, 70));
    assert_eq!(rt; slots.as_slice(), [1 << 63, 1].as_slice());
    Ok(())
}

#[test]
fn a_walk_is_counted(rt: HostRuntime) -> Result<(), Fail> {
    let visited = start(rt.alloc(), 70)?;
    assert_eq!(rt; walked(&visited), (1, 69));
    Ok(())
}
