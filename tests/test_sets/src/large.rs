//! Large sets, each call once: where memory is there, no call refuses a number of its own choice.

use fixedbitset::{Block, FixedBitSet};
use std::mem::ManuallyDrop;
use std::test::Fail;

// More than 2 to the 32 positions, which take 512 MiB. To drop a set drops its words one by one, which takes as long as the
// calls, so these tests leave their sets.
const MANY: usize = (1 << 32) + 1;

#[test]
fn a_set_of_more_than_four_billion_positions(rt: HostRuntime) -> Result<(), Fail> {
    let mut set = FixedBitSet::with_capacity(rt.alloc(), MANY)?;
    assert_eq!(rt; set.len(), MANY);
    assert!(rt; MANY > 4_000_000_000);
    set.insert(MANY - 1);
    assert!(rt; set.contains(MANY - 1));
    let _ = ManuallyDrop::new(set);
    Ok(())
}

// A hundred million positions, which take 12 MiB.
const LARGE: usize = 100_000_000;

#[test]
fn a_set_grows_past_four_billion_positions(rt: HostRuntime) -> Result<(), Fail> {
    let mut set = FixedBitSet::from_iter(rt.alloc(), [69]).expect(&rt, "memory for two words");
    set.grow(MANY)?;
    assert!(rt; set.len() == MANY && set.contains(69) && !set.contains(MANY - 1));
    let _ = ManuallyDrop::new(set);
    Ok(())
}

// The calls that make a set longer, for a far position or up to one.
#[test]
fn a_set_is_long_enough_for_a_far_position(rt: HostRuntime) -> Result<(), Fail> {
    let made = FixedBitSet::from_iter(rt.alloc(), [LARGE - 1]).expect(&rt, "memory for 12 MiB");
    assert!(rt; made.len() == LARGE && made.maximum() == Some(LARGE - 1));
    let mut set = FixedBitSet::new(rt.alloc());
    assert!(rt; set.extend([LARGE - 1]).is_ok());
    assert!(rt; set == made);
    set.grow_and_insert(2 * LARGE)?;
    assert!(rt; set.len() == 2 * LARGE + 1 && set.maximum() == Some(2 * LARGE));
    set.resize(3 * LARGE, true)?;
    assert_eq!(rt; set.len(), 3 * LARGE);
    assert_eq!(rt; set.count_ones(..), LARGE + 1);
    let _ = ManuallyDrop::new((made, set));
    Ok(())
}

#[test]
fn a_large_set_is_made_of_words(rt: HostRuntime) -> Result<(), Fail> {
    let words = LARGE.div_ceil(64);
    let blocks = (0..words).map(|index| Block::from(index + 1 == words));
    let set = FixedBitSet::with_capacity_and_blocks(rt.alloc(), LARGE, blocks)?;
    assert_eq!(rt; set.len(), LARGE);
    assert!(rt; set.ones().eq([64 * (words - 1)]));
    let _ = ManuallyDrop::new(set);
    Ok(())
}

// A large part, and the same put behind another set.
#[test]
fn a_large_part_is_cut_out_and_put_behind(rt: HostRuntime) -> Result<(), Fail> {
    let mut set = FixedBitSet::with_capacity(rt.alloc(), LARGE + 70)?;
    assert!(rt; set.len() == LARGE + 70);
    set.insert(70);
    set.insert(LARGE + 69);
    let part = set.slice(rt.alloc(), 70..)?;
    assert_eq!(rt; part.len(), LARGE);
    assert!(rt; part.contains(0) && part.contains(LARGE - 1));
    assert_eq!(rt; part.count_ones(..), 2);
    let mut all = FixedBitSet::with_capacity(rt.alloc(), 3)?;
    assert!(rt; all.len() == 3);
    all.append(&part)?;
    assert_eq!(rt; all.len(), LARGE + 3);
    assert!(rt; all.contains(3) && all.contains(LARGE + 2));
    assert_eq!(rt; all.count_ones(..), 2);
    let _ = ManuallyDrop::new((set, part, all));
    Ok(())
}

#[test]
fn a_large_set_goes_into_bytes_and_back(rt: HostRuntime) -> Result<(), Fail> {
    let mut set = FixedBitSet::with_capacity(rt.alloc(), LARGE)?;
    assert!(rt; set.len() == LARGE);
    set.insert(LARGE - 1);
    let bytes = set.to_bytes(rt.alloc())?;
    assert_eq!(rt; bytes.len(), 8 * set.as_slice().len());
    let again = FixedBitSet::from_bytes(rt.alloc(), LARGE, &bytes)?;
    assert!(rt; again == set);
    let _ = ManuallyDrop::new((set, bytes, again));
    Ok(())
}

// A set of a hundred million positions: its copy, and what it is copied over.
#[test]
fn a_large_set_is_copied(rt: HostRuntime) -> Result<(), Fail> {
    let mut set = FixedBitSet::with_capacity(rt.alloc(), LARGE)?;
    set.insert_range(..);
    let mut copy = set.clone()?;
    assert!(rt; copy == set);
    copy.clear();
    copy.clone_from(&set)?;
    assert!(rt; copy == set);
    let _ = ManuallyDrop::new((set, copy));
    Ok(())
}

#[test]
fn a_large_set_has_a_text(rt: HostRuntime) -> Result<(), Fail> {
    let mut set = FixedBitSet::with_capacity(rt.alloc(), 10_000_000)?;
    set.insert_range(..);
    let text = set.to_string(rt.alloc())?;
    assert_eq!(rt; text.len(), 10_000_000);
    let mut ones = String::from_str(rt.alloc(), "1")?;
    while ones.len() < text.len() {
        let half = String::from_str(rt.alloc(), &ones)?;
        ones.push_str(&half)?;
    }
    assert!(rt; text.as_str() == &ones[..text.len()]);
    let _ = ManuallyDrop::new((text, ones));
    Ok(())
}

#[test]
fn a_large_set_is_read_back(rt: HostRuntime) -> Result<(), Fail> {
    let mut set = FixedBitSet::with_capacity(rt.alloc(), 8_000_000)?;
    set.insert_range(..);
    let value = set.to_value(rt.alloc())?;
    let again = FixedBitSet::from_value(rt.alloc(), &value)?;
    assert!(rt; again == set);
    let _ = ManuallyDrop::new((value, again));
    Ok(())
}
