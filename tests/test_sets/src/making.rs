//! Sets made of words and as copies, words and whole sets written anew: worked values, sweeps beside slow values, and how
//! many items are asked for.

use crate::slow::Slow;
use fixedbitset::{Block, FixedBitSet};
use std::alloc::{AllocError, Global};
use std::process::Abort;
use std::test::Fail;
use test_values::pairs::{PAIRS, every_pair};
use test_values::slow::{filled, is_same, multiples};

// ---- words

#[test]
fn bits_past_the_length_are_cleared(rt: HostRuntime) -> Result<(), Fail> {
    let mut set = FixedBitSet::with_capacity_and_blocks(rt.alloc(), 1, [8])?;
    assert!(rt; is_same(&set, &[false]));
    assert!(rt; set.is_clear() && set.ones().next() == None);
    set.grow(4)?;
    assert!(rt; !set.contains(3));
    assert!(rt; is_same(&set, &[false; 4]));
    Ok(())
}

#[test]
fn words_that_are_missing_are_zero(rt: HostRuntime) -> Result<(), Fail> {
    let set = FixedBitSet::with_capacity_and_blocks(rt.alloc(), 130, [5])?;
    assert_eq!(rt; set.as_slice(), [5, 0, 0].as_slice());
    assert_eq!(rt; set.len(), 130);
    Ok(())
}

// Gives one word without an end, and counts how often it is asked.
#[derive(Drop)]
struct Endless<'a> {
    asked: &'a mut usize,
}

impl Iterator for Endless<'_> {
    type Item = Block;

    fn next(&mut self) -> Option<Block> {
        *self.asked = self.asked.wrapping_add(1);
        Some(Block::MAX)
    }
}

#[test]
fn no_more_items_are_asked_for_than_words(rt: HostRuntime) -> Result<(), Fail> {
    for (bits, words) in [(0, 0), (1, 1), (64, 1), (65, 2), (130, 3)] {
        let mut asked = 0;
        let blocks = Endless { asked: &mut asked };
        let set = FixedBitSet::with_capacity_and_blocks(rt.alloc(), bits, blocks)?;
        assert_eq!(rt; asked, words, "at {bits}");
        assert!(rt;
            is_same(&set, &multiples(rt.alloc(), bits, 1)?),
            "at {bits}"
        );
    }
    Ok(())
}

#[test]
fn three_items_of_an_endless_iterator(rt: HostRuntime) -> Result<(), Fail> {
    let mut asked = 0;
    let blocks = Endless { asked: &mut asked };
    let set = FixedBitSet::with_capacity_and_blocks(rt.alloc(), 130, blocks)?;
    assert_eq!(rt; asked, 3);
    assert_eq!(rt; set.as_slice(), [Block::MAX, Block::MAX, 3].as_slice());
    assert_eq!(rt; set.count_ones(..), 130);
    Ok(())
}

// Bit 2 is 4, bit 3 is 8, bit 6 is 64 and bit 8 is 256.
#[test]
fn a_word_has_the_bits_of_its_positions(rt: HostRuntime) -> Result<(), Fail> {
    let mut set = FixedBitSet::with_capacity(rt.alloc(), 10)?;
    for position in [2, 3, 6, 8] {
        assert!(rt; position < set.len());
        set.insert(position);
    }
    assert_eq!(rt; set.as_slice(), [332].as_slice());
    let again = FixedBitSet::with_capacity_and_blocks(rt.alloc(), 10, [332])?;
    assert!(rt; again == set && again.ones().eq([2, 3, 6, 8]));
    Ok(())
}

#[test]
fn a_set_is_made_again_of_its_words(rt: HostRuntime) -> Result<(), Fail> {
    for length in 0..131 {
        let flags = multiples(rt.alloc(), length, 3)?;
        let set = filled(rt.alloc(), &flags)?;
        let words = set.as_slice().iter().copied();
        let again = FixedBitSet::with_capacity_and_blocks(rt.alloc(), length, words)?;
        assert!(rt; is_same(&again, &flags), "length {length}");
    }
    Ok(())
}

#[test]
fn a_set_is_made_of_a_view(rt: HostRuntime) -> Result<(), Fail> {
    for length in 0..131 {
        let flags = multiples(rt.alloc(), length, 3)?;
        let set = filled(rt.alloc(), &flags)?;
        let mut again = FixedBitSet::from_bits(rt.alloc(), set.as_bits())?;
        assert!(rt; is_same(&again, &flags), "length {length}");
        again.clear();
        assert!(rt; is_same(&set, &flags), "length {length}");
    }
    Ok(())
}

#[test]
fn a_word_is_set(rt: HostRuntime) -> Result<(), Fail> {
    let mut set = FixedBitSet::with_capacity(rt.alloc(), 70)?;
    assert!(rt; set.as_slice().len() == 2);
    set.set_block(1, Block::MAX);
    assert_eq!(rt; set.as_slice(), [0, 63].as_slice());
    assert!(rt; set.as_slice().len() == 2);
    set.set_block(0, 1 << 63);
    assert_eq!(rt; set.as_slice(), [1 << 63, 63].as_slice());
    Ok(())
}

#[test]
fn a_set_grows_and_gets_a_position(rt: HostRuntime) -> Result<(), Fail> {
    let mut set = FixedBitSet::with_capacity(rt.alloc(), 64)?;
    set.insert_range(..);
    set.grow_and_insert(64)?;
    assert_eq!(rt; set.len(), 65);
    assert_eq!(rt; set.as_slice(), [Block::MAX, 1].as_slice());
    Ok(())
}

// ---- copies, and sets cleared

#[test]
fn a_copy_of_a_shorter_set_leaves_nothing_behind(rt: HostRuntime) -> Result<(), Fail> {
    let mut set = FixedBitSet::from_iter(rt.alloc(), [99]).expect(&rt, "memory for two words");
    let source = FixedBitSet::with_capacity_and_blocks(rt.alloc(), 10, [4])?;
    set.clone_from(&source)?;
    assert_eq!(rt; set.len(), 10);
    set.grow(100)?;
    assert!(rt; !set.contains(99));
    assert_eq!(rt; set.count_ones(..), 1);
    Ok(())
}

// The calls copy the second slow value over the set of the first, which is asked for each position, and clear the copy.
fn assert_copies(rt: &impl Abort, alloc: Global, a: &[bool], b: &[bool]) -> Result<(), AllocError> {
    let source = filled(alloc, b)?;
    let mut set = filled(alloc, a)?;
    let wanted = Slow::of(b);
    set.clone_from(&source)?;
    assert!(rt; wanted.is_at_each(&set), "{} over {}", b.len(), a.len());
    let mut copy = source.clone()?;
    assert!(rt; wanted.is(&copy), "copy of {}", b.len());
    copy.clear();
    assert!(rt; copy.len() == b.len() && copy.is_clear());
    assert!(rt; wanted.is(&source));
    Ok(())
}

#[test]
fn every_pair_is_copied(rt: HostRuntime) -> Result<(), Fail> {
    let pairs = every_pair(rt.alloc())?;
    assert_eq!(rt; pairs.len(), PAIRS);
    for pair in &pairs {
        assert_copies(&rt, rt.alloc(), &pair.a, &pair.b)?;
    }
    Ok(())
}

#[test]
fn a_new_set_by_default_has_length_zero(rt: HostRuntime) {
    assert!(rt; is_same(&FixedBitSet::default(rt.alloc()), &[]));
}
