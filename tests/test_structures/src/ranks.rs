//! Rank of each number and select of each index, beside a walk over a slow value.

use bitranks::Ranks;
use fixedbitset::FixedBitSet;
use std::alloc::{AllocError, Global};
use std::mem::ManuallyDrop;
use std::process::Abort;
use std::test::Fail;
use test_values::slow::{filled, multiples};

// The lengths of long sets: about one, two and many entries of a directory, each of which stands for 512 positions.
const LONG: [usize; 8] = [511, 512, 513, 1023, 1024, 1025, 4096, 40_001];

// The slow values of this length with no position, with all, with the last alone, and with every third, every 64th and
// every 1009th.
fn fillings(alloc: Global, length: usize) -> Result<Vec<Vec<bool>>, AllocError> {
    let mut last = vec![in alloc; false; length]?;
    if length > 0 {
        last[length - 1] = true;
    }
    let none = vec![in alloc; false; length]?;
    let all = vec![in alloc; true; length]?;
    let thirds = multiples(alloc, length, 3)?;
    let of_words = multiples(alloc, length, 64)?;
    let few = multiples(alloc, length, 1009)?;
    Ok(vec![in alloc; none, all, last, thirds, of_words, few]?)
}

fn assert_ranks(rt: &impl Abort, ranks: &Ranks, flags: &[bool]) {
    let mut count = 0usize;
    for position in 0..flags.len() {
        assert!(rt;
            ranks.rank(position) == count,
            "rank of {position} of {}",
            flags.len()
        );
        if flags[position] {
            assert!(rt;
                ranks.select(count) == Some(position),
                "select {count} of {}",
                flags.len()
            );
            count = count.wrapping_add(1);
        }
    }
    assert!(rt; ranks.rank(flags.len()) == count && ranks.rank(usize::MAX) == count);
    assert!(rt; ranks.select(count) == None && ranks.select(usize::MAX) == None);
}

fn assert_length(rt: &impl Abort, alloc: Global, length: usize) -> Result<(), AllocError> {
    for flags in fillings(alloc, length)? {
        let set = filled(alloc, &flags)?;
        let ranks = Ranks::of(alloc, &set)?;
        assert!(rt; ranks.set().len() == length);
        assert_ranks(rt, &ranks, &flags);
    }
    Ok(())
}

#[test]
fn at_every_length(rt: HostRuntime) -> Result<(), Fail> {
    for length in 0..201 {
        assert_length(&rt, rt.alloc(), length)?;
    }
    Ok(())
}

#[test]
fn over_long_sets(rt: HostRuntime) -> Result<(), Fail> {
    for length in LONG {
        assert_length(&rt, rt.alloc(), length)?;
    }
    Ok(())
}

// A set of a hundred million positions, of which only those from 70 million on are set. To drop its words takes a second, so
// they are left.
#[test]
fn of_a_large_set(rt: HostRuntime) -> Result<(), Fail> {
    let mut set = FixedBitSet::with_capacity(rt.alloc(), 100_000_000)?;
    assert!(rt; set.len() == 100_000_000);
    set.insert_range(70_000_000..);
    let ranks = Ranks::of(rt.alloc(), &set)?;
    for step in 0..1000 {
        let index = 30_000 * step;
        assert!(rt;
            ranks.rank(70_000_000 + index) == index,
            "rank past {index}"
        );
        assert!(rt;
            ranks.select(index) == Some(70_000_000 + index),
            "select {index}"
        );
    }
    assert!(rt; ranks.rank(70_000_000) == 0 && ranks.rank(100_000_000) == 30_000_000);
    assert!(rt; ranks.select(29_999_999) == Some(99_999_999) && ranks.select(30_000_000) == None);
    let _ = ManuallyDrop::new(ranks);
    Ok(())
}
