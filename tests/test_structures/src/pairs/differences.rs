//! The union with a difference, and the first position that is lacking, beside slow values.

use crate::slow::Slow;
use fixedbitset::FixedBitSet;
use std::alloc::{AllocError, Global};
use std::process::Abort;
use std::test::Fail;
use test_values::pairs::Join;
use test_values::slow::{filled, multiples};

// The steps between the positions of a set, of what it takes in, and of what is killed.
const STEPS: [[usize; 3]; 6] = [
    [3, 1, 2],
    [64, 2, 5],
    [2, 1, 2],
    [65, 63, 1],
    [1, 7, 3],
    [200, 61, 183],
];

// None, one word and less, and lanes of four words with a rest of 0 to 3 words.
const LENGTHS: [usize; 9] = [0, 1, 64, 65, 192, 256, 257, 511, 576];

// A slow value and its set.
#[derive(Drop)]
struct Value {
    slow: Slow,
    set: FixedBitSet,
}

// The multiples of a step, at each of the lengths.
fn values(alloc: Global, lengths: &[usize], step: usize) -> Result<Vec<Value>, AllocError> {
    let mut values = Vec::new(alloc);
    for length in lengths {
        let flags = multiples(alloc, *length, step.max(1))?;
        let (slow, set) = (Slow::of(&flags), filled(alloc, &flags)?);
        values.push(Value { slow, set })?;
    }
    Ok(values)
}

// The set takes in those of the first value that the second lacks, which are the ones that are left. This is the first one.
fn assert_taken(
    rt: &impl Abort,
    set: &Value,
    gens: &Value,
    kills: &Value,
    left: &Slow,
    first: Option<usize>,
) -> Result<(), AllocError> {
    let length = set.slow.length.max(left.length);
    let expected = set.slow.joined(left, Join::Either, length);
    let changes = set.slow.count_joined(left, Join::SecondAlone) > 0;
    let (mut made, gens, kills) = (set.set.clone()?, &gens.set, &kills.set);
    assert!(rt; made.union_with_difference(gens, kills)? == changes);
    assert!(rt; expected.is_at_each(&made));
    assert!(rt; !made.union_with_difference(gens, kills)?);
    assert!(rt; kills.first_lacking(gens) == first);
    assert!(rt; first.is_none() == gens.is_subset(kills));
    Ok(())
}

// Each set with each two values.
fn assert_all_taken(
    rt: &impl Abort,
    sets: &[Value],
    gens: &[Value],
    kills: &[Value],
) -> Result<(), AllocError> {
    for gens in gens {
        for kills in kills {
            let (taken, killed) = (&gens.slow, &kills.slow);
            let left = taken.joined(killed, Join::FirstAlone, taken.length);
            let first = (0..left.length).find(|position| left.has(*position));
            for set in sets {
                assert_taken(rt, set, gens, kills, &left, first)?;
            }
        }
    }
    Ok(())
}

fn assert_multiples(rt: &impl Abort, alloc: Global, lengths: &[usize]) -> Result<(), AllocError> {
    for [step, gens_step, kills_step] in STEPS {
        let sets = values(alloc, lengths, step)?;
        let gens = values(alloc, lengths, gens_step)?;
        let kills = values(alloc, lengths, kills_step)?;
        assert_all_taken(rt, &sets, &gens, &kills)?;
    }
    Ok(())
}

#[test]
fn every_length(rt: HostRuntime) -> Result<(), Fail> {
    for length in 0..=130 {
        assert_multiples(&rt, rt.alloc(), &[length])?;
    }
    Ok(())
}

#[test]
fn unlike_lengths(rt: HostRuntime) -> Result<(), Fail> {
    assert_multiples(&rt, rt.alloc(), &LENGTHS)?;
    Ok(())
}

// A set that has grown has the words of a longer one, and none of its positions.
#[test]
fn grown_sets(rt: HostRuntime) -> Result<(), Fail> {
    for length in [1, 64, 65, 256, 300] {
        let mut set = FixedBitSet::from_iter(rt.alloc(), [0])?;
        let mut gens = FixedBitSet::from_iter(rt.alloc(), [0, 63])?;
        let mut kills = FixedBitSet::from_iter(rt.alloc(), [63])?;
        set.grow(length)?;
        gens.grow(length.saturating_mul(2))?;
        kills.grow(length.saturating_mul(3))?;
        assert!(rt; kills.first_lacking(&gens) == Some(0));
        assert!(rt; !set.union_with_difference(&gens, &kills)?);
        assert!(rt; set.len() == gens.len() && set.count_ones(..) == 1);
        assert!(rt; !set.union_with_difference(&kills, &gens)?);
        assert!(rt; set.len() == kills.len() && set.count_ones(..) == 1);
        assert!(rt; set.first_lacking(&kills) == Some(63));
    }
    Ok(())
}
