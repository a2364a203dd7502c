//! The commands over two sets, by every pair of fifteen lengths beside slow values.

use crate::slow::Slow;
use bitcommands::commands::{Command, Compare, Make, Reply, Whole, apply};
use fixedbitset::FixedBitSet;
use std::alloc::{AllocError, Global};
use std::process::Abort;
use std::test::Fail;
use test_values::pairs::{Join, PAIRS, Pair, every_pair};
use test_values::slow::filled;

// The sets of a pair, their slow values, and those of the sets that several commands make of them.
#[derive(Drop)]
struct Joins {
    sets: [FixedBitSet; 2],
    a: Slow,
    b: Slow,
    either: Slow,
    one: Slow,
}

// The sets are found to be the same as their slow values.
fn joins_of(rt: &impl Abort, alloc: Global, pair: &Pair) -> Result<Joins, AllocError> {
    let (a, b) = (Slow::of(&pair.a), Slow::of(&pair.b));
    let sets = [filled(alloc, &pair.a)?, filled(alloc, &pair.b)?];
    assert!(rt; a.is_at_each(&sets[0]) && b.is_at_each(&sets[1]));
    let longer = a.length.max(b.length);
    Ok(Joins {
        sets,
        a,
        b,
        either: a.joined(&b, Join::Either, longer),
        one: a.joined(&b, Join::One, longer),
    })
}

// The command is done, and leaves these sets, which are like those that are wanted.
fn left_by(
    rt: &impl Abort,
    alloc: Global,
    joins: &Joins,
    command: &Command,
    wanted: [&Slow; 3],
) -> Result<[FixedBitSet; 3], AllocError> {
    let [a, b] = &joins.sets;
    let mut sets = [a.clone()?, b.clone()?, FixedBitSet::new(alloc)];
    let reply = apply(alloc, &mut sets, command, 1_000_000);
    assert!(rt; matches!(reply, Reply::Done), "{command:?}");
    for (set, wanted) in sets.iter().zip(wanted) {
        assert!(rt;
            wanted.is(set),
            "{command:?} at lengths {} and {}",
            a.len(),
            b.len()
        );
    }
    Ok(sets)
}

// A row says whether the set that it changes is asked for each position: of those that are the same one is.
fn assert_changes(rt: &impl Abort, alloc: Global, joins: &Joins) -> Result<(), AllocError> {
    let (first, none) = (joins.a.length, Slow::of(&[]));
    let both = joins.a.joined(&joins.b, Join::Both, first);
    let first_alone = joins.a.joined(&joins.b, Join::FirstAlone, first);
    for (command, changed, is_asked) in [
        (Whole::UnionWith { a: 0, b: 1 }, &joins.either, true),
        (Whole::BitorAssign { a: 0, b: 1 }, &joins.either, false),
        (
            Whole::SymmetricDifferenceWith { a: 0, b: 1 },
            &joins.one,
            true,
        ),
        (Whole::BitxorAssign { a: 0, b: 1 }, &joins.one, false),
        (Whole::IntersectWith { a: 0, b: 1 }, &both, true),
        (Whole::BitandAssign { a: 0, b: 1 }, &both, false),
        (Whole::DifferenceWith { a: 0, b: 1 }, &first_alone, true),
    ] {
        let command = Command::Whole(command);
        let [set, _, _] = left_by(rt, alloc, joins, &command, [changed, &joins.b, &none])?;
        assert!(rt; !is_asked || changed.is_at_each(&set), "{command:?}");
    }
    Ok(())
}

fn assert_makes(rt: &impl Abort, alloc: Global, joins: &Joins) -> Result<(), AllocError> {
    let shorter = joins.a.length.min(joins.b.length);
    let both = joins.a.joined(&joins.b, Join::Both, shorter);
    let (target, a, b) = (2, 0, 1);
    for (command, made, is_asked) in [
        (Make::Bitand { target, a, b }, &both, true),
        (Make::Bitor { target, a, b }, &joins.either, false),
        (Make::Bitxor { target, a, b }, &joins.one, false),
    ] {
        let command = Command::Make(command);
        let [_, _, set] = left_by(rt, alloc, joins, &command, [&joins.a, &joins.b, made])?;
        assert!(rt; !is_asked || made.is_at_each(&set), "{command:?}");
    }
    Ok(())
}

#[test]
fn every_pair_changed_by_a_command(rt: HostRuntime) -> Result<(), Fail> {
    let pairs = every_pair(rt.alloc())?;
    assert_eq!(rt; pairs.len(), PAIRS);
    for pair in &pairs {
        let joins = joins_of(&rt, rt.alloc(), pair)?;
        assert_changes(&rt, rt.alloc(), &joins)?;
        assert_makes(&rt, rt.alloc(), &joins)?;
    }
    Ok(())
}

// What a comparison of the first two sets answers.
fn compared(
    alloc: Global,
    a: &FixedBitSet,
    b: &FixedBitSet,
    command: Compare,
) -> Result<Reply, AllocError> {
    let mut sets = [a.clone()?, b.clone()?, FixedBitSet::new(alloc)];
    Ok(apply(alloc, &mut sets, &Command::Compare(command), 1_000_000))
}

fn assert_counts(rt: &impl Abort, alloc: Global, pair: &Pair) -> Result<(), AllocError> {
    let (set, other) = (filled(alloc, &pair.a)?, filled(alloc, &pair.b)?);
    let (a, b) = (Slow::of(&pair.a), Slow::of(&pair.b));
    for (command, positions) in [
        (Compare::UnionCount { a: 0, b: 1 }, Join::Either),
        (Compare::IntersectionCount { a: 0, b: 1 }, Join::Both),
        (Compare::DifferenceCount { a: 0, b: 1 }, Join::FirstAlone),
        (Compare::SymmetricDifferenceCount { a: 0, b: 1 }, Join::One),
    ] {
        let expected = a.count_joined(&b, positions);
        let reply = compared(alloc, &set, &other, command)?;
        assert!(rt; matches!(reply, Reply::Number(number) if number == expected));
    }
    Ok(())
}

// Each answers whether there are none of these positions.
fn assert_answers(rt: &impl Abort, alloc: Global, pair: &Pair) -> Result<(), AllocError> {
    let (set, other) = (filled(alloc, &pair.a)?, filled(alloc, &pair.b)?);
    let (a, b) = (Slow::of(&pair.a), Slow::of(&pair.b));
    for (command, positions) in [
        (Compare::IsDisjoint { a: 0, b: 1 }, Join::Both),
        (Compare::IsSubset { a: 0, b: 1 }, Join::FirstAlone),
        (Compare::IsSuperset { a: 0, b: 1 }, Join::SecondAlone),
    ] {
        let expected = a.count_joined(&b, positions) == 0;
        let reply = compared(alloc, &set, &other, command)?;
        assert!(rt; matches!(reply, Reply::Bool(answer) if answer == expected));
    }
    Ok(())
}

#[test]
fn every_pair_compared_by_a_command(rt: HostRuntime) -> Result<(), Fail> {
    let pairs = every_pair(rt.alloc())?;
    assert_eq!(rt; pairs.len(), PAIRS);
    for pair in &pairs {
        assert_counts(&rt, rt.alloc(), pair)?;
        assert_answers(&rt, rt.alloc(), pair)?;
    }
    Ok(())
}
