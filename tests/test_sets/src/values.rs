//! The calls of a set against the slow value, at every length up to 130.

use crate::slow::Slow;
use fixedbitset::FixedBitSet;
use std::process::Abort;
use std::test::Fail;
use test_values::slow::{filled, is_same, multiples};

#[test]
fn a_new_set_has_length_zero(rt: HostRuntime) {
    let set = FixedBitSet::new(rt.alloc());
    assert!(rt; is_same(&set, &[]));
}

// ---- single positions

// A call on one position. `Put` has the answer that is wanted.
#[derive(Clone, Copy)]
enum Call {
    Put(bool),
    Toggle,
    Remove,
    Insert,
    Set(bool),
}

fn call_at(rt: &impl Abort, set: &mut FixedBitSet, position: usize, call: Call) {
    assert!(rt; position < set.len());
    match call {
        Call::Put(before) => assert!(rt; set.put(position) == before),
        Call::Toggle => set.toggle(position),
        Call::Remove => set.remove(position),
        Call::Insert => set.insert(position),
        Call::Set(enabled) => set.set(position, enabled),
    }
}

// The calls in order change this position alone, and leave it as the row says.
fn assert_changes(
    rt: &impl Abort,
    set: &mut FixedBitSet,
    wanted: &mut Slow,
    position: usize,
    rows: &[(Call, bool)],
) {
    for (call, is_set) in rows {
        call_at(rt, set, position, *call);
        wanted.set(position, *is_set);
        assert!(rt; wanted.is(set), "position {position} of {}", set.len());
    }
}

// Changes one position by each call, and leaves every third position set. The set with the position is asked for each; the
// one without it is the one that was there before.
fn assert_each_changes(rt: &impl Abort, set: &mut FixedBitSet, wanted: &mut Slow, position: usize) {
    for enabled in [true, false] {
        let rows = [
            (Call::Put(!enabled), true),
            (Call::Toggle, false),
            (Call::Toggle, true),
            (Call::Remove, false),
            (Call::Set(enabled), enabled),
        ];
        assert_changes(rt, set, wanted, position, &rows);
        if enabled {
            assert!(rt;
                wanted.is_at_each(set),
                "position {position} of {}",
                set.len()
            );
        }
    }
    if position % 3 == 0 {
        assert_changes(rt, set, wanted, position, &[(Call::Insert, true)]);
    }
}

#[test]
fn each_call_changes_its_position_alone(rt: HostRuntime) -> Result<(), Fail> {
    for length in 0..131 {
        let mut set = FixedBitSet::with_capacity(rt.alloc(), length)?;
        let mut wanted = Slow::of(&[]).resized(length, false);
        assert!(rt; wanted.is_at_each(&set));
        for position in 0..length {
            assert_each_changes(&rt, &mut set, &mut wanted, position);
        }
    }
    Ok(())
}

// ---- growth

// A position at any place, in a set that is shorter or longer.
#[test]
fn a_put_grows_and_says_what_was(rt: HostRuntime) -> Result<(), Fail> {
    for length in 0..131 {
        let fifths = multiples(rt.alloc(), length, 5)?;
        for position in 0..200 {
            let (mut set, mut wanted) = (filled(rt.alloc(), &fifths)?, Slow::of(&fifths));
            let was_set = wanted.has(position);
            assert!(rt;
                set.grow_and_put(position)? == was_set,
                "{position} of {length}"
            );
            wanted = wanted.resized(length.max(position + 1), false);
            wanted.set(position, true);
            assert!(rt; wanted.is(&set), "{position} of {length}");
            assert!(rt; set.grow_and_put(position)?, "{position} of {length}");
        }
    }
    Ok(())
}

#[test]
fn growing_keeps_the_positions(rt: HostRuntime) -> Result<(), Fail> {
    for length in 0..131 {
        let fifths = multiples(rt.alloc(), length, 5)?;
        let (slow, whole) = (Slow::of(&fifths), filled(rt.alloc(), &fifths)?);
        let mut last = slow;
        assert!(rt; slow.is_at_each(&whole));
        for bits in 0..131 {
            let mut set = whole.clone()?;
            set.grow(bits)?;
            let wanted = slow.resized(length.max(bits), false);
            assert!(rt;
                wanted.is_at_each_anew(&mut last, &set),
                "{length} grown to {bits}"
            );
        }
    }
    Ok(())
}

// Lengths that no memory holds: the refused call leaves the set as it was. A set of the least of them has 2 to the 47 bytes.
#[test]
fn refused_growth_changes_nothing(rt: HostRuntime) -> Result<(), Fail> {
    for bits in [1 << 50, 1 << 60, usize::MAX] {
        let mut set = FixedBitSet::with_capacity(rt.alloc(), 70)?;
        assert!(rt; set.len() == 70);
        set.insert(69);
        assert!(rt; set.grow(bits).is_err(), "{bits}");
        assert!(rt; set.grow_and_put(bits - 1).is_err(), "{bits}");
        assert!(rt; set.resize(bits, true).is_err(), "{bits}");
        assert_eq!(rt; set.len(), 70);
        assert_eq!(rt; set.as_slice(), [0, 32].as_slice());
        assert!(rt; FixedBitSet::with_capacity(rt.alloc(), bits).is_err());
    }
    Ok(())
}
