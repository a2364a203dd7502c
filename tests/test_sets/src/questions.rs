//! Questions about one whole set, single positions that are copied or looked at by an index, and the unchecked calls: at
//! every length up to 130 beside slow values.

use crate::slow::Slow;
use fixedbitset::FixedBitSet;
use std::alloc::{AllocError, Global};
use std::process::Abort;
use std::test::Fail;
use test_values::slow::{filled, multiples};

// The slow values of this length with no position, with all, with the first alone, the last alone, all but the last, and
// every seventh.
pub(crate) fn fillings(alloc: Global, length: usize) -> Result<Vec<Vec<bool>>, AllocError> {
    let mut first = vec![in alloc; false; length]?;
    let mut last = vec![in alloc; false; length]?;
    let mut all_but_last = vec![in alloc; true; length]?;
    if length > 0 {
        first[0] = true;
        last[length - 1] = true;
        all_but_last[length - 1] = false;
    }
    let none = vec![in alloc; false; length]?;
    let all = vec![in alloc; true; length]?;
    let sevenths = multiples(alloc, length, 7)?;
    Ok(vec![in alloc; none, all, first, last, all_but_last, sevenths]?)
}

fn assert_answers(rt: &impl Abort, set: &FixedBitSet, flags: &[bool]) {
    let none = flags.iter().all(|flag| !*flag);
    let all = flags.iter().all(|flag| *flag);
    assert!(rt; set.is_empty() == flags.is_empty());
    assert!(rt; set.is_clear() == none, "clear at {}", flags.len());
    assert!(rt; set.is_full() == all, "full at {}", flags.len());
    assert!(rt;
        set.minimum() == flags.iter().position(|flag| *flag),
        "minimum at {}",
        flags.len()
    );
    assert!(rt;
        set.maximum() == flags.iter().rposition(|flag| *flag),
        "maximum at {}",
        flags.len()
    );
}

// Each position is taken out from one end, and one call more changes nothing.
fn assert_pops(rt: &impl Abort, set: &mut FixedBitSet, flags: &[bool], is_first: bool) {
    let mut wanted = Slow::of(flags);
    let (mut start, mut end) = (0, flags.len());
    for _ in 0..set.count_ones(..) + 1 {
        let mut left = flags[start..end].iter();
        let (popped, at) = if is_first {
            (set.pop_first(), left.position(|flag| *flag))
        } else {
            (set.pop_last(), left.rposition(|flag| *flag))
        };
        assert_eq!(rt;
            popped,
            at.map(|at| start + at),
            "{is_first} at {}",
            flags.len()
        );
        if let Some(position) = popped {
            wanted.set(position, false);
            (start, end) = if is_first {
                (position + 1, end)
            } else {
                (start, position)
            };
        }
        assert!(rt; wanted.is(set), "{is_first} at {}", flags.len());
    }
    assert!(rt; set.is_clear());
}

#[test]
fn positions_are_taken_out_from_both_ends(rt: HostRuntime) -> Result<(), Fail> {
    for length in 0..131 {
        for flags in fillings(rt.alloc(), length)? {
            let mut set = filled(rt.alloc(), &flags)?;
            assert_pops(&rt, &mut set.clone()?, &flags, true);
            assert_pops(&rt, &mut set, &flags, false);
        }
    }
    Ok(())
}

#[test]
fn answers_at_every_length(rt: HostRuntime) -> Result<(), Fail> {
    for length in 0..131 {
        for flags in fillings(rt.alloc(), length)? {
            let set = filled(rt.alloc(), &flags)?;
            assert_answers(&rt, &set, &flags);
        }
    }
    Ok(())
}

// A set with one position alone, at each place of three words.
#[test]
fn one_position_is_first_and_last(rt: HostRuntime) -> Result<(), Fail> {
    for position in 0..130 {
        let mut set = FixedBitSet::with_capacity(rt.alloc(), 130)?;
        assert!(rt; set.len() == 130);
        set.insert(position);
        assert_eq!(rt; set.minimum(), Some(position));
        assert_eq!(rt; set.maximum(), Some(position));
        assert!(rt; !set.is_clear());
        set.toggle_range(..);
        assert!(rt; !set.is_full());
    }
    Ok(())
}

// Two positions with empty words before, between and behind them, in sets of 16 to 19 words: whole lanes of four, and up
// to three words more.
#[test]
fn first_and_last_of_many_words(rt: HostRuntime) -> Result<(), Fail> {
    for more in 0..4 {
        for step in 0..8 {
            for gap in 0..6 {
                let first = 71 * step;
                let last = first + 97 * gap;
                let mut set = FixedBitSet::with_capacity(rt.alloc(), 1_000 + 64 * more)?;
                assert!(rt; first < set.len());
                set.insert(first);
                assert!(rt; last < set.len());
                set.insert(last);
                assert_eq!(rt; set.minimum(), Some(first));
                assert_eq!(rt; set.maximum(), Some(last));
            }
        }
    }
    Ok(())
}

#[test]
fn length_zero_is_clear_and_full(rt: HostRuntime) -> Result<(), Fail> {
    let mut set = FixedBitSet::new(rt.alloc());
    assert!(rt; set.is_empty() && set.is_clear() && set.is_full());
    assert_eq!(rt; set.minimum(), None);
    set.grow(1)?;
    assert!(rt; set.len() == 1);
    assert!(rt; !set.is_empty() && set.is_clear() && !set.is_full());
    assert!(rt; !set.put(0));
    assert!(rt; set.is_full());
    Ok(())
}

// ---- single positions

#[test]
fn bits_are_copied(rt: HostRuntime) -> Result<(), Fail> {
    let mut set = FixedBitSet::with_capacity(rt.alloc(), 48)?;
    assert!(rt; set.len() == 48);
    set.insert_range(..);
    set.set(42, false);
    set.copy_bit(42, 2);
    assert!(rt; !set.contains(2));
    set.copy_bit(1, 42);
    assert!(rt; set.contains(42));
    set.copy_bit(1024, 42);
    assert!(rt; !set[42]);
    Ok(())
}

// Each position is copied to another one, from below the length and from past it.
#[test]
fn each_bit_is_copied_alone(rt: HostRuntime) -> Result<(), Fail> {
    for length in 1..131 {
        let flags = multiples(rt.alloc(), length, 3)?;
        let mut set = filled(rt.alloc(), &flags)?;
        let mut wanted = Slow::of(&flags);
        for from in 0..length + 2 {
            let to = (from * 5 + 1) % length;
            assert!(rt; to < set.len());
            set.copy_bit(from, to);
            wanted.set(to, wanted.has(from));
            assert!(rt; wanted.is_at_each(&set), "{from} to {to} of {length}");
        }
    }
    Ok(())
}

#[test]
fn an_index_is_membership(rt: HostRuntime) -> Result<(), Fail> {
    let flags = multiples(rt.alloc(), 130, 3)?;
    let set = filled(rt.alloc(), &flags)?;
    for position in 0..130 {
        assert!(rt; set[position] == (position % 3 == 0));
    }
    assert!(rt; !set[130] && !set[usize::MAX]);
    Ok(())
}

// What a checked call makes of a set, and what its unchecked one makes of another one.
#[test]
fn unchecked_calls_do_the_same(rt: HostRuntime) -> Result<(), Fail> {
    let flags = multiples(rt.alloc(), 130, 3)?;
    let mut set = filled(rt.alloc(), &flags)?;
    let mut twin = filled(rt.alloc(), &flags)?;
    for position in 0..130 {
        assert!(rt; position < set.len() && position < twin.len());
        assert!(rt; set.contains(position) == twin.contains_unchecked(position));
        match position % 5 {
            0 => assert!(rt; set.put(position) == twin.put_unchecked(position)),
            1 => {
                set.toggle(position);
                twin.toggle_unchecked(position);
            }
            2 => {
                set.remove(position);
                twin.remove_unchecked(position);
            }
            3 => {
                set.set(position, position % 2 == 0);
                twin.set_unchecked(position, position % 2 == 0);
            }
            _ => {
                set.insert(position);
                twin.insert_unchecked(position);
            }
        }
        assert!(rt; position < set.len() && position < twin.len());
        set.copy_bit(position / 2, position);
        twin.copy_bit_unchecked(position / 2, position);
        assert!(rt; set.as_slice() == twin.as_slice());
    }
    Ok(())
}
