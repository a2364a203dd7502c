//! The walks against slow lists, at every length up to 200, and what no clause says of them.

use crate::walks::gives::{ORDERS, assert_gives};
use crate::walks::slow::{FILLINGS, set_of};
use bitlanes::counter::Steps;
use bitlanes::word::Block;
use fixedbitset::{FixedBitSet, IntoOnes, Ones, Zeroes};
use std::alloc::{AllocError, Global};
use std::mem;
use std::process::Abort;
use std::test::Fail;

#[test]
fn ones_at_every_length(rt: HostRuntime) -> Result<(), Fail> {
    for length in 0..201 {
        for filling in FILLINGS {
            let items = filling.positions(rt.alloc(), length, true)?;
            let set = set_of(rt.alloc(), length, &items)?;
            for ends in ORDERS {
                assert_gives(&rt, set.ones(), &items, ends);
            }
        }
    }
    Ok(())
}

#[test]
fn into_ones_at_every_length(rt: HostRuntime) -> Result<(), Fail> {
    for length in 0..201 {
        for filling in FILLINGS {
            let items = filling.positions(rt.alloc(), length, true)?;
            for ends in ORDERS {
                let set = set_of(rt.alloc(), length, &items)?;
                assert_gives(&rt, set.into_ones(), &items, ends);
            }
            let mut walk = set_of(rt.alloc(), length, &items)?.into_ones();
            assert_eq!(rt; walk.next(), items.first().copied());
            assert_eq!(rt;
                walk.count_left(&mut Steps::new()),
                items.len().saturating_sub(1)
            );
        }
    }
    Ok(())
}

#[test]
fn zeroes_at_every_length(rt: HostRuntime) -> Result<(), Fail> {
    for length in 0..201 {
        for filling in FILLINGS {
            let positions = filling.positions(rt.alloc(), length, true)?;
            let set = set_of(rt.alloc(), length, &positions)?;
            let items = filling.positions(rt.alloc(), length, false)?;
            for ends in ORDERS {
                assert_gives(&rt, set.zeroes(), &items, ends);
            }
        }
    }
    Ok(())
}

// The items of the range, of those in the list.
fn part(
    alloc: Global,
    items: &[usize],
    start: usize,
    end: usize,
) -> Result<Vec<usize>, AllocError> {
    let mut part = Vec::new(alloc);
    for item in items {
        if start <= *item && *item < end {
            part.push(*item)?;
        }
    }
    Ok(part)
}

// Ranges at the ends of the set and of its words, and some between.
#[test]
fn ranges_at_every_length(rt: HostRuntime) -> Result<(), Fail> {
    for length in 0..201 {
        for filling in FILLINGS {
            let ones = filling.positions(rt.alloc(), length, true)?;
            let zeroes = filling.positions(rt.alloc(), length, false)?;
            let set = set_of(rt.alloc(), length, &ones)?;
            for (start, end) in [
                (0, length),
                (length / 2, length),
                (1, 64),
                (63, 130),
                (64, 128),
                (70, 70),
                (129, 200),
            ] {
                if set.range_is_valid(&(start..end)) {
                    let wanted = part(rt.alloc(), &ones, start, end)?;
                    let others = part(rt.alloc(), &zeroes, start, end)?;
                    for ends in ORDERS {
                        assert_gives(&rt, set.ones_in(start..end), &wanted, ends);
                        assert_gives(&rt, set.zeroes_in(start..end), &others, ends);
                    }
                }
            }
        }
    }
    Ok(())
}

// The stretches of the positions in the list, as start and end.
fn stretches(alloc: Global, items: &[usize]) -> Result<Vec<(usize, usize)>, AllocError> {
    let mut list = Vec::new(alloc);
    let mut open = None;
    for item in items {
        open = match open {
            Some((start, end)) if end == *item => Some((start, item.saturating_add(1))),
            Some(stretch) => {
                list.push(stretch)?;
                Some((*item, item.saturating_add(1)))
            }
            None => Some((*item, item.saturating_add(1))),
        };
    }
    if let Some(stretch) = open {
        list.push(stretch)?;
    }
    Ok(list)
}

// From the front, from the back, and from both in turn.
fn assert_stretches(rt: &impl Abort, set: &FixedBitSet, are_set: bool, wanted: &[(usize, usize)]) {
    let walk = || if are_set { set.runs() } else { set.zero_runs() };
    assert!(rt; walk().eq(wanted.iter().copied()));
    assert!(rt; walk().rev().eq(wanted.iter().rev().copied()));
    let (mut both, mut left) = (walk(), wanted);
    for _ in 0..wanted.len() {
        let Some((first, others)) = left.split_first() else {
            break;
        };
        assert_eq!(rt; both.next(), Some(*first));
        left = others;
        if let Some((last, before)) = left.split_last() {
            assert_eq!(rt; both.next_back(), Some(*last));
            left = before;
        }
    }
    assert!(rt; both.next() == None && both.next_back() == None);
}

#[test]
fn stretches_at_every_length(rt: HostRuntime) -> Result<(), Fail> {
    for length in 0..201 {
        for filling in FILLINGS {
            let ones = filling.positions(rt.alloc(), length, true)?;
            let zeroes = filling.positions(rt.alloc(), length, false)?;
            let set = set_of(rt.alloc(), length, &ones)?;
            assert_stretches(&rt, &set, true, &stretches(rt.alloc(), &ones)?);
            assert_stretches(&rt, &set, false, &stretches(rt.alloc(), &zeroes)?);
        }
    }
    Ok(())
}

// Four stretches over 4,000 positions, and the room between them.
#[test]
fn stretches_over_many_words(rt: HostRuntime) -> Result<(), Fail> {
    let mut set = FixedBitSet::with_capacity(rt.alloc(), 4_000)?;
    let wanted = [(0, 1), (63, 65), (128, 2_000), (3_999, 4_000)];
    for (start, end) in wanted {
        if set.range_is_valid(&(start..end)) {
            set.insert_range(start..end);
        }
    }
    assert_stretches(&rt, &set, true, &wanted);
    assert_stretches(&rt, &set, false, &[(1, 63), (65, 128), (2_000, 3_999)]);
    for (count, from, start) in [
        (0, 7, Some(7)),
        (62, 0, Some(1)),
        (63, 0, Some(65)),
        (64, 0, Some(2_000)),
        (2_000, 0, None),
        (1, 3_999, None),
        (0, 4_000, Some(4_000)),
        (0, 4_001, None),
    ] {
        assert_eq!(rt; set.first_gap(count, from), start);
    }
    Ok(())
}

// What each of the two calls answers of a word, and what it leaves.
fn lowest_bits(word: Block) -> [(usize, Block); 2] {
    let mut rest = word;
    let mut owned_rest = word;
    let index = Ones::last_positive_bit_and_unset(&mut rest);
    let owned_index = IntoOnes::last_positive_bit_and_unset(&mut owned_rest);
    [(index, rest), (owned_index, owned_rest)]
}

#[test]
fn lowest_bit_is_answered_and_cleared(rt: HostRuntime) {
    for (word, index, left) in [(12, 2, 8), (1 << 63, 63, 0), (u64::MAX, 0, u64::MAX - 1)] {
        assert!(rt; word != 0);
        assert!(rt; lowest_bits(word) == [(index, left); 2], "of {word}");
    }
}

#[test]
fn walks_are_six_words(rt: HostRuntime) {
    assert_eq!(rt; mem::size_of::<Steps>(), 0);
    assert_eq!(rt; mem::size_of::<Ones>(), 48);
    assert_eq!(rt; mem::size_of::<Zeroes>(), 48);
}
