//! Room for a stretch: worked rows over many words, and rows of stretches at random beside a slow search.

use fixedbitset::FixedBitSet;
use std::alloc::{AllocError, Global};
use std::process::Abort;
use std::test::Fail;
use test_values::slow::filled;

const LENGTHS: [usize; 8] = [0, 1, 63, 64, 65, 256, 1_000, 1_500];

const COUNTS: [usize; 14] = [0, 1, 2, 3, 20, 33, 62, 63, 64, 65, 128, 200, 700, 1_500];

const ALIGNMENTS: [usize; 9] = [0, 1, 2, 3, 8, 60, 64, 1_000, usize::MAX];

// Stretches that are clear and set by turns, each of 1 up to `longest` positions, by a row of numbers that repeats late.
fn stretches(alloc: Global, length: usize, longest: usize) -> Result<Vec<bool>, AllocError> {
    let mut number = 12_345;
    let mut flag = false;
    let mut left = 0;
    let mut flags = Vec::new(alloc);
    for _ in 0..length {
        if left == 0 {
            number = (number * 1_103_515_245 + 12_345) % 2_147_483_648;
            left = 1 + number / 1_024 % longest;
            flag = !flag;
        }
        left -= 1;
        flags.push(flag)?;
    }
    Ok(flags)
}

// How many positions are clear from each on, up to the next that is set.
fn clear_from(alloc: Global, flags: &[bool]) -> Result<Vec<usize>, AllocError> {
    let mut clear = vec![in alloc; 0; flags.len() + 1]?;
    for position in (0..flags.len()).rev() {
        if !flags[position] {
            clear[position] = clear[position + 1] + 1;
        }
    }
    Ok(clear)
}

fn assert_gaps(rt: &impl Abort, set: &FixedBitSet, clear: &[usize]) {
    for count in COUNTS {
        let mut from = 0;
        while from < set.len() + 70 {
            let least = (from..set.len() + 1).find(|start| clear[*start] >= count);
            assert!(rt;
                set.first_gap(count, from) == least,
                "{count} from {from} of {}",
                set.len()
            );
            let end = from.min(set.len());
            let greatest = (0..end + 1)
                .rev()
                .find(|start| is_place(clear, *start, 1, count, end));
            assert!(rt;
                set.last_gap(count, from) == greatest,
                "{count} below {from} of {}",
                set.len()
            );
            from += 1 + set.len() / 13;
        }
    }
}

// Whether a multiple of `align` has so many clear positions from there on, below the end.
fn is_place(clear: &[usize], place: usize, align: usize, count: usize, end: usize) -> bool {
    place.is_multiple_of(align) && count <= clear[place] && count <= end - place
}

fn assert_aligned_gaps(rt: &impl Abort, set: &FixedBitSet, clear: &[usize]) {
    for align in ALIGNMENTS {
        for count in COUNTS {
            for (start, end) in [
                (0, set.len()),
                (set.len() / 3, set.len() - set.len() / 5),
                (set.len() / 2, set.len() / 2),
            ] {
                let least = (start..end + 1).find(|at| is_place(clear, *at, align, count, end));
                assert!(rt; set.range_is_valid(&(start..end)));
                assert!(rt;
                    set.first_aligned_gap(count, align, start..end) == least,
                    "{count} at a multiple of {align} in {start}..{end} of {}",
                    set.len()
                );
            }
        }
    }
}

#[test]
fn beside_a_slow_search(rt: HostRuntime) -> Result<(), Fail> {
    for length in LENGTHS {
        for longest in [1, 2, 7, 70, 400] {
            let mut flags = stretches(rt.alloc(), length, longest)?;
            for _ in 0..2 {
                let set = filled(rt.alloc(), &flags)?;
                let clear = clear_from(rt.alloc(), &flags)?;
                assert_gaps(&rt, &set, &clear);
                if length < 300 {
                    assert_aligned_gaps(&rt, &set, &clear);
                }
                for position in 0..length {
                    flags[position] = !flags[position];
                }
            }
        }
    }
    Ok(())
}

// Full and clear words before and behind the one that decides, in rows of 5,000 positions.
#[test]
fn past_full_and_clear_words(rt: HostRuntime) -> Result<(), Fail> {
    let mut full = FixedBitSet::with_capacity(rt.alloc(), 5_000)?;
    full.insert_range(..);
    assert!(rt; full.first_gap(1, 0) == None && full.first_gap(0, 77) == Some(77));
    assert!(rt; full.last_gap(1, 5_000) == None && full.last_gap(0, 77) == Some(77));
    for (start, end, count, answer) in [
        (4_999, 5_000, 1, Some(4_999)),
        (4_999, 5_000, 2, None),
        (63, 65, 2, Some(63)),
        (63, 65, 3, None),
        (1_024, 4_096, 3_072, Some(1_024)),
        (1_024, 4_096, 3_073, None),
        (1_030, 4_090, 3_060, Some(1_030)),
        (0, 5_000, 5_000, Some(0)),
        (0, 5_000, 5_001, None),
    ] {
        let mut set = full.clone()?;
        assert!(rt; set.range_is_valid(&(start..end)));
        set.remove_range(start..end);
        assert!(rt;
            set.first_gap(count, 0) == answer,
            "{count} in {start}..{end}"
        );
        assert!(rt; set.first_gap(count, start + 1) == None);
        assert!(rt; set.last_gap(count, usize::MAX) == answer.map(|_| end - count));
        assert!(rt; set.last_gap(count, end - 1) == None);
        assert!(rt; set.first_aligned_gap(count, 1, ..) == answer);
        let multiple = start.next_multiple_of(64);
        let aligned = if multiple < end { Some(multiple) } else { None };
        assert!(rt; set.first_aligned_gap(1, 64, ..) == aligned);
    }
    Ok(())
}

// Worked rows: `count` and `align`, a range, and the answer in a set of 3, 6 and 90.
#[test]
fn at_multiples(rt: HostRuntime) -> Result<(), Fail> {
    let mut set = FixedBitSet::from_iter(rt.alloc(), [3, 6, 90])?;
    set.grow(200)?;
    for (count, align, start, end, answer) in [
        (3, 4, 1, 200, Some(8)),
        (3, 4, 9, 200, Some(12)),
        (3, 4, 9, 14, None),
        (3, 4, 9, 15, Some(12)),
        (2, 1, 4, 6, Some(4)),
        (80, 64, 0, 200, None),
        (72, 64, 0, 200, Some(128)),
        (1, 0, 0, 200, Some(0)),
        (4, 0, 0, 200, None),
        (1, 0, 1, 200, None),
        (0, 100, 101, 200, Some(200)),
        (0, 100, 101, 199, None),
        (1, usize::MAX, 1, 200, None),
    ] {
        assert!(rt; set.range_is_valid(&(start..end)));
        assert!(rt;
            set.first_aligned_gap(count, align, start..end) == answer,
            "{count} at a multiple of {align} in {start}..{end}"
        );
    }
    Ok(())
}
