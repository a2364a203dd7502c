//! The positions next to a given one, and the k-th: of each number, at every length up to 200 beside slow values, and over
//! rows of many words.

use crate::questions::fillings;
use fixedbitset::FixedBitSet;
use std::process::Abort;
use std::test::Fail;
use test_values::slow::filled;

// From the back on, with the last position that was seen; `wanted` is whether positions that are set are looked for.
fn assert_next(rt: &impl Abort, set: &FixedBitSet, flags: &[bool], wanted: bool) {
    let next = |from| if wanted {
        set.next_one(from)
    } else {
        set.next_zero(from)
    };
    let mut seen = None;
    assert!(rt; next(flags.len()) == None && next(usize::MAX) == None);
    for position in (0..flags.len()).rev() {
        if flags[position] == wanted {
            seen = Some(position);
        }
        assert!(rt; next(position) == seen, "{position} of {}", flags.len());
    }
}

// From the front on.
fn assert_previous(rt: &impl Abort, set: &FixedBitSet, flags: &[bool], wanted: bool) {
    let previous = |below| if wanted {
        set.previous_one(below)
    } else {
        set.previous_zero(below)
    };
    let mut seen = None;
    for position in 0..flags.len() {
        assert!(rt; previous(position) == seen, "{position} of {}", flags.len());
        if flags[position] == wanted {
            seen = Some(position);
        }
    }
    assert!(rt; previous(flags.len()) == seen && previous(usize::MAX) == seen);
}

// With the number of positions that were seen.
fn assert_nth(rt: &impl Abort, set: &FixedBitSet, flags: &[bool]) {
    let mut seen = 0;
    for position in 0..flags.len() {
        if flags[position] {
            assert!(rt;
                set.nth_one(seen) == Some(position),
                "{position} of {}",
                flags.len()
            );
            seen += 1;
        }
    }
    assert!(rt; set.nth_one(seen) == None && set.nth_one(usize::MAX) == None);
}

#[test]
fn next_to_each_number_at_every_length(rt: HostRuntime) -> Result<(), Fail> {
    for length in 0..201 {
        for flags in fillings(rt.alloc(), length)? {
            let set = filled(rt.alloc(), &flags)?;
            assert_nth(&rt, &set, &flags);
            for wanted in [true, false] {
                assert_next(&rt, &set, &flags, wanted);
                assert_previous(&rt, &set, &flags, wanted);
            }
        }
    }
    Ok(())
}

// One position among 3,000 to 3,192 numbers, and one number that is missing among them, asked for from both sides.
#[test]
fn far_over_many_words(rt: HostRuntime) -> Result<(), Fail> {
    for more in 0..4 {
        let length = 3_000 + 64 * more;
        for step in 0..20 {
            let position = 149 * step;
            let mut set = FixedBitSet::with_capacity(rt.alloc(), length)?;
            assert!(rt; position < set.len());
            set.insert(position);
            let mut others = set.clone()?;
            others.toggle_range(..);
            for near in 0..30 {
                let from = 101 * near;
                let next = if from <= position {
                    Some(position)
                } else {
                    None
                };
                let previous = if from > position {
                    Some(position)
                } else {
                    None
                };
                assert!(rt; set.next_one(from) == next && others.next_zero(from) == next);
                assert!(rt; set.nth_one(near) == if near == 0 { Some(position) } else { None });
                assert!(rt; set.previous_one(from) == previous);
                assert!(rt; others.previous_zero(from) == previous);
            }
        }
    }
    Ok(())
}
