//! Every call on every pair of fifteen lengths, beside slow values.

use crate::pairs::calls::{Changing, Counting, Joining, Question, change, count, is_so, join};
use crate::slow::Slow;
use fixedbitset::FixedBitSet;
use std::alloc::{AllocError, Global};
use std::process::Abort;
use std::test::Fail;
use test_values::pairs::{Join, PAIRS, Pair, every_pair};
use test_values::slow::filled;

// Which length a joined set has.
#[derive(Clone, Copy)]
enum Length {
    Longer,
    First,
    Shorter,
}

fn length_of(pair: &Pair, length: Length) -> usize {
    match length {
        Length::Longer => pair.a.len().max(pair.b.len()),
        Length::First => pair.a.len(),
        Length::Shorter => pair.a.len().min(pair.b.len()),
    }
}

// The calls of a row make this of every pair. One of the sets that they make, which are the same, is asked for each position.
fn assert_joins(
    rt: &impl Abort,
    alloc: Global,
    rows: &[(&[Joining], Join, Length)],
) -> Result<(), AllocError> {
    let pairs = every_pair(alloc)?;
    assert_eq!(rt; pairs.len(), PAIRS);
    for pair in &pairs {
        let (a, b) = (Slow::of(&pair.a), Slow::of(&pair.b));
        let (set, other) = (filled(alloc, &pair.a)?, filled(alloc, &pair.b)?);
        for (calls, positions, length) in rows {
            let wanted = a.joined(&b, *positions, length_of(pair, *length));
            let mut made = FixedBitSet::new(alloc);
            for call in *calls {
                made = join(set.clone()?, other.clone()?, *call)?;
                assert!(rt; wanted.is(&made), "{call:?} at length {}", a.length);
            }
            assert!(rt;
                wanted.is_at_each(&made),
                "{calls:?} at length {}",
                a.length
            );
        }
    }
    Ok(())
}

#[test]
fn every_pair_changed(rt: HostRuntime) -> Result<(), Fail> {
    let either = [Joining::UnionWith, Joining::BitorAssign];
    let one = [Joining::SymmetricDifferenceWith, Joining::BitxorAssign];
    let rows = [
        (either.as_slice(), Join::Either, Length::Longer),
        (one.as_slice(), Join::One, Length::Longer),
    ];
    assert_joins(&rt, rt.alloc(), &rows)?;
    Ok(())
}

#[test]
fn every_pair_changed_at_one_length(rt: HostRuntime) -> Result<(), Fail> {
    let both = [
        Joining::IntersectWith,
        Joining::BitandAssign,
        Joining::BitandAssignOfValue,
    ];
    let first_alone = [Joining::DifferenceWith];
    let rows = [
        (both.as_slice(), Join::Both, Length::First),
        (first_alone.as_slice(), Join::FirstAlone, Length::First),
    ];
    assert_joins(&rt, rt.alloc(), &rows)?;
    Ok(())
}

#[test]
fn every_pair_joined_anew(rt: HostRuntime) -> Result<(), Fail> {
    let both = [Joining::Bitand, Joining::IntersectionOf];
    let either = [Joining::Bitor, Joining::UnionOf];
    let one = [Joining::Bitxor, Joining::SymmetricDifferenceOf];
    let first_alone = [Joining::DifferenceOf];
    let rows = [
        (both.as_slice(), Join::Both, Length::Shorter),
        (either.as_slice(), Join::Either, Length::Longer),
        (one.as_slice(), Join::One, Length::Longer),
        (first_alone.as_slice(), Join::FirstAlone, Length::First),
    ];
    assert_joins(&rt, rt.alloc(), &rows)?;
    Ok(())
}

// What each call makes of a pair, and the positions of which it changes some.
const CHANGES: [(Changing, Join, Length, Join); 3] = [
    (
        Changing::UnionWith,
        Join::Either,
        Length::Longer,
        Join::SecondAlone,
    ),
    (
        Changing::IntersectWith,
        Join::Both,
        Length::First,
        Join::FirstAlone,
    ),
    (
        Changing::DifferenceWith,
        Join::FirstAlone,
        Length::First,
        Join::Both,
    ),
];

// At the second time nothing changes.
fn assert_changes(rt: &impl Abort, alloc: Global, pair: &Pair) -> Result<(), AllocError> {
    let (a, b) = (Slow::of(&pair.a), Slow::of(&pair.b));
    let (whole, other) = (filled(alloc, &pair.a)?, filled(alloc, &pair.b)?);
    for (call, positions, length, changed) in CHANGES {
        let wanted = a.joined(&b, positions, length_of(pair, length));
        let changes = a.count_joined(&b, changed) > 0;
        let mut set = whole.clone()?;
        assert!(rt; change(&mut set, &other, call)? == changes, "{call:?}");
        assert!(rt; wanted.is_at_each(&set), "{call:?}");
        assert!(rt; !change(&mut set, &other, call)?, "{call:?}");
    }
    let wanted = a.joined(&b, Join::One, length_of(pair, Length::Longer));
    let changed = a.count_joined(&b, Join::Both) + a.count_joined(&b, Join::SecondAlone);
    let mut set = whole.clone()?;
    assert!(rt; set.symmetric_difference_with_change(&other)? == (changed > 0));
    assert!(rt; wanted.is_at_each(&set));
    Ok(())
}

#[test]
fn every_pair_changed_with_answer(rt: HostRuntime) -> Result<(), Fail> {
    for pair in &every_pair(rt.alloc())? {
        assert_changes(&rt, rt.alloc(), pair)?;
    }
    Ok(())
}

// From the back on, with the last position that was seen in both.
#[test]
fn every_pair_asked_for_the_next_common(rt: HostRuntime) -> Result<(), Fail> {
    for pair in &every_pair(rt.alloc())? {
        let (set, other) = (filled(rt.alloc(), &pair.a)?, filled(rt.alloc(), &pair.b)?);
        let (a, b) = (pair.a.as_slice(), pair.b.as_slice());
        let shorter = a.len().min(b.len());
        let mut seen = None;
        assert!(rt; set.next_common(&other, shorter) == None);
        assert!(rt; set.next_common(&other, usize::MAX) == None);
        for position in (0..shorter).rev() {
            if a[position] && b[position] {
                seen = Some(position);
            }
            assert!(rt;
                set.next_common(&other, position) == seen,
                "{position} of {shorter}"
            );
        }
    }
    Ok(())
}

// Which positions each call counts.
const COUNTS: [(Counting, Join); 4] = [
    (Counting::Union, Join::Either),
    (Counting::Intersection, Join::Both),
    (Counting::Difference, Join::FirstAlone),
    (Counting::SymmetricDifference, Join::One),
];

// Which positions there are none of where the answer is yes.
const QUESTIONS: [(Question, Join); 3] = [
    (Question::IsDisjoint, Join::Both),
    (Question::IsSubset, Join::FirstAlone),
    (Question::IsSuperset, Join::SecondAlone),
];

fn assert_answers(rt: &impl Abort, alloc: Global, pair: &Pair) -> Result<(), AllocError> {
    let (a, b) = (Slow::of(&pair.a), Slow::of(&pair.b));
    let (set, other) = (filled(alloc, &pair.a)?, filled(alloc, &pair.b)?);
    for (call, positions) in COUNTS {
        let expected = a.count_joined(&b, positions);
        assert!(rt; count(&set, &other, call) == expected, "{call:?}");
    }
    for (question, positions) in QUESTIONS {
        let expected = a.count_joined(&b, positions) == 0;
        assert!(rt; is_so(&set, &other, question) == expected, "{question:?}");
    }
    Ok(())
}

#[test]
fn every_pair_asked(rt: HostRuntime) -> Result<(), Fail> {
    let pairs = every_pair(rt.alloc())?;
    assert_eq!(rt; pairs.len(), PAIRS);
    for pair in &pairs {
        assert_answers(&rt, rt.alloc(), pair)?;
    }
    Ok(())
}
