//! Worked values.

use crate::pairs::calls::{Counting, Joining, count, join};
use fixedbitset::{Block, FixedBitSet};
use std::alloc::{AllocError, Global};
use std::mem::ManuallyDrop;
use std::process::Abort;
use std::test::Fail;

// A set of this length, with the positions of the spans: each from its start up to and without its end.
#[derive(Clone, Copy)]
struct Spanned {
    length: usize,
    spans: &'static [(usize, usize)],
}

impl Spanned {
    fn new(length: usize, spans: &'static [(usize, usize)]) -> Spanned {
        Spanned { length, spans }
    }
}

fn set_of(alloc: Global, spanned: Spanned) -> Result<FixedBitSet, AllocError> {
    let mut set = FixedBitSet::with_capacity(alloc, spanned.length)?;
    for (start, end) in spanned.spans {
        for position in *start..*end {
            if position < set.len() {
                set.insert(position);
            }
        }
    }
    Ok(set)
}

// What a call makes of two sets.
#[derive(Clone, Copy)]
struct Made {
    first: Spanned,
    call: Joining,
    second: Spanned,
    made: Spanned,
}

fn assert_made(rt: &impl Abort, alloc: Global, rows: &[Made]) -> Result<(), AllocError> {
    for row in rows {
        let set = join(
            set_of(alloc, row.first)?,
            set_of(alloc, row.second)?,
            row.call,
        )?;
        let expected = set_of(alloc, row.made)?;
        assert_eq!(rt; set.len(), row.made.length);
        assert_eq!(rt; set.as_slice(), expected.as_slice(), "{:?}", row.call);
    }
    Ok(())
}

// Whether the words are the same, where a comparison of slices would take seconds.
fn are_same(words: &[Block], others: &[Block]) -> bool {
    let (mut index, mut different) = (0, 0);
    while index < words.len().min(others.len()) {
        different |= words[index] ^ others[index];
        index += 1;
    }
    different == 0 && words.len() == others.len()
}

const LOW: Spanned = Spanned {
    length: 113,
    spans: &[(0, 97)],
};

const HIGH: Spanned = Spanned {
    length: 137,
    spans: &[(89, 137)],
};

const ONE: Spanned = Spanned {
    length: 137,
    spans: &[(0, 89), (97, 137)],
};

const WIDE: Spanned = Spanned {
    length: 173,
    spans: &[(0, 107)],
};

const NARROW: Spanned = Spanned {
    length: 137,
    spans: &[(43, 137)],
};

#[test]
fn new_sets(rt: HostRuntime) -> Result<(), Fail> {
    let rows = [
        Made {
            first: Spanned::new(109, &[(17, 23)]),
            call: Joining::Bitor,
            second: Spanned::new(109, &[(19, 59)]),
            made: Spanned::new(109, &[(17, 59)]),
        },
        Made {
            first: LOW,
            call: Joining::Bitxor,
            second: HIGH,
            made: ONE,
        },
        Made {
            first: HIGH,
            call: Joining::Bitxor,
            second: LOW,
            made: ONE,
        },
        Made {
            first: WIDE,
            call: Joining::Bitand,
            second: NARROW,
            made: Spanned::new(137, &[(43, 107)]),
        },
        Made {
            first: WIDE,
            call: Joining::IntersectWith,
            second: NARROW,
            made: Spanned::new(173, &[(43, 107)]),
        },
    ];
    assert_made(&rt, rt.alloc(), &rows)?;
    Ok(())
}

const SHORT: Spanned = Spanned {
    length: 10,
    spans: &[(1, 2)],
};

const LONG: Spanned = Spanned {
    length: 300,
    spans: &[(299, 300)],
};

const ENDS: Spanned = Spanned {
    length: 300,
    spans: &[(1, 2), (299, 300)],
};

#[test]
fn longer_and_shorter(rt: HostRuntime) -> Result<(), Fail> {
    let rows = [
        Made {
            first: ENDS,
            call: Joining::DifferenceWith,
            second: SHORT,
            made: LONG,
        },
        Made {
            first: ENDS,
            call: Joining::IntersectWith,
            second: SHORT,
            made: Spanned::new(300, &[(1, 2)]),
        },
    ];
    assert_made(&rt, rt.alloc(), &rows)?;
    for call in [
        Joining::UnionWith,
        Joining::SymmetricDifferenceWith,
        Joining::BitorAssign,
        Joining::BitxorAssign,
    ] {
        let row = Made {
            first: SHORT,
            call,
            second: LONG,
            made: ENDS,
        };
        assert_made(&rt, rt.alloc(), &[row])?;
    }
    Ok(())
}

// The positions of exactly one of two sets.
const ONE_OF_TWO: Spanned = Spanned {
    length: 102,
    spans: &[
        (3, 4),
        (8, 9),
        (11, 12),
        (19, 20),
        (23, 24),
        (37, 38),
        (41, 42),
        (43, 44),
        (47, 48),
        (71, 72),
        (73, 74),
        (101, 102),
    ],
};

#[test]
fn exactly_one(rt: HostRuntime) -> Result<(), Fail> {
    let few = Made {
        first: Spanned::new(33, &[(2, 3), (7, 9), (11, 12), (23, 24), (31, 33)]),
        call: Joining::BitxorAssign,
        second: Spanned::new(
            102,
            &[
                (2, 4),
                (7, 8),
                (19, 20),
                (31, 33),
                (37, 38),
                (41, 42),
                (43, 44),
                (47, 48),
                (71, 72),
                (73, 74),
                (101, 102),
            ],
        ),
        made: ONE_OF_TWO,
    };
    let itself = Made {
        first: Spanned::new(9, &[(1, 2), (5, 6)]),
        call: Joining::SymmetricDifferenceWith,
        second: Spanned::new(9, &[(1, 2), (5, 6)]),
        made: Spanned::new(9, &[]),
    };
    assert_made(&rt, rt.alloc(), &[few, itself])?;
    Ok(())
}

const FEW: [usize; 7] = [2, 7, 8, 11, 23, 31, 32];

const OTHERS: [usize; 13] = [2, 3, 7, 19, 31, 32, 37, 41, 43, 47, 71, 73, 101];

const IN_ONE: [usize; 12] = [3, 8, 11, 19, 23, 37, 41, 43, 47, 71, 73, 101];

const IN_TURN: [usize; 12] = [8, 11, 23, 3, 19, 37, 41, 43, 47, 71, 73, 101];

// Two sets made of their positions: the walk, which has those of the first set first, the new set and the join in place.
#[test]
fn exactly_one_of_listed_positions(rt: HostRuntime) -> Result<(), Fail> {
    let mut set = FixedBitSet::from_iter(rt.alloc(), FEW).expect(&rt, "memory for a word");
    let other = FixedBitSet::from_iter(rt.alloc(), OTHERS).expect(&rt, "memory for two words");
    assert!(rt; set.len() == 33 && other.len() == 102);
    assert!(rt; set.symmetric_difference(&other).eq(IN_TURN));
    assert!(rt; set.bitxor(&other)?.ones().eq(IN_ONE));
    set.symmetric_difference_with(&other)?;
    assert_eq!(rt; set.len(), 102);
    assert!(rt; set.ones().eq(IN_ONE));
    Ok(())
}

// The same, by the call that stands for the operator.
#[test]
fn exactly_one_is_assigned(rt: HostRuntime) -> Result<(), Fail> {
    let mut set = FixedBitSet::from_iter(rt.alloc(), FEW).expect(&rt, "memory for a word");
    let other = FixedBitSet::from_iter(rt.alloc(), OTHERS).expect(&rt, "memory for two words");
    set.bitxor_assign(&other)?;
    assert!(rt; set.ones().eq(IN_ONE));
    assert_eq!(rt; set.len(), 102);
    Ok(())
}

// Sets of so many words that a new one is written as it is joined, and that a count goes by carries.
const MANY: Spanned = Spanned {
    length: 200_000,
    spans: &[(0, 70_000), (131_000, 131_100), (199_990, 200_000)],
};

const FEWER: Spanned = Spanned {
    length: 140_000,
    spans: &[(60_000, 139_999)],
};

#[test]
fn long_new_sets(rt: HostRuntime) -> Result<(), Fail> {
    let both = Spanned::new(140_000, &[(60_000, 70_000), (131_000, 131_100)]);
    let either = Spanned::new(200_000, &[(0, 139_999), (199_990, 200_000)]);
    let one = Spanned::new(
        200_000,
        &[
            (0, 60_000),
            (70_000, 131_000),
            (131_100, 139_999),
            (199_990, 200_000),
        ],
    );
    for (call, made) in [
        (Joining::Bitand, both),
        (Joining::Bitor, either),
        (Joining::Bitxor, one),
    ] {
        let row = Made {
            first: MANY,
            call,
            second: FEWER,
            made,
        };
        assert_made(&rt, rt.alloc(), &[row])?;
    }
    Ok(())
}

// A length of large sets: where memory is there, no join refuses a number of its own choice.
const FAR: usize = 20_000_000;

#[test]
fn large_joins(rt: HostRuntime) -> Result<(), Fail> {
    let near = Spanned::new(70, &[(3, 4), (69, 70)]);
    let far = Spanned::new(FAR, &[(3, 4), (FAR - 1, FAR)]);
    let either = Spanned::new(FAR, &[(3, 4), (69, 70), (FAR - 1, FAR)]);
    let one = Spanned::new(FAR, &[(69, 70), (FAR - 1, FAR)]);
    let unions = [Joining::UnionWith, Joining::BitorAssign, Joining::Bitor];
    let differences = [
        Joining::SymmetricDifferenceWith,
        Joining::BitxorAssign,
        Joining::Bitxor,
    ];
    for (first, calls, made) in [
        (near, unions.as_slice(), either),
        (near, differences.as_slice(), one),
        (far, [Joining::Bitand].as_slice(), far),
    ] {
        let expected = ManuallyDrop::new(set_of(rt.alloc(), made)?);
        for call in calls {
            let (set, other) = (set_of(rt.alloc(), first)?, set_of(rt.alloc(), far)?);
            let joined = ManuallyDrop::new(join(set, other, *call)?);
            assert_eq!(rt; joined.len(), FAR);
            assert!(rt;
                are_same(joined.as_slice(), expected.as_slice()),
                "{call:?}"
            );
        }
    }
    Ok(())
}

#[test]
fn large_joins_tell_a_change(rt: HostRuntime) -> Result<(), Fail> {
    let none = FixedBitSet::new(rt.alloc());
    let mut far = FixedBitSet::with_capacity(rt.alloc(), FAR)?;
    assert!(rt; far.len() == FAR);
    far.insert(FAR - 1);
    let mut set = none.clone()?;
    assert!(rt; set.union_with_change(&far)? && set == far);
    let mut left = none.clone()?;
    assert!(rt; left.union_with_difference(&far, &none)? && left == far);
    assert!(rt; left.symmetric_difference_with_change(&far)? && left.is_clear());
    Ok(())
}

#[test]
fn counts(rt: HostRuntime) -> Result<(), Fail> {
    let a = Spanned::new(83, &[(47, 79)]);
    let b = Spanned::new(151, &[(53, 151)]);
    for (first, call, second, expected) in [
        (a, Counting::Intersection, b, 26),
        (a, Counting::Union, b, 104),
        (a, Counting::Difference, b, 6),
        (b, Counting::Difference, a, 72),
        (a, Counting::SymmetricDifference, b, 78),
        (
            Spanned::new(200, &[(150, 151)]),
            Counting::Difference,
            Spanned::new(10, &[]),
            1,
        ),
        (ONE_OF_TWO, Counting::Union, ONE_OF_TWO, 12),
        (MANY, Counting::Intersection, FEWER, 10_100),
        (MANY, Counting::Union, FEWER, 140_009),
        (MANY, Counting::Difference, FEWER, 60_010),
        (FEWER, Counting::Difference, MANY, 69_899),
        (MANY, Counting::SymmetricDifference, FEWER, 129_909),
    ] {
        let set = set_of(rt.alloc(), first)?;
        let other = set_of(rt.alloc(), second)?;
        assert_eq!(rt; count(&set, &other, call), expected);
    }
    Ok(())
}

#[test]
fn walks(rt: HostRuntime) -> Result<(), Fail> {
    let set = set_of(rt.alloc(), Spanned::new(173, &[(139, 173)]))?;
    let other = set_of(rt.alloc(), Spanned::new(137, &[(0, 107)]))?;
    assert_eq!(rt; set.union(&other).count(), 141);
    assert!(rt; set.union(&other).next_back() == Some(106));

    let set = set_of(rt.alloc(), Spanned::new(109, &[(0, 59)]))?;
    let other = set_of(rt.alloc(), Spanned::new(109, &[(23, 109)]))?;
    assert_eq!(rt; set.intersection(&other).count(), 36);
    assert!(rt; set.intersection(&other).next_back() == Some(58));

    let set = set_of(rt.alloc(), Spanned::new(83, &[(0, 79)]))?;
    let other = set_of(rt.alloc(), Spanned::new(151, &[(53, 151)]))?;
    assert_eq!(rt; set.difference(&other).count(), 53);
    assert!(rt; set.difference(&other).next_back() == Some(52));

    let set = set_of(rt.alloc(), Spanned::new(83, &[(47, 79)]))?;
    assert_eq!(rt; set.symmetric_difference(&other).count(), 78);
    assert!(rt; set.symmetric_difference(&other).next_back() == Some(150));
    Ok(())
}
