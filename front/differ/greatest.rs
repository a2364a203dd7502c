//! Sets of the greatest lengths of a target of 32 bits. It is compiled with all checks of Rust, and it ends with status 0
//! where each call answers what is wanted.
use fixedbitset::{FixedBitSet, Ranks};

fn main() {
    for less in [0, 1, 63, 64, 255, 256] {
        try_length(usize::MAX - less);
    }
    let caught = std::panic::catch_unwind(|| FixedBitSet::new().grow_and_insert(usize::MAX));
    assert!(caught.is_err());
}

fn try_length(length: usize) {
    let mut set = FixedBitSet::with_capacity(length);
    set.insert(length - 1);
    set.insert(5);
    let past = [length, usize::MAX];
    assert!(set.contains(length - 1) && !past.iter().any(|bit| set.contains(*bit)));
    try_walks(&set);
    try_searches(&set);
    set.insert_range(length - 70..);
    set.toggle_range(length - 3..length - 1);
    assert_eq!(set.slice(length - 5..).to_string(), "11001");
    let ones: Vec<_> = set.ones_in(length - 5..).collect();
    assert_eq!(ones, [length - 5, length - 4, length - 1]);
    try_ranks(&set);
    try_shifts(&mut set);
}

/// Walks over a set of 5 and its last position.
fn try_walks(set: &FixedBitSet) {
    let length = set.len();
    assert_eq!(set.ones().collect::<Vec<_>>(), [5, length - 1]);
    assert_eq!(set.ones().rev().collect::<Vec<_>>(), [length - 1, 5]);
    // (No bound is a bound too, where it would be past the greatest number.)
    let (low, high) = set.ones().size_hint();
    assert!(low <= 2 && high.unwrap_or(usize::MAX) >= 2);
    let zeroes: Vec<_> = set.zeroes().take(7).collect();
    assert_eq!(zeroes, [0, 1, 2, 3, 4, 6, 7]);
    let last: Vec<_> = set.zeroes().rev().take(2).collect();
    assert_eq!(last, [length - 2, length - 3]);
    let runs: Vec<_> = set.runs().collect();
    assert_eq!(runs, [(5, 6), (length - 1, length)]);
    let gaps: Vec<_> = set.zero_runs().rev().collect();
    assert_eq!(gaps, [(6, length - 1), (0, 5)]);
}

/// Counts and searches over a set of 5 and its last position.
fn try_searches(set: &FixedBitSet) {
    let length = set.len();
    assert_eq!((set.count_ones(..), set.count_zeroes(..)), (2, length - 2));
    assert_eq!(set.count_ones(length - 70..), 1);
    assert_eq!((set.minimum(), set.maximum()), (Some(5), Some(length - 1)));
    assert_eq!(set.next_one(6), Some(length - 1));
    assert_eq!(
        (set.next_zero(length - 1), set.next_one(usize::MAX)),
        (None, None)
    );
    assert_eq!(set.previous_one(length - 1), Some(5));
    assert_eq!(set.previous_zero(usize::MAX), Some(length - 2));
    assert_eq!(set.first_gap(length - 8, 0), Some(6));
    assert_eq!(set.first_gap(usize::MAX, 0), None);
}

/// Ranks of a set of 5 and all but two of its last seventy positions.
fn try_ranks(set: &FixedBitSet) {
    let (length, ranks) = (set.len(), Ranks::of(set));
    assert_eq!(ranks.rank(usize::MAX), 69);
    assert_eq!(
        (ranks.select(1), ranks.select(68)),
        (Some(length - 70), Some(length - 1))
    );
    assert_eq!(ranks.select(69), None);
}

fn try_shifts(set: &mut FixedBitSet) {
    let length = set.len();
    set.shift_down(length - 1);
    assert_eq!(set.ones().collect::<Vec<_>>(), [0]);
    set.shift_up(length - 1);
    assert_eq!(set.ones().collect::<Vec<_>>(), [length - 1]);
    set.union_with_own_shift(usize::MAX);
    set.remove_range(..);
    assert!(set.is_clear());
}
