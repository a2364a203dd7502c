//! What a Rust programmer reaches for: each line compiles, and does what it says. What is refused has its reason in the repository's
//! docs/DECISIONS.md, and stands here as it is written instead.
#[cfg(feature = "std")]
use fixedbitset::AllocError;
use fixedbitset::{
    storage_words, ArrayBitSet, BitRows, Bits, BitsMut, Block, ExtendFault, FixedBitSet,
};
use std::collections::hash_map::DefaultHasher;
use std::collections::HashSet;
use std::hash::{Hash, Hasher};
use std::mem::size_of;
use std::ops::Bound::{Excluded, Included, Unbounded};
use std::panic::{catch_unwind, RefUnwindSafe, UnwindSafe};
use std::sync::mpsc::channel;
use std::time::Duration;

const NOTHING: FixedBitSet = FixedBitSet::new();
const COUNT: usize = storage_words(100);
static WORDS: [Block; COUNT] = [0b1001, 1, 0, 0];
static NO_RIGHTS: ArrayBitSet<COUNT> = ArrayBitSet::new(100);

/// The set of these positions below 10.
fn ten<const COUNT: usize>(positions: [usize; COUNT]) -> FixedBitSet {
    let mut set = FixedBitSet::with_capacity(10);
    set.extend(positions);
    set
}

fn hash_of(value: &impl Hash) -> u64 {
    let mut hasher = DefaultHasher::new();
    value.hash(&mut hasher);
    hasher.finish()
}

fn is_shared<T: Send + Sync + UnwindSafe + RefUnwindSafe>(_: Option<T>) -> bool {
    true
}

#[test]
fn constants() {
    #[derive(Default)]
    struct Owner {
        set: FixedBitSet,
    }
    assert_eq!(Owner::default().set, NOTHING);
    let lent = Bits::over(&WORDS, 100).unwrap();
    assert!(lent.ones().eq([0, 3, 64]));
    assert!(NO_RIGHTS.is_clear());
    assert!(is_shared(None::<FixedBitSet>) && is_shared(None::<ArrayBitSet<4>>));
    assert_eq!(size_of::<Option<FixedBitSet>>(), size_of::<FixedBitSet>());
    assert!(catch_unwind(|| ten([3])[3]).is_ok());
}

#[test]
fn loops() {
    let set = ten([3, 7]);
    let mut found = vec![];
    for position in &set {
        found.push(position);
    }
    for position in set.as_bits() {
        found.push(position);
    }
    for position in &ArrayBitSet::<4>::from_bits(set.as_bits()).unwrap() {
        found.push(position);
    }
    for position in set {
        found.push(position);
    }
    assert_eq!(found, [3, 7].repeat(4));
}

#[test]
fn ranges() {
    let mut set = FixedBitSet::with_capacity(10);
    set.insert_range(3..=5);
    assert_eq!(
        (
            set.count_ones(..=5),
            set.count_ones(..=4),
            set.count_ones(4..=4)
        ),
        (3, 2, 1)
    );
    let counts = [
        (Included(3), Included(5)),
        (Excluded(3), Excluded(5)),
        (Unbounded, Excluded(4)),
        (Included(4), Unbounded),
        (Unbounded, Unbounded),
        (Excluded(9), Unbounded),
        (Excluded(usize::MAX - 1), Unbounded),
    ];
    let counts = counts.map(|range| catch_unwind(|| set.count_ones(range)).ok());
    assert_eq!(
        counts,
        [Some(3), Some(1), Some(1), Some(2), Some(3), Some(0), None]
    );
    assert!(catch_unwind(|| set.count_ones((Unbounded, Included(usize::MAX)))).is_err());
}

#[test]
fn a_range_iterated_to_its_end_has_its_last_position() {
    let set = FixedBitSet::with_capacity(10);
    let [mut range, mut back] = [3..=5, 3..=5];
    assert_eq!((range.next(), back.next_back()), (Some(3), Some(5)));
    let counts = [&range, &back].map(|range| set.count_zeroes(range.clone()));
    assert_eq!(counts, [2, 2]);
    assert_eq!(
        (range.by_ref().last(), back.by_ref().rev().last()),
        (Some(5), Some(3))
    );
    assert!(range.is_empty() && back.is_empty() && [0; 10][range.clone()].is_empty());
    assert!(set.zeroes_in(range).eq([5]) && set.zeroes_in(back).eq([3]));
}

#[test]
fn operators() {
    let (a, b) = (ten([1, 3, 5]), FixedBitSet::from([3, 5, 7]));
    assert_eq!(&a - &b, ten([1]));
    assert_eq!(&b - &a, {
        let mut seven = FixedBitSet::with_capacity(8);
        seven.insert(7);
        seven
    });
    assert_eq!(!&a, ten([0, 2, 4, 6, 7, 8, 9]));
    assert_eq!(!!a.clone(), a);
    // Each operator of two: both stay, or one is given up, or both are.
    macro_rules! given_up {
        ($($operator:tt)*) => { $(
            let wanted = &a $operator &b;
            assert_eq!(a.clone() $operator &b, wanted);
            assert_eq!(&a $operator b.clone(), wanted);
            assert_eq!(a.clone() $operator b.clone(), wanted);
        )* };
    }
    given_up! { & | ^ - }
    assert_eq!((a.clone() & &b).len(), 8);
    let mut left = a.clone();
    left -= &b;
    left |= ten([9]);
    assert_eq!(left, ten([1, 9]));
    let mut view = left.as_bits_mut();
    view -= ten([9]).as_bits();
    view |= b.as_bits();
    view ^= a.as_bits();
    view &= ten([7, 8]).as_bits();
    assert_eq!(left, ten([7]));
    let sets = [ten([1]), ten([2]), ten([9])];
    assert_eq!(
        sets.iter().fold(NOTHING, |all, set| all | set),
        ten([1, 2, 9])
    );
}

#[test]
fn lists_become_sets() {
    let mut set = FixedBitSet::from([3, 9]);
    set.extend([1, 4]);
    set.extend(vec![0, 5, 6]);
    assert_eq!(set, FixedBitSet::from(vec![0, 1, 3, 4, 5, 6, 9]));
    assert_eq!(set, [0, 1, 3, 4, 5, 6, 9].into_iter().collect());
    assert_eq!(
        set.ones()
            .map(|position| position as u32)
            .collect::<Vec<u32>>(),
        [0, 1, 3, 4, 5, 6, 9]
    );
    assert_eq!(
        (set.zeroes().next_back(), set.ones().clone().next_back()),
        (Some(8), Some(9))
    );
    set.toggle_range(..);
    assert_eq!(set, ten([2, 7, 8]));
    assert!(FixedBitSet::try_with_capacity(10).is_ok() && set.try_grow(20).is_ok());
}

#[test]
fn views() {
    let (set, mut longer) = (ten([3]), ten([3]));
    longer.grow(11);
    assert_eq!(set.as_bits(), set);
    assert_ne!(set.as_bits(), longer);
    assert_eq!(
        HashSet::from([set.as_bits(), longer.as_bits(), set.as_bits()]).len(),
        2
    );
    assert_eq!(hash_of(&set.as_bits()), hash_of(&set));
    longer.as_bits_mut().union_with(set.as_bits());
    assert_eq!(longer.count_ones(..), 1);
}

#[test]
fn tables() {
    let mut table = BitRows::new(3, 70);
    table.set(1, 69, true);
    assert_eq!(table.row(1).count(), 1);
    let mut other = table.clone();
    assert!(table == other && hash_of(&table) == hash_of(&other));
    other.row_bits_mut(2).insert(0);
    assert!(table != other && hash_of(&table) != hash_of(&other));
    assert!(BitRows::new(0, 3) != BitRows::new(0, 4) && BitRows::new(1, 3) != BitRows::new(2, 3));
    assert_eq!(HashSet::from([table.clone(), other, table]).len(), 2);
}

/// They have so many rows that a loop over them would not end.
#[test]
fn tables_without_columns_are_compared_at_once() {
    let (sender, receiver) = channel();
    std::thread::spawn(move || {
        let tables = [usize::MAX, usize::MAX, usize::MAX - 1].map(|rows| BitRows::new(rows, 0));
        let [one, other, shorter] = &tables;
        let hashes = [one, other, shorter].map(hash_of);
        sender.send([
            one == other,
            one == shorter,
            hashes[0] == hashes[1],
            hashes[0] == hashes[2],
        ])
    });
    let found = receiver.recv_timeout(Duration::from_secs(10));
    assert_eq!(found, Ok([true, false, true, false]));
}

#[test]
fn rows_are_sets() {
    let (mut table, set) = (BitRows::new(4, 70), FixedBitSet::from([3, 69]));
    table.row_bits_mut(1).union_with(set.as_bits());
    assert_eq!(table.row_bits(1), set);
    table.row_bits_mut(2).insert_range(60..);
    let (one, other) = (table.row_bits(1), table.row_bits(2));
    assert_eq!((one.intersection_count(other), other.len()), (1, 70));
    let mut union = set & &FixedBitSet::from(other);
    union |= FixedBitSet::from(one);
    assert!(union.ones().eq([3, 69]));
    let (mut low, mut high) = table.split_rows_mut(2);
    std::thread::scope(|scope| {
        scope.spawn(|| low.row_bits_mut(0).toggle_range(..));
        scope.spawn(|| high.union_rows(0, 1));
    });
    assert!(table.row_bits(0).is_full() && table.row_bits(3) == table.row_bits(2));
}

#[test]
fn memory() {
    let mut set = ten([3, 7]);
    set.reserve(1_000);
    assert!(set.len() == 10 && set.capacity() >= 1_010);
    set.shrink_to_fit();
    assert_eq!(set.capacity(), 64 * storage_words(10));
    let words: Vec<Block> = set.into_words();
    assert_eq!(words, [1 << 3 | 1 << 7]);
    assert_eq!(FixedBitSet::from_words(words, 10), ten([3, 7]));
    assert_eq!(FixedBitSet::from_words(vec![!0, !0], 3).to_string(), "111");
}

/// A function whose error is any, as those of `anyhow` are.
#[cfg(feature = "std")]
fn grown(position: usize) -> Result<FixedBitSet, Box<dyn std::error::Error + Send + Sync>> {
    let mut set = FixedBitSet::new();
    set.try_grow(position)?;
    set.try_extend([position])?;
    Ok(set)
}

#[cfg(feature = "std")]
#[test]
fn errors() {
    assert_eq!(grown(3).unwrap().to_string(), "0001");
    let error = grown(usize::MAX).unwrap_err();
    let bytes = error.downcast_ref::<AllocError>().unwrap().bytes();
    assert_eq!(
        error.to_string(),
        format!("memory of {bytes} bytes was refused")
    );
}

#[test]
fn errors_are_compared() {
    let too_long = [usize::MAX, usize::MAX - 1, usize::MAX / 2];
    let [one, other, less] = too_long.map(FixedBitSet::try_with_capacity);
    assert!(one == other && one != less && less != Ok(NOTHING));
    let mut set = ten([3]);
    assert_eq!(set.try_extend([5, usize::MAX]), Err(ExtendFault::Position));
    assert_ne!(set.try_extend([usize::MAX]), Err(ExtendFault::Memory));
    assert_eq!(set.try_extend([7]), Ok(()));
}

/// What is refused, as it is written instead.
#[test]
fn instead() {
    let (mut a, b) = (ten([1, 3, 5]), ten([3, 5]));
    a.shift_up(1); // a << 1
    assert_eq!(a, ten([2, 4, 6]));
    a.shift_down(1); // a >> 1
    a.set_block(0, 0b101011); // a.as_mut_slice()[0] = 0b101011
    assert!(!a.put(2) && a.take(2)); // if !a.insert(2)
    a = &a - &a.ones().filter(|position| position % 2 == 0).collect(); // a.retain(|position| position % 2 == 1)
    assert_eq!(a, ten([1, 3, 5]));
    let both = FixedBitSet::from_bits(a.as_bits()) & &b; // a.as_bits() & b.as_bits()
    assert_eq!(both, b);
    assert!(b.is_subset(&a) && a.first_lacking(&b).is_none() && b.first_lacking(&a).is_some()); // b.is_proper_subset(&a)
    assert!([1, 3].iter().all(|position| a[*position])); // a.contains_all(&[1, 3])
    assert_eq!(
        a.symmetric_difference_count(&FixedBitSet::from([1, 3, 5])),
        0
    ); // a.same_positions(..)
    let flags = [false, true, true];
    let set: FixedBitSet = (0..3).filter(|position| flags[*position]).collect(); // flags.into_iter().collect()
    assert_eq!(set, FixedBitSet::from([1, 2]));
    a.extend([6_u32].map(|position| position as usize)); // a.extend([6_u32])
    a.extend([7].iter().copied()); // a.extend(&[7])
    a.insert_all(&[8_u32, 9].map(|position| position as usize)); // a.insert_all(&[8_u32, 9])
    a.insert(2_u32 as usize); // a.insert(2_u32)
    assert_eq!(a, ten([1, 2, 3, 5, 6, 7, 8, 9]));
    assert_eq!(a.slice(2..6).ones().collect::<Vec<_>>(), [0, 1, 3]); // a.as_bits().slice(2..6)
    assert_eq!(a.ones_in(2..6).count(), 3); // a.ones().len()
    a.as_bits_mut().difference_with(b.as_bits()); // a.difference_with(b.as_bits())
    let words: &[Block] = a.as_slice(); // a.as_ref()
    assert_eq!(words, [0b11_1100_0110]);
    let text: Result<Vec<usize>, _> = "1,2,6".split(',').map(str::parse).collect(); // "1,2,6".parse::<FixedBitSet>()
    assert_eq!(FixedBitSet::from(text.unwrap()).maximum(), Some(6));
    let mut halves = [0; 8];
    let (low, high) = halves.split_at_mut(4); // view.split_at_mut(256)
    BitsMut::settle(low, 256, 0).insert(255);
    BitsMut::settle(high, 256, 0).insert(0);
    assert_eq!(halves, [0, 0, 0, 1 << 63, 1, 0, 0, 0]);
}
