//! Sets in arrays: each call beside the same call of a set on the heap, which has calls of its own for those that may grow.
use fixedbitset::{storage_words, ArrayBitSet, FixedBitSet};
use std::collections::hash_map::DefaultHasher;
use std::hash::{Hash, Hasher};
use std::panic::catch_unwind;

const LENGTHS: [usize; 8] = [257, 258, 300, 320, 383, 449, 511, 512];
const WORDS: usize = storage_words(512);
type Array = ArrayBitSet<WORDS>;

/// Numbers that look random: each is made of the one before.
struct Numbers(u64);

impl Numbers {
    fn below(&mut self, limit: usize) -> usize {
        self.0 ^= self.0 << 13;
        self.0 ^= self.0 >> 7;
        self.0 ^= self.0 << 17;
        (self.0 >> 16) as usize % limit
    }

    /// A set of so many positions at most, in an array and on the heap.
    fn pair(&mut self, length: usize, count: usize) -> (Array, FixedBitSet) {
        let positions: Vec<usize> = (0..count).map(|_| self.below(length)).collect();
        let (mut array, mut set) = (Array::new(length), FixedBitSet::with_capacity(length));
        array.extend(positions.iter().copied());
        set.extend(positions);
        (array, set)
    }
}

fn hash_of(value: &impl Hash) -> u64 {
    let mut hasher = DefaultHasher::new();
    value.hash(&mut hasher);
    hasher.finish()
}

/// Makes each call on both, which have to answer and leave the same.
macro_rules! alike {
    ($one:ident $set:ident; $($call:ident($($given:expr),*);)*) => { $(
        assert_eq!($one.$call($($given),*), $set.$call($($given),*), stringify!($call));
        assert_eq!($one.as_bits(), $set, stringify!($call));
    )* };
}

/// The same of calls of two sets.
macro_rules! alike_with {
    ($one:ident $set:ident, $other:ident $beside:ident; $($call:ident;)*) => { $(
        assert_eq!($one.$call(&$other), $set.$call(&$beside), stringify!($call));
        assert_eq!($one.as_bits(), $set, stringify!($call));
    )* };
}

#[test]
fn calls_are_those_of_a_set() {
    let mut numbers = Numbers(1);
    for turn in 0..2_000 {
        let length = LENGTHS[turn % 8];
        let (mut one, mut set) = numbers.pair(length, turn % 40);
        let (bit, any) = (numbers.below(length), numbers.below(600));
        let range = bit.min(any)..bit.max(any.min(length));
        alike! { one set;
            contains(any); as_slice(); len(); is_empty(); is_clear(); minimum(); maximum();
            next_one(any); next_zero(any); first_gap(turn % 9, any); put(bit); take(bit); put(bit);
            insert(bit); remove(bit); toggle(bit); set(bit, turn % 2 == 0);
            insert_range(range.clone()); remove_range(range.start..=bit); count_ones(range.clone());
        }
        assert!(one.ones().eq(set.ones()) && one.zeroes().rev().eq(set.zeroes().rev()));
        assert!(one.into_iter().eq(&set) && one[any] == set[any]);
        let copied = Array::from_bits(set.as_bits());
        assert_eq!(copied, Some(one));
    }
    assert!(ArrayBitSet::<4>::from_bits(FixedBitSet::with_capacity(257).as_bits()).is_none());
}

#[test]
fn calls_of_two_are_those_of_two_sets() {
    let mut numbers = Numbers(2);
    for turn in 0..2_000 {
        let length = LENGTHS[turn % 8];
        let (mut one, mut set) = numbers.pair(length, turn % 40);
        let (other, beside) = numbers.pair(length, 30 - turn % 30);
        assert!(one.intersection(&other).eq(set.intersection(&beside)));
        assert!(one.difference(&other).eq(set.difference(&beside)));
        alike_with! { one set, other beside;
            is_subset; is_disjoint; intersection_count; first_lacking; difference_with; union_with_change;
            symmetric_difference_with; union_with; is_subset; intersect_with; is_disjoint;
        }
    }
}

#[test]
fn order_and_hash_are_those_of_a_set() {
    let mut numbers = Numbers(3);
    for turn in 0..2_000 {
        let lengths = [turn % 8, turn / 8 % 8].map(|place| LENGTHS[place]);
        let [(one, set), (other, beside)] = lengths.map(|length| numbers.pair(length, turn % 3));
        assert_eq!(one.cmp(&other), set.cmp(&beside));
        assert_eq!(one.partial_cmp(&other), set.partial_cmp(&beside));
        assert_eq!(one == other, set == beside);
        assert_eq!(hash_of(&one), hash_of(&set));
        assert_eq!(
            format!("{one:?}"),
            format!("Array{}", &format!("{set:?}")[5..])
        );
    }
    assert_ne!(Array::new(300), Array::new(301));
}

#[test]
fn the_words_have_to_be_those_of_the_length() {
    for length in [0, 1, 256, 257, 512, 513] {
        let is_made = catch_unwind(|| Array::new(length)).is_ok();
        assert_eq!(is_made, storage_words(length) == WORDS, "{length}");
        assert_eq!(Array::over([0; WORDS], length).is_some(), is_made);
    }
    assert!(Array::over([1; WORDS], 449).is_some() && Array::over([2; WORDS], 449).is_none());
    assert_eq!(ArrayBitSet::<0>::new(0).ones().next(), None);
    assert_eq!(
        std::mem::size_of::<Array>(),
        8 * WORDS + std::mem::size_of::<usize>()
    );
}
