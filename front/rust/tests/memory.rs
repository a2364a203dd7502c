//! What memory the calls ask for: how often, how many bytes, and that all of it is given back.
use fixedbitset::{storage_words, BitRows, Block, FixedBitSet};
use std::alloc::{GlobalAlloc, Layout, System};
use std::cell::Cell;
use std::collections::hash_map::DefaultHasher;
use std::hash::Hash;

/// What a thread has asked for: requests, the bytes of them all, and those that it has not given back.
#[derive(Clone, Copy, Debug, PartialEq)]
struct Asked {
    requests: usize,
    bytes: usize,
    held: isize,
}

const NOTHING: Asked = Asked {
    requests: 0,
    bytes: 0,
    held: 0,
};

thread_local! {
    static ASKED: Cell<Asked> = const { Cell::new(NOTHING) };
    /// How many of the requests are for zeros.
    static ZEROED: Cell<usize> = const { Cell::new(0) };
}

/// Rust's own allocator, which counts.
struct Counting;

impl Counting {
    fn count(asked: usize, given_back: usize) {
        let so_far = ASKED.get();
        ASKED.set(Asked {
            requests: so_far.requests + usize::from(asked > 0),
            bytes: so_far.bytes + asked,
            held: so_far.held + asked as isize - given_back as isize,
        });
    }
}

unsafe impl GlobalAlloc for Counting {
    unsafe fn alloc(&self, layout: Layout) -> *mut u8 {
        Self::count(layout.size(), 0);
        System.alloc(layout)
    }
    unsafe fn alloc_zeroed(&self, layout: Layout) -> *mut u8 {
        Self::count(layout.size(), 0);
        ZEROED.set(ZEROED.get() + 1);
        System.alloc_zeroed(layout)
    }
    unsafe fn realloc(&self, at: *mut u8, layout: Layout, size: usize) -> *mut u8 {
        Self::count(size, layout.size());
        System.realloc(at, layout, size)
    }
    unsafe fn dealloc(&self, at: *mut u8, layout: Layout) {
        Self::count(0, layout.size());
        System.dealloc(at, layout);
    }
}

#[global_allocator]
static ALLOCATOR: Counting = Counting;

/// What a call asks for.
fn asked_by(call: impl FnOnce()) -> Asked {
    let before = ASKED.get();
    call();
    let after = ASKED.get();
    Asked {
        requests: after.requests - before.requests,
        bytes: after.bytes - before.bytes,
        held: after.held - before.held,
    }
}

/// A call on two sets.
type Call = fn(&mut FixedBitSet, &FixedBitSet);

/// A list of calls, each with its text.
macro_rules! calls {
    ($(|$set:tt, $other:tt| $call:expr;)*) => {{
        let calls: Vec<(&str, Call)> = vec![$((stringify!($call), |$set, $other| _ = $call)),*];
        calls
    }};
}

/// Lengths of two sets.
const LENGTHS: [(usize, usize); 6] = [
    (0, 1),
    (1, 64),
    (64, 65),
    (256, 257),
    (1_000, 5_000),
    (600_000, 600_001),
];

/// What one request for so many bytes is, all of which are given back.
fn once(bytes: usize) -> Asked {
    let requests = usize::from(bytes > 0);
    Asked {
        requests,
        bytes,
        held: 0,
    }
}

/// The bytes of the words of a set of this length.
fn bytes_of(length: usize) -> usize {
    storage_words(length) * std::mem::size_of::<Block>()
}

#[test]
fn what_is_made_asks_once_for_its_words() {
    let of_first = calls! {
        |set, _| FixedBitSet::with_capacity(set.len());
        |set, _| FixedBitSet::with_capacity_and_blocks(set.len(), [1]);
        |set, _| FixedBitSet::from_bytes(set.len(), &[1]);
        |set, _| FixedBitSet::from(set.as_bits());
        |set, _| set.clone();
        |set, _| set.slice(..);
        |set, longer| longer.slice(..set.len());
        |set, longer| &*set & longer;
        |set, longer| longer & &*set;
        |set, _| FixedBitSet::new().grow(set.len());
        |set, _| FixedBitSet::new().resize(set.len(), true);
        |set, _| FixedBitSet::new().append(set);
        |set, _| FixedBitSet::new().clone_from(set);
        |set, _| FixedBitSet::new().reserve(set.len());
        |set, _| FixedBitSet::from_words(Vec::new(), set.len());
        |set, _| BitRows::new(1, set.len());
    };
    let of_second = calls! {
        |set, longer| &*set | longer;
        |set, longer| longer | &*set;
        |set, longer| &*set ^ longer;
        |set, longer| longer ^ &*set;
        |set, longer| FixedBitSet::new().union_of(set, longer);
        |_, longer| FixedBitSet::new().union_with(longer);
        |_, longer| FixedBitSet::new().symmetric_difference_with(longer);
    };
    for (first, second) in LENGTHS {
        let mut set = FixedBitSet::with_capacity(first);
        let longer = FixedBitSet::with_capacity(second);
        for (calls, length) in [(&of_first, first), (&of_second, second)] {
            for (name, call) in calls {
                let asked = asked_by(|| call(&mut set, &longer));
                let once = once(bytes_of(length));
                assert_eq!(asked, once, "{name}, {first}, {second}");
            }
        }
    }
}

#[test]
fn the_allocator_zeroes_the_words_of_long_sets() {
    for (words, zeroed) in [(4, 0), (8_188, 0), (8_192, 1), (8_196, 1)] {
        let before = ZEROED.get();
        let set = FixedBitSet::with_capacity(64 * words);
        assert_eq!(ZEROED.get() - before, zeroed, "{words} words");
        assert_eq!(storage_words(set.len()), words);
    }
}

#[test]
fn bytes_and_tables_ask_once() {
    for (_, length) in LENGTHS {
        let set = FixedBitSet::with_capacity(length);
        let asked = asked_by(|| drop(set.to_bytes()));
        assert_eq!(asked, once(8 * length.div_ceil(64)));
        let mut table = BitRows::new(7, length);
        assert_eq!(asked_by(|| drop(table.clone())), once(7 * bytes_of(length)));
        let changed = asked_by(|| {
            table.set(3, 0, true);
            assert!(table.union_rows(3, 4));
            table.close();
            assert_eq!(table.row(4).last(), Some(0));
        });
        assert_eq!(changed, NOTHING);
    }
}

#[test]
fn what_has_room_asks_for_nothing() {
    let calls = calls! {
        |_, _| FixedBitSet::new();
        |set, _| (set.put(3), set.take(3), set.insert_all(&[5, 999]));
        |set, _| (set.insert(3), set.pop_first(), set.pop_last());
        |set, other| (set.contains_each(&[1, 2], &mut [false; 2]), &*set == other, &*set < other);
        |set, _| (set.set_block(15, 5), set.store(60, 9, 5), set.insert_range(3..900), set.clear());
        |set, _| (set.shift_up(70), set.shift_down(3), set.union_with_own_shift(70));
        |set, other| (set.union_with_shifted(other, 70), set.copy_range(other, ..500, 30));
        |set, _| (set.grow(1_024), set.grow_and_insert(1_023), set.extend([1_023, 3]));
        |set, _| set.grow_and_put(1_023);
        |set, _| (set.truncate(0), set.grow(1_000));
        |set, _| (set.resize(3, true), set.resize(1_000, true));
        |set, other| (set.truncate(100), set.append(other));
        |set, other| (set.clone_from(&FixedBitSet::new()), set.clone_from(other));
        |set, other| (set.union_of(other, other), set.truncate(0), set.intersection_of(other, other));
        |set, other| (set.symmetric_difference_of(other, other), set.difference_of(other, other));
        |set, other| (set.union_with(other), set.intersect_with(other), set.difference_with(other));
        |set, other| (set.symmetric_difference_with(other), set.union_with_change(other));
        |set, other| set.symmetric_difference_with_change(other);
        |set, other| (set.union_with_difference(other, other), set.intersect_with_change(other));
        |set, other| (*set |= other, *set ^= other, *set &= other);
        |set, other| (set.count_ones(..), set.union_count(other), set.is_subset(other), set.is_full());
        |set, other| (set.next_one(3), set.nth_one(3), set.next_common(other, 4), set.first_gap(7, 9), set.last_gap(7, 9));
        |set, _| (set.ones().count(), set.zeroes().next_back(), set.ones_in(3..).max());
        |set, other| (set.union(other).count(), set.symmetric_difference(other).min());
        |set, _| (set.runs().count(), set.zero_runs().next_back());
        |set, _| std::mem::take(set).into_ones().next_back();
        |set, _| set.hash(&mut DefaultHasher::new());
        |set, other| set.as_bits_mut().union_with(other.as_bits());
        |set, _| (set.reserve(24), set.grow(1_024), set.reserve(0));
        |set, _| (set.shrink_to_fit(), set.try_shrink_to_fit().is_ok());
        |set, _| FixedBitSet::from_words(std::mem::take(set).into_words(), 1_024);
    };
    for (name, call) in calls {
        let mut set = FixedBitSet::with_capacity(1_000);
        let other = FixedBitSet::with_capacity(900);
        let asked = asked_by(|| call(&mut set, &other));
        assert_eq!((asked.requests, asked.bytes), (0, 0), "{name}");
    }
}

/// How many lanes of four words a set gains one by one.
const LANES: usize = 300;

/// A set that a call makes a lane longer, again and again, asks for memory as often as that is doubled, and holds no more than
/// twice its words.
fn grows(name: &str, call: impl Fn(&mut FixedBitSet, &FixedBitSet)) {
    let (mut set, mut requests, mut held) = (FixedBitSet::new(), 0, 0);
    for lanes in 1..=LANES {
        let longer = FixedBitSet::with_capacity(256 * lanes);
        let asked = asked_by(|| call(&mut set, &longer));
        (requests, held) = (requests + asked.requests, held + asked.held);
        assert_eq!(set.len(), longer.len(), "{name}");
        assert!(
            held as usize <= 2 * bytes_of(set.len()),
            "{name}: {held} bytes for {} positions",
            set.len()
        );
    }
    assert!(
        requests <= 2 + LANES.ilog2() as usize,
        "{name}: {requests} requests"
    );
    assert_eq!(asked_by(|| drop(set)).held, -held, "{name}");
}

#[test]
fn there_is_memory_for_the_capacity_and_no_more() {
    for (first, second) in LENGTHS {
        let mut set = FixedBitSet::with_capacity(first);
        assert_eq!(set.capacity(), 8 * bytes_of(first));
        let asked = asked_by(|| set.reserve(second));
        let moves = bytes_of(first + second) > bytes_of(first);
        assert_eq!((asked.requests, set.len()), (usize::from(moves), first));
        let capacity = set.capacity();
        assert!(capacity >= first + second && capacity % 256 == 0);
        assert_eq!(asked_by(|| set.grow(capacity)), NOTHING);
        assert_eq!(asked_by(|| set.grow(capacity + 1)).requests, 1);
        set.truncate(first);
        let asked = asked_by(|| set.shrink_to_fit());
        assert!(asked.held < 0 && asked.bytes == bytes_of(first));
        assert_eq!(set.capacity(), 8 * bytes_of(first));
    }
}

#[test]
fn words_cross_without_a_copy() {
    for (count, capacity) in [(0, 4), (1, 6), (2, 7), (5, 8), (11, 40)] {
        let mut words: Vec<Block> = Vec::with_capacity(capacity);
        words.extend([Block::MAX].repeat(count));
        let at = words.as_ptr();
        for bits in [0, 64, 100, 256] {
            let mut set = FixedBitSet::new();
            let asked = asked_by(|| set = FixedBitSet::from_words(words, bits));
            assert_eq!((asked, set.as_slice().as_ptr()), (NOTHING, at));
            assert_eq!(set.capacity(), capacity / 4 * 256);
            words = set.into_words();
            assert_eq!((words.as_ptr(), words.len()), (at, bits.div_ceil(64)));
            assert_eq!(words.capacity(), capacity);
        }
    }
}

#[test]
fn words_that_are_lacking_are_zeros() {
    for count in 0..6 {
        for bits in [0, 1, 64, 65, 130, 256, 257, 320, 400, 1_000] {
            let set = FixedBitSet::from_words(vec![Block::MAX; count], bits);
            assert_eq!(set.len(), bits);
            assert!(set.ones().eq(0..bits.min(64 * count)), "{count}, {bits}");
        }
    }
}

#[test]
fn what_grows_doubles_its_memory() {
    let calls = calls! {
        |set, longer| set.grow(longer.len());
        |set, longer| (set.reserve(longer.len() - set.len()), set.grow(longer.len()));
        |set, longer| set.grow_and_insert(longer.len() - 1);
        |set, longer| set.grow_and_put(longer.len() - 1);
        |set, longer| set.extend([longer.len() - 1]);
        |set, longer| set.resize(longer.len(), true);
        |set, longer| set.union_with(longer);
        |set, longer| set.symmetric_difference_with(longer);
        |set, longer| set.union_with_change(longer);
        |set, longer| set.symmetric_difference_with_change(longer);
        |set, longer| set.union_with_difference(longer, longer);
        |set, longer| set.union_of(longer, longer);
        |set, longer| set.symmetric_difference_of(longer, longer);
        |set, longer| set.intersection_of(longer, longer);
        |set, longer| set.difference_of(longer, longer);
        |set, longer| set.clone_from(longer);
        |set, longer| *set |= longer;
        |set, longer| *set ^= longer;
    };
    for (name, call) in calls {
        grows(name, call);
    }
    let lane = FixedBitSet::with_capacity(256);
    grows("append", |set, _| set.append(&lane));
    let collected = asked_by(|| drop((0..256 * LANES).collect::<FixedBitSet>()));
    assert!(collected.requests <= 2 + LANES.ilog2() as usize && collected.held == 0);
}
