//! Memory that is refused. Each call that says so leaves the set as it was, each call that does not ends the program, and a call
//! that has room is never refused. The row of numbers of `src/shim.rs` stands beside Rust's own.
extern crate alloc;

#[allow(dead_code, unused_imports, unused_macros)]
#[path = "../src/shim.rs"]
mod shim;

use fixedbitset::dataflow::{Direction, Meet, Problem};
use fixedbitset::{
    storage_words, AllocError, BitRows, Bits, Block, ExtendFault, FixedBitSet, Ranks, Slots,
};
use shim::alloc::{AllocError as RowError, Global};
use shim::row::Vec as Row;
use std::alloc::{GlobalAlloc, Layout, System};
use std::cell::Cell;
use std::fmt::Debug;
use std::hint::black_box;
use std::mem::{size_of, take};
use std::process::Command;

const ALLOCATOR_OF_ROWS: Global = Global::Abort;

/// What a thread has asked for: how often, the bytes of the last request, and the index of the one that is refused.
#[derive(Clone, Copy)]
struct Asked {
    requests: usize,
    bytes: usize,
    refused: usize,
}

const NOTHING: Asked = Asked {
    requests: 0,
    bytes: 0,
    refused: usize::MAX,
};

thread_local!(static ASKED: Cell<Asked> = const { Cell::new(NOTHING) });

/// Rust's own allocator, which refuses one request of a thread.
struct Refusing;

impl Refusing {
    /// What is answered to a request.
    fn answer(bytes: usize, granted: impl FnOnce() -> *mut u8) -> *mut u8 {
        let asked = ASKED.get();
        let requests = asked.requests + 1;
        ASKED.set(Asked {
            requests,
            bytes,
            ..asked
        });
        if asked.requests == asked.refused {
            std::ptr::null_mut()
        } else {
            granted()
        }
    }
}

unsafe impl GlobalAlloc for Refusing {
    unsafe fn alloc(&self, layout: Layout) -> *mut u8 {
        Self::answer(layout.size(), || System.alloc(layout))
    }
    unsafe fn alloc_zeroed(&self, layout: Layout) -> *mut u8 {
        Self::answer(layout.size(), || System.alloc_zeroed(layout))
    }
    unsafe fn realloc(&self, at: *mut u8, layout: Layout, size: usize) -> *mut u8 {
        Self::answer(size, || System.realloc(at, layout, size))
    }
    unsafe fn dealloc(&self, at: *mut u8, layout: Layout) {
        System.dealloc(at, layout);
    }
}

#[global_allocator]
static ALLOCATOR: Refusing = Refusing;

/// What a call answers whose request of this index is refused, and what it has asked for.
fn refusing<T>(refused: usize, call: impl FnOnce() -> T) -> (T, Asked) {
    ASKED.set(Asked { refused, ..NOTHING });
    let made = black_box(call());
    let asked = ASKED.replace(NOTHING);
    (made, asked)
}

/// What a call answers, and how often it asks.
fn granting<T>(call: impl FnOnce() -> T) -> (T, usize) {
    let (made, asked) = refusing(usize::MAX, call);
    (made, asked.requests)
}

/// What a call makes or tells.
#[derive(Debug, PartialEq)]
enum Made {
    Nothing,
    Told(bool),
    Set(FixedBitSet),
    Bytes(Vec<u8>),
    Numbers([usize; 3]),
}

macro_rules! made {
    ($($type:ty, $given:pat => $made:expr;)*) => { $(
        impl From<$type> for Made {
            fn from($given: $type) -> Made {
                $made
            }
        }
    )* };
}
made! {
    (), () => Made::Nothing;
    bool, told => Made::Told(told);
    FixedBitSet, set => Made::Set(set);
    Vec<u8>, bytes => Made::Bytes(bytes);
    Ranks<'_>, it => Made::Numbers([it.rank(3), it.rank(usize::MAX), it.select(1).unwrap_or(0)]);
    BitRows, it => Made::Numbers([it.rows(), it.columns(), it.row(1).count()]);
    Slots, it => Made::Numbers([it.len(), it.free(), it.taken().len()]);
}

/// A call that says where memory is refused, the same that ends the program then, and how many bytes they need.
struct Call {
    name: &'static str,
    tried: fn(&mut FixedBitSet, &FixedBitSet) -> Result<Made, Option<usize>>,
    done: fn(&mut FixedBitSet, &FixedBitSet) -> Made,
    needed: fn(&FixedBitSet, &FixedBitSet) -> usize,
}

/// An error that may know how many bytes were needed.
trait Refused {
    fn bytes_needed(self) -> Option<usize>;
}
impl Refused for AllocError {
    fn bytes_needed(self) -> Option<usize> {
        Some(self.bytes())
    }
}
impl Refused for ExtendFault {
    fn bytes_needed(self) -> Option<usize> {
        assert!(matches!(self, ExtendFault::Memory));
        None
    }
}

macro_rules! calls {
    ($(|$set:tt, $other:tt| $tried:expr, $done:expr, $needed:expr;)*) => {
        [$(Call {
            name: stringify!($tried),
            tried: |$set, $other| $tried.map(Made::from).map_err(Refused::bytes_needed),
            done: |$set, $other| Made::from($done),
            needed: |$set, $other| $needed,
        }),*]
    };
}

type Set = FixedBitSet;

/// The bytes of the words of a set of this length.
fn bytes_of(length: usize) -> usize {
    storage_words(length) * size_of::<Block>()
}

/// The calls on a set and a longer one, whose words are more than the set has memory for.
#[allow(unused_variables)] // (not all need both sets)
fn calls() -> impl Iterator<Item = Call> {
    let changes = calls! {
        |s, t| s.try_grow(t.len()), s.grow(t.len()), bytes_of(t.len());
        |s, t| s.try_grow_and_insert(t.len()), s.grow_and_insert(t.len()), bytes_of(t.len() + 1);
        |s, t| s.try_grow_and_put(t.len()), s.grow_and_put(t.len()), bytes_of(t.len() + 1);
        |s, t| s.try_union_with(t), s.union_with(t), bytes_of(t.len());
        |s, t| s.try_symmetric_difference_with(t), s.symmetric_difference_with(t), bytes_of(t.len());
        |s, t| s.try_union_with_change(t), s.union_with_change(t), bytes_of(t.len());
        |s, t| s.try_symmetric_difference_with_change(t), s.symmetric_difference_with_change(t), bytes_of(t.len());
        |s, t| s.try_union_with_difference(t, &Set::new()), s.union_with_difference(t, &Set::new()), bytes_of(t.len());
        |s, t| s.try_append(t), s.append(t), bytes_of(s.len() + t.len());
        |s, t| s.try_resize(t.len(), true), s.resize(t.len(), true), bytes_of(t.len());
        |s, t| s.try_resize(t.len() + 1, false), s.resize(t.len() + 1, false), bytes_of(t.len() + 1);
        |s, t| s.try_union_of(t, &Set::new()), s.union_of(t, &Set::new()), bytes_of(t.len());
        |s, t| s.try_symmetric_difference_of(t, t), s.symmetric_difference_of(t, t), bytes_of(t.len());
        |s, t| s.try_intersection_of(t, t), s.intersection_of(t, t), bytes_of(t.len());
        |s, t| s.try_difference_of(t, &Set::new()), s.difference_of(t, &Set::new()), bytes_of(t.len());
        |s, t| s.try_clone_from(t), s.clone_from(t), bytes_of(t.len());
        |s, t| s.try_extend([0, t.len()]), s.extend([0, t.len()]), bytes_of(t.len() + 1);
        |s, t| s.try_reserve(t.len()), s.reserve(t.len()), bytes_of(s.len() + t.len());
    };
    let makes = calls! {
        |_, t| Set::try_with_capacity(t.len()), Set::with_capacity(t.len()), bytes_of(t.len());
        |_, t| Set::try_with_capacity_and_blocks(t.len(), [5, 6]), Set::with_capacity_and_blocks(t.len(), [5, 6]), bytes_of(t.len());
        |_, t| Set::try_from_bytes(t.len(), &[5, 6]), Set::from_bytes(t.len(), &[5, 6]), bytes_of(t.len());
        |_, t| Set::try_from_bits(t.as_bits()), Set::from(t.as_bits()), bytes_of(t.len());
        |_, t| Set::try_from_iter([t.len()]), Set::from_iter([t.len()]), bytes_of(t.len() + 1);
        |_, t| t.try_clone(), t.clone(), bytes_of(t.len());
        |_, t| Set::try_from_words(Vec::new(), t.len()), Set::from_words(Vec::new(), t.len()), bytes_of(t.len());
        |_, t| t.try_slice(1..), t.slice(1..), bytes_of(t.len() - 1);
        |_, t| t.try_slice(..), t.slice(..), bytes_of(t.len());
        |_, t| t.try_to_bytes(), t.to_bytes(), 8 * t.as_slice().len();
        |_, t| Ranks::try_of(t), Ranks::of(t), 8 * t.as_slice().len().div_ceil(8);
        |_, t| BitRows::try_new(3, t.len()), BitRows::new(3, t.len()), 3 * bytes_of(t.len());
        |_, t| Slots::try_new(t.len()), Slots::new(t.len()), bytes_of(t.len());
    };
    changes.into_iter().chain(makes)
}

/// The lengths of two sets. The words of the last ones are zeroed by the allocator, where they are new.
const LENGTHS: [(usize, usize); 6] = [
    (0, 2),
    (1, 257),
    (70, 4_000),
    (300, 5_000),
    (5_000, 600_000),
    (600_000, 1_300_000),
];

/// A set of this length with some positions.
fn set_of(length: usize) -> FixedBitSet {
    let mut set = FixedBitSet::with_capacity(length);
    set.insert_all(&[0, length / 2, length.saturating_sub(1)][..3 * length.min(1)]);
    set
}

#[test]
fn a_refused_call_leaves_the_set_as_it_was() {
    for (first, second) in LENGTHS {
        let (set, longer) = (set_of(first), set_of(second));
        for call in calls() {
            let name = format!("{} of {first} and {second}", call.name);
            let mut changed = set.clone();
            let (answer, asked) = refusing(0, || (call.tried)(&mut changed, &longer));
            let needed = (call.needed)(&set, &longer);
            let told = answer.expect_err(&name);
            assert_eq!(told.unwrap_or(needed), needed, "{name}");
            assert!(needed <= asked.bytes, "{name}: {} bytes", asked.bytes);
            assert_eq!((&changed, changed.len()), (&set, first), "{name}");
            assert_eq!(changed.as_slice(), set.as_slice(), "{name}");
            let mut wanted = set.clone();
            let (answer, requests) = granting(|| (call.tried)(&mut changed, &longer));
            assert_eq!(answer, Ok((call.done)(&mut wanted, &longer)), "{name}");
            assert_eq!((&changed, changed.len()), (&wanted, wanted.len()), "{name}");
            assert!((1..=2).contains(&requests), "{name}: {requests}");
        }
    }
}

#[test]
#[allow(unused_variables)]
fn a_call_with_room_is_never_refused() {
    let calls = calls! {
        |s, t| s.try_grow(t.len()), s.grow(t.len()), 0;
        |s, _| s.try_grow(1_024), s.grow(1_024), 0;
        |s, _| s.try_grow_and_insert(1_023), s.grow_and_insert(1_023), 0;
        |s, _| s.try_grow_and_put(1_023), s.grow_and_put(1_023), 0;
        |s, t| s.try_union_with(t), s.union_with(t), 0;
        |s, t| s.try_symmetric_difference_with(t), s.symmetric_difference_with(t), 0;
        |s, t| s.try_union_with_change(t), s.union_with_change(t), 0;
        |s, t| s.try_symmetric_difference_with_change(t), s.symmetric_difference_with_change(t), 0;
        |s, t| s.try_union_with_difference(t, t), s.union_with_difference(t, t), 0;
        |s, _| s.try_append(&Set::new()), s.append(&Set::new()), 0;
        |s, t| { s.truncate(100); s.try_append(t) }, { s.truncate(100); s.append(t) }, 0;
        |s, _| s.try_resize(3, true), s.resize(3, true), 0;
        |s, _| { s.truncate(0); s.try_resize(1_024, true) }, { s.truncate(0); s.resize(1_024, true) }, 0;
        |s, t| s.try_union_of(t, t), s.union_of(t, t), 0;
        |s, t| s.try_symmetric_difference_of(t, t), s.symmetric_difference_of(t, t), 0;
        |s, t| s.try_intersection_of(t, t), s.intersection_of(t, t), 0;
        |s, t| s.try_difference_of(t, t), s.difference_of(t, t), 0;
        |s, t| s.try_clone_from(t), s.clone_from(t), 0;
        |s, _| s.try_reserve(24), s.reserve(24), 0;
        |s, _| s.try_shrink_to_fit(), s.shrink_to_fit(), 0;
        |s, _| Set::try_from_words(take(s).into_words(), 1_024), Set::from_words(take(s).into_words(), 1_024), 0;
        |s, _| s.try_extend([3, 1_023, 5]), s.extend([3, 1_023, 5]), 0;
        |s, _| s.try_slice(7..7), s.slice(7..7), 0;
        |_, _| Set::try_with_capacity(0), Set::new(), 0;
        |_, _| Set::try_with_capacity_and_blocks(0, [1]), Set::new(), 0;
        |_, _| Set::try_from_bytes(0, &[1]), Set::new(), 0;
        |_, _| Set::try_from_iter([]), Set::new(), 0;
        |_, _| Set::try_from_bits(Bits::over(&[], 0).unwrap()), Set::new(), 0;
        |_, _| Set::new().try_clone(), Set::new(), 0;
        |_, _| Set::new().try_to_bytes(), Vec::new(), 0;
        |_, _| Slots::try_new(0), Slots::new(0), 0;
    };
    let (set, other) = (set_of(1_000), set_of(900));
    for call in calls {
        let (mut changed, mut wanted) = (set.clone(), set.clone());
        let (answer, asked) = refusing(0, || (call.tried)(&mut changed, &other));
        let made = (call.done)(&mut wanted, &other);
        assert_eq!((answer, asked.requests), (Ok(made), 0), "{}", call.name);
        assert_eq!(changed, wanted, "{}", call.name);
    }
}

#[test]
fn what_an_extension_took_before_it_was_refused_stays() {
    let items = [3, 64, 2_000, 7, 255, 100_000, 1_999, 8_000_000, 5];
    let mut refused_at = Vec::new();
    for refused in 0.. {
        let (mut set, taken) = (set_of(70), Cell::new(0));
        let given = items
            .iter()
            .copied()
            .inspect(|_| taken.set(taken.get() + 1));
        let (answer, _) = refusing(refused, || set.try_extend(given));
        let kept = taken.get() - usize::from(answer.is_err());
        let mut wanted = set_of(70);
        wanted.extend(items[..kept].iter().copied());
        assert_eq!((&set, set.len()), (&wanted, wanted.len()));
        let made = refusing(refused, || Set::try_from_iter(items));
        assert_eq!(
            matches!(made.0, Err(ExtendFault::Memory)),
            made.1.requests > refused
        );
        if answer.is_ok() {
            assert_eq!(kept, items.len());
            break;
        }
        assert!(matches!(answer, Err(ExtendFault::Memory)));
        refused_at.push(items[kept]);
    }
    assert_eq!(refused_at, [2_000, 100_000, 8_000_000]);
    for count in 0..items.len() {
        let mut stopped = items;
        stopped[count] = usize::MAX;
        let (mut set, mut wanted) = (set_of(70), set_of(70));
        assert!(matches!(
            set.try_extend(stopped),
            Err(ExtendFault::Position)
        ));
        wanted.extend(items[..count].iter().copied());
        assert_eq!(set, wanted);
        assert!(matches!(
            Set::try_from_iter(stopped),
            Err(ExtendFault::Position)
        ));
    }
}

#[test]
fn memory_is_given_back_or_stays() {
    for (first, second) in LENGTHS {
        let mut set = set_of(second);
        set.truncate(first);
        let (wanted, capacity) = (set.clone(), set.capacity());
        if first > 0 {
            let (answer, _) = refusing(0, || set.try_shrink_to_fit());
            assert_eq!(answer.unwrap_err().bytes(), bytes_of(first));
            assert_eq!((&set, set.capacity()), (&wanted, capacity));
        }
        for requests in [usize::from(first > 0), 0] {
            let (answer, asked) = granting(|| set.try_shrink_to_fit());
            assert!(answer.is_ok());
            assert_eq!(asked, requests);
            assert_eq!((&set, set.capacity()), (&wanted, 8 * bytes_of(first)));
        }
    }
}

#[test]
fn more_than_any_memory_has_is_refused() {
    let greatest = bytes_of(usize::MAX);
    let mut set = set_of(70);
    let bytes = |answer: Result<(), AllocError>| answer.unwrap_err().bytes();
    assert_eq!(bytes(set.try_grow(usize::MAX)), greatest);
    assert_eq!(bytes(set.try_reserve(usize::MAX)), greatest);
    assert_eq!(bytes(set.try_reserve(usize::MAX - 70)), greatest);
    assert_eq!(
        bytes(Set::try_from_words(vec![5], usize::MAX).map(drop)),
        greatest
    );
    assert_eq!(bytes(set.try_resize(usize::MAX, true)), greatest);
    assert_eq!(bytes(set.try_grow_and_insert(usize::MAX - 1)), greatest);
    assert_eq!(
        bytes(Set::try_with_capacity(usize::MAX).map(drop)),
        greatest
    );
    assert_eq!(
        bytes(Set::try_from_bytes(usize::MAX, &[]).map(drop)),
        greatest
    );
    assert_eq!(
        bytes(Set::try_with_capacity_and_blocks(usize::MAX, []).map(drop)),
        greatest
    );
    assert_eq!(bytes(Slots::try_new(usize::MAX).map(drop)), greatest);
    assert_eq!(bytes(BitRows::try_new(usize::MAX, 1).map(drop)), usize::MAX);
    assert_eq!(
        bytes(BitRows::try_new(usize::MAX / 8, 1).map(drop)),
        usize::MAX
    );
    let none = BitRows::try_new(usize::MAX, 0).unwrap();
    assert_eq!((none.rows(), none.columns()), (usize::MAX, 0));
    assert_eq!(set, set_of(70));
    assert!(matches!(
        set.try_extend([usize::MAX - 1]),
        Err(ExtendFault::Memory)
    ));
    assert_eq!(set, set_of(70));
}

#[test]
fn a_refusal_is_told_in_words() {
    let mut set = set_of(70);
    let (refused, _) = refusing(0, || set.try_grow(300));
    let error = refused.unwrap_err();
    assert_eq!(error.to_string(), "memory of 64 bytes was refused");
    assert_eq!(format!("{error:?}"), "AllocError { bytes: 64 }");
    let told = |fault: ExtendFault| (fault.to_string(), format!("{fault:?}"));
    let words = ("memory was refused".to_string(), "Memory".to_string());
    assert_eq!(told(ExtendFault::Memory), words);
    let words = (
        "no set has the position usize::MAX".to_string(),
        "Position".to_string(),
    );
    assert_eq!(told(ExtendFault::Position), words);
}

/// Which call the program below ends in.
const CALL: &str = "FIXEDBITSET_REFUSED_CALL";

/// What a call says whose program ends where memory is refused. That is the test of this name once more, which has to make the
/// call of this index.
fn end_of(test: &str, index: usize) -> String {
    let mut program = Command::new(std::env::current_exe().unwrap());
    program
        .args(["--exact", test, "--nocapture"])
        .env(CALL, index.to_string());
    let ended = program.output().unwrap();
    assert!(
        !ended.status.success(),
        "{test} {index} does not end the program"
    );
    String::from_utf8_lossy(&ended.stderr).into_owned()
}

/// The index of the call that this program has to make, where it is one of those that have to end.
fn asked_for() -> Option<usize> {
    std::env::var(CALL).ok().map(|index| index.parse().unwrap())
}

/// What Rust's own collections say of so many bytes.
fn ended_by(bytes: usize) -> String {
    format!("memory allocation of {bytes} bytes failed")
}

#[test]
fn a_refused_call_that_does_not_say_so_ends_the_program() {
    let (set, longer) = (set_of(70), set_of(600));
    let only = asked_for();
    for (index, call) in calls().enumerate() {
        let mut changed = set.clone();
        if only == Some(index) {
            let (made, _) = refusing(0, || (call.done)(&mut changed, &longer));
            return drop(made); // (the program did not end)
        } else if only.is_none() {
            let (answer, _) = refusing(0, || (call.tried)(&mut changed, &longer));
            let text = ended_by(answer.unwrap_err().unwrap_or(size_of::<Block>()));
            let said = end_of(
                "a_refused_call_that_does_not_say_so_ends_the_program",
                index,
            );
            assert!(said.contains(&text), "{}: {said}", call.name);
        }
    }
}

/// The lengths of rows: some are short, and some are so long that the allocator zeroes them.
const COUNTS: [usize; 6] = [0, 1, 5, 8_191, 8_192, 9_000];

/// So many numbers, none of which is that before it.
fn numbers(count: usize) -> Vec<u64> {
    (0..count as u64)
        .map(|at| at.wrapping_mul(0x9e37_79b9_7f4a_7c15) + 1)
        .collect()
}

/// A call that makes a row.
type Makes<T> = (&'static str, fn(Global, &[T]) -> Result<Row<T>, RowError>);

/// Whether the row has the items of another, by each of its ways to them.
fn has<T: Copy + Debug + PartialEq>(mut row: Row<T>, items: &[T]) {
    assert_eq!(row.as_slice(), items);
    assert_eq!(&*row, items);
    assert_eq!(&mut *row, items);
    assert_eq!(row.as_mut_slice(), items);
    assert_eq!(row.clone().0, items);
    assert!(row.into_iter().eq(items.iter().copied()));
}

/// A row that is made, where its request is granted and where it is refused.
fn is_made<T: Copy + Debug + PartialEq>((name, make): Makes<T>, items: &[T], wanted: &[T]) {
    let bytes = std::mem::size_of_val(items);
    for alloc in [Global::Try, Global::Abort] {
        let (made, asked) = refusing(usize::MAX, || make(alloc, items));
        assert_eq!(asked.bytes, bytes, "{name}, {}", items.len());
        has(made.map_err(|_| name).unwrap(), wanted);
    }
    let (made, asked) = refusing(0, || make(Global::Try, items));
    let told = made.map(|row| row.0).map_err(|error| error.bytes);
    let is_refused = asked.requests > 0;
    assert_eq!(is_refused, bytes > 0, "{name}, {}", items.len());
    let answer = if is_refused {
        Err(bytes)
    } else {
        Ok(Vec::new())
    };
    assert_eq!(told, answer, "{name}, {}", items.len());
}

#[test]
fn a_row_is_made_or_refused() {
    for count in COUNTS {
        let items = numbers(count);
        let with_room: Makes<u64> = ("with_capacity", |alloc, items| {
            Row::with_capacity(alloc, items.len())
        });
        is_made(with_room, &items, &[]);
        is_made(("from_slice", Row::from_slice), &items, &items);
        is_made(("from_clones", Row::from_clones), &items, &items);
        for (item, make) in [
            (
                0,
                (|alloc, items| Row::filled(alloc, 0, items.len())) as fn(Global, &[u64]) -> _,
            ),
            (7, |alloc, items| Row::filled(alloc, 7, items.len())),
            (9, |alloc, items| shim::row![in alloc; 9; items.len()]),
        ] {
            is_made(("filled", make), &items, &vec![item; count]);
        }
        let bytes: Vec<u8> = items.iter().map(|item| *item as u8).collect();
        is_made(("from_slice", Row::from_slice), &bytes, &bytes);
        is_made(
            ("filled", |alloc, items| Row::filled(alloc, 3, items.len())),
            &bytes,
            &vec![3; count],
        );
    }
    assert_eq!(
        granting(|| Row::<u64>::new(Global::Try).len() + Row::<u8>::EMPTY.len()),
        (0, 0)
    );
    for alloc in [Global::Try, Global::Abort] {
        let row = Row::<u64>::with_capacity(alloc, 3).map_err(|_| ()).unwrap();
        assert!(matches!(row.allocator(), Global::Abort));
    }
    for count in [usize::MAX, usize::MAX / 8, isize::MAX as usize / 8 + 1] {
        let told = [
            Row::<u64>::with_capacity(Global::Try, count),
            Row::filled(Global::Try, 0_u64, count),
        ];
        let bytes = count.saturating_mul(8);
        assert!(told
            .iter()
            .all(|made| made.as_ref().is_err_and(|error| error.bytes == bytes)));
    }
    assert_eq!(shim::alloc::AllocError.bytes, usize::MAX);
}

/// A call that changes a row, the same of Rust's own, how many items there are at most while it runs, and for how many it asks
/// where it has no room for these.
struct Change<'a> {
    name: &'static str,
    row: &'a dyn Fn(&mut Row<u64>) -> Result<(), RowError>,
    own: &'a dyn Fn(&mut Vec<u64>),
    most: usize,
    asked: usize,
}

/// A row that is changed, where its request is granted, where it is refused and where it has room.
fn is_changed(items: &[u64], call: Change) {
    let row_of = || Row::from_slice(Global::Try, items).map_err(|_| ()).unwrap();
    let (mut row, mut wanted) = (row_of(), items.to_vec());
    let (answer, requests) = granting(|| (call.row)(&mut row));
    (call.own)(&mut wanted);
    let name = format!("{} of {} items", call.name, items.len());
    assert!(answer.is_ok(), "{name}");
    has(row, &wanted);
    let has_to_grow = call.most > items.len();
    assert_eq!(requests, usize::from(has_to_grow), "{name}");
    let mut row = row_of();
    let (answer, asked) = refusing(0, || (call.row)(&mut row));
    if has_to_grow {
        assert_eq!(
            answer.map_err(|error| error.bytes),
            Err(8 * call.asked),
            "{name}"
        );
        assert!(asked.bytes >= 8 * call.asked, "{name}");
        has(row, items);
    } else {
        assert!(answer.is_ok(), "{name}");
        has(row, &wanted);
    }
    let mut row = Row::with_capacity(Global::Try, call.most)
        .map_err(|_| ())
        .unwrap();
    assert!(row.extend_from_slice(items).is_ok());
    let (answer, asked) = refusing(0, || (call.row)(&mut row));
    assert!(answer.is_ok() && asked.requests == 0, "{name}");
    has(row, &wanted);
}

/// These calls have the same words on a row and on Rust's own.
macro_rules! changes {
    ($items:expr; $(|$row:ident| $call:expr, $most:expr, $asked:expr;)*) => { $(
        is_changed($items, Change {
            name: stringify!($call),
            row: &|$row| $call,
            own: &|$row| _ = $call,
            most: $most,
            asked: $asked,
        });
    )* };
}

#[test]
fn a_row_is_changed_or_refused() {
    for (count, other) in COUNTS
        .iter()
        .flat_map(|count| COUNTS.map(|other| (*count, other)))
    {
        let (items, more) = (numbers(count), numbers(other));
        let (sum, pairs) = (count + other, count + other.min(count));
        changes! { &items;
            |row| row.push(5), count + 1, count + count.max(4);
            |row| row.resize(other, 5), count.max(other), count.max(other);
            |row| row.extend_from_slice(&more), sum, sum;
            |row| row.extend(more.iter().zip(&items).map(|(a, b)| a ^ b)), pairs, pairs;
            |row| row.extend(more.iter().copied().filter(|item| item % 3 > 0)), sum, sum;
            |row| { row.truncate(other); Ok::<_, RowError>(()) }, count, count;
        }
    }
    let mut row = Row::from_slice(Global::Try, &[4_u64])
        .map_err(|_| ())
        .unwrap();
    let told = [row.resize(usize::MAX, 0), row.extend(std::iter::repeat(0))];
    assert!(told
        .iter()
        .all(|told| told.is_err_and(|error| error.bytes == usize::MAX)));
    has(row, &[4]);
}

#[test]
fn a_row_is_extended_by_items_of_which_no_hint_says_how_many() {
    for count in COUNTS {
        let items = numbers(count);
        let row_of = || Row::from_slice(Global::Try, &items[..count / 2]);
        let mut left = items[count / 2..].iter().copied();
        let mut row = row_of().map_err(|_| ()).unwrap();
        let (answer, _) = granting(|| row.extend(std::iter::from_fn(|| left.next())));
        assert!(answer.is_ok(), "{count}");
        has(row, &items);
        let mut left = items[count / 2..].iter().copied();
        let mut row = row_of().map_err(|_| ()).unwrap();
        let (answer, _) = refusing(0, || row.extend(std::iter::from_fn(|| left.next())));
        assert_eq!(answer.is_ok(), count == 0, "{count}");
        has(row, &items[..count / 2]);
    }
}

#[test]
fn a_row_that_is_not_to_say_so_ends_the_program() {
    let items = numbers(9_000);
    let calls: [fn(&[u64]); 4] = [
        |items| {
            drop(black_box(Row::<u64>::with_capacity(
                Global::Abort,
                items.len(),
            )))
        },
        |items| drop(black_box(Row::filled(Global::Abort, 7_u64, items.len()))),
        |items| drop(black_box(Row::from_slice(Global::Abort, items))),
        |items| drop(black_box(Row::from_clones(Global::Abort, items))),
    ];
    for (index, call) in calls.iter().enumerate() {
        if asked_for() == Some(index) {
            refusing(0, || call(&items));
            return; // (the program did not end)
        } else if asked_for().is_none() {
            let said = end_of("a_row_that_is_not_to_say_so_ends_the_program", index);
            assert!(said.contains(&ended_by(72_000)), "{index}: {said}");
        }
    }
}

#[test]
fn a_solver_tells_of_each_request_that_is_refused() {
    let mut problem = Problem::new(4, 70);
    problem.extend([(0, 1), (1, 2), (2, 1), (2, 3)]);
    problem.gen_mut(1).insert(69);
    problem.boundary(1).insert(3);
    for direction in [Direction::Forward, Direction::Backward] {
        for meet in [Meet::Union, Meet::Intersection] {
            let (solution, requests) = granting(|| problem.try_solve(direction, meet));
            let text = format!("{:?}", solution.unwrap());
            assert_eq!(text, format!("{:?}", problem.solve(direction, meet)));
            assert!(requests > 10);
            for index in 0..requests {
                let (solution, asked) = refusing(index, || problem.try_solve(direction, meet));
                assert_eq!(solution.unwrap_err().bytes(), asked.bytes);
            }
        }
    }
}
