//! The calls of the static library, as crates/bits_c exports them. front/declarations.py compares both.
use std::ptr::NonNull;

/// A set that is lent, the struct `bits` of bits.h.
#[repr(C)]
pub struct Lent {
    pub words: NonNull<usize>,
    pub count: usize,
    pub length: usize,
}

/// A walk over one set, the struct `bits_walk` of bits.h.
#[repr(C)]
pub struct Walk {
    pub front: usize,
    pub back: usize,
    pub front_at: usize,
    pub back_at: usize,
    pub words: NonNull<usize>,
    pub count: usize,
}

/// A walk over stretches, the struct `bits_run_walk` of bits.h.
#[repr(C)]
pub struct Runs {
    pub are_set: bool,
    pub end: usize,
    pub low: usize,
    pub high: usize,
    pub words: NonNull<usize>,
    pub count: usize,
}

/// A walk over one set that is sieved by another, the struct `bits_sieve` of bits.h.
#[repr(C)]
pub struct Sieve {
    pub walk: Walk,
    pub other: NonNull<usize>,
    pub other_count: usize,
}

/// Two such walks in turn, the struct `bits_pair` of bits.h.
#[repr(C)]
pub struct Pair {
    pub first: Sieve,
    pub second: Sieve,
}

/// A table that is lent, the struct `bits_rows` of bits.h.
#[repr(C)]
pub struct Rows {
    pub words: NonNull<usize>,
    pub count: usize,
    pub rows: usize,
    pub columns: usize,
}

/// A set that is lent with a directory of its words, the struct `bits_ranks` of bits.h.
#[repr(C)]
pub struct LentRanks {
    pub words: NonNull<usize>,
    pub count: usize,
    pub length: usize,
    pub directory: NonNull<usize>,
    pub entries: usize,
}

/// Declares calls whose symbols in the archive are their names behind a prefix, as BITS_SYMBOL of bits.h has it.
macro_rules! of_archive {
    ($(pub fn $name:ident($($parameter:ident: $kind:ty),* $(,)?) $(-> $answer:ty)?;)*) => {
        // (The crate for Rust has no call like some of these.)
        #[allow(dead_code)]
        unsafe extern "C" {
            $(
                #[link_name = concat!("fixedbitset_", stringify!($name))]
                pub fn $name($($parameter: $kind),*) $(-> $answer)?;
            )*
        }
    };
}

// made by front/calls from crates/bits_c
of_archive! {
    pub fn bits_words(length: usize) -> usize;
    pub fn bits_blocks(length: usize) -> usize;
    pub fn bits_settle(words: NonNull<usize>, count: usize, length: usize, kept: usize) -> bool;
    pub fn bits_is_clean(words: *const usize, count: usize, length: usize) -> bool;
    pub fn bits_take_lowest_bit(word: &mut usize) -> usize;
    pub fn bits_contains(set: &Lent, bit: usize) -> bool;
    pub fn bits_insert(set: &mut Lent, bit: usize) -> bool;
    pub fn bits_remove(set: &mut Lent, bit: usize) -> bool;
    pub fn bits_toggle(set: &mut Lent, bit: usize) -> bool;
    pub fn bits_put(set: &mut Lent, bit: usize) -> bool;
    pub fn bits_take(set: &mut Lent, bit: usize) -> bool;
    pub fn bits_set(set: &mut Lent, bit: usize, enabled: bool) -> bool;
    pub fn bits_set_block(set: &mut Lent, index: usize, block: usize) -> bool;
    pub fn bits_insert_all(set: &mut Lent, positions: *const usize, count: usize) -> bool;
    pub fn bits_remove_all(set: &mut Lent, positions: *const usize, count: usize) -> bool;
    pub fn bits_contains_each(set: &Lent, positions: *const usize, count: usize, answers: NonNull<bool>, places: usize) -> bool;
    pub fn bits_clear(set: &mut Lent);
    pub fn bits_minimum(set: &Lent) -> usize;
    pub fn bits_maximum(set: &Lent) -> usize;
    pub fn bits_next_one(set: &Lent, from: usize) -> usize;
    pub fn bits_next_zero(set: &Lent, from: usize) -> usize;
    pub fn bits_nth_one(set: &Lent, index: usize) -> usize;
    pub fn bits_first_gap(set: &Lent, count: usize, from: usize) -> usize;
    pub fn bits_first_aligned_gap(set: &Lent, count: usize, align: usize, start: usize, end: usize) -> usize;
    pub fn bits_last_gap(set: &Lent, count: usize, below: usize) -> usize;
    pub fn bits_previous_one(set: &Lent, below: usize) -> usize;
    pub fn bits_previous_zero(set: &Lent, below: usize) -> usize;
    pub fn bits_is_clear(set: &Lent) -> bool;
    pub fn bits_is_full(set: &Lent) -> bool;
    pub fn bits_range_is_valid(set: &Lent, start: usize, end: usize) -> bool;
    pub fn bits_insert_range(set: &mut Lent, start: usize, end: usize) -> bool;
    pub fn bits_remove_range(set: &mut Lent, start: usize, end: usize) -> bool;
    pub fn bits_toggle_range(set: &mut Lent, start: usize, end: usize) -> bool;
    pub fn bits_count_ones(set: &Lent, start: usize, end: usize) -> usize;
    pub fn bits_count_zeroes(set: &Lent, start: usize, end: usize) -> usize;
    pub fn bits_contains_all_in_range(set: &Lent, start: usize, end: usize) -> bool;
    pub fn bits_contains_any_in_range(set: &Lent, start: usize, end: usize) -> bool;
    pub fn bits_union_with(set: &mut Lent, other: &Lent) -> bool;
    pub fn bits_symmetric_difference_with(set: &mut Lent, other: &Lent) -> bool;
    pub fn bits_intersect_with(set: &mut Lent, other: &Lent);
    pub fn bits_difference_with(set: &mut Lent, other: &Lent);
    pub fn bits_union_with_change(set: &mut Lent, other: &Lent, changed: &mut bool) -> bool;
    pub fn bits_symmetric_difference_with_change(set: &mut Lent, other: &Lent, changed: &mut bool) -> bool;
    pub fn bits_intersect_with_change(set: &mut Lent, other: &Lent) -> bool;
    pub fn bits_difference_with_change(set: &mut Lent, other: &Lent) -> bool;
    pub fn bits_union_with_difference(set: &mut Lent, gens: &Lent, kills: &Lent, changed: &mut bool) -> bool;
    pub fn bits_union_count(set: &Lent, other: &Lent) -> usize;
    pub fn bits_intersection_count(set: &Lent, other: &Lent) -> usize;
    pub fn bits_difference_count(set: &Lent, other: &Lent) -> usize;
    pub fn bits_symmetric_difference_count(set: &Lent, other: &Lent) -> usize;
    pub fn bits_is_disjoint(set: &Lent, other: &Lent) -> bool;
    pub fn bits_is_subset(set: &Lent, other: &Lent) -> bool;
    pub fn bits_first_lacking(set: &Lent, other: &Lent) -> usize;
    pub fn bits_next_common(set: &Lent, other: &Lent, from: usize) -> usize;
    pub fn bits_equal(set: &Lent, other: &Lent) -> bool;
    pub fn bits_compare(set: &Lent, other: &Lent) -> isize;
    pub fn bits_copy(to: &mut Lent, set: &Lent) -> bool;
    pub fn bits_union_of(to: &mut Lent, set: &Lent, other: &Lent) -> bool;
    pub fn bits_symmetric_difference_of(to: &mut Lent, set: &Lent, other: &Lent) -> bool;
    pub fn bits_intersection_of(to: &mut Lent, set: &Lent, other: &Lent) -> bool;
    pub fn bits_difference_of(to: &mut Lent, set: &Lent, other: &Lent) -> bool;
    pub fn bits_shift_up(set: &mut Lent, by: usize);
    pub fn bits_shift_down(set: &mut Lent, by: usize);
    pub fn bits_union_with_shifted(set: &mut Lent, other: &Lent, by: usize);
    pub fn bits_union_with_own_shift(set: &mut Lent, by: usize);
    pub fn bits_slice(part: &mut Lent, set: &Lent, start: usize, end: usize) -> bool;
    pub fn bits_copy_range(set: &mut Lent, other: &Lent, start: usize, end: usize, at: usize) -> bool;
    pub fn bits_load(set: &Lent, start: usize, width: usize, number: &mut usize) -> bool;
    pub fn bits_store(set: &mut Lent, start: usize, width: usize, number: usize) -> bool;
    pub fn bits_bytes(length: usize) -> usize;
    pub fn bits_from_bytes(set: &mut Lent, bytes: *const u8, count: usize);
    pub fn bits_to_bytes(set: &Lent, bytes: NonNull<u8>, count: usize) -> bool;
    pub fn bits_reverse_each_byte(bytes: NonNull<u8>, count: usize);
    pub fn bits_ranks_entries(length: usize) -> usize;
    pub fn bits_ranks_fill(ranks: &mut LentRanks, set: &Lent, directory: NonNull<usize>, entries: usize) -> bool;
    pub fn bits_rank(ranks: &LentRanks, position: usize) -> usize;
    pub fn bits_select(ranks: &LentRanks, index: usize) -> usize;
    pub fn bits_rows_words(rows: usize, columns: usize) -> usize;
    pub fn bits_rows_clear(words: NonNull<usize>, count: usize, rows: usize, columns: usize) -> bool;
    pub fn bits_rows_get(rows: &Rows, row: usize, column: usize) -> bool;
    pub fn bits_rows_set(rows: &mut Rows, row: usize, column: usize, enabled: bool) -> bool;
    pub fn bits_rows_union(rows: &mut Rows, from: usize, into: usize, changed: &mut bool) -> bool;
    pub fn bits_rows_ones(walk: &mut Walk, rows: &Rows, row: usize) -> bool;
    pub fn bits_rows_close(rows: &mut Rows);
    pub fn bits_ones(walk: &mut Walk, set: &Lent);
    pub fn bits_ones_next(walk: &mut Walk, position: &mut usize) -> bool;
    pub fn bits_ones_next_back(walk: &mut Walk, position: &mut usize) -> bool;
    pub fn bits_ones_take(walk: &mut Walk, positions: NonNull<usize>, room: usize) -> usize;
    pub fn bits_ones_take_back(walk: &mut Walk, positions: NonNull<usize>, room: usize) -> usize;
    pub fn bits_ones_take_u32(walk: &mut Walk, positions: NonNull<u32>, room: usize) -> usize;
    pub fn bits_zeroes(walk: &mut Walk, set: &Lent);
    pub fn bits_zeroes_next(walk: &mut Walk, position: &mut usize) -> bool;
    pub fn bits_zeroes_next_back(walk: &mut Walk, position: &mut usize) -> bool;
    pub fn bits_zeroes_take(walk: &mut Walk, positions: NonNull<usize>, room: usize) -> usize;
    pub fn bits_zeroes_take_back(walk: &mut Walk, positions: NonNull<usize>, room: usize) -> usize;
    pub fn bits_ones_in(walk: &mut Walk, set: &Lent, start: usize, end: usize) -> bool;
    pub fn bits_zeroes_in(walk: &mut Walk, set: &Lent, start: usize, end: usize) -> bool;
    pub fn bits_runs(walk: &mut Runs, set: &Lent);
    pub fn bits_zero_runs(walk: &mut Runs, set: &Lent);
    pub fn bits_runs_next(walk: &mut Runs, start: &mut usize, end: &mut usize) -> bool;
    pub fn bits_runs_next_back(walk: &mut Runs, start: &mut usize, end: &mut usize) -> bool;
    pub fn bits_intersection(walk: &mut Sieve, set: &Lent, other: &Lent);
    pub fn bits_intersection_next(walk: &mut Sieve, position: &mut usize) -> bool;
    pub fn bits_intersection_next_back(walk: &mut Sieve, position: &mut usize) -> bool;
    pub fn bits_intersection_take(walk: &mut Sieve, positions: NonNull<usize>, room: usize) -> usize;
    pub fn bits_intersection_take_back(walk: &mut Sieve, positions: NonNull<usize>, room: usize) -> usize;
    pub fn bits_difference(walk: &mut Sieve, set: &Lent, other: &Lent);
    pub fn bits_difference_next(walk: &mut Sieve, position: &mut usize) -> bool;
    pub fn bits_difference_next_back(walk: &mut Sieve, position: &mut usize) -> bool;
    pub fn bits_difference_take(walk: &mut Sieve, positions: NonNull<usize>, room: usize) -> usize;
    pub fn bits_difference_take_back(walk: &mut Sieve, positions: NonNull<usize>, room: usize) -> usize;
    pub fn bits_union(walk: &mut Pair, set: &Lent, other: &Lent);
    pub fn bits_union_next(walk: &mut Pair, position: &mut usize) -> bool;
    pub fn bits_union_next_back(walk: &mut Pair, position: &mut usize) -> bool;
    pub fn bits_union_take(walk: &mut Pair, positions: NonNull<usize>, room: usize) -> usize;
    pub fn bits_union_take_back(walk: &mut Pair, positions: NonNull<usize>, room: usize) -> usize;
    pub fn bits_symmetric_difference(walk: &mut Pair, set: &Lent, other: &Lent);
    pub fn bits_symmetric_difference_next(walk: &mut Pair, position: &mut usize) -> bool;
    pub fn bits_symmetric_difference_next_back(walk: &mut Pair, position: &mut usize) -> bool;
    pub fn bits_symmetric_difference_take(walk: &mut Pair, positions: NonNull<usize>, room: usize) -> usize;
    pub fn bits_symmetric_difference_take_back(walk: &mut Pair, positions: NonNull<usize>, room: usize) -> usize;
}
// end of what front/calls makes

impl Walk {
    /// Over no words.
    pub const NONE: Self = Walk {
        front: 0,
        back: 0,
        front_at: 0,
        back_at: 0,
        words: NonNull::dangling(),
        count: 0,
    };

    pub fn words(&self) -> usize {
        self.count + 2
    }
}

impl Sieve {
    pub const NONE: Self = Sieve {
        walk: Walk::NONE,
        other: NonNull::dangling(),
        other_count: 0,
    };

    pub fn words(&self) -> usize {
        self.walk.words()
    }
}

impl Pair {
    pub const NONE: Self = Pair {
        first: Sieve::NONE,
        second: Sieve::NONE,
    };

    pub fn words(&self) -> usize {
        self.first.walk.count + self.second.walk.count + 4
    }
}

impl Runs {
    pub const NONE: Self = Runs {
        are_set: false,
        end: 0,
        low: 0,
        high: 0,
        words: NonNull::dangling(),
        count: 0,
    };
}
