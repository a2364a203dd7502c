// Made by front/calls from crates/bits_c/src: change that, and not this.
//! A function for each call, under the symbol that `bits.h` gives it. It asks of its caller what `bits.h` says.

use crate::bits_c;
use crate::bits_c::structs::{Ones, Pair, Ranks, Room, Runs, Sieve, Zeroes};
use crate::crossing::*;
use crate::proved::bitlanes::Block;
use crate::proved::bitrows::{Rows, RowsMut};
use crate::proved::fixedbitset::views::{Bits, BitsMut};

#[no_mangle]
pub extern "C" fn fixedbitset_bits_words(length: usize) -> usize {
    bits_c::bits_words(length)
}

#[no_mangle]
pub extern "C" fn fixedbitset_bits_blocks(length: usize) -> usize {
    bits_c::bits_blocks(length)
}

#[no_mangle]
pub unsafe extern "C" fn fixedbitset_bits_settle(words: *mut Block, words_count: usize, length: usize, kept: usize) -> bool {
    bits_c::bits_settle(lent_mut(words, words_count), length, kept)
}

#[no_mangle]
pub unsafe extern "C" fn fixedbitset_bits_is_clean(words: *const Block, words_count: usize, length: usize) -> bool {
    bits_c::bits_is_clean(lent(words, words_count), length)
}

#[no_mangle]
pub unsafe extern "C" fn fixedbitset_bits_take_lowest_bit(word: *mut Block) -> usize {
    bits_c::bits_take_lowest_bit(&mut *word)
}

#[no_mangle]
pub unsafe extern "C" fn fixedbitset_bits_contains(set: *const CSet, bit: usize) -> bool {
    bits_c::bits_contains(&Bits::read(set), bit)
}

#[no_mangle]
pub unsafe extern "C" fn fixedbitset_bits_insert(set: *mut CSet, bit: usize) -> bool {
    bits_c::bits_insert(&mut BitsMut::read(set), bit)
}

#[no_mangle]
pub unsafe extern "C" fn fixedbitset_bits_remove(set: *mut CSet, bit: usize) -> bool {
    bits_c::bits_remove(&mut BitsMut::read(set), bit)
}

#[no_mangle]
pub unsafe extern "C" fn fixedbitset_bits_toggle(set: *mut CSet, bit: usize) -> bool {
    bits_c::bits_toggle(&mut BitsMut::read(set), bit)
}

#[no_mangle]
pub unsafe extern "C" fn fixedbitset_bits_put(set: *mut CSet, bit: usize) -> bool {
    bits_c::bits_put(&mut BitsMut::read(set), bit)
}

#[no_mangle]
pub unsafe extern "C" fn fixedbitset_bits_take(set: *mut CSet, bit: usize) -> bool {
    bits_c::bits_take(&mut BitsMut::read(set), bit)
}

#[no_mangle]
pub unsafe extern "C" fn fixedbitset_bits_set(set: *mut CSet, bit: usize, enabled: bool) -> bool {
    bits_c::bits_set(&mut BitsMut::read(set), bit, enabled)
}

#[no_mangle]
pub unsafe extern "C" fn fixedbitset_bits_set_block(set: *mut CSet, index: usize, block: Block) -> bool {
    bits_c::bits_set_block(&mut BitsMut::read(set), index, block)
}

#[no_mangle]
pub unsafe extern "C" fn fixedbitset_bits_insert_all(set: *mut CSet, positions: *const usize, positions_count: usize) -> bool {
    bits_c::lists::bits_insert_all(&mut BitsMut::read(set), lent(positions, positions_count))
}

#[no_mangle]
pub unsafe extern "C" fn fixedbitset_bits_remove_all(set: *mut CSet, positions: *const usize, positions_count: usize) -> bool {
    bits_c::lists::bits_remove_all(&mut BitsMut::read(set), lent(positions, positions_count))
}

#[no_mangle]
pub unsafe extern "C" fn fixedbitset_bits_contains_each(set: *const CSet, positions: *const usize, positions_count: usize, answers: *mut bool, answers_count: usize) -> bool {
    bits_c::lists::bits_contains_each(&Bits::read(set), lent(positions, positions_count), lent_mut(answers, answers_count))
}

#[no_mangle]
pub unsafe extern "C" fn fixedbitset_bits_clear(set: *mut CSet) {
    bits_c::bits_clear(&mut BitsMut::read(set))
}

#[no_mangle]
pub unsafe extern "C" fn fixedbitset_bits_minimum(set: *const CSet) -> usize {
    bits_c::bits_minimum(&Bits::read(set))
}

#[no_mangle]
pub unsafe extern "C" fn fixedbitset_bits_maximum(set: *const CSet) -> usize {
    bits_c::bits_maximum(&Bits::read(set))
}

#[no_mangle]
pub unsafe extern "C" fn fixedbitset_bits_next_one(set: *const CSet, from: usize) -> usize {
    bits_c::neighbours::bits_next_one(&Bits::read(set), from)
}

#[no_mangle]
pub unsafe extern "C" fn fixedbitset_bits_next_zero(set: *const CSet, from: usize) -> usize {
    bits_c::neighbours::bits_next_zero(&Bits::read(set), from)
}

#[no_mangle]
pub unsafe extern "C" fn fixedbitset_bits_nth_one(set: *const CSet, index: usize) -> usize {
    bits_c::neighbours::bits_nth_one(&Bits::read(set), index)
}

#[no_mangle]
pub unsafe extern "C" fn fixedbitset_bits_first_gap(set: *const CSet, count: usize, from: usize) -> usize {
    bits_c::neighbours::bits_first_gap(&Bits::read(set), count, from)
}

#[no_mangle]
pub unsafe extern "C" fn fixedbitset_bits_first_aligned_gap(set: *const CSet, count: usize, align: usize, start: usize, end: usize) -> usize {
    bits_c::neighbours::bits_first_aligned_gap(&Bits::read(set), count, align, start, end)
}

#[no_mangle]
pub unsafe extern "C" fn fixedbitset_bits_last_gap(set: *const CSet, count: usize, below: usize) -> usize {
    bits_c::neighbours::bits_last_gap(&Bits::read(set), count, below)
}

#[no_mangle]
pub unsafe extern "C" fn fixedbitset_bits_previous_one(set: *const CSet, below: usize) -> usize {
    bits_c::neighbours::bits_previous_one(&Bits::read(set), below)
}

#[no_mangle]
pub unsafe extern "C" fn fixedbitset_bits_previous_zero(set: *const CSet, below: usize) -> usize {
    bits_c::neighbours::bits_previous_zero(&Bits::read(set), below)
}

#[no_mangle]
pub unsafe extern "C" fn fixedbitset_bits_is_clear(set: *const CSet) -> bool {
    bits_c::bits_is_clear(&Bits::read(set))
}

#[no_mangle]
pub unsafe extern "C" fn fixedbitset_bits_is_full(set: *const CSet) -> bool {
    bits_c::bits_is_full(&Bits::read(set))
}

#[no_mangle]
pub unsafe extern "C" fn fixedbitset_bits_range_is_valid(set: *const CSet, start: usize, end: usize) -> bool {
    bits_c::ranges::bits_range_is_valid(&Bits::read(set), start, end)
}

#[no_mangle]
pub unsafe extern "C" fn fixedbitset_bits_insert_range(set: *mut CSet, start: usize, end: usize) -> bool {
    bits_c::ranges::bits_insert_range(&mut BitsMut::read(set), start, end)
}

#[no_mangle]
pub unsafe extern "C" fn fixedbitset_bits_remove_range(set: *mut CSet, start: usize, end: usize) -> bool {
    bits_c::ranges::bits_remove_range(&mut BitsMut::read(set), start, end)
}

#[no_mangle]
pub unsafe extern "C" fn fixedbitset_bits_toggle_range(set: *mut CSet, start: usize, end: usize) -> bool {
    bits_c::ranges::bits_toggle_range(&mut BitsMut::read(set), start, end)
}

#[no_mangle]
pub unsafe extern "C" fn fixedbitset_bits_count_ones(set: *const CSet, start: usize, end: usize) -> usize {
    bits_c::ranges::bits_count_ones(&Bits::read(set), start, end)
}

#[no_mangle]
pub unsafe extern "C" fn fixedbitset_bits_count_zeroes(set: *const CSet, start: usize, end: usize) -> usize {
    bits_c::ranges::bits_count_zeroes(&Bits::read(set), start, end)
}

#[no_mangle]
pub unsafe extern "C" fn fixedbitset_bits_contains_all_in_range(set: *const CSet, start: usize, end: usize) -> bool {
    bits_c::ranges::bits_contains_all_in_range(&Bits::read(set), start, end)
}

#[no_mangle]
pub unsafe extern "C" fn fixedbitset_bits_contains_any_in_range(set: *const CSet, start: usize, end: usize) -> bool {
    bits_c::ranges::bits_contains_any_in_range(&Bits::read(set), start, end)
}

#[no_mangle]
pub unsafe extern "C" fn fixedbitset_bits_union_with(set: *mut CSet, other: *const CSet) -> bool {
    bits_c::whole::bits_union_with(&mut BitsMut::read(set), &Bits::read(other))
}

#[no_mangle]
pub unsafe extern "C" fn fixedbitset_bits_symmetric_difference_with(set: *mut CSet, other: *const CSet) -> bool {
    bits_c::whole::bits_symmetric_difference_with(&mut BitsMut::read(set), &Bits::read(other))
}

#[no_mangle]
pub unsafe extern "C" fn fixedbitset_bits_intersect_with(set: *mut CSet, other: *const CSet) {
    bits_c::whole::bits_intersect_with(&mut BitsMut::read(set), &Bits::read(other))
}

#[no_mangle]
pub unsafe extern "C" fn fixedbitset_bits_difference_with(set: *mut CSet, other: *const CSet) {
    bits_c::whole::bits_difference_with(&mut BitsMut::read(set), &Bits::read(other))
}

#[no_mangle]
pub unsafe extern "C" fn fixedbitset_bits_union_with_change(set: *mut CSet, other: *const CSet, changed: *mut bool) -> bool {
    bits_c::whole::bits_union_with_change(&mut BitsMut::read(set), &Bits::read(other), &mut *changed)
}

#[no_mangle]
pub unsafe extern "C" fn fixedbitset_bits_symmetric_difference_with_change(set: *mut CSet, other: *const CSet, changed: *mut bool) -> bool {
    bits_c::whole::bits_symmetric_difference_with_change(&mut BitsMut::read(set), &Bits::read(other), &mut *changed)
}

#[no_mangle]
pub unsafe extern "C" fn fixedbitset_bits_intersect_with_change(set: *mut CSet, other: *const CSet) -> bool {
    bits_c::whole::bits_intersect_with_change(&mut BitsMut::read(set), &Bits::read(other))
}

#[no_mangle]
pub unsafe extern "C" fn fixedbitset_bits_difference_with_change(set: *mut CSet, other: *const CSet) -> bool {
    bits_c::whole::bits_difference_with_change(&mut BitsMut::read(set), &Bits::read(other))
}

#[no_mangle]
pub unsafe extern "C" fn fixedbitset_bits_union_with_difference(set: *mut CSet, gens: *const CSet, kills: *const CSet, changed: *mut bool) -> bool {
    bits_c::whole::bits_union_with_difference(&mut BitsMut::read(set), &Bits::read(gens), &Bits::read(kills), &mut *changed)
}

#[no_mangle]
pub unsafe extern "C" fn fixedbitset_bits_union_count(set: *const CSet, other: *const CSet) -> usize {
    bits_c::whole::bits_union_count(&Bits::read(set), &Bits::read(other))
}

#[no_mangle]
pub unsafe extern "C" fn fixedbitset_bits_intersection_count(set: *const CSet, other: *const CSet) -> usize {
    bits_c::whole::bits_intersection_count(&Bits::read(set), &Bits::read(other))
}

#[no_mangle]
pub unsafe extern "C" fn fixedbitset_bits_difference_count(set: *const CSet, other: *const CSet) -> usize {
    bits_c::whole::bits_difference_count(&Bits::read(set), &Bits::read(other))
}

#[no_mangle]
pub unsafe extern "C" fn fixedbitset_bits_symmetric_difference_count(set: *const CSet, other: *const CSet) -> usize {
    bits_c::whole::bits_symmetric_difference_count(&Bits::read(set), &Bits::read(other))
}

#[no_mangle]
pub unsafe extern "C" fn fixedbitset_bits_is_disjoint(set: *const CSet, other: *const CSet) -> bool {
    bits_c::whole::bits_is_disjoint(&Bits::read(set), &Bits::read(other))
}

#[no_mangle]
pub unsafe extern "C" fn fixedbitset_bits_is_subset(set: *const CSet, other: *const CSet) -> bool {
    bits_c::whole::bits_is_subset(&Bits::read(set), &Bits::read(other))
}

#[no_mangle]
pub unsafe extern "C" fn fixedbitset_bits_first_lacking(set: *const CSet, other: *const CSet) -> usize {
    bits_c::whole::bits_first_lacking(&Bits::read(set), &Bits::read(other))
}

#[no_mangle]
pub unsafe extern "C" fn fixedbitset_bits_next_common(set: *const CSet, other: *const CSet, from: usize) -> usize {
    bits_c::neighbours::bits_next_common(&Bits::read(set), &Bits::read(other), from)
}

#[no_mangle]
pub unsafe extern "C" fn fixedbitset_bits_equal(set: *const CSet, other: *const CSet) -> bool {
    bits_c::whole::bits_equal(&Bits::read(set), &Bits::read(other))
}

#[no_mangle]
pub unsafe extern "C" fn fixedbitset_bits_compare(set: *const CSet, other: *const CSet) -> isize {
    bits_c::whole::bits_compare(&Bits::read(set), &Bits::read(other))
}

#[no_mangle]
pub unsafe extern "C" fn fixedbitset_bits_copy(to: *mut CSet, set: *const CSet) -> bool {
    bits_c::copies::bits_copy(&mut Room::read(to), &Bits::read(set))
}

#[no_mangle]
pub unsafe extern "C" fn fixedbitset_bits_union_of(to: *mut CSet, set: *const CSet, other: *const CSet) -> bool {
    bits_c::copies::bits_union_of(&mut Room::read(to), &Bits::read(set), &Bits::read(other))
}

#[no_mangle]
pub unsafe extern "C" fn fixedbitset_bits_symmetric_difference_of(to: *mut CSet, set: *const CSet, other: *const CSet) -> bool {
    bits_c::copies::bits_symmetric_difference_of(&mut Room::read(to), &Bits::read(set), &Bits::read(other))
}

#[no_mangle]
pub unsafe extern "C" fn fixedbitset_bits_intersection_of(to: *mut CSet, set: *const CSet, other: *const CSet) -> bool {
    bits_c::copies::bits_intersection_of(&mut Room::read(to), &Bits::read(set), &Bits::read(other))
}

#[no_mangle]
pub unsafe extern "C" fn fixedbitset_bits_difference_of(to: *mut CSet, set: *const CSet, other: *const CSet) -> bool {
    bits_c::copies::bits_difference_of(&mut Room::read(to), &Bits::read(set), &Bits::read(other))
}

#[no_mangle]
pub unsafe extern "C" fn fixedbitset_bits_shift_up(set: *mut CSet, by: usize) {
    bits_c::shifts::bits_shift_up(&mut BitsMut::read(set), by)
}

#[no_mangle]
pub unsafe extern "C" fn fixedbitset_bits_shift_down(set: *mut CSet, by: usize) {
    bits_c::shifts::bits_shift_down(&mut BitsMut::read(set), by)
}

#[no_mangle]
pub unsafe extern "C" fn fixedbitset_bits_union_with_shifted(set: *mut CSet, other: *const CSet, by: usize) {
    bits_c::shifts::bits_union_with_shifted(&mut BitsMut::read(set), &Bits::read(other), by)
}

#[no_mangle]
pub unsafe extern "C" fn fixedbitset_bits_union_with_own_shift(set: *mut CSet, by: usize) {
    bits_c::shifts::bits_union_with_own_shift(&mut BitsMut::read(set), by)
}

#[no_mangle]
pub unsafe extern "C" fn fixedbitset_bits_slice(part: *mut CSet, set: *const CSet, start: usize, end: usize) -> bool {
    bits_c::shifts::bits_slice(&mut BitsMut::read(part), &Bits::read(set), start, end)
}

#[no_mangle]
pub unsafe extern "C" fn fixedbitset_bits_copy_range(set: *mut CSet, other: *const CSet, start: usize, end: usize, at: usize) -> bool {
    bits_c::shifts::bits_copy_range(&mut BitsMut::read(set), &Bits::read(other), start, end, at)
}

#[no_mangle]
pub unsafe extern "C" fn fixedbitset_bits_load(set: *const CSet, start: usize, width: usize, number: *mut Block) -> bool {
    bits_c::shifts::bits_load(&Bits::read(set), start, width, &mut *number)
}

#[no_mangle]
pub unsafe extern "C" fn fixedbitset_bits_store(set: *mut CSet, start: usize, width: usize, number: Block) -> bool {
    bits_c::shifts::bits_store(&mut BitsMut::read(set), start, width, number)
}

#[no_mangle]
pub extern "C" fn fixedbitset_bits_bytes(length: usize) -> usize {
    bits_c::bytes::bits_bytes(length)
}

#[no_mangle]
pub unsafe extern "C" fn fixedbitset_bits_from_bytes(set: *mut CSet, bytes: *const u8, bytes_count: usize) {
    bits_c::bytes::bits_from_bytes(&mut BitsMut::read(set), lent(bytes, bytes_count))
}

#[no_mangle]
pub unsafe extern "C" fn fixedbitset_bits_to_bytes(set: *const CSet, bytes: *mut u8, bytes_count: usize) -> bool {
    bits_c::bytes::bits_to_bytes(&Bits::read(set), lent_mut(bytes, bytes_count))
}

#[no_mangle]
pub unsafe extern "C" fn fixedbitset_bits_reverse_each_byte(bytes: *mut u8, bytes_count: usize) {
    bits_c::bytes::bits_reverse_each_byte(lent_mut(bytes, bytes_count))
}

#[no_mangle]
pub extern "C" fn fixedbitset_bits_ranks_entries(length: usize) -> usize {
    bits_c::ranks::bits_ranks_entries(length)
}

#[no_mangle]
pub unsafe extern "C" fn fixedbitset_bits_ranks_fill(ranks: *mut CRanks, set: *const CSet, directory: *mut usize, directory_count: usize) -> bool {
    let mut kept = Ranks::nothing();
    let answer = bits_c::ranks::bits_ranks_fill(&mut kept, &Bits::read(set), lent_mut(directory, directory_count));
    *ranks = kept.kept();
    answer
}

#[no_mangle]
pub unsafe extern "C" fn fixedbitset_bits_rank(ranks: *const CRanks, position: usize) -> usize {
    bits_c::ranks::bits_rank(&Ranks::read(ranks), position)
}

#[no_mangle]
pub unsafe extern "C" fn fixedbitset_bits_select(ranks: *const CRanks, index: usize) -> usize {
    bits_c::ranks::bits_select(&Ranks::read(ranks), index)
}

#[no_mangle]
pub extern "C" fn fixedbitset_bits_rows_words(rows: usize, columns: usize) -> usize {
    bits_c::rows::bits_rows_words(rows, columns)
}

#[no_mangle]
pub unsafe extern "C" fn fixedbitset_bits_rows_clear(words: *mut Block, words_count: usize, rows: usize, columns: usize) -> bool {
    bits_c::rows::bits_rows_clear(lent_mut(words, words_count), rows, columns)
}

#[no_mangle]
pub unsafe extern "C" fn fixedbitset_bits_rows_get(rows: *const CRows, row: usize, column: usize) -> bool {
    bits_c::rows::bits_rows_get(&Rows::read(rows), row, column)
}

#[no_mangle]
pub unsafe extern "C" fn fixedbitset_bits_rows_set(rows: *mut CRows, row: usize, column: usize, enabled: bool) -> bool {
    bits_c::rows::bits_rows_set(&mut RowsMut::read(rows), row, column, enabled)
}

#[no_mangle]
pub unsafe extern "C" fn fixedbitset_bits_rows_union(rows: *mut CRows, from: usize, into: usize, changed: *mut bool) -> bool {
    bits_c::rows::bits_rows_union(&mut RowsMut::read(rows), from, into, &mut *changed)
}

#[no_mangle]
pub unsafe extern "C" fn fixedbitset_bits_rows_ones(walk: *mut CWalk, rows: *const CRows, row: usize) -> bool {
    let mut kept = Ones::nothing();
    let answer = bits_c::rows::bits_rows_ones(&mut kept, &Rows::read(rows), row);
    *walk = kept.kept();
    answer
}

#[no_mangle]
pub unsafe extern "C" fn fixedbitset_bits_rows_close(rows: *mut CRows) {
    bits_c::rows::bits_rows_close(&mut RowsMut::read(rows))
}

#[no_mangle]
pub unsafe extern "C" fn fixedbitset_bits_ones(walk: *mut CWalk, set: *const CSet) {
    let mut kept = Ones::nothing();
    bits_c::walks::bits_ones(&mut kept, &Bits::read(set));
    *walk = kept.kept();
}

#[no_mangle]
pub unsafe extern "C" fn fixedbitset_bits_ones_next(walk: *mut CWalk, position: *mut usize) -> bool {
    let mut kept = Ones::read(walk);
    let answer = bits_c::walks::bits_ones_next(&mut kept, &mut *position);
    *walk = kept.kept();
    answer
}

#[no_mangle]
pub unsafe extern "C" fn fixedbitset_bits_ones_next_back(walk: *mut CWalk, position: *mut usize) -> bool {
    let mut kept = Ones::read(walk);
    let answer = bits_c::walks::bits_ones_next_back(&mut kept, &mut *position);
    *walk = kept.kept();
    answer
}

#[no_mangle]
pub unsafe extern "C" fn fixedbitset_bits_ones_take(walk: *mut CWalk, positions: *mut usize, positions_count: usize) -> usize {
    let mut kept = Ones::read(walk);
    let answer = bits_c::handfuls::bits_ones_take(&mut kept, lent_mut(positions, positions_count));
    *walk = kept.kept();
    answer
}

#[no_mangle]
pub unsafe extern "C" fn fixedbitset_bits_ones_take_back(walk: *mut CWalk, positions: *mut usize, positions_count: usize) -> usize {
    let mut kept = Ones::read(walk);
    let answer = bits_c::handfuls::bits_ones_take_back(&mut kept, lent_mut(positions, positions_count));
    *walk = kept.kept();
    answer
}

#[no_mangle]
pub unsafe extern "C" fn fixedbitset_bits_ones_take_u32(walk: *mut CWalk, positions: *mut u32, positions_count: usize) -> usize {
    let mut kept = Ones::read(walk);
    let answer = bits_c::handfuls::bits_ones_take_u32(&mut kept, lent_mut(positions, positions_count));
    *walk = kept.kept();
    answer
}

#[no_mangle]
pub unsafe extern "C" fn fixedbitset_bits_zeroes(walk: *mut CWalk, set: *const CSet) {
    let mut kept = Zeroes::nothing();
    bits_c::walks::bits_zeroes(&mut kept, &Bits::read(set));
    *walk = kept.kept();
}

#[no_mangle]
pub unsafe extern "C" fn fixedbitset_bits_zeroes_next(walk: *mut CWalk, position: *mut usize) -> bool {
    let mut kept = Zeroes::read(walk);
    let answer = bits_c::walks::bits_zeroes_next(&mut kept, &mut *position);
    *walk = kept.kept();
    answer
}

#[no_mangle]
pub unsafe extern "C" fn fixedbitset_bits_zeroes_next_back(walk: *mut CWalk, position: *mut usize) -> bool {
    let mut kept = Zeroes::read(walk);
    let answer = bits_c::walks::bits_zeroes_next_back(&mut kept, &mut *position);
    *walk = kept.kept();
    answer
}

#[no_mangle]
pub unsafe extern "C" fn fixedbitset_bits_zeroes_take(walk: *mut CWalk, positions: *mut usize, positions_count: usize) -> usize {
    let mut kept = Zeroes::read(walk);
    let answer = bits_c::handfuls::bits_zeroes_take(&mut kept, lent_mut(positions, positions_count));
    *walk = kept.kept();
    answer
}

#[no_mangle]
pub unsafe extern "C" fn fixedbitset_bits_zeroes_take_back(walk: *mut CWalk, positions: *mut usize, positions_count: usize) -> usize {
    let mut kept = Zeroes::read(walk);
    let answer = bits_c::handfuls::bits_zeroes_take_back(&mut kept, lent_mut(positions, positions_count));
    *walk = kept.kept();
    answer
}

#[no_mangle]
pub unsafe extern "C" fn fixedbitset_bits_ones_in(walk: *mut CWalk, set: *const CSet, start: usize, end: usize) -> bool {
    let mut kept = Ones::nothing();
    let answer = bits_c::walks::bits_ones_in(&mut kept, &Bits::read(set), start, end);
    *walk = kept.kept();
    answer
}

#[no_mangle]
pub unsafe extern "C" fn fixedbitset_bits_zeroes_in(walk: *mut CWalk, set: *const CSet, start: usize, end: usize) -> bool {
    let mut kept = Zeroes::nothing();
    let answer = bits_c::walks::bits_zeroes_in(&mut kept, &Bits::read(set), start, end);
    *walk = kept.kept();
    answer
}

#[no_mangle]
pub unsafe extern "C" fn fixedbitset_bits_runs(walk: *mut CRuns, set: *const CSet) {
    let mut kept = Runs::nothing();
    bits_c::runs::bits_runs(&mut kept, &Bits::read(set));
    *walk = kept.kept();
}

#[no_mangle]
pub unsafe extern "C" fn fixedbitset_bits_zero_runs(walk: *mut CRuns, set: *const CSet) {
    let mut kept = Runs::nothing();
    bits_c::runs::bits_zero_runs(&mut kept, &Bits::read(set));
    *walk = kept.kept();
}

#[no_mangle]
pub unsafe extern "C" fn fixedbitset_bits_runs_next(walk: *mut CRuns, start: *mut usize, end: *mut usize) -> bool {
    let mut kept = Runs::read(walk);
    let answer = bits_c::runs::bits_runs_next(&mut kept, &mut *start, &mut *end);
    *walk = kept.kept();
    answer
}

#[no_mangle]
pub unsafe extern "C" fn fixedbitset_bits_runs_next_back(walk: *mut CRuns, start: *mut usize, end: *mut usize) -> bool {
    let mut kept = Runs::read(walk);
    let answer = bits_c::runs::bits_runs_next_back(&mut kept, &mut *start, &mut *end);
    *walk = kept.kept();
    answer
}

#[no_mangle]
pub unsafe extern "C" fn fixedbitset_bits_intersection(walk: *mut CSieve, set: *const CSet, other: *const CSet) {
    let mut kept = Sieve::nothing();
    bits_c::sieves::bits_intersection(&mut kept, &Bits::read(set), &Bits::read(other));
    *walk = kept.kept();
}

#[no_mangle]
pub unsafe extern "C" fn fixedbitset_bits_intersection_next(walk: *mut CSieve, position: *mut usize) -> bool {
    let mut kept = Sieve::read(walk);
    let answer = bits_c::sieves::bits_intersection_next(&mut kept, &mut *position);
    *walk = kept.kept();
    answer
}

#[no_mangle]
pub unsafe extern "C" fn fixedbitset_bits_intersection_next_back(walk: *mut CSieve, position: *mut usize) -> bool {
    let mut kept = Sieve::read(walk);
    let answer = bits_c::sieves::bits_intersection_next_back(&mut kept, &mut *position);
    *walk = kept.kept();
    answer
}

#[no_mangle]
pub unsafe extern "C" fn fixedbitset_bits_intersection_take(walk: *mut CSieve, positions: *mut usize, positions_count: usize) -> usize {
    let mut kept = Sieve::read(walk);
    let answer = bits_c::handfuls::bits_intersection_take(&mut kept, lent_mut(positions, positions_count));
    *walk = kept.kept();
    answer
}

#[no_mangle]
pub unsafe extern "C" fn fixedbitset_bits_intersection_take_back(walk: *mut CSieve, positions: *mut usize, positions_count: usize) -> usize {
    let mut kept = Sieve::read(walk);
    let answer = bits_c::handfuls::bits_intersection_take_back(&mut kept, lent_mut(positions, positions_count));
    *walk = kept.kept();
    answer
}

#[no_mangle]
pub unsafe extern "C" fn fixedbitset_bits_difference(walk: *mut CSieve, set: *const CSet, other: *const CSet) {
    let mut kept = Sieve::nothing();
    bits_c::sieves::bits_difference(&mut kept, &Bits::read(set), &Bits::read(other));
    *walk = kept.kept();
}

#[no_mangle]
pub unsafe extern "C" fn fixedbitset_bits_difference_next(walk: *mut CSieve, position: *mut usize) -> bool {
    let mut kept = Sieve::read(walk);
    let answer = bits_c::sieves::bits_difference_next(&mut kept, &mut *position);
    *walk = kept.kept();
    answer
}

#[no_mangle]
pub unsafe extern "C" fn fixedbitset_bits_difference_next_back(walk: *mut CSieve, position: *mut usize) -> bool {
    let mut kept = Sieve::read(walk);
    let answer = bits_c::sieves::bits_difference_next_back(&mut kept, &mut *position);
    *walk = kept.kept();
    answer
}

#[no_mangle]
pub unsafe extern "C" fn fixedbitset_bits_difference_take(walk: *mut CSieve, positions: *mut usize, positions_count: usize) -> usize {
    let mut kept = Sieve::read(walk);
    let answer = bits_c::handfuls::bits_difference_take(&mut kept, lent_mut(positions, positions_count));
    *walk = kept.kept();
    answer
}

#[no_mangle]
pub unsafe extern "C" fn fixedbitset_bits_difference_take_back(walk: *mut CSieve, positions: *mut usize, positions_count: usize) -> usize {
    let mut kept = Sieve::read(walk);
    let answer = bits_c::handfuls::bits_difference_take_back(&mut kept, lent_mut(positions, positions_count));
    *walk = kept.kept();
    answer
}

#[no_mangle]
pub unsafe extern "C" fn fixedbitset_bits_union(walk: *mut CPair, set: *const CSet, other: *const CSet) {
    let mut kept = Pair::nothing();
    bits_c::pairs::bits_union(&mut kept, &Bits::read(set), &Bits::read(other));
    *walk = kept.kept();
}

#[no_mangle]
pub unsafe extern "C" fn fixedbitset_bits_union_next(walk: *mut CPair, position: *mut usize) -> bool {
    let mut kept = Pair::read(walk);
    let answer = bits_c::pairs::bits_union_next(&mut kept, &mut *position);
    *walk = kept.kept();
    answer
}

#[no_mangle]
pub unsafe extern "C" fn fixedbitset_bits_union_next_back(walk: *mut CPair, position: *mut usize) -> bool {
    let mut kept = Pair::read(walk);
    let answer = bits_c::pairs::bits_union_next_back(&mut kept, &mut *position);
    *walk = kept.kept();
    answer
}

#[no_mangle]
pub unsafe extern "C" fn fixedbitset_bits_union_take(walk: *mut CPair, positions: *mut usize, positions_count: usize) -> usize {
    let mut kept = Pair::read(walk);
    let answer = bits_c::handfuls::bits_union_take(&mut kept, lent_mut(positions, positions_count));
    *walk = kept.kept();
    answer
}

#[no_mangle]
pub unsafe extern "C" fn fixedbitset_bits_union_take_back(walk: *mut CPair, positions: *mut usize, positions_count: usize) -> usize {
    let mut kept = Pair::read(walk);
    let answer = bits_c::handfuls::bits_union_take_back(&mut kept, lent_mut(positions, positions_count));
    *walk = kept.kept();
    answer
}

#[no_mangle]
pub unsafe extern "C" fn fixedbitset_bits_symmetric_difference(walk: *mut CPair, set: *const CSet, other: *const CSet) {
    let mut kept = Pair::nothing();
    bits_c::pairs::bits_symmetric_difference(&mut kept, &Bits::read(set), &Bits::read(other));
    *walk = kept.kept();
}

#[no_mangle]
pub unsafe extern "C" fn fixedbitset_bits_symmetric_difference_next(walk: *mut CPair, position: *mut usize) -> bool {
    let mut kept = Pair::read(walk);
    let answer = bits_c::pairs::bits_symmetric_difference_next(&mut kept, &mut *position);
    *walk = kept.kept();
    answer
}

#[no_mangle]
pub unsafe extern "C" fn fixedbitset_bits_symmetric_difference_next_back(walk: *mut CPair, position: *mut usize) -> bool {
    let mut kept = Pair::read(walk);
    let answer = bits_c::pairs::bits_symmetric_difference_next_back(&mut kept, &mut *position);
    *walk = kept.kept();
    answer
}

#[no_mangle]
pub unsafe extern "C" fn fixedbitset_bits_symmetric_difference_take(walk: *mut CPair, positions: *mut usize, positions_count: usize) -> usize {
    let mut kept = Pair::read(walk);
    let answer = bits_c::handfuls::bits_symmetric_difference_take(&mut kept, lent_mut(positions, positions_count));
    *walk = kept.kept();
    answer
}

#[no_mangle]
pub unsafe extern "C" fn fixedbitset_bits_symmetric_difference_take_back(walk: *mut CPair, positions: *mut usize, positions_count: usize) -> usize {
    let mut kept = Pair::read(walk);
    let answer = bits_c::handfuls::bits_symmetric_difference_take_back(&mut kept, lent_mut(positions, positions_count));
    *walk = kept.kept();
    answer
}
