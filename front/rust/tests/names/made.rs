// Made by front/calls from crates/fixedbitset/src and front/calls.toml: change those, and not this.
//! The calls of sets and of borrowed words as values of their types, as the proved calls give them.
use fixedbitset::{
    AllocError, Bits, BitsMut, Block, Difference, ExtendFault, FixedBitSet as Set, Intersection,
    IntoOnes, Ones, Runs, SymmetricDifference, Union, Zeroes,
};
use std::ops::Range;

/// The calls of sets.
#[rustfmt::skip]
pub fn set_calls() -> Vec<&'static str> {
    typed! {
        "with_capacity" is Set::with_capacity, fn(usize) -> Set;
        "try_with_capacity" is Set::try_with_capacity, fn(usize) -> Result<Set, AllocError>;
        "with_capacity_and_blocks" is Set::with_capacity_and_blocks, fn(usize, Vec<Block>) -> Set;
        "try_with_capacity_and_blocks" is Set::try_with_capacity_and_blocks, fn(usize, Vec<Block>) -> Result<Set, AllocError>;
        "grow" is Set::grow, fn(&mut Set, usize);
        "try_grow" is Set::try_grow, fn(&mut Set, usize) -> Result<(), AllocError>;
        "try_clone_from" is Set::try_clone_from, fn(&mut Set, &Set) -> Result<(), AllocError>;
        "from_bits" is Set::from_bits, fn(Bits<'static>) -> Set;
        "try_from_bits" is Set::try_from_bits, fn(Bits<'static>) -> Result<Set, AllocError>;
        "set_block" is Set::set_block, fn(&mut Set, usize, Block);
        "clear" is Set::clear, fn(&mut Set);
        "len" is Set::len, fn(&Set) -> usize;
        "as_slice" is Set::as_slice, fn(&Set) -> &[Block];
        "contains" is Set::contains, fn(&Set, usize) -> bool;
        "contains_each" is Set::contains_each, fn(&Set, &[usize], &mut [bool]);
        "insert" is Set::insert, fn(&mut Set, usize);
        "remove" is Set::remove, fn(&mut Set, usize);
        "put" is Set::put, fn(&mut Set, usize) -> bool;
        "take" is Set::take, fn(&mut Set, usize) -> bool;
        "insert_all" is Set::insert_all, fn(&mut Set, &[usize]);
        "remove_all" is Set::remove_all, fn(&mut Set, &[usize]);
        "toggle" is Set::toggle, fn(&mut Set, usize);
        "set" is Set::set, fn(&mut Set, usize, bool);
        "copy_bit" is Set::copy_bit, fn(&mut Set, usize, usize);
        "count_ones" is Set::count_ones, fn(&Set, Range<usize>) -> usize;
        "count_zeroes" is Set::count_zeroes, fn(&Set, Range<usize>) -> usize;
        "set_range" is Set::set_range, fn(&mut Set, Range<usize>, bool);
        "insert_range" is Set::insert_range, fn(&mut Set, Range<usize>);
        "remove_range" is Set::remove_range, fn(&mut Set, Range<usize>);
        "toggle_range" is Set::toggle_range, fn(&mut Set, Range<usize>);
        "contains_all_in_range" is Set::contains_all_in_range, fn(&Set, Range<usize>) -> bool;
        "contains_any_in_range" is Set::contains_any_in_range, fn(&Set, Range<usize>) -> bool;
        "is_empty" is Set::is_empty, fn(&Set) -> bool;
        "is_clear" is Set::is_clear, fn(&Set) -> bool;
        "minimum" is Set::minimum, fn(&Set) -> Option<usize>;
        "maximum" is Set::maximum, fn(&Set) -> Option<usize>;
        "pop_first" is Set::pop_first, fn(&mut Set) -> Option<usize>;
        "pop_last" is Set::pop_last, fn(&mut Set) -> Option<usize>;
        "is_full" is Set::is_full, fn(&Set) -> bool;
        "union_with" is Set::union_with, fn(&mut Set, &Set);
        "try_union_with" is Set::try_union_with, fn(&mut Set, &Set) -> Result<(), AllocError>;
        "symmetric_difference_with" is Set::symmetric_difference_with, fn(&mut Set, &Set);
        "try_symmetric_difference_with" is Set::try_symmetric_difference_with, fn(&mut Set, &Set) -> Result<(), AllocError>;
        "intersect_with" is Set::intersect_with, fn(&mut Set, &Set);
        "difference_with" is Set::difference_with, fn(&mut Set, &Set);
        "union_with_change" is Set::union_with_change, fn(&mut Set, &Set) -> bool;
        "try_union_with_change" is Set::try_union_with_change, fn(&mut Set, &Set) -> Result<bool, AllocError>;
        "symmetric_difference_with_change" is Set::symmetric_difference_with_change, fn(&mut Set, &Set) -> bool;
        "try_symmetric_difference_with_change" is Set::try_symmetric_difference_with_change, fn(&mut Set, &Set) -> Result<bool, AllocError>;
        "intersect_with_change" is Set::intersect_with_change, fn(&mut Set, &Set) -> bool;
        "difference_with_change" is Set::difference_with_change, fn(&mut Set, &Set) -> bool;
        "union_with_difference" is Set::union_with_difference, fn(&mut Set, &Set, &Set) -> bool;
        "try_union_with_difference" is Set::try_union_with_difference, fn(&mut Set, &Set, &Set) -> Result<bool, AllocError>;
        "union_count" is Set::union_count, fn(&Set, &Set) -> usize;
        "intersection_count" is Set::intersection_count, fn(&Set, &Set) -> usize;
        "difference_count" is Set::difference_count, fn(&Set, &Set) -> usize;
        "symmetric_difference_count" is Set::symmetric_difference_count, fn(&Set, &Set) -> usize;
        "is_disjoint" is Set::is_disjoint, fn(&Set, &Set) -> bool;
        "is_subset" is Set::is_subset, fn(&Set, &Set) -> bool;
        "is_superset" is Set::is_superset, fn(&Set, &Set) -> bool;
        "first_lacking" is Set::first_lacking, fn(&Set, &Set) -> Option<usize>;
        "union_of" is Set::union_of, fn(&mut Set, &Set, &Set);
        "try_union_of" is Set::try_union_of, fn(&mut Set, &Set, &Set) -> Result<(), AllocError>;
        "symmetric_difference_of" is Set::symmetric_difference_of, fn(&mut Set, &Set, &Set);
        "try_symmetric_difference_of" is Set::try_symmetric_difference_of, fn(&mut Set, &Set, &Set) -> Result<(), AllocError>;
        "intersection_of" is Set::intersection_of, fn(&mut Set, &Set, &Set);
        "try_intersection_of" is Set::try_intersection_of, fn(&mut Set, &Set, &Set) -> Result<(), AllocError>;
        "difference_of" is Set::difference_of, fn(&mut Set, &Set, &Set);
        "try_difference_of" is Set::try_difference_of, fn(&mut Set, &Set, &Set) -> Result<(), AllocError>;
        "slice" is Set::slice, fn(&Set, Range<usize>) -> Set;
        "try_slice" is Set::try_slice, fn(&Set, Range<usize>) -> Result<Set, AllocError>;
        "copy_range" is Set::copy_range, fn(&mut Set, &Set, Range<usize>, usize);
        "load" is Set::load, fn(&Set, usize, usize) -> u64;
        "store" is Set::store, fn(&mut Set, usize, usize, u64);
        "append" is Set::append, fn(&mut Set, &Set);
        "try_append" is Set::try_append, fn(&mut Set, &Set) -> Result<(), AllocError>;
        "truncate" is Set::truncate, fn(&mut Set, usize);
        "resize" is Set::resize, fn(&mut Set, usize, bool);
        "try_resize" is Set::try_resize, fn(&mut Set, usize, bool) -> Result<(), AllocError>;
        "from_bytes" is Set::from_bytes, fn(usize, &[u8]) -> Set;
        "try_from_bytes" is Set::try_from_bytes, fn(usize, &[u8]) -> Result<Set, AllocError>;
        "to_bytes" is Set::to_bytes, fn(&Set) -> Vec<u8>;
        "try_to_bytes" is Set::try_to_bytes, fn(&Set) -> Result<Vec<u8>, AllocError>;
        "shift_up" is Set::shift_up, fn(&mut Set, usize);
        "shift_down" is Set::shift_down, fn(&mut Set, usize);
        "union_with_shifted" is Set::union_with_shifted, fn(&mut Set, &Set, usize);
        "union_with_own_shift" is Set::union_with_own_shift, fn(&mut Set, usize);
        "next_one" is Set::next_one, fn(&Set, usize) -> Option<usize>;
        "next_zero" is Set::next_zero, fn(&Set, usize) -> Option<usize>;
        "next_common" is Set::next_common, fn(&Set, &Set, usize) -> Option<usize>;
        "nth_one" is Set::nth_one, fn(&Set, usize) -> Option<usize>;
        "first_gap" is Set::first_gap, fn(&Set, usize, usize) -> Option<usize>;
        "last_gap" is Set::last_gap, fn(&Set, usize, usize) -> Option<usize>;
        "first_aligned_gap" is Set::first_aligned_gap, fn(&Set, usize, usize, Range<usize>) -> Option<usize>;
        "previous_one" is Set::previous_one, fn(&Set, usize) -> Option<usize>;
        "previous_zero" is Set::previous_zero, fn(&Set, usize) -> Option<usize>;
        "ones" is Set::ones, fn(&Set) -> Ones<'_>;
        "into_ones" is Set::into_ones, fn(Set) -> IntoOnes;
        "zeroes" is Set::zeroes, fn(&Set) -> Zeroes<'_>;
        "ones_in" is Set::ones_in, fn(&Set, Range<usize>) -> Ones<'_>;
        "zeroes_in" is Set::zeroes_in, fn(&Set, Range<usize>) -> Zeroes<'_>;
        "runs" is Set::runs, fn(&Set) -> Runs<'_>;
        "zero_runs" is Set::zero_runs, fn(&Set) -> Runs<'_>;
        "intersection" is Set::intersection, for<'a> fn(&'a Set, &'a Set) -> Intersection<'a>;
        "difference" is Set::difference, for<'a> fn(&'a Set, &'a Set) -> Difference<'a>;
        "union" is Set::union, for<'a> fn(&'a Set, &'a Set) -> Union<'a>;
        "symmetric_difference" is Set::symmetric_difference, for<'a> fn(&'a Set, &'a Set) -> SymmetricDifference<'a>;
        "try_grow_and_insert" is Set::try_grow_and_insert, fn(&mut Set, usize) -> Result<(), AllocError>;
        "grow_and_put" is Set::grow_and_put, fn(&mut Set, usize) -> bool;
        "try_grow_and_put" is Set::try_grow_and_put, fn(&mut Set, usize) -> Result<bool, AllocError>;
        "try_extend" is Set::try_extend, fn(&mut Set, Vec<usize>) -> Result<(), ExtendFault>;
        "try_from_iter" is Set::try_from_iter, fn(Vec<usize>) -> Result<Set, ExtendFault>;
    }
}

/// The calls of borrowed words.
#[rustfmt::skip]
pub fn view_calls() -> Vec<&'static str> {
    typed! {
        "first_gap" is Bits::first_gap, fn(Bits<'static>, usize, usize) -> Option<usize>;
        "first_aligned_gap" is Bits::first_aligned_gap, fn(Bits<'static>, usize, usize, Range<usize>) -> Option<usize>;
        "last_gap" is Bits::last_gap, fn(Bits<'static>, usize, usize) -> Option<usize>;
        "next_one" is Bits::next_one, fn(Bits<'static>, usize) -> Option<usize>;
        "next_zero" is Bits::next_zero, fn(Bits<'static>, usize) -> Option<usize>;
        "next_common" is Bits::next_common, fn(Bits<'static>, Bits<'static>, usize) -> Option<usize>;
        "nth_one" is Bits::nth_one, fn(Bits<'static>, usize) -> Option<usize>;
        "previous_one" is Bits::previous_one, fn(Bits<'static>, usize) -> Option<usize>;
        "previous_zero" is Bits::previous_zero, fn(Bits<'static>, usize) -> Option<usize>;
        "as_slice" is Bits::as_slice, fn(Bits<'static>) -> &'static [Block];
        "contains" is Bits::contains, fn(Bits<'static>, usize) -> bool;
        "contains_each" is Bits::contains_each, fn(Bits<'static>, &[usize], &mut [bool]);
        "is_clear" is Bits::is_clear, fn(Bits<'static>) -> bool;
        "minimum" is Bits::minimum, fn(Bits<'static>) -> Option<usize>;
        "maximum" is Bits::maximum, fn(Bits<'static>) -> Option<usize>;
        "count_ones" is Bits::count_ones, fn(Bits<'static>, Range<usize>) -> usize;
        "count_zeroes" is Bits::count_zeroes, fn(Bits<'static>, Range<usize>) -> usize;
        "contains_all_in_range" is Bits::contains_all_in_range, fn(Bits<'static>, Range<usize>) -> bool;
        "is_full" is Bits::is_full, fn(Bits<'static>) -> bool;
        "contains_any_in_range" is Bits::contains_any_in_range, fn(Bits<'static>, Range<usize>) -> bool;
        "load" is Bits::load, fn(Bits<'static>, usize, usize) -> u64;
        "ones" is Bits::ones, fn(Bits<'static>) -> Ones<'static>;
        "intersection" is Bits::intersection, fn(Bits<'static>, Bits<'static>) -> Intersection<'static>;
        "difference" is Bits::difference, fn(Bits<'static>, Bits<'static>) -> Difference<'static>;
        "union" is Bits::union, fn(Bits<'static>, Bits<'static>) -> Union<'static>;
        "symmetric_difference" is Bits::symmetric_difference, fn(Bits<'static>, Bits<'static>) -> SymmetricDifference<'static>;
        "zeroes" is Bits::zeroes, fn(Bits<'static>) -> Zeroes<'static>;
        "runs" is Bits::runs, fn(Bits<'static>) -> Runs<'static>;
        "zero_runs" is Bits::zero_runs, fn(Bits<'static>) -> Runs<'static>;
        "ones_in" is Bits::ones_in, fn(Bits<'static>, Range<usize>) -> Ones<'static>;
        "zeroes_in" is Bits::zeroes_in, fn(Bits<'static>, Range<usize>) -> Zeroes<'static>;
        "union_count" is Bits::union_count, fn(Bits<'static>, Bits<'static>) -> usize;
        "intersection_count" is Bits::intersection_count, fn(Bits<'static>, Bits<'static>) -> usize;
        "difference_count" is Bits::difference_count, fn(Bits<'static>, Bits<'static>) -> usize;
        "symmetric_difference_count" is Bits::symmetric_difference_count, fn(Bits<'static>, Bits<'static>) -> usize;
        "is_disjoint" is Bits::is_disjoint, fn(Bits<'static>, Bits<'static>) -> bool;
        "is_subset" is Bits::is_subset, fn(Bits<'static>, Bits<'static>) -> bool;
        "is_superset" is Bits::is_superset, fn(Bits<'static>, Bits<'static>) -> bool;
        "first_lacking" is Bits::first_lacking, fn(Bits<'static>, Bits<'static>) -> Option<usize>;
    }
}

/// The calls of borrowed words that it changes.
#[rustfmt::skip]
pub fn change_calls() -> Vec<&'static str> {
    typed! {
        "assign_bytes" is BitsMut::assign_bytes, fn(&mut BitsMut<'static>, &[u8]);
        "union_with_change" is BitsMut::union_with_change, fn(&mut BitsMut<'static>, Bits<'static>) -> bool;
        "symmetric_difference_with_change" is BitsMut::symmetric_difference_with_change, fn(&mut BitsMut<'static>, Bits<'static>) -> bool;
        "intersect_with_change" is BitsMut::intersect_with_change, fn(&mut BitsMut<'static>, Bits<'static>) -> bool;
        "difference_with_change" is BitsMut::difference_with_change, fn(&mut BitsMut<'static>, Bits<'static>) -> bool;
        "union_with_difference" is BitsMut::union_with_difference, fn(&mut BitsMut<'static>, Bits<'static>, Bits<'static>) -> bool;
        "union_of" is BitsMut::union_of, fn(&mut BitsMut<'static>, Bits<'static>, Bits<'static>);
        "symmetric_difference_of" is BitsMut::symmetric_difference_of, fn(&mut BitsMut<'static>, Bits<'static>, Bits<'static>);
        "intersection_of" is BitsMut::intersection_of, fn(&mut BitsMut<'static>, Bits<'static>, Bits<'static>);
        "difference_of" is BitsMut::difference_of, fn(&mut BitsMut<'static>, Bits<'static>, Bits<'static>);
        "insert" is BitsMut::insert, fn(&mut BitsMut<'static>, usize);
        "remove" is BitsMut::remove, fn(&mut BitsMut<'static>, usize);
        "toggle" is BitsMut::toggle, fn(&mut BitsMut<'static>, usize);
        "put" is BitsMut::put, fn(&mut BitsMut<'static>, usize) -> bool;
        "take" is BitsMut::take, fn(&mut BitsMut<'static>, usize) -> bool;
        "pop_first" is BitsMut::pop_first, fn(&mut BitsMut<'static>) -> Option<usize>;
        "pop_last" is BitsMut::pop_last, fn(&mut BitsMut<'static>) -> Option<usize>;
        "set" is BitsMut::set, fn(&mut BitsMut<'static>, usize, bool);
        "copy_bit" is BitsMut::copy_bit, fn(&mut BitsMut<'static>, usize, usize);
        "insert_all" is BitsMut::insert_all, fn(&mut BitsMut<'static>, &[usize]);
        "remove_all" is BitsMut::remove_all, fn(&mut BitsMut<'static>, &[usize]);
        "set_block" is BitsMut::set_block, fn(&mut BitsMut<'static>, usize, Block);
        "clear" is BitsMut::clear, fn(&mut BitsMut<'static>);
        "insert_range" is BitsMut::insert_range, fn(&mut BitsMut<'static>, Range<usize>);
        "remove_range" is BitsMut::remove_range, fn(&mut BitsMut<'static>, Range<usize>);
        "toggle_range" is BitsMut::toggle_range, fn(&mut BitsMut<'static>, Range<usize>);
        "set_range" is BitsMut::set_range, fn(&mut BitsMut<'static>, Range<usize>, bool);
        "shift_up" is BitsMut::shift_up, fn(&mut BitsMut<'static>, usize);
        "shift_down" is BitsMut::shift_down, fn(&mut BitsMut<'static>, usize);
        "union_with_shifted" is BitsMut::union_with_shifted, fn(&mut BitsMut<'static>, Bits<'static>, usize);
        "union_with_own_shift" is BitsMut::union_with_own_shift, fn(&mut BitsMut<'static>, usize);
        "copy_range" is BitsMut::copy_range, fn(&mut BitsMut<'static>, Bits<'static>, Range<usize>, usize);
        "store" is BitsMut::store, fn(&mut BitsMut<'static>, usize, usize, u64);
        "union_with" is BitsMut::union_with, fn(&mut BitsMut<'static>, Bits<'static>);
        "symmetric_difference_with" is BitsMut::symmetric_difference_with, fn(&mut BitsMut<'static>, Bits<'static>);
        "intersect_with" is BitsMut::intersect_with, fn(&mut BitsMut<'static>, Bits<'static>);
        "difference_with" is BitsMut::difference_with, fn(&mut BitsMut<'static>, Bits<'static>);
    }
}
