// Made by front/calls from crates/fixedbitset/src: change those, and not this.
// Each call of a set that takes and returns what both sides have, on a set by other sets, where what it requires holds.

type Calls = &'static [fn(&mut World, &mut FixedBitSet, &FixedBitSet, &FixedBitSet)];

#[rustfmt::skip]
const MADE: Calls = &[
    |w, s, _, _| { let bits = w.length(); s.grow(bits); }, // grow
    |w, s, _, _| { let index = w.near(s.len().div_ceil(64)); let value = w.block(); if index < s.len().div_ceil(64) { s.set_block(index, value); } }, // set_block
    |_, s, _, _| { s.clear(); }, // clear
    |w, s, _, _| { let bit = w.near(s.len()); let told = s.contains(bit); w.say(told as u64); }, // contains
    |w, s, _, _| { let positions = w.numbers(s.len()); let mut answers = vec![false; positions.len()]; s.contains_each(&positions, &mut answers); answers.iter().for_each(|it| w.say(*it as u64)); }, // contains_each
    |w, s, _, _| { let bit = w.near(s.len()); if bit < s.len() { s.insert(bit); } }, // insert
    |w, s, _, _| { let bit = w.near(s.len()); if bit < s.len() { s.remove(bit); } }, // remove
    |w, s, _, _| { let bit = w.near(s.len()); if bit < s.len() { let told = s.put(bit); w.say(told as u64); } }, // put
    |w, s, _, _| { let bit = w.near(s.len()); if bit < s.len() { let told = s.take(bit); w.say(told as u64); } }, // take
    |w, s, _, _| { let positions = w.positions(s.len()); if positions.iter().all(|it| *it < s.len()) { s.insert_all(&positions); } }, // insert_all
    |w, s, _, _| { let positions = w.positions(s.len()); if positions.iter().all(|it| *it < s.len()) { s.remove_all(&positions); } }, // remove_all
    |w, s, _, _| { let bit = w.near(s.len()); if bit < s.len() { s.toggle(bit); } }, // toggle
    |w, s, _, _| { let bit = w.near(s.len()); let enabled = w.below(2) == 1; if bit < s.len() { s.set(bit, enabled); } }, // set
    |w, s, _, _| { let from = w.near(s.len()); let to = w.near(s.len()); if to < s.len() { s.copy_bit(from, to); } }, // copy_bit
    |w, s, _, _| { let (start, end) = w.range(s.len()); let told = s.count_ones(start..end); w.say(told as u64); }, // count_ones
    |w, s, _, _| { let (start, end) = w.range(s.len()); let told = s.count_zeroes(start..end); w.say(told as u64); }, // count_zeroes
    |w, s, _, _| { let (start, end) = w.range(s.len()); let enabled = w.below(2) == 1; s.set_range(start..end, enabled); }, // set_range
    |w, s, _, _| { let (start, end) = w.range(s.len()); s.insert_range(start..end); }, // insert_range
    |w, s, _, _| { let (start, end) = w.range(s.len()); s.remove_range(start..end); }, // remove_range
    |w, s, _, _| { let (start, end) = w.range(s.len()); s.toggle_range(start..end); }, // toggle_range
    |w, s, _, _| { let (start, end) = w.range(s.len()); let told = s.contains_all_in_range(start..end); w.say(told as u64); }, // contains_all_in_range
    |w, s, _, _| { let (start, end) = w.range(s.len()); let told = s.contains_any_in_range(start..end); w.say(told as u64); }, // contains_any_in_range
    |w, s, _, _| { let told = s.is_clear(); w.say(told as u64); }, // is_clear
    |w, s, _, _| { let told = s.minimum(); w.say_if(told); }, // minimum
    |w, s, _, _| { let told = s.maximum(); w.say_if(told); }, // maximum
    |w, s, _, _| { let told = s.pop_first(); w.say_if(told); }, // pop_first
    |w, s, _, _| { let told = s.pop_last(); w.say_if(told); }, // pop_last
    |w, s, _, _| { let told = s.is_full(); w.say(told as u64); }, // is_full
    |_, s, t, _| { s.union_with(t); }, // union_with
    |_, s, t, _| { s.symmetric_difference_with(t); }, // symmetric_difference_with
    |_, s, t, _| { s.intersect_with(t); }, // intersect_with
    |_, s, t, _| { s.difference_with(t); }, // difference_with
    |w, s, t, _| { let told = s.union_with_change(t); w.say(told as u64); }, // union_with_change
    |w, s, t, _| { let told = s.symmetric_difference_with_change(t); w.say(told as u64); }, // symmetric_difference_with_change
    |w, s, t, _| { let told = s.intersect_with_change(t); w.say(told as u64); }, // intersect_with_change
    |w, s, t, _| { let told = s.difference_with_change(t); w.say(told as u64); }, // difference_with_change
    |w, s, t, u| { let told = s.union_with_difference(t, u); w.say(told as u64); }, // union_with_difference
    |w, s, t, _| { let told = s.union_count(t); w.say(told as u64); }, // union_count
    |w, s, t, _| { let told = s.intersection_count(t); w.say(told as u64); }, // intersection_count
    |w, s, t, _| { let told = s.difference_count(t); w.say(told as u64); }, // difference_count
    |w, s, t, _| { let told = s.symmetric_difference_count(t); w.say(told as u64); }, // symmetric_difference_count
    |w, s, t, _| { let told = s.is_disjoint(t); w.say(told as u64); }, // is_disjoint
    |w, s, t, _| { let told = s.is_subset(t); w.say(told as u64); }, // is_subset
    |w, s, t, _| { let told = s.is_superset(t); w.say(told as u64); }, // is_superset
    |w, s, t, _| { let told = s.first_lacking(t); w.say_if(told); }, // first_lacking
    |_, s, t, u| { s.union_of(t, u); }, // union_of
    |_, s, t, u| { s.symmetric_difference_of(t, u); }, // symmetric_difference_of
    |_, s, t, u| { s.intersection_of(t, u); }, // intersection_of
    |_, s, t, u| { s.difference_of(t, u); }, // difference_of
    |w, s, t, _| { let (start, end) = w.range(t.len()); let at = w.near(s.len()); if at <= s.len() && end - start <= s.len() - at { s.copy_range(t, start..end, at); } }, // copy_range
    |w, s, _, _| { let start = w.near(s.len()); let width = w.below(65).min(s.len().saturating_sub(start)); if start + width <= s.len() { let told = s.load(start, width); w.say(told); } }, // load
    |w, s, _, _| { let start = w.near(s.len()); let width = w.below(65).min(s.len().saturating_sub(start)); let number = w.block() as u64; if start + width <= s.len() { s.store(start, width, number); } }, // store
    |_, s, t, _| { if s.len() + t.len() < 100_000 { s.append(t); } }, // append
    |w, s, _, _| { let bits = w.length(); s.truncate(bits); }, // truncate
    |w, s, _, _| { let bits = w.length(); let enabled = w.below(2) == 1; s.resize(bits, enabled); }, // resize
    |w, s, _, _| { let by = w.near(s.len()); s.shift_up(by); }, // shift_up
    |w, s, _, _| { let by = w.near(s.len()); s.shift_down(by); }, // shift_down
    |w, s, t, _| { let by = w.near(s.len()); s.union_with_shifted(t, by); }, // union_with_shifted
    |w, s, _, _| { let by = w.near(s.len()); s.union_with_own_shift(by); }, // union_with_own_shift
    |w, s, _, _| { let from = w.near(s.len()); let told = s.next_one(from); w.say_if(told); }, // next_one
    |w, s, _, _| { let from = w.near(s.len()); let told = s.next_zero(from); w.say_if(told); }, // next_zero
    |w, s, t, _| { let from = w.near(s.len()); let told = s.next_common(t, from); w.say_if(told); }, // next_common
    |w, s, _, _| { let index = w.near(s.len()); let told = s.nth_one(index); w.say_if(told); }, // nth_one
    |w, s, _, _| { let count = w.near(s.len() / 4); let from = w.near(s.len()); let told = s.first_gap(count, from); w.say_if(told); }, // first_gap
    |w, s, _, _| { let count = w.near(s.len() / 4); let below = w.near(s.len()); let told = s.last_gap(count, below); w.say_if(told); }, // last_gap
    |w, s, _, _| { let count = w.near(s.len() / 4); let align = w.near(9); let (start, end) = w.range(s.len()); let told = s.first_aligned_gap(count, align, start..end); w.say_if(told); }, // first_aligned_gap
    |w, s, _, _| { let below = w.near(s.len()); let told = s.previous_one(below); w.say_if(told); }, // previous_one
    |w, s, _, _| { let below = w.near(s.len()); let told = s.previous_zero(below); w.say_if(told); }, // previous_zero
    |w, s, _, _| { w.walk(s.ones()); }, // ones
    |w, s, _, _| { w.walk(s.zeroes()); }, // zeroes
    |w, s, _, _| { let (start, end) = w.range(s.len()); w.walk(s.ones_in(start..end)); }, // ones_in
    |w, s, _, _| { let (start, end) = w.range(s.len()); w.walk(s.zeroes_in(start..end)); }, // zeroes_in
    |w, s, _, _| { w.walk_pairs(s.runs()); }, // runs
    |w, s, _, _| { w.walk_pairs(s.zero_runs()); }, // zero_runs
    |w, s, t, _| { w.walk(s.intersection(t)); }, // intersection
    |w, s, t, _| { w.walk(s.difference(t)); }, // difference
    |w, s, t, _| { w.walk(s.union(t)); }, // union
    |w, s, t, _| { w.walk(s.symmetric_difference(t)); }, // symmetric_difference
    |w, s, _, _| { let bits = w.length(); if bits < 100_000 { s.grow_and_insert(bits); } }, // grow_and_insert
    |w, s, _, _| { let bits = w.length(); if bits < 100_000 { let told = s.grow_and_put(bits); w.say(told as u64); } }, // grow_and_put
];
