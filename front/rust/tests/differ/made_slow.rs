// Made by front/calls from crates/fixedbitset/src and front/calls.toml: change those, and not this.
//! The calls of the slow set that one expression means.
use super::{walk, Set, Walk};
use std::ops::RangeBounds;

#[rustfmt::skip]
impl Set {
    pub fn contains(&self, bit: usize) -> bool {
        self.ones.contains(&bit)
    }

    pub fn insert(&mut self, bit: usize) {
        self.assert_below(bit, "insert at");
        self.ones.insert(bit);
    }

    pub fn remove(&mut self, bit: usize) {
        self.assert_below(bit, "remove at");
        self.ones.remove(&bit);
    }

    pub fn toggle(&mut self, bit: usize) {
        self.assert_below(bit, "toggle at");
        self.enable(bit, !self.contains(bit));
    }

    pub fn put(&mut self, bit: usize) -> bool {
        self.assert_below(bit, "put at");
        !self.ones.insert(bit)
    }

    pub fn take(&mut self, bit: usize) -> bool {
        self.assert_below(bit, "take at");
        self.ones.remove(&bit)
    }

    pub fn set(&mut self, bit: usize, enabled: bool) {
        self.assert_below(bit, "set at");
        self.enable(bit, enabled);
    }

    pub fn set_block(&mut self, index: usize, value: usize) {
        self.assert_needed(index, "set block at");
        (64 * index..self.length).take(64).for_each(|bit| self.enable(bit, value >> (bit % 64) & 1 == 1));
    }

    pub fn insert_all(&mut self, positions: &[usize]) {
        positions.iter().for_each(|bit| self.assert_below(*bit, "insert at"));
        self.ones.extend(positions);
    }

    pub fn remove_all(&mut self, positions: &[usize]) {
        positions.iter().for_each(|bit| self.assert_below(*bit, "remove at"));
        self.ones.retain(|bit| !positions.contains(bit));
    }

    pub fn contains_each(&self, positions: &[usize], answers: &mut [bool]) {
        assert_eq!(positions.len(), answers.len());
        answers.iter_mut().zip(positions).for_each(|(answer, bit)| *answer = self.contains(*bit));
    }

    pub fn clear(&mut self) {
        self.ones.clear();
    }

    pub fn minimum(&self) -> Option<usize> {
        self.ones.first().copied()
    }

    pub fn maximum(&self) -> Option<usize> {
        self.ones.last().copied()
    }

    pub fn next_one(&self, from: usize) -> Option<usize> {
        self.ones.range(from..).next().copied()
    }

    pub fn next_zero(&self, from: usize) -> Option<usize> {
        (from..self.length).find(|bit| !self.contains(*bit))
    }

    pub fn nth_one(&self, index: usize) -> Option<usize> {
        self.ones.iter().nth(index).copied()
    }

    pub fn first_gap(&self, count: usize, from: usize) -> Option<usize> {
        (from..=self.length).find(|at| count <= self.length - at && (*at..at + count).all(|bit| !self.contains(bit)))
    }

    pub fn first_aligned_gap(&self, count: usize, align: usize, range: impl RangeBounds<usize>) -> Option<usize> {
        let range = self.positions(range);
        (range.start..=range.end).find(|at| at.checked_rem(align).unwrap_or(*at) == 0 && count <= range.end - at && (*at..at + count).all(|bit| !self.contains(bit)))
    }

    pub fn last_gap(&self, count: usize, below: usize) -> Option<usize> {
        (0..=below.min(self.length)).rev().find(|at| count <= below.min(self.length) - at && (*at..at + count).all(|bit| !self.contains(bit)))
    }

    pub fn previous_one(&self, below: usize) -> Option<usize> {
        self.ones.range(..below).next_back().copied()
    }

    pub fn previous_zero(&self, below: usize) -> Option<usize> {
        (0..below.min(self.length)).rev().find(|bit| !self.contains(*bit))
    }

    pub fn is_clear(&self) -> bool {
        self.ones.is_empty()
    }

    pub fn is_full(&self) -> bool {
        self.ones.len() == self.length
    }

    pub fn insert_range(&mut self, range: impl RangeBounds<usize>) {
        let range = self.positions(range);
        range.for_each(|bit| self.enable(bit, true));
    }

    pub fn remove_range(&mut self, range: impl RangeBounds<usize>) {
        let range = self.positions(range);
        range.for_each(|bit| self.enable(bit, false));
    }

    pub fn toggle_range(&mut self, range: impl RangeBounds<usize>) {
        let range = self.positions(range);
        range.for_each(|bit| self.toggle(bit));
    }

    pub fn count_ones(&self, range: impl RangeBounds<usize>) -> usize {
        let range = self.positions(range);
        range.filter(|bit| self.contains(*bit)).count()
    }

    pub fn count_zeroes(&self, range: impl RangeBounds<usize>) -> usize {
        let range = self.positions(range);
        range.filter(|bit| !self.contains(*bit)).count()
    }

    pub fn contains_all_in_range(&self, range: impl RangeBounds<usize>) -> bool {
        let range = self.positions(range);
        (range.start..range.end).all(|bit| self.contains(bit))
    }

    pub fn contains_any_in_range(&self, range: impl RangeBounds<usize>) -> bool {
        let range = self.positions(range);
        (range.start..range.end).any(|bit| self.contains(bit))
    }

    pub fn union_with(&mut self, other: &Self) {
        *self = &*self | other;
    }

    pub fn symmetric_difference_with(&mut self, other: &Self) {
        *self = &*self ^ other;
    }

    pub fn intersect_with(&mut self, other: &Self) {
        self.ones.retain(|bit| other.contains(*bit));
    }

    pub fn difference_with(&mut self, other: &Self) {
        self.ones.retain(|bit| !other.contains(*bit));
    }

    pub fn union_with_change(&mut self, other: &Self) -> bool {
        self.is_changed(|set| set.union_with(other))
    }

    pub fn symmetric_difference_with_change(&mut self, other: &Self) -> bool {
        self.is_changed(|set| set.symmetric_difference_with(other))
    }

    pub fn intersect_with_change(&mut self, other: &Self) -> bool {
        self.is_changed(|set| set.intersect_with(other))
    }

    pub fn difference_with_change(&mut self, other: &Self) -> bool {
        self.is_changed(|set| set.difference_with(other))
    }

    pub fn union_with_difference(&mut self, gens: &Self, kills: &Self) -> bool {
        self.is_changed(|set| set.union_with(&Set::of(gens.length, gens.difference(kills))))
    }

    pub fn union_count(&self, other: &Self) -> usize {
        self.ones.union(&other.ones).count()
    }

    pub fn intersection_count(&self, other: &Self) -> usize {
        self.ones.intersection(&other.ones).count()
    }

    pub fn difference_count(&self, other: &Self) -> usize {
        self.ones.difference(&other.ones).count()
    }

    pub fn symmetric_difference_count(&self, other: &Self) -> usize {
        self.ones.symmetric_difference(&other.ones).count()
    }

    pub fn is_disjoint(&self, other: &Self) -> bool {
        self.ones.is_disjoint(&other.ones)
    }

    pub fn is_subset(&self, other: &Self) -> bool {
        self.ones.is_subset(&other.ones)
    }

    pub fn first_lacking(&self, other: &Self) -> Option<usize> {
        other.ones.difference(&self.ones).next().copied()
    }

    pub fn next_common(&self, other: &Self, from: usize) -> Option<usize> {
        self.ones.range(from..).find(|bit| other.contains(**bit)).copied()
    }

    pub fn union_of(&mut self, one: &Self, other: &Self) {
        *self = one | other;
    }

    pub fn symmetric_difference_of(&mut self, one: &Self, other: &Self) {
        *self = one ^ other;
    }

    pub fn intersection_of(&mut self, one: &Self, other: &Self) {
        *self = one & other;
    }

    pub fn difference_of(&mut self, one: &Self, other: &Self) {
        *self = Set::of(one.length, one.difference(other));
    }

    pub fn shift_up(&mut self, by: usize) {
        *self = Set::of(self.length, self.moved(by, self.length));
    }

    pub fn shift_down(&mut self, by: usize) {
        *self = Set::of(self.length, self.ones.iter().filter_map(|bit| bit.checked_sub(by)));
    }

    pub fn union_with_shifted(&mut self, other: &Self, by: usize) {
        self.ones.extend(other.moved(by, self.length));
    }

    pub fn union_with_own_shift(&mut self, by: usize) {
        self.union_with_shifted(&self.clone(), by);
    }

    pub fn copy_range(&mut self, other: &Self, range: impl RangeBounds<usize>, at: usize) {
        let range = other.positions(range);
        self.assert_room(at, range.len());
        range.zip(at..).for_each(|(from, to)| self.enable(to, other.contains(from)));
    }

    pub fn load(&self, start: usize, width: usize) -> u64 {
        self.assert_part(start, width);
        (0..width).fold(0, |sum, i| sum | (self.contains(start + i) as u64) << i)
    }

    pub fn store(&mut self, start: usize, width: usize, number: u64) {
        self.assert_part(start, width);
        (0..width).for_each(|i| self.enable(start + i, number >> i & 1 == 1));
    }

    pub fn ones(&self) -> Walk {
        self.clone().into_ones()
    }

    pub fn zeroes(&self) -> Walk {
        walk((0..self.length).filter(|bit| !self.contains(*bit)))
    }

    pub fn ones_in(&self, range: impl RangeBounds<usize>) -> Walk {
        let range = self.positions(range);
        walk(range.filter(|bit| self.contains(*bit)))
    }

    pub fn zeroes_in(&self, range: impl RangeBounds<usize>) -> Walk {
        let range = self.positions(range);
        walk(range.filter(|bit| !self.contains(*bit)))
    }

    pub fn intersection(&self, other: &Self) -> Walk {
        walk(self.ones.intersection(&other.ones).copied())
    }

    pub fn difference(&self, other: &Self) -> Walk {
        walk(self.ones.difference(&other.ones).copied())
    }

    pub fn union(&self, other: &Self) -> Walk {
        walk(self.ones().chain(other.difference(self)))
    }

    pub fn symmetric_difference(&self, other: &Self) -> Walk {
        walk(self.difference(other).chain(other.difference(self)))
    }

    pub fn copy_bit(&mut self, from: usize, to: usize) {
        self.assert_below(to, "copy to");
        self.enable(to, self.contains(from));
    }

    pub fn set_range(&mut self, range: impl RangeBounds<usize>, enabled: bool) {
        let range = self.positions(range);
        range.for_each(|bit| self.enable(bit, enabled));
    }

    pub fn is_superset(&self, other: &Self) -> bool {
        self.ones.is_superset(&other.ones)
    }

    pub fn grow(&mut self, bits: usize) {
        self.length = self.length.max(bits);
    }

    pub fn grow_and_insert(&mut self, bits: usize) {
        self.grow(bits + 1); self.ones.insert(bits);
    }

    pub fn grow_and_put(&mut self, bits: usize) -> bool {
        self.grow(bits + 1); !self.ones.insert(bits)
    }

    pub fn pop_first(&mut self) -> Option<usize> {
        self.ones.pop_first()
    }

    pub fn pop_last(&mut self) -> Option<usize> {
        self.ones.pop_last()
    }

    pub fn truncate(&mut self, bits: usize) {
        self.length = self.length.min(bits); self.ones.retain(|bit| *bit < bits);
    }

    pub fn resize(&mut self, bits: usize, enabled: bool) {
        let old = self.length; self.truncate(bits); self.grow(bits); (old..bits).for_each(|bit| self.enable(bit, enabled));
    }

    pub fn append(&mut self, other: &Self) {
        let length = self.length; self.length += other.length; self.union_with_shifted(other, length);
    }
}
