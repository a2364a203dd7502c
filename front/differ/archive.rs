//! The proved archive as sets, ranks and tables, with the calls that `world.rs` makes.
//!
//! A caller hands over what a call asks for. A walk, and ranks, are used while their words stay as they are.
use crate::declared::*;
use std::cmp::Ordering;
use std::marker::PhantomData;
use std::ops::{BitAnd, BitOr, BitXor, Index, Range};
use std::ptr::NonNull;

pub type Block = usize;

/// A set.
#[derive(Clone, Default)]
pub struct FixedBitSet {
    words: Vec<usize>,
    length: usize,
}

/// The position that a call answered, where `usize::MAX` is none.
fn position(answer: usize) -> Option<usize> {
    (answer != usize::MAX).then_some(answer)
}

/// Calls that write a set over this one, each with the length of the result.
macro_rules! writes {
    ($($name:ident = $call:ident, $length:expr;)*) => { $(
        pub fn $name(&mut self, one: &Self, other: &Self) {
            let length: fn(usize, usize) -> usize = $length;
            self.fit(length(one.length, other.length));
            assert!(unsafe { $call(&mut self.lent_mut(), &one.lent(), &other.lent()) });
        }
    )* };
}

impl FixedBitSet {
    writes! {
        union_of = bits_union_of, usize::max;
        symmetric_difference_of = bits_symmetric_difference_of, usize::max;
        intersection_of = bits_intersection_of, usize::min;
        difference_of = bits_difference_of, |length, _| length;
    }

    pub fn new() -> Self {
        Self::default()
    }

    pub fn with_capacity(length: usize) -> Self {
        let words = vec![0; unsafe { bits_words(length) }];
        FixedBitSet { words, length }
    }

    pub fn with_capacity_and_blocks(length: usize, blocks: Vec<usize>) -> Self {
        let mut set = Self::with_capacity(length);
        let row = set.words[..unsafe { bits_blocks(length) }].iter_mut();
        row.zip(blocks).for_each(|(word, block)| *word = block);
        set.settle();
        set
    }

    /// Drops the positions past the length.
    fn settle(&mut self) {
        let (lent, length) = (self.lent_mut(), self.length);
        assert!(unsafe { bits_settle(lent.words, lent.count, length, length) });
    }

    pub fn len(&self) -> usize {
        self.length
    }

    pub fn as_slice(&self) -> &[usize] {
        &self.words[..unsafe { bits_blocks(self.length) }]
    }

    pub fn grow(&mut self, length: usize) {
        if length > self.length {
            self.words.resize(unsafe { bits_words(length) }, 0);
            self.length = length;
        }
    }

    pub fn truncate(&mut self, length: usize) {
        if length < self.length {
            self.words.truncate(unsafe { bits_words(length) });
            self.length = length;
            self.settle();
        }
    }

    /// Makes the length this one, for a call that writes over all positions.
    fn fit(&mut self, length: usize) {
        self.truncate(length);
        self.grow(length);
    }

    pub fn resize(&mut self, length: usize, enabled: bool) {
        let old = self.length;
        self.fit(length);
        if enabled {
            self.insert_range(old.min(length)..length);
        }
    }

    pub fn grow_and_insert(&mut self, bit: usize) {
        self.grow(bit + 1);
        self.insert(bit);
    }

    pub fn grow_and_put(&mut self, bit: usize) -> bool {
        self.grow(bit + 1);
        self.put(bit)
    }

    pub fn pop_first(&mut self) -> Option<usize> {
        let first = self.minimum()?;
        self.take(first).then_some(first)
    }

    pub fn pop_last(&mut self) -> Option<usize> {
        let last = self.maximum()?;
        self.take(last).then_some(last)
    }

    pub fn copy_bit(&mut self, from: usize, to: usize) {
        let enabled = self.contains(from);
        self.set(to, enabled);
    }

    pub fn set_range(&mut self, range: Range<usize>, enabled: bool) {
        if enabled {
            self.insert_range(range);
        } else {
            self.remove_range(range);
        }
    }

    pub fn is_superset(&self, other: &Self) -> bool {
        other.is_subset(self)
    }

    pub fn slice(&self, range: Range<usize>) -> Self {
        let mut part = Self::with_capacity(range.end - range.start);
        assert!(unsafe { bits_slice(&mut part.lent_mut(), &self.lent(), range.start, range.end) });
        part
    }

    pub fn append(&mut self, other: &Self) {
        let length = self.length;
        self.grow(length + other.length);
        self.union_with_shifted(other, length);
    }

    pub fn from_bytes(length: usize, bytes: &[u8]) -> Self {
        let mut set = Self::with_capacity(length);
        unsafe { bits_from_bytes(&mut set.lent_mut(), bytes.as_ptr(), bytes.len()) };
        set
    }

    pub fn to_bytes(&self) -> Vec<u8> {
        let mut bytes = vec![0; unsafe { bits_bytes(self.length) }];
        let (places, count) = (NonNull::from(&mut bytes[..]).cast(), bytes.len());
        assert!(unsafe { bits_to_bytes(&self.lent(), places, count) });
        bytes
    }

    pub fn into_ones(self) -> Owned {
        let Walked {
            walk,
            next,
            next_back,
            words,
            ..
        } = self.ones();
        let walked = Walked {
            walk,
            next,
            next_back,
            words,
            lent: PhantomData,
        };
        Owned { walked, _set: self }
    }

    fn lent(&self) -> Lent {
        Lent {
            words: NonNull::from(&self.words[..]).cast(),
            count: self.words.len(),
            length: self.length,
        }
    }

    fn lent_mut(&mut self) -> Lent {
        Lent {
            words: NonNull::from(&mut self.words[..]).cast(),
            count: self.words.len(),
            length: self.length,
        }
    }
}

/// The calls that take what the crate's do. A set grows before it takes in a longer one.
#[rustfmt::skip]
impl FixedBitSet {
    // made by front/calls from crates/bits_c
    pub fn contains(&self, bit: usize) -> bool {
        unsafe { bits_contains(&self.lent(), bit) }
    }

    pub fn insert(&mut self, bit: usize) {
        assert!(unsafe { bits_insert(&mut self.lent_mut(), bit) });
    }

    pub fn remove(&mut self, bit: usize) {
        assert!(unsafe { bits_remove(&mut self.lent_mut(), bit) });
    }

    pub fn toggle(&mut self, bit: usize) {
        assert!(unsafe { bits_toggle(&mut self.lent_mut(), bit) });
    }

    pub fn put(&mut self, bit: usize) -> bool {
        unsafe { bits_put(&mut self.lent_mut(), bit) }
    }

    pub fn take(&mut self, bit: usize) -> bool {
        unsafe { bits_take(&mut self.lent_mut(), bit) }
    }

    pub fn set(&mut self, bit: usize, enabled: bool) {
        assert!(unsafe { bits_set(&mut self.lent_mut(), bit, enabled) });
    }

    pub fn set_block(&mut self, index: usize, block: usize) {
        assert!(unsafe { bits_set_block(&mut self.lent_mut(), index, block) });
    }

    pub fn insert_all(&mut self, positions: &[usize]) {
        assert!(unsafe { bits_insert_all(&mut self.lent_mut(), positions.as_ptr(), positions.len()) });
    }

    pub fn remove_all(&mut self, positions: &[usize]) {
        assert!(unsafe { bits_remove_all(&mut self.lent_mut(), positions.as_ptr(), positions.len()) });
    }

    pub fn contains_each(&self, positions: &[usize], answers: &mut [bool]) {
        assert!(unsafe { bits_contains_each(&self.lent(), positions.as_ptr(), positions.len(), NonNull::from(&mut *answers).cast(), answers.len()) });
    }

    pub fn clear(&mut self) {
        unsafe { bits_clear(&mut self.lent_mut()) };
    }

    pub fn minimum(&self) -> Option<usize> {
        position(unsafe { bits_minimum(&self.lent()) })
    }

    pub fn maximum(&self) -> Option<usize> {
        position(unsafe { bits_maximum(&self.lent()) })
    }

    pub fn next_one(&self, from: usize) -> Option<usize> {
        position(unsafe { bits_next_one(&self.lent(), from) })
    }

    pub fn next_zero(&self, from: usize) -> Option<usize> {
        position(unsafe { bits_next_zero(&self.lent(), from) })
    }

    pub fn nth_one(&self, index: usize) -> Option<usize> {
        position(unsafe { bits_nth_one(&self.lent(), index) })
    }

    pub fn first_gap(&self, count: usize, from: usize) -> Option<usize> {
        position(unsafe { bits_first_gap(&self.lent(), count, from) })
    }

    pub fn first_aligned_gap(&self, count: usize, align: usize, range: Range<usize>) -> Option<usize> {
        position(unsafe { bits_first_aligned_gap(&self.lent(), count, align, range.start, range.end) })
    }

    pub fn last_gap(&self, count: usize, below: usize) -> Option<usize> {
        position(unsafe { bits_last_gap(&self.lent(), count, below) })
    }

    pub fn previous_one(&self, below: usize) -> Option<usize> {
        position(unsafe { bits_previous_one(&self.lent(), below) })
    }

    pub fn previous_zero(&self, below: usize) -> Option<usize> {
        position(unsafe { bits_previous_zero(&self.lent(), below) })
    }

    pub fn is_clear(&self) -> bool {
        unsafe { bits_is_clear(&self.lent()) }
    }

    pub fn is_full(&self) -> bool {
        unsafe { bits_is_full(&self.lent()) }
    }

    pub fn insert_range(&mut self, range: Range<usize>) {
        assert!(unsafe { bits_insert_range(&mut self.lent_mut(), range.start, range.end) });
    }

    pub fn remove_range(&mut self, range: Range<usize>) {
        assert!(unsafe { bits_remove_range(&mut self.lent_mut(), range.start, range.end) });
    }

    pub fn toggle_range(&mut self, range: Range<usize>) {
        assert!(unsafe { bits_toggle_range(&mut self.lent_mut(), range.start, range.end) });
    }

    pub fn count_ones(&self, range: Range<usize>) -> usize {
        unsafe { bits_count_ones(&self.lent(), range.start, range.end) }
    }

    pub fn count_zeroes(&self, range: Range<usize>) -> usize {
        unsafe { bits_count_zeroes(&self.lent(), range.start, range.end) }
    }

    pub fn contains_all_in_range(&self, range: Range<usize>) -> bool {
        unsafe { bits_contains_all_in_range(&self.lent(), range.start, range.end) }
    }

    pub fn contains_any_in_range(&self, range: Range<usize>) -> bool {
        unsafe { bits_contains_any_in_range(&self.lent(), range.start, range.end) }
    }

    pub fn union_with(&mut self, other: &Self) {
        self.grow(other.length);
        assert!(unsafe { bits_union_with(&mut self.lent_mut(), &other.lent()) });
    }

    pub fn symmetric_difference_with(&mut self, other: &Self) {
        self.grow(other.length);
        assert!(unsafe { bits_symmetric_difference_with(&mut self.lent_mut(), &other.lent()) });
    }

    pub fn intersect_with(&mut self, other: &Self) {
        unsafe { bits_intersect_with(&mut self.lent_mut(), &other.lent()) };
    }

    pub fn difference_with(&mut self, other: &Self) {
        unsafe { bits_difference_with(&mut self.lent_mut(), &other.lent()) };
    }

    pub fn union_with_change(&mut self, other: &Self) -> bool {
        self.grow(other.length);
        let mut changed = false;
        assert!(unsafe { bits_union_with_change(&mut self.lent_mut(), &other.lent(), &mut changed) });
        changed
    }

    pub fn symmetric_difference_with_change(&mut self, other: &Self) -> bool {
        self.grow(other.length);
        let mut changed = false;
        assert!(unsafe { bits_symmetric_difference_with_change(&mut self.lent_mut(), &other.lent(), &mut changed) });
        changed
    }

    pub fn intersect_with_change(&mut self, other: &Self) -> bool {
        unsafe { bits_intersect_with_change(&mut self.lent_mut(), &other.lent()) }
    }

    pub fn difference_with_change(&mut self, other: &Self) -> bool {
        unsafe { bits_difference_with_change(&mut self.lent_mut(), &other.lent()) }
    }

    pub fn union_with_difference(&mut self, gens: &Self, kills: &Self) -> bool {
        self.grow(gens.length);
        let mut changed = false;
        assert!(unsafe { bits_union_with_difference(&mut self.lent_mut(), &gens.lent(), &kills.lent(), &mut changed) });
        changed
    }

    pub fn union_count(&self, other: &Self) -> usize {
        unsafe { bits_union_count(&self.lent(), &other.lent()) }
    }

    pub fn intersection_count(&self, other: &Self) -> usize {
        unsafe { bits_intersection_count(&self.lent(), &other.lent()) }
    }

    pub fn difference_count(&self, other: &Self) -> usize {
        unsafe { bits_difference_count(&self.lent(), &other.lent()) }
    }

    pub fn symmetric_difference_count(&self, other: &Self) -> usize {
        unsafe { bits_symmetric_difference_count(&self.lent(), &other.lent()) }
    }

    pub fn is_disjoint(&self, other: &Self) -> bool {
        unsafe { bits_is_disjoint(&self.lent(), &other.lent()) }
    }

    pub fn is_subset(&self, other: &Self) -> bool {
        unsafe { bits_is_subset(&self.lent(), &other.lent()) }
    }

    pub fn first_lacking(&self, other: &Self) -> Option<usize> {
        position(unsafe { bits_first_lacking(&self.lent(), &other.lent()) })
    }

    pub fn next_common(&self, other: &Self, from: usize) -> Option<usize> {
        position(unsafe { bits_next_common(&self.lent(), &other.lent(), from) })
    }

    pub fn shift_up(&mut self, by: usize) {
        unsafe { bits_shift_up(&mut self.lent_mut(), by) };
    }

    pub fn shift_down(&mut self, by: usize) {
        unsafe { bits_shift_down(&mut self.lent_mut(), by) };
    }

    pub fn union_with_shifted(&mut self, other: &Self, by: usize) {
        unsafe { bits_union_with_shifted(&mut self.lent_mut(), &other.lent(), by) };
    }

    pub fn union_with_own_shift(&mut self, by: usize) {
        unsafe { bits_union_with_own_shift(&mut self.lent_mut(), by) };
    }

    pub fn copy_range(&mut self, other: &Self, range: Range<usize>, at: usize) {
        assert!(unsafe { bits_copy_range(&mut self.lent_mut(), &other.lent(), range.start, range.end, at) });
    }

    pub fn load(&self, start: usize, width: usize) -> u64 {
        let mut number = 0;
        assert!(unsafe { bits_load(&self.lent(), start, width, &mut number) });
        number as u64
    }

    pub fn store(&mut self, start: usize, width: usize, number: u64) {
        assert!(unsafe { bits_store(&mut self.lent_mut(), start, width, number as usize) });
    }

    pub fn ones<'a>(&'a self) -> Walked<'a, Walk> {
        let mut walk = Walk::NONE;
        unsafe { bits_ones(&mut walk, &self.lent()) };
        Walked { walk, next: bits_ones_next, next_back: bits_ones_next_back, words: Walk::words, lent: PhantomData }
    }

    pub fn zeroes<'a>(&'a self) -> Walked<'a, Walk> {
        let mut walk = Walk::NONE;
        unsafe { bits_zeroes(&mut walk, &self.lent()) };
        Walked { walk, next: bits_zeroes_next, next_back: bits_zeroes_next_back, words: Walk::words, lent: PhantomData }
    }

    pub fn ones_in<'a>(&'a self, range: Range<usize>) -> Walked<'a, Walk> {
        let mut walk = Walk::NONE;
        assert!(unsafe { bits_ones_in(&mut walk, &self.lent(), range.start, range.end) });
        Walked { walk, next: bits_ones_next, next_back: bits_ones_next_back, words: Walk::words, lent: PhantomData }
    }

    pub fn zeroes_in<'a>(&'a self, range: Range<usize>) -> Walked<'a, Walk> {
        let mut walk = Walk::NONE;
        assert!(unsafe { bits_zeroes_in(&mut walk, &self.lent(), range.start, range.end) });
        Walked { walk, next: bits_zeroes_next, next_back: bits_zeroes_next_back, words: Walk::words, lent: PhantomData }
    }

    pub fn runs(&self) -> Runs {
        let mut walk = Runs::NONE;
        unsafe { bits_runs(&mut walk, &self.lent()) };
        walk
    }

    pub fn zero_runs(&self) -> Runs {
        let mut walk = Runs::NONE;
        unsafe { bits_zero_runs(&mut walk, &self.lent()) };
        walk
    }

    pub fn intersection<'a>(&'a self, other: &'a Self) -> Walked<'a, Sieve> {
        let mut walk = Sieve::NONE;
        unsafe { bits_intersection(&mut walk, &self.lent(), &other.lent()) };
        Walked { walk, next: bits_intersection_next, next_back: bits_intersection_next_back, words: Sieve::words, lent: PhantomData }
    }

    pub fn difference<'a>(&'a self, other: &'a Self) -> Walked<'a, Sieve> {
        let mut walk = Sieve::NONE;
        unsafe { bits_difference(&mut walk, &self.lent(), &other.lent()) };
        Walked { walk, next: bits_difference_next, next_back: bits_difference_next_back, words: Sieve::words, lent: PhantomData }
    }

    pub fn union<'a>(&'a self, other: &'a Self) -> Walked<'a, Pair> {
        let mut walk = Pair::NONE;
        unsafe { bits_union(&mut walk, &self.lent(), &other.lent()) };
        Walked { walk, next: bits_union_next, next_back: bits_union_next_back, words: Pair::words, lent: PhantomData }
    }

    pub fn symmetric_difference<'a>(&'a self, other: &'a Self) -> Walked<'a, Pair> {
        let mut walk = Pair::NONE;
        unsafe { bits_symmetric_difference(&mut walk, &self.lent(), &other.lent()) };
        Walked { walk, next: bits_symmetric_difference_next, next_back: bits_symmetric_difference_next_back, words: Pair::words, lent: PhantomData }
    }
    // end of what front/calls makes
}

impl PartialEq for FixedBitSet {
    fn eq(&self, other: &Self) -> bool {
        unsafe { bits_equal(&self.lent(), &other.lent()) }
    }
}

impl FixedBitSet {
    pub fn cmp(&self, other: &Self) -> Ordering {
        unsafe { bits_compare(&self.lent(), &other.lent()) }.cmp(&0)
    }
}

impl Index<usize> for FixedBitSet {
    type Output = bool;

    fn index(&self, bit: usize) -> &bool {
        if self.contains(bit) { &true } else { &false }
    }
}

/// New sets of two.
macro_rules! operators {
    ($($trait:ident $name:ident $call:ident;)*) => { $(
        impl $trait for &FixedBitSet {
            type Output = FixedBitSet;

            fn $name(self, other: &FixedBitSet) -> FixedBitSet {
                let mut set = FixedBitSet::new();
                set.$call(self, other);
                set
            }
        }
    )* };
}
operators! {
    BitAnd bitand intersection_of;
    BitOr bitor union_of;
    BitXor bitxor symmetric_difference_of;
}

/// A call of a walk.
type Next<W> = unsafe extern "C" fn(&mut W, &mut usize) -> bool;

/// A walk with its calls. `words` tells how many words it holds or has not yet taken.
pub struct Walked<'a, W> {
    walk: W,
    next: Next<W>,
    next_back: Next<W>,
    words: fn(&W) -> usize,
    lent: PhantomData<&'a FixedBitSet>,
}

impl<W> Iterator for Walked<'_, W> {
    type Item = usize;

    fn next(&mut self) -> Option<usize> {
        let mut position = 0;
        unsafe { (self.next)(&mut self.walk, &mut position) }.then_some(position)
    }

    fn size_hint(&self) -> (usize, Option<usize>) {
        (0, Some(64 * (self.words)(&self.walk)))
    }
}

impl<W> DoubleEndedIterator for Walked<'_, W> {
    fn next_back(&mut self) -> Option<usize> {
        let mut position = 0;
        unsafe { (self.next_back)(&mut self.walk, &mut position) }.then_some(position)
    }
}

/// A walk, and the set that it reads.
pub struct Owned {
    walked: Walked<'static, Walk>,
    _set: FixedBitSet,
}

impl Iterator for Owned {
    type Item = usize;

    fn next(&mut self) -> Option<usize> {
        self.walked.next()
    }

    fn size_hint(&self) -> (usize, Option<usize>) {
        self.walked.size_hint()
    }
}

impl DoubleEndedIterator for Owned {
    fn next_back(&mut self) -> Option<usize> {
        self.walked.next_back()
    }
}

impl Iterator for Runs {
    type Item = (usize, usize);

    fn next(&mut self) -> Option<(usize, usize)> {
        let (mut start, mut end) = (0, 0);
        unsafe { bits_runs_next(self, &mut start, &mut end) }.then_some((start, end))
    }
}

impl DoubleEndedIterator for Runs {
    fn next_back(&mut self) -> Option<(usize, usize)> {
        let (mut start, mut end) = (0, 0);
        unsafe { bits_runs_next_back(self, &mut start, &mut end) }.then_some((start, end))
    }
}

/// A set with a directory of its words.
pub struct Ranks<'a> {
    ranks: LentRanks,
    _directory: Vec<usize>,
    lent: PhantomData<&'a FixedBitSet>,
}

impl<'a> Ranks<'a> {
    pub fn of(set: &'a FixedBitSet) -> Self {
        let mut directory = vec![0; unsafe { bits_ranks_entries(set.length) }];
        let (places, entries) = (NonNull::from(&mut directory[..]).cast(), directory.len());
        let none = NonNull::dangling();
        let mut ranks = LentRanks {
            words: none,
            count: 0,
            length: 0,
            directory: none,
            entries: 0,
        };
        assert!(unsafe { bits_ranks_fill(&mut ranks, &set.lent(), places, entries) });
        Ranks {
            ranks,
            _directory: directory,
            lent: PhantomData,
        }
    }

    pub fn rank(&self, position: usize) -> usize {
        unsafe { bits_rank(&self.ranks, position) }
    }

    pub fn select(&self, index: usize) -> Option<usize> {
        position(unsafe { bits_select(&self.ranks, index) })
    }
}

/// A table.
#[derive(Clone)]
pub struct BitRows {
    words: Vec<usize>,
    rows: usize,
    columns: usize,
}

impl BitRows {
    pub fn new(rows: usize, columns: usize) -> Self {
        let words = vec![0; unsafe { bits_rows_words(rows, columns) }];
        BitRows {
            words,
            rows,
            columns,
        }
    }

    pub fn rows(&self) -> usize {
        self.rows
    }

    pub fn columns(&self) -> usize {
        self.columns
    }

    pub fn get(&self, row: usize, column: usize) -> bool {
        unsafe { bits_rows_get(&self.lent(), row, column) }
    }

    pub fn set(&mut self, row: usize, column: usize, enabled: bool) {
        assert!(unsafe { bits_rows_set(&mut self.lent_mut(), row, column, enabled) });
    }

    pub fn union_rows(&mut self, from: usize, into: usize) -> bool {
        let mut changed = false;
        assert!(unsafe { bits_rows_union(&mut self.lent_mut(), from, into, &mut changed) });
        changed
    }

    pub fn row(&self, row: usize) -> Walked<'_, Walk> {
        let mut walk = Walk::NONE;
        assert!(unsafe { bits_rows_ones(&mut walk, &self.lent(), row) });
        let (next, next_back) = (
            bits_ones_next as Next<Walk>,
            bits_ones_next_back as Next<Walk>,
        );
        Walked {
            walk,
            next,
            next_back,
            words: Walk::words,
            lent: PhantomData,
        }
    }

    pub fn close(&mut self) {
        unsafe { bits_rows_close(&mut self.lent_mut()) }
    }

    fn lent(&self) -> Rows {
        let words = NonNull::from(&self.words[..]).cast();
        Rows {
            words,
            count: self.words.len(),
            rows: self.rows,
            columns: self.columns,
        }
    }

    fn lent_mut(&mut self) -> Rows {
        let words = NonNull::from(&mut self.words[..]).cast();
        Rows {
            words,
            count: self.words.len(),
            rows: self.rows,
            columns: self.columns,
        }
    }
}
