//! Ranges and the calls on them by name, so that tables can have them.

use fixedbitset::{FixedBitSet, IndexRange};
use std::process::Abort;
use test_callers::spans::Window;

/// A range, by the type that it is of.
#[derive(Clone, Copy, Debug)]
pub enum Span {
    Full,
    From(usize),
    To(usize),
    Between(usize, usize),
    Through(usize, usize),
    UpThrough(usize),
    Own(Window),
}

impl Span {
    /// What it means of a set of this length: the positions from the first up to and without the second.
    pub fn ends(self, length: usize) -> (usize, usize) {
        match self {
            Span::Full => (0, length),
            Span::From(start) => (start, length),
            Span::To(end) => (0, end),
            Span::Between(start, end) => (start, end),
            Span::Through(start, last) => (start, last.saturating_add(1)),
            Span::UpThrough(last) => (0, last.saturating_add(1)),
            Span::Own(window) => (window.from, window.from + window.size),
        }
    }
}

#[derive(Clone, Copy, Debug)]
pub enum Change {
    Insert,
    Remove,
    Toggle,
    Set(bool),
}

/// Changes a range, which has to be valid.
pub fn change_range<R: IndexRange<usize> + Drop>(
    rt: &impl Abort,
    set: &mut FixedBitSet,
    range: R,
    change: Change,
) {
    assert!(rt; set.range_is_valid(&range));
    match change {
        Change::Insert => set.insert_range(range),
        Change::Remove => set.remove_range(range),
        Change::Toggle => set.toggle_range(range),
        Change::Set(enabled) => set.set_range(range, enabled),
    }
}

/// Changes the positions of a span.
pub fn change_span(rt: &impl Abort, set: &mut FixedBitSet, span: Span, change: Change) {
    match span {
        Span::Full => change_range(rt, set, .., change),
        Span::From(start) => change_range(rt, set, start.., change),
        Span::To(end) => change_range(rt, set, ..end, change),
        Span::Between(start, end) => change_range(rt, set, start..end, change),
        Span::Through(start, last) => change_range(rt, set, start..=last, change),
        Span::UpThrough(last) => change_range(rt, set, ..=last, change),
        Span::Own(window) => change_range(rt, set, window, change),
    }
}

/// Makes the changes in order.
pub fn change_all(rt: &impl Abort, set: &mut FixedBitSet, changes: &[(Span, Change)]) {
    for (span, change) in changes {
        change_span(rt, set, *span, *change);
    }
}

/// What a call answers of a range.
#[derive(Clone, Copy)]
pub enum Fact {
    Ones(usize),
    Zeroes(usize),
    All(bool),
    Any(bool),
    IsNotValid,
}

/// Whether the call answers so.
pub fn holds<R: IndexRange<usize> + Drop>(set: &FixedBitSet, range: R, fact: Fact) -> bool {
    if !set.range_is_valid(&range) {
        return matches!(fact, Fact::IsNotValid);
    }
    match fact {
        Fact::Ones(count) => set.count_ones(range) == count,
        Fact::Zeroes(count) => set.count_zeroes(range) == count,
        Fact::All(answer) => set.contains_all_in_range(range) == answer,
        Fact::Any(answer) => set.contains_any_in_range(range) == answer,
        Fact::IsNotValid => false,
    }
}

/// The same of a span.
pub fn holds_of_span(set: &FixedBitSet, span: Span, fact: Fact) -> bool {
    match span {
        Span::Full => holds(set, .., fact),
        Span::From(start) => holds(set, start.., fact),
        Span::To(end) => holds(set, ..end, fact),
        Span::Between(start, end) => holds(set, start..end, fact),
        Span::Through(start, last) => holds(set, start..=last, fact),
        Span::UpThrough(last) => holds(set, ..=last, fact),
        Span::Own(window) => holds(set, window, fact),
    }
}

/// Each call answers so.
pub fn assert_facts(rt: &impl Abort, set: &FixedBitSet, facts: &[(Span, Fact)]) {
    for (index, (span, fact)) in facts.iter().enumerate() {
        assert!(rt; holds_of_span(set, *span, *fact), "fact {index}");
    }
}
