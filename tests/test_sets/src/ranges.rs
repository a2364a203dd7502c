//! Ranges of positions: worked values, every range of some lengths beside slow values, inclusive ranges of every length to
//! 130, and steps that a caller knows of.

use crate::spans::{
    Change, Fact, Span, assert_facts, change_all, change_range, change_span, holds, holds_of_span,
};
use bitlanes::word::{BITS, Block};
use fixedbitset::{FixedBitSet, Steps, counted};
use std::alloc::{AllocError, Global};
use std::process::Abort;
use std::test::Fail;
use test_callers::spans::{Endless, FromThree, Window};
use test_callers::steps::counted_calls;
use test_values::slow::{are_words, count_in, filled};

// ---- worked values

// The set positions, found one by one.
fn positions(alloc: Global, set: &FixedBitSet) -> Result<Vec<usize>, AllocError> {
    let mut list = Vec::new(alloc);
    for position in 0..set.len() {
        if set.contains(position) {
            list.push(position)?;
        }
    }
    Ok(list)
}

fn assert_positions(
    rt: &impl Abort,
    alloc: Global,
    set: &FixedBitSet,
    expected: &[usize],
) -> Result<(), AllocError> {
    let found = positions(alloc, set)?;
    assert_eq!(rt; found.as_slice(), expected);
    Ok(())
}

fn assert_words(rt: &impl Abort, set: &FixedBitSet, expected: &[Block]) {
    assert_eq!(rt; set.as_slice(), expected);
}

#[test]
fn counts(rt: HostRuntime) -> Result<(), Fail> {
    let mut set = FixedBitSet::with_capacity(rt.alloc(), 100)?;
    for position in [7, 11, 12, 35, 40, 50, 77, 95, 99] {
        assert!(rt; position < set.len());
        set.insert(position);
    }
    let facts = [
        (Span::To(8), Fact::Ones(1)),
        (Span::From(50), Fact::Ones(4)),
        (Span::Between(70, 95), Fact::Ones(1)),
        (Span::Between(70, 96), Fact::Ones(2)),
        (Span::Between(100, 100), Fact::Ones(0)),
        (Span::To(11), Fact::Zeroes(10)),
        (Span::From(50), Fact::Zeroes(46)),
        (Span::Between(70, 99), Fact::Zeroes(27)),
        (Span::Full, Fact::Zeroes(91)),
    ];
    assert_facts(&rt, &set, &facts);
    Ok(())
}

#[test]
fn inserted_and_toggled(rt: HostRuntime) -> Result<(), Fail> {
    let changes = [
        (Span::To(10), Change::Insert),
        (Span::Between(34, 38), Change::Insert),
        (Span::Between(5, 12), Change::Toggle),
        (Span::From(30), Change::Toggle),
    ];
    let mut set = FixedBitSet::with_capacity(rt.alloc(), 40)?;
    change_all(&rt, &mut set, &changes);
    assert_positions(
        &rt,
        rt.alloc(),
        &set,
        &[0, 1, 2, 3, 4, 10, 11, 30, 31, 32, 33, 38, 39],
    )?;
    Ok(())
}

#[test]
fn whole_words(rt: HostRuntime) -> Result<(), Fail> {
    let mut set = FixedBitSet::with_capacity(rt.alloc(), 128)?;
    change_range(&rt, &mut set, 64..128, Change::Insert);
    assert_words(&rt, &set, &[0, Block::MAX]);
    let facts = [
        (Span::Between(128, 128), Fact::All(true)),
        (Span::Between(128, 128), Fact::Any(false)),
        (Span::Between(0, 129), Fact::IsNotValid),
        (Span::Between(90, 80), Fact::IsNotValid),
    ];
    assert_facts(&rt, &set, &facts);

    let mut wide = FixedBitSet::with_capacity(rt.alloc(), 192)?;
    change_range(&rt, &mut wide, 63..129, Change::Insert);
    assert_words(&rt, &wide, &[1 << 63, Block::MAX, 1]);
    Ok(())
}

#[test]
fn grown_behind_the_last_position(rt: HostRuntime) -> Result<(), Fail> {
    let mut set = FixedBitSet::with_capacity(rt.alloc(), 70)?;
    assert!(rt; set.len() == 70);
    set.insert(69);
    set.grow(256)?;
    assert!(rt; set.len() == 256);
    assert!(rt; !set.contains_any_in_range(70..256));
    Ok(())
}

#[test]
fn length_zero(rt: HostRuntime) {
    let facts = [
        (Span::Full, Fact::Ones(0)),
        (Span::Full, Fact::All(true)),
        (Span::Full, Fact::Any(false)),
    ];
    assert_facts(&rt, &FixedBitSet::new(rt.alloc()), &facts);
}

#[test]
fn removed_and_set(rt: HostRuntime) -> Result<(), Fail> {
    let mut set = FixedBitSet::with_capacity(rt.alloc(), 48)?;
    let changes = [
        (Span::Full, Change::Insert),
        (Span::To(32), Change::Remove),
        (Span::From(37), Change::Remove),
    ];
    change_all(&rt, &mut set, &changes);
    let facts = [
        (Span::Between(32, 37), Fact::All(true)),
        (Span::From(32), Fact::All(false)),
        (Span::From(37), Fact::Any(false)),
    ];
    assert_facts(&rt, &set, &facts);
    let changes = [
        (Span::Between(5, 9), Change::Set(true)),
        (Span::Between(40, 40), Change::Set(true)),
    ];
    change_all(&rt, &mut set, &changes);
    assert_positions(&rt, rt.alloc(), &set, &[5, 6, 7, 8, 32, 33, 34, 35, 36])?;
    change_range(&rt, &mut set, .., Change::Remove);
    assert_words(&rt, &set, &[0]);
    Ok(())
}

// A range ends behind its last position, and behind `usize::MAX` there is none.
#[test]
fn inclusive_ranges(rt: HostRuntime) -> Result<(), Fail> {
    let changes = [
        (Span::UpThrough(4), Change::Insert),
        (Span::Through(2, 2), Change::Remove),
        (Span::Through(9, 8), Change::Toggle),
        (Span::Through(8, 9), Change::Set(true)),
    ];
    let mut set = FixedBitSet::with_capacity(rt.alloc(), 10)?;
    change_all(&rt, &mut set, &changes);
    assert_positions(&rt, rt.alloc(), &set, &[0, 1, 3, 4, 8, 9])?;
    let facts = [
        (Span::UpThrough(4), Fact::Ones(4)),
        (Span::UpThrough(9), Fact::Zeroes(4)),
        (Span::Through(2, 2), Fact::Zeroes(1)),
        (Span::Through(3, 2), Fact::Ones(0)),
        (Span::Through(3, 4), Fact::All(true)),
        (Span::Through(5, 7), Fact::Any(false)),
        (Span::Through(4, 2), Fact::IsNotValid),
        (Span::UpThrough(10), Fact::IsNotValid),
        (Span::UpThrough(usize::MAX), Fact::IsNotValid),
        (Span::Through(0, usize::MAX), Fact::IsNotValid),
        (Span::Through(usize::MAX, usize::MAX), Fact::IsNotValid),
    ];
    assert_facts(&rt, &set, &facts);
    Ok(())
}

// A length that is the start of a range makes it empty, and a lesser one makes it not valid.
#[test]
fn range_types_without_an_end(rt: HostRuntime) -> Result<(), Fail> {
    let mut set = FixedBitSet::with_capacity(rt.alloc(), 5)?;
    change_range(&rt, &mut set, FromThree, Change::Insert);
    assert_positions(&rt, rt.alloc(), &set, &[3, 4])?;
    change_range(&rt, &mut set, Endless, Change::Toggle);
    assert_positions(&rt, rt.alloc(), &set, &[0, 1, 2])?;
    assert!(rt; holds(&set, Endless, Fact::Zeroes(2)));
    let three = FixedBitSet::with_capacity(rt.alloc(), 3)?;
    assert!(rt; holds(&three, FromThree, Fact::Zeroes(0)));
    assert!(rt; holds(&three, FromThree, Fact::All(true)));
    assert!(rt; holds(&three, FromThree, Fact::Any(false)));
    let two = FixedBitSet::with_capacity(rt.alloc(), 2)?;
    assert!(rt; holds(&two, FromThree, Fact::IsNotValid));
    assert!(rt; holds(&two, Endless, Fact::Ones(0)));
    Ok(())
}

fn window(from: usize, size: usize) -> Span {
    Span::Own(Window { from, size })
}

#[test]
fn a_range_type_of_the_callers_own(rt: HostRuntime) -> Result<(), Fail> {
    let changes = [
        (window(60, 10), Change::Insert),
        (window(62, 2), Change::Remove),
        (window(68, 3), Change::Toggle),
        (window(100, 0), Change::Set(true)),
    ];
    let mut set = FixedBitSet::with_capacity(rt.alloc(), 100)?;
    change_all(&rt, &mut set, &changes);
    assert_positions(&rt, rt.alloc(), &set, &[60, 61, 64, 65, 66, 67, 70])?;
    let facts = [
        (window(61, 4), Fact::Ones(2)),
        (window(61, 4), Fact::Zeroes(2)),
        (window(64, 4), Fact::All(true)),
        (window(71, 29), Fact::Any(false)),
        (window(71, 30), Fact::IsNotValid),
    ];
    assert_facts(&rt, &set, &facts);
    Ok(())
}

// ---- ranges of every length to 130

fn is_chosen(position: usize) -> bool {
    position % 3 == 0 || position % 7 > 4 || (60 <= position && position < 80)
}

fn chosen(alloc: Global, bits: usize) -> Result<Vec<bool>, AllocError> {
    let mut flags = Vec::new(alloc);
    for position in 0..bits {
        flags.push(is_chosen(position))?;
    }
    Ok(flags)
}

// The words of up to 192 positions.
type Words = [Block; 3];

fn words_of(flags: &[bool]) -> Words {
    let mut words = [0; 3];
    for position in 0..flags.len() {
        words[position / BITS] |= Block::from(flags[position]) << (position % BITS);
    }
    words
}

fn has_words(set: &FixedBitSet, length: usize, words: &Words) -> bool {
    let found = set.as_slice();
    set.len() == length
        && found.len() == length.div_ceil(BITS)
        && match found {
            [] => true,
            [a] => *a == words[0],
            [a, b] => *a == words[0] && *b == words[1],
            [a, b, c] => *a == words[0] && *b == words[1] && *c == words[2],
            _ => false,
        }
}

// A range that gets one position more at a time: its positions, and how many of them are set.
#[derive(Drop)]
struct Slow<'a> {
    flags: &'a [bool],
    words: Words,
    start: usize,
    end: usize,
    inside: Words,
    ones: usize,
}

impl Slow<'_> {
    // The empty range of a set with these flags, which are these words.
    fn empty(flags: &[bool], words: Words, start: usize) -> Slow<'_> {
        Slow {
            flags,
            words,
            start,
            end: start,
            inside: [0; 3],
            ones: 0,
        }
    }

    // Makes the range longer, up to this end.
    fn reach(&mut self, end: usize) {
        while self.end < end {
            self.ones += usize::from(self.flags[self.end]);
            self.inside[self.end / BITS] |= 1 << (self.end % BITS);
            self.end += 1;
        }
    }

    fn zeroes(&self) -> usize {
        self.end - self.start - self.ones
    }

    // The words after a change of the range.
    fn changed(&self, change: Change) -> Words {
        let ([a, b, c], [i, j, k]) = (self.words, self.inside);
        match change {
            Change::Insert | Change::Set(true) => [a | i, b | j, c | k],
            Change::Remove | Change::Set(false) => [a & !i, b & !j, c & !k],
            Change::Toggle => [a ^ i, b ^ j, c ^ k],
        }
    }
}

const CHANGES: [Change; 5] = [
    Change::Insert,
    Change::Remove,
    Change::Toggle,
    Change::Set(true),
    Change::Set(false),
];

// Each call on the span, which is valid. The changes are made in the last set, a copy each time.
fn assert_span(
    rt: &impl Abort,
    slow: &Slow<'_>,
    set: &FixedBitSet,
    span: Span,
    new: &mut FixedBitSet,
) -> Result<(), AllocError> {
    let zeroes = slow.zeroes();
    for fact in [
        Fact::Ones(slow.ones),
        Fact::Zeroes(zeroes),
        Fact::All(zeroes == 0),
        Fact::Any(slow.ones != 0),
    ] {
        assert!(rt; holds_of_span(set, span, fact), "{span:?} of {}", set.len());
    }
    for change in CHANGES {
        new.clone_from(set)?;
        change_span(rt, new, span, change);
        assert!(rt;
            has_words(new, slow.flags.len(), &slow.changed(change)),
            "{change:?} of {span:?} of {}",
            set.len()
        );
    }
    Ok(())
}

// Each call on the spans from this start, or that they are not valid.
fn assert_spans_from(
    rt: &impl Abort,
    flags: &[bool],
    set: &FixedBitSet,
    start: usize,
    is_inclusive: bool,
) -> Result<(), AllocError> {
    let mut new = set.clone()?;
    let mut slow = Slow::empty(flags, words_of(flags), start);
    for end in 0..flags.len() + 2 {
        let span = if is_inclusive {
            Span::Through(start, end)
        } else {
            Span::Between(start, end)
        };
        let (_, end) = span.ends(flags.len());
        if start <= end && end <= flags.len() {
            slow.reach(end);
            assert!(rt; count_in(flags, start, end, true) == slow.ones);
            assert_span(rt, &slow, set, span, &mut new)?;
        } else {
            assert!(rt;
                holds_of_span(set, span, Fact::IsNotValid),
                "{span:?} of {}",
                flags.len()
            );
        }
    }
    Ok(())
}

// Also those that are not valid, and those with their last position.
#[test]
fn every_range_of_six_lengths(rt: HostRuntime) -> Result<(), Fail> {
    for bits in [0, 1, 63, 64, 65, 130] {
        let flags = chosen(rt.alloc(), bits)?;
        let set = filled(rt.alloc(), &flags)?;
        assert!(rt; are_words(set.as_slice(), &flags));
        for start in 0..bits + 2 {
            assert_spans_from(&rt, &flags, &set, start, false)?;
            assert_spans_from(&rt, &flags, &set, start, true)?;
        }
    }
    Ok(())
}

// Whether each call on the range, as far as the slow one goes, is right. The changes are made in the last set, a copy each
// time.
fn are_right(
    slow: &Slow<'_>,
    set: &FixedBitSet,
    new: &mut FixedBitSet,
) -> Result<bool, AllocError> {
    let (start, end, zeroes, length) = (slow.start, slow.end, slow.zeroes(), slow.flags.len());
    let inserted = slow.changed(Change::Insert);
    let removed = slow.changed(Change::Remove);
    let mut are_right = set.range_is_valid(&(start..end))
        && set.count_ones(start..end) == slow.ones
        && set.count_zeroes(start..end) == zeroes
        && set.contains_all_in_range(start..end) == (zeroes == 0)
        && set.contains_any_in_range(start..end) == (slow.ones != 0);
    new.clone_from(set)?;
    new.insert_range(start..end);
    are_right &= has_words(new, length, &inserted);
    new.clone_from(set)?;
    new.remove_range(start..end);
    are_right &= has_words(new, length, &removed);
    new.clone_from(set)?;
    new.toggle_range(start..end);
    are_right &= has_words(new, length, &slow.changed(Change::Toggle));
    new.clone_from(set)?;
    new.set_range(start..end, true);
    are_right &= has_words(new, length, &inserted);
    new.clone_from(set)?;
    new.set_range(start..end, false);
    Ok(are_right && has_words(new, length, &removed))
}

#[test]
fn every_range_of_every_length_to_130(rt: HostRuntime) -> Result<(), Fail> {
    for bits in 0..131 {
        let flags = chosen(rt.alloc(), bits)?;
        let (set, words) = (filled(rt.alloc(), &flags)?, words_of(&flags));
        assert!(rt; are_words(set.as_slice(), &flags));
        let mut new = set.clone()?;
        for start in 0..bits + 1 {
            let mut slow = Slow::empty(&flags, words, start);
            for end in start..bits + 1 {
                slow.reach(end);
                assert!(rt;
                    are_right(&slow, &set, &mut new)?,
                    "{start}..{end} of {bits}"
                );
            }
        }
    }
    Ok(())
}

// Whether each call on the range with its last position, as far as the slow one goes, is right. The changes are made in the
// last set, one upon the other, and leave the one that is wanted: each but the second is seen where the range has a position.
fn are_right_inclusive(
    slow: &Slow<'_>,
    set: &FixedBitSet,
    wanted: &FixedBitSet,
    new: &mut FixedBitSet,
) -> Result<bool, AllocError> {
    let (start, last, zeroes, length) = (slow.start, slow.end - 1, slow.zeroes(), slow.flags.len());
    let inserted = slow.changed(Change::Insert);
    let removed = slow.changed(Change::Remove);
    let mut are_right = set.range_is_valid(&(start..=last))
        && set.count_ones(start..=last) == slow.ones
        && set.count_zeroes(start..=last) == zeroes
        && set.contains_all_in_range(start..=last) == (zeroes == 0)
        && set.contains_any_in_range(start..=last) == (slow.ones != 0);
    new.clone_from(set)?;
    new.toggle_range(start..=last);
    are_right &= has_words(new, length, &slow.changed(Change::Toggle));
    new.set_range(start..=last, true);
    are_right &= has_words(new, length, &inserted);
    new.remove_range(start..=last);
    are_right &= has_words(new, length, &removed);
    new.insert_range(start..=last);
    are_right &= has_words(new, length, &inserted);
    new.set_range(start..=last, false);
    are_right &= has_words(new, length, &removed);
    new.set_range(start..=last, true);
    Ok(are_right && has_words(new, length, &inserted) && *new == *wanted)
}

#[test]
fn every_inclusive_range_of_every_length_to_130(rt: HostRuntime) -> Result<(), Fail> {
    for bits in 0..131 {
        let flags = chosen(rt.alloc(), bits)?;
        let (set, words) = (filled(rt.alloc(), &flags)?, words_of(&flags));
        let mut new = set.clone()?;
        for start in 0..bits + 1 {
            let mut slow = Slow::empty(&flags, words, start);
            let mut wanted = set.clone()?;
            for end in start.max(1)..bits + 1 {
                slow.reach(end);
                if start < end {
                    wanted.insert(end - 1);
                }
                assert!(rt;
                    are_right_inclusive(&slow, &set, &wanted, &mut new)?,
                    "{start}..={} of {bits}",
                    end - 1
                );
            }
        }
    }
    Ok(())
}

#[test]
fn which_ranges_are_valid_at_every_length_to_130(rt: HostRuntime) -> Result<(), Fail> {
    for bits in 0..131 {
        let set = FixedBitSet::with_capacity(rt.alloc(), bits)?;
        for start in 0..bits + 2 {
            for end in 0..bits + 2 {
                let is_valid = start <= end && end <= bits;
                assert_eq!(rt;
                    set.range_is_valid(&(start..end)),
                    is_valid,
                    "{start}..{end} of {bits}"
                );
                assert_eq!(rt;
                    set.range_is_valid(&(start..=end)),
                    start <= end + 1 && end < bits
                );
            }
        }
    }
    Ok(())
}

// ---- steps

#[test]
fn steps_are_summed_up(rt: HostRuntime) -> Result<(), Fail> {
    let mut set = FixedBitSet::with_capacity(rt.alloc(), 192)?;
    assert!(rt; 129 <= set.len());
    assert_eq!(rt; counted_calls(&mut set, &mut Steps::new()), 66);
    Ok(())
}
