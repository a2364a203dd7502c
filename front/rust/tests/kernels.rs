//! The kernels of the proved modules, and parts of walks, on rows of every length to 21 words, beside plain loops. A set keeps
//! whole lanes of four words, so no call of the crate goes by the rest of a lane.
extern crate alloc;

#[rustfmt::skip]
#[allow(clippy::all, dead_code, unused_imports, unused_labels, unused_variables)]
#[path = "../src/proved/mod.rs"]
mod proved;
#[allow(dead_code)]
#[path = "../src/shim.rs"]
mod shim;

use proved::bitlanes::ops::{And, AndNot, Or, Second, WordOp, Xor};
use proved::bitlanes::{changes, lanes, search, Steps};
use proved::bitwords::cursors::{Beside, Cursor, Inverted, Plain, Seen};
use proved::bitwords::handfuls;
use proved::fixedbitset::set::FixedBitSet;
use proved::fixedbitset::views::Bits;
use shim::Block;
use std::collections::hash_map::DefaultHasher;
use std::hash::{Hash, Hasher};

type Join = fn(Block, Block) -> Block;

const ALLOCATOR_OF_ROWS: shim::alloc::Global = shim::alloc::Global::Abort;
const LONGEST: usize = 21;

/// Words with no bit, with all, with one and with many, by turns.
fn mixed(count: usize, first: usize) -> Vec<Block> {
    let word = |at: usize| match at % 4 {
        0 => 0,
        1 => Block::MAX,
        2 => 1 << (at % 64),
        _ => (at as Block).wrapping_mul(0x9e37_79b9_7f4a_7c15),
    };
    (first..first + count).map(word).collect()
}

/// Rows of so many words: those of one bit at each place, that of none, mixed ones, and two of which one half is empty.
fn rows(count: usize) -> Vec<Vec<Block>> {
    let one_bit = |place| (0..count).map(|at| Block::from(at == place)).collect();
    let (mut late, mut early) = (mixed(count, 1), mixed(count, 1));
    late[..count / 2].fill(0);
    early[count / 2..].fill(0);
    let mixed = (0..4).map(|first| mixed(count, first));
    (0..=count)
        .map(one_bit)
        .chain(mixed)
        .chain([late, early])
        .collect()
}

/// Pairs of rows, of one length and of two.
fn pairs() -> Vec<(Vec<Block>, Vec<Block>)> {
    let lengths =
        (0..=LONGEST).flat_map(|count| [(count, count), (count, count + 3), (count + 3, count)]);
    let of_lengths = |(one, other)| {
        let all = rows(one).into_iter();
        all.flat_map(move |row| (0..4).map(move |first| (row.clone(), mixed(other, first))))
    };
    lengths.flat_map(of_lengths).collect()
}

fn joined(one: &[Block], other: &[Block], join: Join) -> Vec<Block> {
    let both = one.iter().zip(other);
    both.map(|(&one, &other)| join(one, other)).collect()
}

fn ones(row: &[Block]) -> usize {
    row.iter().map(|word| word.count_ones() as usize).sum()
}

fn positions(row: &[Block]) -> Vec<usize> {
    let is_set = |at: &usize| row[at / 64] >> (at % 64) & 1 == 1;
    (0..64 * row.len()).filter(is_set).collect()
}

/// What a kernel leaves of `row`, where it writes these words over the first ones.
fn written(row: &[Block], first: &[Block]) -> Vec<Block> {
    [first, &row[first.len()..]].concat()
}

fn try_pairs<O: WordOp>(join: Join) {
    let steps = &mut Steps::new();
    for (one, other) in pairs() {
        let wanted = joined(&one, &other, join);
        let left = written(&one, &wanted);
        let mut row = one.clone();
        lanes::apply::<O>(&mut row, &other, steps);
        assert_eq!(row, left);
        let mut row = one.clone();
        assert_eq!(changes::apply::<O>(&mut row, &other, steps), left != one);
        assert_eq!(row, left);
        assert_eq!(lanes::count::<O>(&one, &other, steps), ones(&wanted));
        assert_eq!(lanes::none::<O>(&one, &other, steps), ones(&wanted) == 0);
        let first = wanted.iter().position(|&word| word != 0);
        assert_eq!(search::first_joined::<O>(&one, &other, steps), first);
    }
}

fn try_masks<O: WordOp>(join: Join) {
    let steps = &mut Steps::new();
    for row in (0..=LONGEST).flat_map(rows) {
        for mask in [0, 1, Block::MAX] {
            let wanted: Vec<_> = row.iter().map(|&word| join(mask, word)).collect();
            assert_eq!(
                lanes::none_masked::<O>(mask, &row, steps),
                ones(&wanted) == 0
            );
            for place in 0..=row.len() {
                let next = (place..row.len()).find(|&at| wanted[at] != 0);
                assert_eq!(search::next_one::<O>(mask, &row, place, steps), next);
                let lanes = wanted[place..].chunks_exact(4);
                let zeros = 4 * lanes.take_while(|lane| ones(lane) == 0).count();
                assert_eq!(
                    search::skip_zeros::<O>(mask, &row, place, steps),
                    place + zeros
                );
                let previous = (0..place).rfind(|&at| wanted[at] != 0);
                assert_eq!(
                    search::previous_one::<O>(mask, &row, place, steps),
                    previous
                );
            }
        }
    }
}

/// A walk over one row beside another, which has no bits past its end.
fn try_beside<O: WordOp>(one: &[Block], other: &[Block], join: Join) {
    let other_word = |at| other.get(at).copied().unwrap_or(0);
    let words: Vec<_> = (0..one.len())
        .map(|at| join(one[at], other_word(at)))
        .collect();
    let wanted = positions(&words);
    let walk = || Cursor::over(Beside::<O>::of(one, other));
    assert!(walk().eq(wanted.iter().copied()));
    assert!(walk().rev().eq(wanted.iter().rev().copied()));
}

#[test]
fn a_row_is_walked_over_beside_another_as_by_a_plain_loop() {
    for (one, other) in pairs() {
        try_beside::<And>(&one, &other, |one, other| one & other);
        try_beside::<AndNot>(&one, &other, |one, other| one & !other);
    }
}

/// The positions of first words, where so many places are free. A word is given as long as seven places more are, and the
/// four words behind it are not the last one and have eight positions.
fn given(row: &[Block], room: usize) -> Vec<usize> {
    let mut found = Vec::new();
    for at in 0..row.len().saturating_sub(5) {
        let own = positions(&row[at..=at]);
        if ones(&row[at + 1..at + 5]) < 8 || room - found.len() < own.len() + 7 {
            break;
        }
        found.extend(own.iter().map(|position| 64 * at + position));
    }
    found
}

/// The same from the last word on, in descending order.
fn given_back(row: &[Block], room: usize) -> Vec<usize> {
    let mut found = Vec::new();
    for at in (5..row.len()).rev() {
        let own = positions(&row[at..=at]);
        if ones(&row[at - 4..at]) < 8 || room - found.len() < own.len() + 7 {
            break;
        }
        found.extend(own.iter().rev().map(|position| 64 * at + position));
    }
    found
}

#[test]
fn words_are_given_whole_as_by_a_plain_loop() {
    for row in (0..=LONGEST).flat_map(rows) {
        let all = positions(&row);
        for room in [0, 7, 8, 70, 71, 200, 2000] {
            let wanted = given(&row, room);
            let mut places = vec![0; room];
            let mut held = Cursor::over(Plain { words: row.iter() }).into_held();
            let count = handfuls::give_words(&mut held, &mut places);
            assert_eq!(places[..count], wanted);
            assert!(Cursor::of_held(held).eq(all[count..].iter().copied()));
            let wanted = given_back(&row, room);
            let mut held = Cursor::over(Plain { words: row.iter() }).into_held();
            let count = handfuls::give_words_back(&mut held, &mut places);
            assert_eq!(places[..count], wanted);
            assert!(Cursor::of_held(held).eq(all[..all.len() - count].iter().copied()));
        }
    }
    let mut places = [0; 64];
    for word in mixed(64, 0) {
        let mut wanted = positions(&[word]);
        let count = handfuls::give_word(word, 0, &mut places);
        assert_eq!(places[..count], wanted);
        wanted.reverse();
        let count = handfuls::give_word_back(word, 0, &mut places);
        assert_eq!(places[..count], wanted);
    }
}

#[test]
fn words_ahead_of_a_walk_are_those_of_its_row() {
    for row in (0..=LONGEST).flat_map(rows) {
        let plain = Plain { words: row.iter() };
        let inverted = Inverted {
            plain: plain.clone(),
        };
        for index in 0..row.len() + 2 {
            let word = row.get(index).copied();
            assert_eq!(plain.peek(index), word);
            assert_eq!(inverted.peek(index), word.map(|word| !word));
        }
    }
}

#[test]
fn two_rows_are_joined_as_by_a_plain_loop() {
    try_pairs::<And>(|one, other| one & other);
    try_pairs::<AndNot>(|one, other| one & !other);
    try_pairs::<Or>(|one, other| one | other);
    try_pairs::<Xor>(|one, other| one ^ other);
    try_pairs::<Second>(|_, other| other);
}

#[test]
fn rows_are_searched_as_by_a_plain_loop() {
    try_masks::<And>(|mask, word| mask & word);
    try_masks::<AndNot>(|mask, word| mask & !word);
    try_masks::<Or>(|mask, word| mask | word);
    try_masks::<Xor>(|mask, word| mask ^ word);
}

#[test]
fn two_rows_are_joined_into_a_third_as_by_a_plain_loop() {
    let steps = &mut Steps::new();
    for (one, other) in pairs() {
        for count in [one.len().saturating_sub(1), one.len(), one.len() + 5] {
            let into = mixed(count, 2);
            let first = joined(
                &into,
                &joined(&one, &other, |one, other| one & !other),
                |into, word| into | word,
            );
            let left = written(&into, &first);
            let mut row = into.clone();
            assert_eq!(
                changes::apply_joined::<Or, AndNot>(&mut row, &one, &other, steps),
                left != into
            );
            assert_eq!(row, left);
        }
    }
}

#[test]
fn one_row_is_counted_and_cleared_as_by_a_plain_loop() {
    let steps = &mut Steps::new();
    for row in (0..=LONGEST).flat_map(rows) {
        assert_eq!(lanes::count_one(&row, steps), ones(&row));
        assert_eq!(lanes::none_one(&row, steps), ones(&row) == 0);
        assert_eq!(
            search::first_one(&row, steps),
            row.iter().position(|&word| word != 0)
        );
        assert_eq!(
            search::last_one(&row, steps),
            row.iter().rposition(|&word| word != 0)
        );
        let mut cleared = row.clone();
        lanes::zero(&mut cleared, steps);
        assert_eq!(ones(&cleared), 0);
        let mut cleared = row.clone();
        assert_eq!(changes::zero(&mut cleared, steps), ones(&row) != 0);
        assert_eq!(ones(&cleared), 0);
    }
}

#[test]
fn a_part_is_written_over_words_that_have_other_positions() {
    let words = &mixed(8, 1)[..];
    let length = 64 * words.len();
    for start in (0..=length).step_by(37) {
        for end in (start..=length).step_by(29) {
            let mut to = vec![Block::MAX; 4 * (end - start).div_ceil(256)];
            Bits { words, length }.slice_to(start, end, &mut to, &mut Steps::new());
            let within = positions(words).into_iter();
            let within = within.filter(|at| (start..end).contains(at));
            assert!(within.map(|at| at - start).eq(positions(&to)));
        }
    }
}

/// The crate hashes a set as its view. Here the proved set itself is hashed.
#[test]
fn sets_of_other_positions_feed_a_hasher_something_else() {
    let hash_of = |bit| {
        let mut set = FixedBitSet::with_capacity(shim::alloc::Global::Try, 70).unwrap();
        set.insert(bit);
        let mut hasher = DefaultHasher::new();
        set.hash(&mut hasher);
        hasher.finish()
    };
    assert_eq!(hash_of(3), hash_of(3));
    assert_ne!(hash_of(3), hash_of(64));
}
