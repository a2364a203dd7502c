// Made by front/erase from crates/bits_c/src/handfuls.rt: change that, and not this.
//! Positions of an iterator in batches: a call gives as many as there is room for, or as are left.
//!
//! Such a call leaves the iterator where as many calls for one position leave it, and both may be
//! mixed. Places that it has no position for stay as they are.

use crate::bits_c::structs::{Ones, Pair, Sieve, Zeroes};
use crate::proved::bitlanes::ops::{And, AndNot};
use crate::proved::bitlanes::word::{BITS, take_highest_bit, take_lowest_bit};
use crate::proved::bitwords::cursors::{Cursor, Middle};
use crate::proved::bitwords::handfuls::{give_words, give_words_back};

// How many positions are given at once where they are written as narrower numbers: to a list of up
// to so many places, and to a longer one.
const FEW: usize = 32;

const MANY: usize = 256;

// The bits of a position that a place of 32 bits takes.
const LOW: usize = u32::MAX as usize;

// What gives positions from both ends.
trait Giver {
    fn take_first(&mut self) -> Option<usize>;

    fn take_last(&mut self) -> Option<usize>;
}

// What gives words as a whole from both ends, as long as they have many positions.
trait Worded: Giver {
    fn take_words(&mut self, positions: &mut [usize]) -> usize;

    fn take_words_back(&mut self, positions: &mut [usize]) -> usize;
}

impl<M: Middle> Giver for Cursor<M> {
    #[inline(always)]
    fn take_first(&mut self) -> Option<usize> {
        self.next()
    }

    #[inline(always)]
    fn take_last(&mut self) -> Option<usize> {
        self.next_back()
    }
}

// The next bits of the first and of the last word lie at hand. Only the way to a further word asks
// the cursor.
impl<'a> Giver for Ones<'a> {
    #[inline(always)]
    fn take_first(&mut self) -> Option<usize> {
        if self.front != 0 {
            return Some(self.front_at + take_lowest_bit(&mut self.front));
        }
        Ones::take_first(self)
    }

    #[inline(always)]
    fn take_last(&mut self) -> Option<usize> {
        if self.back != 0 {
            return Some(self.back_at + take_highest_bit(&mut self.back));
        }
        Ones::take_last(self)
    }
}

impl<'a> Giver for Zeroes<'a> {
    #[inline(always)]
    fn take_first(&mut self) -> Option<usize> {
        if self.front == 0 {
            let mut cursor = self.cursor();
            let item = cursor.next();
            *self = Zeroes::of(cursor);
            return item;
        }
        let lowest = take_lowest_bit(&mut self.front);
        Some(self.front_at + lowest)
    }

    #[inline(always)]
    fn take_last(&mut self) -> Option<usize> {
        if self.back == 0 {
            let mut cursor = self.cursor();
            let item = cursor.next_back();
            *self = Zeroes::of(cursor);
            return item;
        }
        let highest = take_highest_bit(&mut self.back);
        Some(self.back_at + highest)
    }
}

impl<'a> Worded for Ones<'a> {
    #[inline(always)]
    fn take_words(&mut self, positions: &mut [usize]) -> usize {
        let mut held = self.cursor().into_held();
        let count = give_words(&mut held, positions);
        *self = Ones::of(Cursor::of_held(held));
        count
    }

    #[inline(always)]
    fn take_words_back(&mut self, positions: &mut [usize]) -> usize {
        let mut held = self.cursor().into_held();
        let count = give_words_back(&mut held, positions);
        let rest = Cursor::of_held(held);
        *self = Ones::of(rest);
        count
    }
}

impl<'a> Worded for Zeroes<'a> {
    #[inline(always)]
    fn take_words(&mut self, positions: &mut [usize]) -> usize {
        let mut held = self.cursor().into_held();
        let count = give_words(&mut held, positions);
        *self = Zeroes::of(Cursor::of_held(held));
        count
    }

    #[inline(always)]
    fn take_words_back(&mut self, positions: &mut [usize]) -> usize {
        let mut held = self.cursor().into_held();
        let count = give_words_back(&mut held, positions);
        let rest = Cursor::of_held(held);
        *self = Zeroes::of(rest);
        count
    }
}

// The positions of a giver, the last one first.
#[derive(Clone)]
struct Reversed<G> {
    giver: G,
}

impl<G: Giver> Giver for Reversed<G> {
    #[inline(always)]
    fn take_first(&mut self) -> Option<usize> {
        self.giver.take_last()
    }

    #[inline(always)]
    fn take_last(&mut self) -> Option<usize> {
        self.giver.take_first()
    }
}

impl<G: Worded> Worded for Reversed<G> {
    #[inline(always)]
    fn take_words(&mut self, positions: &mut [usize]) -> usize {
        self.giver.take_words_back(positions)
    }

    #[inline(always)]
    fn take_words_back(&mut self, positions: &mut [usize]) -> usize {
        self.giver.take_words(positions)
    }
}

// Writes the first positions left, and returns how many.
#[inline(always)]
fn fill<G: Giver>(giver: &mut G, positions: &mut [usize]) -> usize {
    for (index, place) in positions.iter_mut().enumerate() {
        match giver.take_first() {
            Some(position) => *place = position,
            None => return index,
        }
    }
    positions.len()
}

// The same as `fill`, where words with many positions are given as a whole. After them a word's
// worth of positions is given one by one before words are looked at again.
#[inline(always)]
fn fill_by_words<G: Worded>(giver: &mut G, positions: &mut [usize]) -> usize {
    let mut count = 0;
    while count < positions.len() {
        count += giver.take_words(&mut positions[count..]);
        let end = count + BITS.min(positions.len() - count);
        count += fill(giver, &mut positions[count..end]);
        if count < end {
            break;
        }
    }
    count
}

// Writes the last positions left, the last one first, and returns how many.
#[inline(always)]
fn fill_back<G: Giver>(giver: G, positions: &mut [usize]) -> (usize, G) {
    let mut reversed = Reversed { giver };
    let count = fill(&mut reversed, positions);
    (count, reversed.giver)
}

// The same as `fill_back`, where words with many positions are given as a whole.
#[inline(always)]
fn fill_back_by_words<G: Worded>(giver: G, positions: &mut [usize]) -> (usize, G) {
    let mut backwards = Reversed { giver };
    let count = fill_by_words(&mut backwards, positions);
    (count, backwards.giver)
}

// The same as `fill_by_words`, where each place takes the low 32 bits of its position. As many
// positions as the buffer `wide` has room for are given to it, and then copied from there.
#[inline(always)]
fn fill_narrow<G: Worded>(giver: &mut G, wide: &mut [usize], positions: &mut [u32]) -> usize {
    let mut count = 0;
    while count < positions.len() {
        let room = wide.len().min(positions.len() - count);
        let given = fill_by_words(giver, &mut wide[..room]);
        narrow(&mut positions[count..count + given], &wide[..given]);
        count += given;
        if given < room {
            break;
        }
    }
    count
}

// The same by the longer buffer. It stands out of line, since a call for a few positions would else
// clear that buffer too.
#[inline(never)]
fn fill_many(ones: &mut Ones<'_>, positions: &mut [u32]) -> usize {
    fill_narrow(ones, &mut [0; MANY], positions)
}

// Writes the low 32 bits of each position to its place.
#[inline(always)]
fn narrow(places: &mut [u32], positions: &[usize]) {
    for (index, position) in positions.iter().enumerate() {
        places[index] = (*position & LOW) as u32;
    }
}

// The same as `fill`, where the positions of a second giver stand after those of the first.
#[inline(always)]
fn fill_both<A: Giver, B: Giver>(first: &mut A, second: &mut B, positions: &mut [usize]) -> usize {
    let count = fill(first, positions);
    let (_, room) = positions.split_at_mut(count);
    count + fill(second, room)
}

// The same from the end, the last position of the second giver first.
#[inline(always)]
fn fill_both_back<A: Giver, B: Giver>(
    first: A,
    second: B,
    positions: &mut [usize],
) -> (usize, A, B) {
    let mut front = Reversed { giver: second };
    let mut back = Reversed { giver: first };
    let count = fill_both(&mut front, &mut back, positions);
    (count, back.giver, front.giver)
}

/// Writes the first positions that are left to `positions`, as many as there is room for or as are
/// left, and returns how many.
pub fn bits_ones_take(walk: &mut Ones<'_>, positions: &mut [usize]) -> usize {
    let mut ones = Ones::of(walk.cursor());
    let count = fill_by_words(&mut ones, positions);
    *walk = ones;
    count
}

/// Like `bits_ones_take`, in half of the memory: each place holds the low 32 bits of its position,
/// which are the position itself in a set of at most 2^32 bits.
pub fn bits_ones_take_u32(walk: &mut Ones<'_>, positions: &mut [u32]) -> usize {
    let mut ones = Ones::of(walk.cursor());
    let count = if positions.len() > FEW {
        fill_many(&mut ones, positions)
    } else {
        fill_narrow(&mut ones, &mut [0; FEW], positions)
    };
    *walk = ones;
    count
}

/// Writes the last positions that are left to `positions`, the last first, as many as there is room
/// for or as are left, and returns how many.
pub fn bits_ones_take_back(walk: &mut Ones<'_>, positions: &mut [usize]) -> usize {
    let (count, ones) = fill_back_by_words(Ones::of(walk.cursor()), positions);
    *walk = ones;
    count
}

/// Writes the first positions that are left to `positions`, as many as there is room for or as are
/// left, and returns how many.
pub fn bits_zeroes_take(walk: &mut Zeroes<'_>, positions: &mut [usize]) -> usize {
    let mut zeroes = Zeroes::of(walk.cursor());
    let count = fill_by_words(&mut zeroes, positions);
    *walk = zeroes;
    count
}

/// Writes the last positions that are left to `positions`, the last first, as many as there is room
/// for or as are left, and returns how many.
pub fn bits_zeroes_take_back(walk: &mut Zeroes<'_>, positions: &mut [usize]) -> usize {
    let (count, zeroes) = fill_back_by_words(Zeroes::of(walk.cursor()), positions);
    *walk = zeroes;
    count
}

/// Writes the first positions that are left to `positions`, as many as there is room for or as are
/// left, and returns how many.
pub fn bits_intersection_take(walk: &mut Sieve<'_>, positions: &mut [usize]) -> usize {
    let mut shared = walk.cursor::<And>();
    let count = fill(&mut shared, positions);
    *walk = Sieve::of(shared);
    count
}

/// Writes the last positions that are left to `positions`, the last first, as many as there is room
/// for or as are left, and returns how many.
pub fn bits_intersection_take_back(
    walk: &mut Sieve<'_>,
    positions: &mut [usize],
) -> usize {
    let (count, shared) = fill_back(walk.cursor::<And>(), positions);
    *walk = Sieve::of(shared);
    count
}

/// Writes the first positions that are left to `positions`, as many as there is room for or as are
/// left, and returns how many.
pub fn bits_difference_take(walk: &mut Sieve<'_>, positions: &mut [usize]) -> usize {
    let mut lacked = walk.cursor::<AndNot>();
    let count = fill(&mut lacked, positions);
    *walk = Sieve::of(lacked);
    count
}

/// Writes the last positions that are left to `positions`, the last first, as many as there is room
/// for or as are left, and returns how many.
pub fn bits_difference_take_back(walk: &mut Sieve<'_>, positions: &mut [usize]) -> usize {
    let (count, lacked) = fill_back(walk.cursor::<AndNot>(), positions);
    *walk = Sieve::of(lacked);
    count
}

/// Writes the first positions that are left to `positions`, as many as there is room for or as are
/// left, and returns how many.
pub fn bits_union_take(walk: &mut Pair<'_>, positions: &mut [usize]) -> usize {
    let mut first = walk.first.walk.cursor();
    let mut second = walk.second.cursor::<AndNot>();
    let count = fill_both(&mut first, &mut second, positions);
    walk.first.walk = Ones::of(first);
    walk.second = Sieve::of(second);
    count
}

/// Writes the last positions that are left to `positions`, the last first, as many as there is room
/// for or as are left, and returns how many.
pub fn bits_union_take_back(walk: &mut Pair<'_>, positions: &mut [usize]) -> usize {
    let first = walk.first.walk.cursor();
    let second = walk.second.cursor::<AndNot>();
    let (count, first, second) = fill_both_back(first, second, positions);
    walk.first.walk = Ones::of(first);
    walk.second = Sieve::of(second);
    count
}

/// Writes the first positions that are left to `positions`, as many as there is room for or as are
/// left, and returns how many.
pub fn bits_symmetric_difference_take(
    walk: &mut Pair<'_>,
    positions: &mut [usize],
) -> usize {
    let mut first = walk.first.cursor::<AndNot>();
    let mut second = walk.second.cursor::<AndNot>();
    let count = fill_both(&mut first, &mut second, positions);
    walk.first = Sieve::of(first);
    walk.second = Sieve::of(second);
    count
}

/// Writes the last positions that are left to `positions`, the last first, as many as there is room
/// for or as are left, and returns how many.
pub fn bits_symmetric_difference_take_back(
    walk: &mut Pair<'_>,
    positions: &mut [usize],
) -> usize {
    let first = walk.first.cursor::<AndNot>();
    let second = walk.second.cursor::<AndNot>();
    let (count, first, second) = fill_both_back(first, second, positions);
    walk.first = Sieve::of(first);
    walk.second = Sieve::of(second);
    count
}
