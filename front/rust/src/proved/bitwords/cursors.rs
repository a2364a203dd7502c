// Made by front/erase from crates/bitwords/src/cursors.rt: change that, and not this.
//! A cursor over the positions that are set in a row of words, in ascending order, from both ends.
//!
//! It holds the first and the last word of those left, without the bits that were given. The words
//! between them stand in a `Middle`, which says where they come from: a slice, a slice of inverted
//! words, two slices joined, or a vector that the cursor owns.

use crate::proved::bitwords::joins;
use crate::proved::bitlanes::counter::Steps;
use crate::proved::bitlanes::lanes;
use crate::proved::bitlanes::ops::WordOp;
use crate::proved::bitlanes::word::{BITS, Block, ones_below, stretch, take_highest_bit, take_lowest_bit};
use crate::shim::alloc::Global;
use core::marker::PhantomData;
use core::slice::Iter;
use alloc::vec;

/// Words that a cursor has still to take, from either end.
///
/// ```text
/// let mut middle = Plain { words: [3, 5, 7].iter() };
/// assert_eq!(Middle::take_first(&mut middle), Some(3));
/// assert_eq!(Middle::take_last(&mut middle), Some(7));
/// assert_eq!(Middle::left(&middle), 1);
/// assert_eq!(Middle::count_positions(middle, &mut Steps::new()), 2);
/// ```
pub trait Middle {
    /// Takes the first word, if there is one.
    fn take_first(&mut self) -> Option<Block>;

    /// Takes the last word, if there is one.
    fn take_last(&mut self) -> Option<Block>;

    /// How many words are left.
    fn left(&self) -> usize;

    /// How many positions the words left have. Precondition: they are below 2 ^ 58.
    ///
    /// It goes over words, and over no positions: it takes at most one step for each lane of four
    /// words, and one more.
    fn count_positions(self, steps: &mut Steps) -> usize;
}

/// Words that can be looked at before they are taken.
///
/// ```text
/// let middle = Plain { words: [3, 5, 7].iter() };
/// assert_eq!(Seen::peek(&middle, 1), Some(5));
/// assert_eq!(Seen::peek(&middle, 3), None);
/// ```
pub trait Seen: Middle {
    /// The word at this place of those left, or `None` past the last one.
    fn peek(&self, index: usize) -> Option<Block>;
}

/// Words of a slice.
///
/// ```text
/// let mut cursor = Cursor::over(Plain { words: [8, 0, 1].iter() });
/// assert_eq!(cursor.next_back(), Some(128));
/// assert!(cursor.eq([3]));
/// ```
#[derive(Clone)]
pub struct Plain<'a> {
    pub words: Iter<'a, Block>,
}

impl<'a> Middle for Plain<'a> {
    #[inline]
    fn take_first(&mut self) -> Option<Block> {
        let word = self.words.next()?;
        Some(*word)
    }

    #[inline]
    fn take_last(&mut self) -> Option<Block> {
        let word = self.words.next_back()?;
        Some(*word)
    }

    #[inline]
    fn left(&self) -> usize {
        self.words.len()
    }

    #[inline]
    fn count_positions(self, steps: &mut Steps) -> usize {
        count_of(self.words.as_slice(), steps)
    }
}

impl<'a> Seen for Plain<'a> {
    #[inline]
    fn peek(&self, index: usize) -> Option<Block> {
        self.words.as_slice().get(index).copied()
    }
}

/// Words of a slice, each bit inverted.
///
/// ```text
/// let words = [Block::MAX - 8];
/// let plain = Plain { words: words.iter() };
/// let cursor = Cursor::over(Inverted { plain });
/// assert!(cursor.eq([3]));
/// ```
#[derive(Clone)]
pub struct Inverted<'a> {
    pub plain: Plain<'a>,
}

impl<'a> Middle for Inverted<'a> {
    #[inline]
    fn take_first(&mut self) -> Option<Block> {
        Some(!self.plain.take_first()?)
    }

    #[inline]
    fn take_last(&mut self) -> Option<Block> {
        Some(!self.plain.take_last()?)
    }

    #[inline]
    fn left(&self) -> usize {
        self.plain.left()
    }

    #[inline]
    fn count_positions(self, steps: &mut Steps) -> usize {
        count_lacking(self.plain.words.as_slice(), steps)
    }
}

impl<'a> Seen for Inverted<'a> {
    #[inline]
    fn peek(&self, index: usize) -> Option<Block> {
        Some(!self.plain.peek(index)?)
    }
}

/// Words of a slice, each joined by `O` with the word at its place of another slice. Past the end
/// of that it is joined with 0.
///
/// So the positions of a word are looked up in the other slice at once, when the word is taken.
///
/// ```text
/// let beside = Beside::<AndNot>::of(&[11, 1], &[8]);
/// assert!(Cursor::over(beside).eq([0, 1, 64]));
/// ```
#[derive(Clone)]
pub struct Beside<'a, O> {
    pub plain: Plain<'a>,
    pub other: &'a [Block],
    operation: PhantomData<O>,
}

impl<'a, O: WordOp> Beside<'a, O> {
    /// The words of the first slice, each with the word at its place of the other one.
    ///
    /// ```text
    /// let beside = Beside::<And>::of(&[11, 1], &[8]);
    /// assert!(Cursor::over(beside).eq([3]));
    /// ```
    #[inline(always)]
    pub fn of(words: &'a [Block], other: &'a [Block]) -> Beside<'a, O> {
        let words = words.iter();
        Beside {
            plain: Plain { words },
            other,
            operation: PhantomData,
        }
    }
}

impl<'a, O: WordOp> Middle for Beside<'a, O> {
    #[inline]
    fn take_first(&mut self) -> Option<Block> {
        let word = self.plain.take_first()?;
        let Some((other, rest)) = self.other.split_first() else {
            return Some(O::word(word, 0));
        };
        self.other = rest;
        Some(O::word(word, *other))
    }

    #[inline]
    fn take_last(&mut self) -> Option<Block> {
        let word = self.plain.take_last()?;
        let other = self.other.get(self.plain.left());
        Some(O::word(word, other.copied().unwrap_or(0)))
    }

    #[inline]
    fn left(&self) -> usize {
        self.plain.left()
    }

    #[inline]
    fn count_positions(self, steps: &mut Steps) -> usize {
        count_beside::<O>(self.plain.words.as_slice(), self.other, steps)
    }
}

/// Words that the cursor owns.
impl Middle for vec::IntoIter<Block> {
    #[inline]
    fn take_first(&mut self) -> Option<Block> {
        self.next()
    }

    #[inline]
    fn take_last(&mut self) -> Option<Block> {
        self.next_back()
    }

    #[inline]
    fn left(&self) -> usize {
        self.len()
    }

    #[inline]
    fn count_positions(self, steps: &mut Steps) -> usize {
        let mut words = self;
        steps.tick_lanes(words.left());
        let mut total = 0;
        while let Some(word) = words.take_first() {
            total += word.count_ones() as usize;
        }
        total
    }
}

// How many positions a row of words has.
#[inline]
fn count_of(words: &[Block], steps: &mut Steps) -> usize {
    lanes::count_one(words, steps)
}

// How many positions it lacks.
#[inline]
fn count_lacking(words: &[Block], steps: &mut Steps) -> usize {
    BITS * words.len() - lanes::count_one(words, steps)
}

// How many it has once each word is joined by `O` with the word at its place of the other row.
#[inline]
fn count_beside<O: WordOp>(words: &[Block], other: &[Block], steps: &mut Steps) -> usize {
    let common = words.len().min(other.len());
    joins::count::<O>(words, &other[..common], steps)
}

// A row of words, cut into its ends and those between. For a word that isn't there, an end has 0.
#[derive(Clone)]
struct Ends<M> {
    front: Block,
    middle: M,
    back: Block,
}

#[inline(always)]
fn ends_of<M: Middle>(mut words: M) -> Ends<M> {
    let front = words.take_first().unwrap_or(0);
    let back = words.take_last().unwrap_or(0);
    Ends {
        front,
        middle: words,
        back,
    }
}

/// What a cursor holds, for a caller that keeps its fields and no cursor: the first and the
/// last word of those left without the bits that were given, the positions of their bits 0, and
/// the words between them.
#[derive(Clone)]
pub struct Held<M> {
    pub front: Block,
    pub back: Block,
    pub front_at: usize,
    pub back_at: usize,
    pub middle: M,
}

/// The positions set in a row of words, in ascending order, from both ends.
///
/// A call makes one turn, and one more for each word that it takes. The two counts take no bytes
/// when the program runs.
///
/// ```text
/// let words = [8, 0, 1].to_vec(alloc)?;
/// let mut cursor = Cursor::over(words.into_iter());
/// assert_eq!(cursor.next_back(), Some(128));
/// assert!(cursor.eq([3]));
/// ```
#[derive(Clone)]
pub struct Cursor<M: Middle> {
    // The first and the last word of those left, without the bits that were given.
    front: Block,
    back: Block,
    // The positions of their bits 0.
    front_at: usize,
    back_at: usize,
    // The words between them, which are not yet taken.
    middle: M,
    turns: Steps,
    taken: Steps,
}

impl<M: Middle> Cursor<M> {
    /// The positions set in the words. The first and the last word are read; those
    /// between are not yet taken.
    ///
    /// ```text
    /// let cursor = Cursor::over(Plain { words: [9, 0, 1].iter() });
    /// assert!(cursor.eq([0, 3, 128]));
    /// ```
    #[inline(always)]
    pub fn over(words: M) -> Cursor<M> {
        let ends = ends_of(words);
        let back_at = BITS * (ends.middle.left() + 1);
        Cursor::placed(ends, 0, back_at)
    }

    /// Those of the positions from `low` up to and without `end`, each moved up by `at`. `low` lies
    /// in the first word, and `end` in the last one or at its end.
    ///
    /// ```text
    /// let cursor = Cursor::within(Plain { words: [9, 255].iter() }, 640, 1, 66);
    /// assert!(cursor.eq([643, 704, 705]));
    /// ```
    #[inline(always)]
    pub fn within(words: M, at: usize, low: usize, end: usize) -> Cursor<M> {
        let back_at = at + BITS * words.left().saturating_sub(1);
        let mut ends = ends_of(words);
        let behind = BITS * (ends.middle.left() + 1);
        ends.front &= stretch(low, end.min(BITS));
        ends.back &= ones_below(end.saturating_sub(behind));
        Cursor::placed(ends, at, back_at)
    }

    /// What the cursor holds. `of_held` makes a cursor of it again, which has the same items left.
    ///
    /// ```text
    /// let mut cursor = Cursor::over(Plain { words: [9, 0, 1].iter() });
    /// assert_eq!(cursor.next(), Some(0));
    /// assert_eq!(cursor.into_held().front, 8);
    /// ```
    #[inline(always)]
    pub fn into_held(self) -> Held<M> {
        let Cursor {
            front,
            back,
            front_at,
            back_at,
            middle,
            turns: _,
            taken: _,
        } = self;
        Held {
            front,
            back,
            front_at,
            back_at,
            middle,
        }
    }

    /// The cursor that holds this. Its counts begin at 0.
    ///
    /// ```text
    /// let cursor = Cursor::over(Plain { words: [9, 0, 1].iter() });
    /// let held = cursor.into_held();
    /// assert!(Cursor::of_held(held).eq([0, 3, 128]));
    /// ```
    #[inline(always)]
    pub fn of_held(held: Held<M>) -> Cursor<M> {
        let Held {
            front,
            back,
            front_at,
            back_at,
            middle,
        } = held;
        Cursor {
            front,
            back,
            front_at,
            back_at,
            middle,
            turns: Steps::new(),
            taken: Steps::new(),
        }
    }

    /// How many positions are left. Precondition: this number fits `usize`.
    ///
    /// It goes over the words and over no positions: with `m` words between the two that the cursor
    /// holds it takes at most `m / 4` steps, rounded up, and two more: those of a count of these
    /// words ([`Middle::count_positions`]), and exactly one more.
    ///
    /// ```text
    /// let mut cursor = Cursor::over(Plain { words: [9, 7, 1].iter() });
    /// assert_eq!(cursor.next(), Some(0));
    /// assert_eq!(cursor.count_left(&mut Steps::new()), 5);
    /// ```
    #[inline]
    pub fn count_left(self, steps: &mut Steps) -> usize {
        let held = self.into_held();
        let ends = [held.front, held.back];
        held.middle.count_positions(steps) + lanes::count_one(&ends, steps)
    }

    // The words stand at these positions, the ones between the first and the last one after the
    // other.
    #[inline(always)]
    fn placed(ends: Ends<M>, front_at: usize, back_at: usize) -> Cursor<M> {
        Cursor {
            front: ends.front,
            back: ends.back,
            front_at,
            back_at,
            middle: ends.middle,
            turns: Steps::new(),
            taken: Steps::new(),
        }
    }
}

impl<M: Middle> Iterator for Cursor<M> {
    type Item = usize;

    /// The least position left, or `None` where none is, and then for good.
    #[inline]
    fn next(&mut self) -> Option<usize> {
        loop {
            self.turns.tick();
            if self.front != 0 {
                return Some(self.front_at + take_lowest_bit(&mut self.front));
            }
            match self.middle.take_first() {
                Some(word) => {
                    self.taken.tick();
                    self.front = word;
                    self.front_at += BITS;
                }
                None => {
                    if self.back == 0 {
                        return None;
                    }
                    let position = self.back_at + take_lowest_bit(&mut self.back);
                    // The last word comes to the front: its other bits are then given
                    // as those of every word.
                    self.front = self.back;
                    self.front_at = self.back_at;
                    self.back = 0;
                    return Some(position);
                }
            }
        }
    }

    /// At least 0, and at most 64 for each word not yet taken and for each of the two that the
    /// cursor holds. The latter is `None` where it is no `usize`.
    #[inline]
    fn size_hint(&self) -> (usize, Option<usize>) {
        (0, (self.middle.left() + 2).checked_mul(BITS))
    }
}

impl<M: Middle> DoubleEndedIterator for Cursor<M> {
    /// The greatest position left, or `None` where none is, and then for good.
    #[inline]
    fn next_back(&mut self) -> Option<usize> {
        loop {
            self.turns.tick();
            if self.back != 0 {
                return Some(self.back_at + take_highest_bit(&mut self.back));
            }
            match self.middle.take_last() {
                Some(word) => {
                    self.taken.tick();
                    self.back = word;
                    self.back_at -= BITS;
                }
                None => {
                    if self.front == 0 {
                        return None;
                    }
                    return Some(self.front_at + take_highest_bit(&mut self.front));
                }
            }
        }
    }
}

/// The positions of the row that are set, from `start` up to and without `end`. No other word than
/// those that hold a position of the range is looked at.
///
/// ```text
/// let cursor = cursors::ones_within(&[9, 0, 7], 3, 130);
/// assert!(cursor.eq([3, 128, 129]));
/// ```
#[inline(always)]
pub fn ones_within<'a>(words: &'a [Block], start: usize, end: usize) -> Cursor<Plain<'a>> {
    let first = start / BITS;
    let words = words[first..end.div_ceil(BITS)].iter();
    let at = BITS * first;
    Cursor::within(Plain { words }, at, start - at, end - at)
}

/// The positions of the row that are not set, from `start` up to and without `end`. No other word
/// than those that hold a position of the range is looked at.
///
/// ```text
/// let cursor = cursors::zeroes_within(&[Block::MAX, 5], 60, 68);
/// assert!(cursor.eq([65, 67]));
/// ```
#[inline(always)]
pub fn zeroes_within<'a>(words: &'a [Block], start: usize, end: usize) -> Cursor<Inverted<'a>> {
    let first = start / BITS;
    let plain = Plain {
        words: words[first..end.div_ceil(BITS)].iter(),
    };
    let at = BITS * first;
    Cursor::within(Inverted { plain }, at, start - at, end - at)
}
