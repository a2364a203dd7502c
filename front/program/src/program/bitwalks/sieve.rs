// Made by front/erase from crates/bitwalks/src/sieve.rt: change that, and not this.
//! The iterator over one row of words, sieved by another one. Each iterator over two rows stands on
//! it.

use crate::program::bitwalks::in_turn::Part;
use crate::program::bitwalks::walks::Ones;
use crate::proved::bitlanes::counter::Steps;
use crate::proved::bitlanes::word::{BITS, Block};
use core::iter::FusedIterator;
use core::marker::PhantomData;

/// Which positions a sieve lets through.
///
/// ```text
/// assert!(<Shared as Choice>::passes(true));
/// assert!(<Lacked as Choice>::passes(false));
/// ```
pub trait Choice {
    fn passes(is_set: bool) -> bool;
}

/// The positions that the other row has.
#[derive(Clone)]
pub struct Shared;

impl Choice for Shared {
    #[inline(always)]
    fn passes(is_set: bool) -> bool {
        is_set
    }
}

/// The positions that the other row lacks.
#[derive(Clone)]
pub struct Lacked;

impl Choice for Lacked {
    #[inline(always)]
    fn passes(is_set: bool) -> bool {
        !is_set
    }
}

// Whether the position is set: `false` past the words. One test covers the places within them and
// past them, so that the compiler keeps no mark of whether a position was given.
#[inline(always)]
fn is_set(words: &[Block], position: usize) -> bool {
    let word = words.get(position / BITS).copied().unwrap_or(0);
    word & (1 << (position % BITS)) != 0
}

/// The positions of one row that pass, in ascending order.
///
/// ```text
/// let (words, other) = ([11, 1], [8]);
/// let mut walk = Difference::over(&words, &other);
/// assert_eq!((walk.next_back(), walk.next()), (Some(64), Some(0)));
/// ```
#[derive(Clone)]
pub struct Sieve<'a, C: Choice> {
    source: Ones<'a>,
    other: &'a [Block],
    asked: Steps,
    choice: PhantomData<C>,
}

impl<'a, C: Choice> Sieve<'a, C> {
    /// The iterator over the positions of `words`, sieved by `other`.
    ///
    /// ```text
    /// let (words, other) = ([11, 1], [8]);
    /// assert!(Intersection::over(&words, &other).eq([3]));
    /// assert!(Difference::over(&words, &other).eq([0, 1, 64]));
    /// ```
    #[inline]
    pub fn over(words: &'a [Block], other: &'a [Block]) -> Sieve<'a, C> {
        Sieve {
            source: Ones::over(words),
            other,
            asked: Steps::new(),
            choice: PhantomData,
        }
    }
}

impl<'a, C: Choice> Iterator for Sieve<'a, C> {
    type Item = usize;

    /// The first position left, or `None` where none is, and then for good. Each item that the
    /// source gives is looked up once; the source is called once for each, and once more at most.
    #[inline]
    fn next(&mut self) -> Option<usize> {
        while let Some(position) = self.source.next() {
            self.asked.tick();
            if C::passes(is_set(self.other, position)) {
                return Some(position);
            }
        }
        None
    }

    /// At least 0, and at most 64 for each word that the source holds or has not yet taken. The
    /// latter is `None` where it is no `usize`.
    #[inline]
    fn size_hint(&self) -> (usize, Option<usize>) {
        (0, self.source.size_hint().1)
    }
}

impl<'a, C: Choice> DoubleEndedIterator for Sieve<'a, C> {
    /// The last position left, or `None` where none is, and then for good.
    #[inline]
    fn next_back(&mut self) -> Option<usize> {
        while let Some(position) = self.source.next_back() {
            self.asked.tick();
            if C::passes(is_set(self.other, position)) {
                return Some(position);
            }
        }
        None
    }
}

impl<'a, C: Choice> FusedIterator for Sieve<'a, C> {}

impl<'a, C: Choice> Part for Sieve<'a, C> {
    #[inline]
    fn take_first(&mut self) -> Option<usize> {
        self.next()
    }

    #[inline]
    fn take_last(&mut self) -> Option<usize> {
        self.next_back()
    }

    #[inline]
    fn most(&self) -> Option<usize> {
        self.size_hint().1
    }
}
