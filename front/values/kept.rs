//! What the functions of `sums` use: a trait, and types with ghost fields and members.
ghost use Rattle.std.specs.Prelude.{ℕ, ◌≡◌, ◌≤◌};

use std::marker::{Model, PhantomData};
use std::ops::{Range, RangeTo, RangeToInclusive};

/// What is looked at by a method alone.
pub trait Looked {
    ghost most: { ℕ };

    const STEP: usize;

    /// What is seen.
    fn look(&self) -> usize;

    fn look_twice(&self) -> usize {
        self.look() / 2 + self.look() / 2
    }
}

/// A number with a bound that only proofs read.
#[derive(Drop)]
pub struct Kept {
    pub count: usize,
    pub ghost fits: { count ≤ 100 },
}

impl Model for Kept {
    ghost Value = { ℕ };

    ghost view = { λ kept. kept.count };
}

impl Looked for Kept {
    // The mark.
    ghost most = { 100 };

    const STEP: usize = 3;

    #[inline]
    fn look(&self) -> usize {
        self.count
    }
}

impl Kept {
    /// Puts one in the place of another.
    pub fn put(&mut self, count: usize) -> usize
        requires { count ≤ 100 }
        ensures { self.new.count ≡ count }
    {
        std::mem::replace(&mut self.count, count)
    }
}

/// A walk from one number down to another, from both ends.
#[derive(Drop)]
pub struct Walk<L: Looked + Drop> {
    pub low: usize,
    pub high: usize,
    pub looked: PhantomData<L>,
}

impl<L: Looked + Drop> Iterator for Walk<L> {
    type Item = usize;

    fn next(&mut self) -> Option<usize> {
        if self.low >= self.high {
            return None;
        }
        self.high -= 1;
        Some(self.high * L::STEP)
    }
}

impl<L: Looked + Drop> DoubleEndedIterator for Walk<L> {
    fn next_back(&mut self) -> Option<usize> {
        if self.low < self.high {
            self.low += 1;
            Some((self.low - 1) * L::STEP)
        } else {
            None
        }
    }
}

#[derive(Clone, Copy)]
pub enum Way {
    Up,
    Down,
    By(usize),
}

/// Two ends, each of which may be absent.
pub trait IndexRange<T> {
    fn start(&self) -> Option<T>;

    fn end(&self) -> Option<T>;
}

impl<T: Copy> IndexRange<T> for Range<T> {
    fn start(&self) -> Option<T> {
        Some(self.start)
    }

    fn end(&self) -> Option<T> {
        Some(self.end)
    }
}

impl<T: Copy> IndexRange<T> for RangeTo<T> {
    fn start(&self) -> Option<T> {
        None
    }

    fn end(&self) -> Option<T> {
        Some(self.end)
    }
}

impl IndexRange<usize> for RangeToInclusive<usize> {
    fn start(&self) -> Option<usize> {
        None
    }

    fn end(&self) -> Option<usize> {
        Some(self.end.saturating_add(1))
    }
}
