// Made by front/erase from crates/bitwalks/src/in_turn.rt: change that, and not this.
//! Two iterators in turn: from the front the first and then the second, from the back the second
//! and then the first.

use crate::proved::bitlanes::counter::Steps;
use crate::proved::bitwords::cursors::{Cursor, Middle};

/// An iterator that may be one of two in turn.
///
/// ```text
/// let mut walk = Cursor::over(Plain { words: [9, 1].iter() });
/// assert_eq!(Part::take_first(&mut walk), Some(0));
/// assert_eq!(Part::take_last(&mut walk), Some(64));
/// ```
pub trait Part {
    /// The first item left.
    fn take_first(&mut self) -> Option<usize>;

    /// The last item left.
    fn take_last(&mut self) -> Option<usize>;

    /// That number, which is not below the number of items left, where it is a `usize`.
    fn most(&self) -> Option<usize>;
}

impl<M: Middle> Part for Cursor<M> {
    #[inline]
    fn take_first(&mut self) -> Option<usize> {
        self.next()
    }

    #[inline]
    fn take_last(&mut self) -> Option<usize> {
        self.next_back()
    }

    #[inline]
    fn most(&self) -> Option<usize> {
        self.size_hint().1
    }
}

/// An iterator whose items left can be counted at once.
///
/// ```text
/// let walk = Cursor::over(Plain { words: [9, 1].iter() });
/// assert_eq!(Counted::count_items(walk, &mut Steps::new()), 3);
/// ```
pub trait Counted: Part {
    /// How many items are left. Precondition: this number fits `usize`.
    fn count_items(self, steps: &mut Steps) -> usize;
}

impl<M: Middle> Counted for Cursor<M> {
    #[inline]
    fn count_items(self, steps: &mut Steps) -> usize {
        self.count_left(steps)
    }
}

/// The items of the first iterator, and then those of the second.
///
/// ```text
/// let first = Cursor::over(Plain { words: [9, 1].iter() });
/// let second = Cursor::over(Plain { words: [6].iter() });
/// let mut walks = InTurn::of(first, second);
/// assert_eq!((walks.take_first(), walks.take_last()), (Some(0), Some(2)));
/// ```
#[derive(Clone)]
pub struct InTurn<A: Part, B: Part> {
    first: A,
    second: B,
    // Whether the first iterator may still have items: once it gave none, no call from the front
    // asks it again.
    first_left: bool,
}

impl<A: Part, B: Part> InTurn<A, B> {
    /// These two iterators, the first before the second.
    ///
    /// ```text
    /// let first = Cursor::over(Plain { words: [9, 1].iter() });
    /// let second = Cursor::over(Plain { words: [6].iter() });
    /// assert_eq!(InTurn::of(first, second).take_first(), Some(0));
    /// ```
    #[inline]
    pub fn of(first: A, second: B) -> InTurn<A, B> {
        InTurn {
            first,
            second,
            first_left: true,
        }
    }

    /// The first item that the first iterator has left, and once it has none, the first of the
    /// second. A first iterator that gave none is not asked again.
    ///
    /// ```text
    /// let first = Cursor::over(Plain { words: [8].iter() });
    /// let second = Cursor::over(Plain { words: [6].iter() });
    /// let mut walks = InTurn::of(first, second);
    /// assert_eq!((walks.take_first(), walks.take_first()), (Some(3), Some(1)));
    /// ```
    #[inline]
    pub fn take_first(&mut self) -> Option<usize> {
        // A loop of one turn at most, so that the compiler keeps the caller's numbers in registers.
        while self.first_left {
            if let Some(position) = self.first.take_first() {
                return Some(position);
            }
            self.first_left = false;
        }
        self.second.take_first()
    }

    /// The last item that the second iterator has left, and where it has none, the last of the
    /// first. A first iterator that gave none from the front is not asked again.
    ///
    /// ```text
    /// let first = Cursor::over(Plain { words: [8].iter() });
    /// let second = Cursor::over(Plain { words: [2].iter() });
    /// let mut walks = InTurn::of(first, second);
    /// assert_eq!((walks.take_last(), walks.take_last()), (Some(1), Some(3)));
    /// ```
    #[inline]
    pub fn take_last(&mut self) -> Option<usize> {
        if let Some(position) = self.second.take_last() {
            return Some(position);
        }
        if self.first_left {
            self.first.take_last()
        } else {
            None
        }
    }

    /// The sum of what both have, which is not below the number of items left,
    /// where it is a `usize`.
    ///
    /// ```text
    /// let first = Cursor::over(Plain { words: [9, 1].iter() });
    /// let second = Cursor::over(Plain { words: [6].iter() });
    /// assert_eq!(InTurn::of(first, second).most(), Some(256));
    /// ```
    #[inline]
    pub fn most(&self) -> Option<usize> {
        self.first.most()?.checked_add(self.second.most()?)
    }

    /// The two iterators, each with the items that it has left.
    ///
    /// ```text
    /// let first = Cursor::over(Plain { words: [9, 1].iter() });
    /// let second = Cursor::over(Plain { words: [6].iter() });
    /// let (first, _) = InTurn::of(first, second).into_walks();
    /// assert!(first.eq([0, 3, 64]));
    /// ```
    #[inline]
    pub fn into_walks(self) -> (A, B) {
        let InTurn {
            first,
            second,
            first_left: _,
        } = self;
        (first, second)
    }
}

impl<A: Counted, B: Counted> InTurn<A, B> {
    /// How many items both iterators have left. Precondition: this number fits `usize`. It takes
    /// exactly the steps of a count of the one and of the other.
    ///
    /// ```text
    /// let first = Cursor::over(Plain { words: [9, 1].iter() });
    /// let second = Cursor::over(Plain { words: [7].iter() });
    /// let mut walks = InTurn::of(first, second);
    /// assert_eq!(walks.take_first(), Some(0));
    /// assert_eq!(walks.count_left(&mut Steps::new()), 5);
    /// ```
    #[inline]
    pub fn count_left(self, steps: &mut Steps) -> usize {
        let (first, second) = self.into_walks();
        first.count_items(steps) + second.count_items(steps)
    }
}
