//! What Rattle's `std` has and stable Rust has not: a lane of four words, a row of numbers whose calls return an error if an
//! allocation fails, and a snapshot of a value for proofs.

/// A word. On a target of 64 bits it is `usize`, as upstream's is.
#[cfg(target_pointer_width = "64")]
pub type Block = usize;

/// A word. It has 64 bits on each target.
#[cfg(not(target_pointer_width = "64"))]
pub type Block = u64;

/// From how many positions on a count goes by carries.
#[cfg(not(all(target_feature = "popcnt", not(target_feature = "avx2"))))]
pub const LONG: usize = 512 * 64;

/// From how many positions on a count goes by carries: never, for the processor counts the bits of a word as fast as it reads it.
#[cfg(all(target_feature = "popcnt", not(target_feature = "avx2")))]
pub const LONG: usize = usize::MAX;

/// What `use std::simd::prelude::*` names.
pub mod simd {
    pub mod prelude {
        pub use super::super::u64x4;
    }
}

/// A lane: four words. Its operations go word by word, and rustc makes vectors of them.
#[allow(non_camel_case_types)]
#[derive(Clone, Copy)]
pub struct u64x4([Block; 4]);

impl u64x4 {
    /// Four times this word.
    #[inline(always)]
    pub fn splat(word: Block) -> Self {
        u64x4([word; 4])
    }

    /// These words.
    #[inline(always)]
    pub fn from_array(words: [Block; 4]) -> Self {
        u64x4(words)
    }

    /// The words.
    #[inline(always)]
    pub fn to_array(self) -> [Block; 4] {
        self.0
    }

    /// The first four words of a row, which has to have as many.
    #[inline(always)]
    pub fn from_slice(words: &[Block]) -> Self {
        match words {
            [a, b, c, d, ..] => u64x4([*a, *b, *c, *d]),
            _ => short(),
        }
    }

    /// Writes the words over the first four of a row, which has to have as many.
    #[inline(always)]
    pub fn copy_to_slice(self, words: &mut [Block]) {
        match words {
            [a, b, c, d, ..] => [*a, *b, *c, *d] = self.0,
            _ => short(),
        }
    }

    /// The bits of any of the words.
    #[inline(always)]
    pub fn reduce_or(self) -> Block {
        let [a, b, c, d] = self.0;
        (a | b) | (c | d)
    }
}

/// The proved modules read and write lanes where there are four words.
#[cold]
#[inline(never)]
fn short() -> ! {
    panic!("a lane has four words")
}

/// The operators, on the words at one place of each lane.
macro_rules! operators {
    ($($name:ident $call:ident $operator:tt;)*) => { $(
        impl core::ops::$name for u64x4 {
            type Output = Self;

            #[inline(always)]
            fn $call(self, other: Self) -> Self {
                let ([a, b, c, d], [e, f, g, h]) = (self.0, other.0);
                u64x4([a $operator e, b $operator f, c $operator g, d $operator h])
            }
        }
    )* };
}
operators! {
    BitAnd bitand &;
    BitOr bitor |;
    BitXor bitxor ^;
    Shl shl <<;
    Shr shr >>;
}

impl core::ops::Not for u64x4 {
    type Output = Self;

    #[inline(always)]
    fn not(self) -> Self {
        let [a, b, c, d] = self.0;
        u64x4([!a, !b, !c, !d])
    }
}

pub mod snapshot {
    use core::marker::PhantomData;

    /// A value as it stood, which only proofs read. It takes no bytes.
    pub struct Snapshot<T>(PhantomData<T>);

    impl<T> Snapshot<T> {
        /// It looks at nothing.
        #[inline(always)]
        pub fn of(_: &T) -> Self {
            Snapshot(PhantomData)
        }
    }

    impl<T> Clone for Snapshot<T> {
        #[inline(always)]
        fn clone(&self) -> Self {
            Snapshot(PhantomData)
        }
    }
}

/// A number of rounds. (Of the proved `Steps` a program reads nothing: it takes no bytes.)
pub struct Steps(pub usize);

impl Steps {
    #[inline]
    pub fn new() -> Self {
        Steps(0)
    }

    #[inline]
    pub fn tick(&mut self) {
        self.0 += 1;
    }
}

/// The text of bytes that are ASCII.
#[inline]
pub fn text_of(digits: &[u8]) -> &str {
    core::str::from_utf8(digits).unwrap_or_default()
}

/// What `use std::alloc` names.
pub mod alloc {
    /// What a call does that takes memory of its own and is refused it. (Rattle's is the allocator.)
    #[derive(Clone, Copy)]
    pub enum Global {
        /// The call says so.
        Try,
        /// The program ends, as by Rust's own collections.
        Abort,
    }

    // (In Rattle all are equal, so no proved module may compare two. Its `PartialEq` stands in memory.rs: front/program and
    // front/c, which do not have that file, would not compile a module that did.)
    /// An allocation failed: by the allocator, or since no memory is so large. Two are equal where they have the same number of
    /// bytes.
    ///
    /// Not proved: it is a number.
    ///
    /// ```
    /// # use fixedbitset::FixedBitSet;
    /// let mut set = FixedBitSet::new();
    /// let refused = set.try_grow(1 << 40).is_err_and(|error| error.bytes() == 1 << 37);
    /// assert!(refused || set.len() == 1 << 40);
    /// ```
    #[derive(Clone, Copy, Debug)]
    pub struct AllocError {
        pub(crate) bytes: usize,
    }

    /// The error where there are more numbers than can be counted.
    #[allow(non_upper_case_globals)]
    pub(crate) const AllocError: AllocError = AllocError { bytes: usize::MAX };
}

/// What Rattle's prelude has and Rust's has not.
pub mod prelude {
    pub use super::row::Vec;

    /// A value that is copied by a call which may fail to allocate.
    pub trait Clone: Sized {
        fn clone(&self) -> Result<Self, super::alloc::AllocError>;
    }
}

/// A row of numbers. A call that may take memory asks for all of it first, and what follows is that of Rust's own `Vec`.
pub mod row {
    use super::alloc::{AllocError, Global};
    use alloc::{boxed::Box, vec};
    use core::alloc::Layout;
    use core::ops::{Deref, DerefMut};

    /// From so many numbers on a new row is zeroed by the allocator, which writes none of them. (For fewer that takes longer.)
    const LONG: usize = 8192;

    #[derive(Clone)]
    pub struct Vec<T>(pub(crate) vec::Vec<T>);

    impl<T> Vec<T> {
        pub const EMPTY: Self = Vec(vec::Vec::new());

        #[inline]
        pub fn new(_: Global) -> Self {
            Self::EMPTY
        }

        #[inline]
        pub fn with_capacity(alloc: Global, count: usize) -> Result<Self, AllocError> {
            match alloc {
                Global::Abort => Ok(Vec(vec::Vec::with_capacity(count))),
                Global::Try => Self::try_with_capacity(count),
            }
        }

        #[cold]
        #[inline(never)]
        fn try_with_capacity(count: usize) -> Result<Self, AllocError> {
            let mut row = vec::Vec::new();
            row.try_reserve_exact(count)
                .map_err(refused::<T, _>(count))?;
            Ok(Vec(row))
        }

        #[inline]
        pub fn push(&mut self, item: T) -> Result<(), AllocError> {
            if self.0.len() == self.0.capacity() {
                // (Rust's own vector would double too, but an error would not know that.)
                self.reserve(self.0.len().max(4))?;
            }
            self.0.push(item);
            Ok(())
        }

        #[inline]
        pub(crate) fn reserve(&mut self, more: usize) -> Result<(), AllocError> {
            let count = self.0.len().saturating_add(more);
            self.0.try_reserve(more).map_err(refused::<T, _>(count))
        }
    }

    impl<T: Copy> Vec<T> {
        /// What `vec![in alloc; item; count]` makes. No safe call of Rust gives zeroed memory or a refusal, so a long row is
        /// asked for, given back and taken again. (If another thread takes the memory in between, the program ends.)
        #[inline]
        pub fn filled(alloc: Global, item: T, count: usize) -> Result<Self, AllocError> {
            if count >= LONG {
                if let Global::Try = alloc {
                    drop(core::hint::black_box(Self::try_with_capacity(count)?));
                }
                return Ok(Vec(long(item, count)?.into_vec()));
            }
            let mut row = Self::with_capacity(alloc, count)?;
            row.0.resize(count, item);
            Ok(row)
        }

        #[inline]
        pub fn from_slice(alloc: Global, items: &[T]) -> Result<Self, AllocError> {
            let mut row = Self::with_capacity(alloc, items.len())?;
            row.0.extend_from_slice(items);
            Ok(row)
        }

        #[inline]
        pub fn from_clones(alloc: Global, items: &[T]) -> Result<Self, AllocError> {
            Self::from_slice(alloc, items)
        }

        #[inline]
        pub fn allocator(&self) -> &Global {
            &crate::ALLOCATOR_OF_ROWS
        }

        #[inline(always)]
        pub fn resize(&mut self, count: usize, item: T) -> Result<(), AllocError> {
            if count > self.0.len() {
                self.reserve(count - self.0.len())?;
                self.0.resize(count, item);
            } else {
                self.0.truncate(count);
            }
            Ok(())
        }

        #[inline]
        pub fn extend_from_slice(&mut self, items: &[T]) -> Result<(), AllocError> {
            self.reserve(items.len())?;
            self.0.extend_from_slice(items);
            Ok(())
        }

        /// It asks once, for as many items as the hint says at most. Without that it asks as they come, and keeps those that
        /// had room.
        #[inline]
        pub fn extend<I: Iterator<Item = T>>(&mut self, mut items: I) -> Result<(), AllocError> {
            let (least, most) = items.size_hint();
            self.reserve(most.unwrap_or(least))?;
            if most.is_none() {
                return items.try_for_each(|item| self.push(item));
            }
            self.0.extend(items);
            Ok(())
        }

        #[inline]
        pub fn into_iter(self) -> vec::IntoIter<T> {
            self.0.into_iter()
        }
    }

    /// A box, whose capacity is its length: rustc then keeps one number for both, also in a caller's loop.
    #[cold]
    #[inline(never)]
    fn long<T: Clone>(item: T, count: usize) -> Result<Box<[T]>, AllocError> {
        // (Rust's own vector would panic there, and name this file.)
        Layout::array::<T>(count).map_err(refused::<T, _>(count))?;
        Ok(alloc::vec![item; count].into_boxed_slice())
    }

    /// What makes the error where there is no memory for so many.
    fn refused<T, E>(count: usize) -> impl FnOnce(E) -> AllocError {
        let bytes = count.saturating_mul(core::mem::size_of::<T>());
        move |_| AllocError { bytes }
    }

    impl<T> Deref for Vec<T> {
        type Target = vec::Vec<T>;

        #[inline]
        fn deref(&self) -> &vec::Vec<T> {
            &self.0
        }
    }

    impl<T> DerefMut for Vec<T> {
        #[inline]
        fn deref_mut(&mut self) -> &mut vec::Vec<T> {
            &mut self.0
        }
    }

    /// What `vec![in alloc; item; count]` is in the proved modules.
    macro_rules! row {
        (in $alloc:expr; $item:expr; $count:expr) => {
            crate::shim::row::Vec::filled($alloc, $item, $count)
        };
    }
    pub(crate) use row;
}

pub(crate) use row::row;
