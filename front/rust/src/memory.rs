//! Memory that is refused: told to who asks, and else the end of the program, as by Rust's own collections. And memory of a set
//! that is allocated ahead, given back, taken over from a vector, and made one.
use crate::proved::bitlanes::word::BITS;
use crate::proved::fixedbitset::{set, views};
use crate::{panics, shim, storage_words, AllocError, Block, ExtendFault, FixedBitSet};
use alloc::vec::Vec;
use core::alloc::Layout;
use core::fmt::{Display, Formatter, Result as Written};
use core::mem::discriminant;
#[cfg(feature = "std")]
use std::error::Error;

impl AllocError {
    /// How many bytes the call needed.
    ///
    /// Not proved: it returns the number that is kept.
    ///
    /// ```
    /// # use fixedbitset::FixedBitSet;
    /// let refused = FixedBitSet::try_with_capacity(usize::MAX).unwrap_err();
    /// assert_eq!(refused.bytes(), 1 << (usize::BITS - 3));
    /// ```
    #[must_use]
    pub fn bytes(&self) -> usize {
        self.bytes
    }
}

/// Not proved: it prints the number.
impl Display for AllocError {
    /// That an allocation failed, and how much.
    fn fmt(&self, f: &mut Formatter<'_>) -> Written {
        write!(f, "memory of {} bytes was refused", self.bytes)
    }
}

/// Not proved: it prints a sentence.
impl Display for ExtendFault {
    /// What stopped the call.
    fn fmt(&self, f: &mut Formatter<'_>) -> Written {
        f.write_str(match self {
            ExtendFault::Position => "no set has the position usize::MAX",
            ExtendFault::Memory => "memory was refused",
        })
    }
}

/// Declares that an error is one of Rust's, and that two are equal where this part of both is.
macro_rules! errors {
    ($($name:ident: $part:expr;)*) => { $(
        /// Not proved: it has no call of its own.
        #[cfg(feature = "std")]
        impl Error for $name {}

        /// Not proved: it compares what the error has.
        impl PartialEq for $name {
            fn eq(&self, other: &Self) -> bool {
                $part(self) == $part(other)
            }
        }

        /// Not proved: it has no call of its own.
        impl Eq for $name {}
    )* };
}
errors! {
    AllocError: AllocError::bytes;
    ExtendFault: discriminant;
}

/// What a call returns that may fail to allocate, for one that ends the program then.
pub(crate) trait OrAbort<T> {
    fn or_abort(self) -> T;
}

impl<T> OrAbort<T> for Result<T, AllocError> {
    #[inline]
    #[track_caller]
    fn or_abort(self) -> T {
        match self {
            Ok(made) => made,
            Err(refused) => abort(refused.bytes),
        }
    }
}

impl<T> OrAbort<T> for Result<T, ExtendFault> {
    #[inline]
    #[track_caller]
    fn or_abort(self) -> T {
        match self {
            Ok(made) => made,
            Err(ExtendFault::Position) => panics::no_position(),
            Err(ExtendFault::Memory) => abort(core::mem::size_of::<Block>()), // (of how many is not known here)
        }
    }
}

/// What Rust's own collections do where this many bytes are refused, or are more than any memory has.
#[cold]
#[inline(never)]
#[track_caller]
fn abort(bytes: usize) -> ! {
    match Layout::array::<u8>(bytes) {
        Ok(layout) => alloc::alloc::handle_alloc_error(layout),
        Err(_) => panics::no_memory(),
    }
}

impl FixedBitSet {
    /// [`clone`](Clone::clone), which says where an allocation fails.
    ///
    /// Proved: the set, for all sets ([contract](crate::contracts#fixedbitsetfixedbitsetfrom_bits)).
    ///
    /// ```
    /// # use fixedbitset::FixedBitSet;
    /// let set: FixedBitSet = [3, 64].into_iter().collect();
    /// assert_eq!(set.try_clone()?, set);
    /// # Ok::<(), fixedbitset::AllocError>(())
    /// ```
    #[inline]
    pub fn try_clone(&self) -> Result<Self, AllocError> {
        Self::try_from_bits(self.as_bits())
    }

    /// For how many bits the set has memory. A change that leaves no greater length does not allocate.
    ///
    /// It is a multiple of 256, the bits of four words, or `usize::MAX`.
    ///
    /// Not proved: it is the capacity of the vector.
    ///
    /// ```
    /// # use fixedbitset::FixedBitSet;
    /// let mut set = FixedBitSet::with_capacity(300);
    /// assert!(set.capacity() >= 512);
    /// set.try_grow(set.capacity()).expect("the memory is there");
    /// ```
    #[inline]
    #[must_use]
    pub fn capacity(&self) -> usize {
        let words = self.set.words.capacity();
        (words - words % storage_words(1)).saturating_mul(BITS)
    }

    /// Allocates for a length that is greater by `additional` bits, or for more. The length stays. It writes no word, but the
    /// old ones where the allocation has to move.
    ///
    /// Afterwards [`capacity`](Self::capacity) is not less than that length, which is `usize::MAX` at most. If an allocation
    /// fails, the program ends; [`try_reserve`](Self::try_reserve) returns an error instead.
    ///
    /// Not proved: it is the call of the vector.
    ///
    /// ```
    /// # use fixedbitset::FixedBitSet;
    /// let mut set = FixedBitSet::new();
    /// set.reserve(1_000);
    /// assert!(set.is_empty() && set.capacity() >= 1_000);
    /// ```
    #[inline]
    pub fn reserve(&mut self, additional: usize) {
        self.try_reserve(additional).or_abort();
    }

    /// [`reserve`](Self::reserve), which returns an error if an allocation fails. The set is then as it was.
    ///
    /// Not proved: it is the call of the vector.
    ///
    /// ```
    /// # use fixedbitset::FixedBitSet;
    /// let mut set = FixedBitSet::with_capacity(70);
    /// set.try_reserve(1_000)?;
    /// assert!(set.len() == 70 && set.try_reserve(usize::MAX).is_err());
    /// # Ok::<(), fixedbitset::AllocError>(())
    /// ```
    #[inline]
    pub fn try_reserve(&mut self, additional: usize) -> Result<(), AllocError> {
        let count = storage_words(self.len().saturating_add(additional));
        self.set.words.reserve(count - self.set.words.len())
    }

    /// Gives back the memory that the length does not need. Where there is some, it copies each word once, and until then has
    /// both allocations.
    ///
    /// If an allocation fails, the program ends; [`try_shrink_to_fit`](Self::try_shrink_to_fit) returns an error instead.
    ///
    /// Proved: the set, for all sets ([contract](crate::contracts#fixedbitsetfixedbitsetfrom_bits)).
    ///
    /// ```
    /// # use fixedbitset::FixedBitSet;
    /// let mut set: FixedBitSet = [3, 10_000].into_iter().collect();
    /// set.truncate(70);
    /// set.shrink_to_fit();
    /// assert!(set[3] && set.capacity() < 10_000);
    /// ```
    #[inline]
    pub fn shrink_to_fit(&mut self) {
        self.try_shrink_to_fit().or_abort();
    }

    /// [`shrink_to_fit`](Self::shrink_to_fit), which returns an error if an allocation fails. The set is then as it was.
    ///
    /// Proved: the set, for all sets ([contract](crate::contracts#fixedbitsetfixedbitsetfrom_bits)).
    ///
    /// ```
    /// # use fixedbitset::FixedBitSet;
    /// let mut set: FixedBitSet = [3, 10_000].into_iter().collect();
    /// set.truncate(70);
    /// set.try_shrink_to_fit()?;
    /// assert!(set[3] && set.capacity() < 10_000);
    /// # Ok::<(), fixedbitset::AllocError>(())
    /// ```
    pub fn try_shrink_to_fit(&mut self) -> Result<(), AllocError> {
        if self.set.words.capacity() > self.set.words.len() {
            *self = self.try_clone()?;
        }
        Ok(())
    }

    /// A set of `bits` positions in the memory of a vector, whose items are its words. Words that are lacking are 0.
    ///
    /// No word is copied where the vector has the capacity of [`storage_words`]. Words past the length are dropped, and bits
    /// past it cleared, as by [`with_capacity_and_blocks`](Self::with_capacity_and_blocks). It writes the words that are
    /// lacking, and at most four more.
    ///
    /// If an allocation fails, the program ends; [`try_from_words`](Self::try_from_words) returns an error instead.
    ///
    /// Proved: that the bits below the length stay, and those past it do not, for all words of this count
    /// ([contract](crate::contracts#fixedbitsetbitsmutsettle)). That words are dropped and added is not.
    ///
    /// ```
    /// # use fixedbitset::FixedBitSet;
    /// let set = FixedBitSet::from_words(vec![1, 255, 5], 67);
    /// assert_eq!((set.as_slice(), set.len()), ([1, 7].as_slice(), 67));
    /// ```
    #[inline]
    #[must_use]
    pub fn from_words(words: Vec<Block>, bits: usize) -> Self {
        Self::try_from_words(words, bits).or_abort()
    }

    /// [`from_words`](Self::from_words), which returns an error if an allocation fails. The vector is then gone.
    ///
    /// Proved: that the bits below the length stay, and those past it do not, for all words of this count
    /// ([contract](crate::contracts#fixedbitsetbitsmutsettle)). That words are dropped and added is not.
    ///
    /// ```
    /// # use fixedbitset::FixedBitSet;
    /// assert!(FixedBitSet::try_from_words(vec![1, 255], 67)?[66]);
    /// assert!(FixedBitSet::try_from_words(vec![1, 255], usize::MAX).is_err());
    /// # Ok::<(), fixedbitset::AllocError>(())
    /// ```
    pub fn try_from_words(words: Vec<Block>, bits: usize) -> Result<Self, AllocError> {
        let mut words = shim::row::Vec(words);
        words.resize(storage_words(bits), 0)?;
        views::BitsMut::settle(&mut words, bits, bits);
        let set = set::FixedBitSet {
            words,
            length: bits,
        };
        Ok(FixedBitSet { set })
    }

    /// The words that [`as_slice`](Self::as_slice) has, in the set's memory: none is copied.
    ///
    /// The capacity is enough for [`from_words`](Self::from_words), which makes the same set of them with no copy.
    ///
    /// Proved: which words, for all sets ([contract](crate::contracts#fixedbitsetfixedbitsetas_slice)). That they are handed
    /// over is not.
    ///
    /// ```
    /// # use fixedbitset::FixedBitSet;
    /// let set: FixedBitSet = [0, 65].into_iter().collect();
    /// assert_eq!(set.clone().into_words(), [1, 2]);
    /// assert_eq!(FixedBitSet::from_words(set.clone().into_words(), 66), set);
    /// ```
    #[inline]
    #[must_use]
    pub fn into_words(self) -> Vec<Block> {
        let count = self.as_slice().len();
        let mut words = self.set.words.0;
        words.truncate(count);
        words
    }
}
