//! Sets whose words stand in themselves. Upstream has none.
use crate::proved::fixedbitset::views;
use crate::{storage_words, Bits, BitsMut, Block};
use core::cmp::Ordering;
use core::hash::{Hash, Hasher};

/// A bit set in an array: it is `Copy`, allocates nothing, and is a key that is quickly copied, hashed and compared.
///
/// `WORDS` is the [`storage_words`] of its length: 4 for 1 to 256 positions, 8 for up to 512. Its length stays. The calls that it
/// lacks are those of its views, [`as_bits`](Self::as_bits) and [`as_bits_mut`](Self::as_bits_mut). Sets are equal and ordered,
/// and feed a hasher, as [`FixedBitSet`](crate::FixedBitSet)s of the same length and positions do.
///
/// Proved: of each call what its page says ([contract](crate::contracts#fixedbitsetbits)).
///
/// ```
/// use fixedbitset::{storage_words, ArrayBitSet};
/// use std::collections::HashMap;
///
/// const STATES: usize = 100;
/// type Key = ArrayBitSet<{ storage_words(STATES) }>;
///
/// let mut numbers = HashMap::new();
/// let mut key = Key::new(STATES);
/// key.insert(70);
/// numbers.insert(key, 0);
/// key.insert(3); // (The map has a copy.)
/// assert_eq!(format!("{key:?}"), "ArrayBitSet { length: 100, ones: {3, 70} }");
/// assert!(!numbers.contains_key(&key));
/// ```
#[derive(Clone, Copy)]
pub struct ArrayBitSet<const WORDS: usize> {
    words: [Block; WORDS],
    length: usize,
}

impl<const WORDS: usize> ArrayBitSet<WORDS> {
    /// The set of this length with no position.
    ///
    /// **Panics** where the length needs another number of words, in a constant when it is compiled:
    ///
    /// ```compile_fail,E0080
    /// const NONE: fixedbitset::ArrayBitSet<4> = fixedbitset::ArrayBitSet::new(300); // a length that takes 8 words
    /// ```
    ///
    /// Not proved: it writes zeros.
    ///
    /// ```
    /// # use fixedbitset::ArrayBitSet;
    /// const NONE: ArrayBitSet<4> = ArrayBitSet::new(100);
    /// assert!(NONE.is_clear() && NONE.len() == 100);
    /// ```
    #[inline]
    #[must_use]
    #[track_caller]
    pub const fn new(length: usize) -> Self {
        // (A panic in a constant can format no number.)
        let count = storage_words(length);
        assert!(
            WORDS >= count,
            "the words are too few for the length, which takes length.div_ceil(256) * 4"
        );
        assert!(
            WORDS <= count,
            "the words are too many for the length, which takes length.div_ceil(256) * 4"
        );
        let words = [0; WORDS];
        ArrayBitSet { words, length }
    }

    /// The set with these words, or `None` where [`Bits::over`] refuses them: where the length needs another number of words, and
    /// where there is a bit past it.
    ///
    /// Proved: what is refused, for all words and all numbers ([contract](crate::contracts#fixedbitsetbitsover)).
    ///
    /// ```
    /// # use fixedbitset::ArrayBitSet;
    /// assert!(ArrayBitSet::over([8, 63, 0, 0], 70).unwrap()[3]);
    /// assert!(ArrayBitSet::over([8, 64, 0, 0], 70).is_none());
    /// ```
    #[inline]
    #[must_use]
    pub fn over(words: [Block; WORDS], length: usize) -> Option<Self> {
        Bits::over(&words, length)?;
        Some(ArrayBitSet { words, length })
    }

    /// A copy of a set, or `None` where its length needs another number of words.
    ///
    /// Proved: that the words are those of a set ([contract](crate::contracts#fixedbitsetbitsover)). That they are copied is not.
    ///
    /// ```
    /// # use fixedbitset::{ArrayBitSet, FixedBitSet};
    /// let set = FixedBitSet::from([3, 70]);
    /// let key = ArrayBitSet::<4>::from_bits(set.as_bits()).unwrap();
    /// assert_eq!(FixedBitSet::from_bits(key.as_bits()), set);
    /// ```
    #[inline]
    #[must_use]
    pub fn from_bits(set: Bits<'_>) -> Option<Self> {
        Self::over(set.view.words.try_into().ok()?, set.len())
    }

    /// [`FixedBitSet::len`](crate::FixedBitSet::len).
    ///
    /// Not proved: it returns the number that is kept.
    ///
    /// ```
    /// assert_eq!(fixedbitset::ArrayBitSet::<4>::new(100).len(), 100);
    /// ```
    #[inline]
    #[must_use]
    pub const fn len(&self) -> usize {
        self.length
    }

    /// [`FixedBitSet::is_empty`](crate::FixedBitSet::is_empty).
    ///
    /// Not proved: it compares the number that is kept.
    ///
    /// ```
    /// assert!(fixedbitset::ArrayBitSet::<0>::new(0).is_empty());
    /// ```
    #[inline]
    #[must_use]
    pub const fn is_empty(&self) -> bool {
        self.length == 0
    }

    /// The set as one over borrowed words, to be read.
    ///
    /// Not proved: it returns the words that are kept.
    ///
    /// ```
    /// # use fixedbitset::{ArrayBitSet, FixedBitSet};
    /// let mut key = ArrayBitSet::<4>::new(71);
    /// key.extend([3, 70]);
    /// assert_eq!(key.as_bits(), FixedBitSet::from([3, 70]));
    /// ```
    #[inline]
    #[must_use]
    pub fn as_bits(&self) -> Bits<'_> {
        let (words, length) = (&self.words[..], self.length);
        let view = views::Bits { words, length };
        Bits { view }
    }

    /// The set as one over borrowed words, to be changed. Its length stays.
    ///
    /// Not proved: it returns the words that are kept.
    ///
    /// ```
    /// # use fixedbitset::ArrayBitSet;
    /// let mut key = ArrayBitSet::<4>::new(100);
    /// key.as_bits_mut().insert_all(&[3, 70]);
    /// assert_eq!(key.as_slice(), [8, 64]);
    /// ```
    #[inline]
    #[must_use]
    pub fn as_bits_mut(&mut self) -> BitsMut<'_> {
        let (words, length) = (&mut self.words[..], self.length);
        let view = views::BitsMut { words, length };
        BitsMut { view }
    }
}

/// Proved: the result, for any two sets ([contract](crate::contracts#fixedbitsetbitsis_equal)).
impl<const WORDS: usize> PartialEq for ArrayBitSet<WORDS> {
    #[inline]
    fn eq(&self, other: &Self) -> bool {
        self.as_bits() == other.as_bits()
    }
}

/// Proved: that sets are equal exactly where their lengths and their positions are
/// ([contract](crate::contracts#fixedbitsetbitsis_equal)).
impl<const WORDS: usize> Eq for ArrayBitSet<WORDS> {}

/// Proved: the result, which is that of [`Ord`] ([contract](crate::contracts#fixedbitsetbitscompare)).
impl<const WORDS: usize> PartialOrd for ArrayBitSet<WORDS> {
    #[inline]
    fn partial_cmp(&self, other: &Self) -> Option<Ordering> {
        Some(self.cmp(other))
    }
}

/// Proved: the result, for any two sets ([contract](crate::contracts#fixedbitsetbitscompare)).
impl<const WORDS: usize> Ord for ArrayBitSet<WORDS> {
    #[inline]
    fn cmp(&self, other: &Self) -> Ordering {
        self.as_bits().cmp(&other.as_bits())
    }
}

/// Proved: the words ([contract](crate::contracts#fixedbitsetbitsas_slice)). That they are fed after the length is not.
impl<const WORDS: usize> Hash for ArrayBitSet<WORDS> {
    #[inline]
    fn hash<H: Hasher>(&self, state: &mut H) {
        self.as_bits().hash(state);
    }
}

/// Proved: what each position leaves ([contract](crate::contracts#fixedbitsetbitsmutinsert)).
impl<const WORDS: usize> Extend<usize> for ArrayBitSet<WORDS> {
    /// Sets each position. **Panics** at one that is at or past the length; those before it are then set.
    #[inline]
    #[track_caller]
    fn extend<I: IntoIterator<Item = usize>>(&mut self, positions: I) {
        for position in positions {
            self.insert(position);
        }
    }
}
