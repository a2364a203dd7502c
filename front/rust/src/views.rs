//! Sets over words that someone else owns. Upstream has none.
use crate::proved::bitlanes::Steps;
use crate::proved::fixedbitset::{set, views};
use crate::{Block, FixedBitSet};
use core::cmp::Ordering;
use core::hash::{Hash, Hasher};

/// A set over borrowed words, to be read: to a [`FixedBitSet`] what a slice is to a `Vec`.
///
/// It has each call of a set that changes nothing and does not allocate. Its words are those of a set: whole lanes of four, as
/// many as the length needs ([`storage_words`]), with no bit past the length. So a set can stand in words that were read from a
/// file, with no copy of them. Where the docs of a call count steps, a step is a look at one lane, unless they say otherwise.
///
/// Proved: of each call what its page says ([contract](crate::contracts#fixedbitsetbits)).
///
/// ```
/// use fixedbitset::{Bits, Block};
/// # let path = std::env::temp_dir().join(format!("words-of-a-set-{}", std::process::id()));
/// # std::fs::write(&path, [9, 6, 0, 0].map(u64::to_le_bytes).concat())?;
///
/// let bytes = std::fs::read(&path)?;
/// let word = |bytes: &[u8]| Block::from_le_bytes(bytes.try_into().unwrap());
/// let words: Vec<Block> = bytes.chunks_exact(8).map(word).collect();
///
/// let set = Bits::over(&words, 70).ok_or("these are no words of a set of length 70")?;
/// assert_eq!(set.count_ones(3..), 3);
/// assert_eq!(format!("{set:?}"), "Bits { length: 70, ones: {0, 3, 65, 66} }");
/// assert_eq!(Bits::over(&words, 66), None);
/// # std::fs::remove_file(&path)?;
/// # Ok::<(), Box<dyn std::error::Error>>(())
/// ```
#[derive(Clone, Copy)]
pub struct Bits<'a> {
    pub(crate) view: views::Bits<'a>,
}

/// A set over borrowed words, to be changed: to a [`FixedBitSet`] what a slice `&mut [T]` is to a `Vec`.
///
/// It has each call of a set that changes it and does not allocate, and [`as_bits`](Self::as_bits) returns it to those that read.
/// Its length stays. Steps are those of [`Bits`]. The words cannot be made invalid through it:
///
/// ```compile_fail,E0616
/// let mut words = [0; 4];
/// fixedbitset::BitsMut::settle(&mut words, 70, 70).view.words[3] = 1;
/// ```
///
/// Proved: of each call what its page says ([contract](crate::contracts#fixedbitsetbitsmut)).
///
/// ```
/// # use fixedbitset::BitsMut;
/// let mut words = [0; 4];
/// let mut set = BitsMut::settle(&mut words, 70, 0);
/// set.insert_range(62..66);
/// assert_eq!(format!("{set:?}"), "BitsMut { length: 70, ones: {62, 63, 64, 65} }");
/// assert_eq!(words, [3 << 62, 3, 0, 0]);
/// ```
pub struct BitsMut<'a> {
    pub(crate) view: views::BitsMut<'a>,
}

/// How many words a set of this length keeps: those that the length needs, and up to three more that make whole lanes of
/// four.
///
/// Proved: the result, for all numbers ([contract](crate::contracts#fixedbitsetviewsstorage_words)).
///
/// ```
/// # use fixedbitset::storage_words;
/// static WORDS: [fixedbitset::Block; storage_words(100)] = [9, 1 << 35, 0, 0];
/// assert!(fixedbitset::Bits::over(&WORDS, 100).is_some());
/// assert_eq!([0, 1, 256, 257].map(storage_words), [0, 4, 4, 8]);
/// ```
#[inline]
#[must_use]
pub const fn storage_words(bits: usize) -> usize {
    views::storage_words(bits)
}

impl FixedBitSet {
    /// The set as one over borrowed words, to be changed. Its length stays.
    ///
    /// Not proved: it returns the words that are kept.
    ///
    /// ```
    /// # use fixedbitset::{Bits, FixedBitSet};
    /// let mut set = FixedBitSet::with_capacity(4);
    /// set.as_bits_mut().union_with(Bits::over(&[5, 0, 0, 0], 3).unwrap());
    /// assert_eq!(set.to_string(), "1010");
    /// ```
    #[inline]
    pub fn as_bits_mut(&mut self) -> BitsMut<'_> {
        lent_mut(&mut self.set)
    }
}

/// A proved set as one over borrowed words, to be read.
#[inline]
pub(crate) fn lent(set: &set::FixedBitSet) -> Bits<'_> {
    let view = set.as_bits();
    Bits { view }
}

/// The same, to be changed.
#[inline]
pub(crate) fn lent_mut(set: &mut set::FixedBitSet) -> BitsMut<'_> {
    let (words, length) = (&mut *set.words, set.length);
    let view = views::BitsMut { words, length };
    BitsMut { view }
}

/// Proved: the set, for all sets ([contract](crate::contracts#fixedbitsetfixedbitsetfrom_bits)).
impl From<Bits<'_>> for FixedBitSet {
    /// A copy.
    fn from(set: Bits<'_>) -> Self {
        FixedBitSet::from_bits(set)
    }
}

/// Proved: the result, for any two sets ([contract](crate::contracts#fixedbitsetbitsis_equal)).
impl PartialEq for Bits<'_> {
    #[inline]
    fn eq(&self, other: &Self) -> bool {
        self.view.is_equal(other.view, &mut Steps::new())
    }
}

/// Proved: that sets are equal exactly where their lengths and their positions are
/// ([contract](crate::contracts#fixedbitsetbitsis_equal)).
impl Eq for Bits<'_> {}

/// Proved: the result, which is that of [`Ord`] ([contract](crate::contracts#fixedbitsetbitscompare)).
impl PartialOrd for Bits<'_> {
    #[inline]
    fn partial_cmp(&self, other: &Self) -> Option<Ordering> {
        Some(self.cmp(other))
    }
}

/// Proved: the result, for any two sets ([contract](crate::contracts#fixedbitsetbitscompare)).
impl Ord for Bits<'_> {
    #[inline]
    fn cmp(&self, other: &Self) -> Ordering {
        self.view.compare(other.view, &mut Steps::new())
    }
}

/// Proved: the words ([contract](crate::contracts#fixedbitsetbitsas_slice)). That they are fed after the length is not.
impl Hash for Bits<'_> {
    /// Feeds the length, and then the words that it needs as one slice. (Its length says how many they are.)
    #[inline]
    fn hash<H: Hasher>(&self, state: &mut H) {
        self.len().hash(state);
        Block::hash_slice(self.as_slice(), state);
    }
}

/// Proved: the words ([contract](crate::contracts#fixedbitsetbitsas_slice)). That they are fed after the length is not.
impl Hash for FixedBitSet {
    #[inline]
    fn hash<H: Hasher>(&self, state: &mut H) {
        self.as_bits().hash(state);
    }
}

/// Proved: the result, for any two sets ([contract](crate::contracts#fixedbitsetbitsis_equal)). A set with a view on its right
/// cannot be: `set == positions.collect()` would no longer say what is collected.
impl PartialEq<FixedBitSet> for Bits<'_> {
    #[inline]
    fn eq(&self, other: &FixedBitSet) -> bool {
        *self == other.as_bits()
    }
}

/// Proved: the result, for any two sets ([contract](crate::contracts#fixedbitsetbitsis_equal)).
impl PartialEq for BitsMut<'_> {
    #[inline]
    fn eq(&self, other: &Self) -> bool {
        self.as_bits() == other.as_bits()
    }
}

/// Proved: that sets are equal exactly where their lengths and their positions are
/// ([contract](crate::contracts#fixedbitsetbitsis_equal)).
impl Eq for BitsMut<'_> {}
