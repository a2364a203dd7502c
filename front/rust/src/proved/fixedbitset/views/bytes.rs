// Made by front/erase from crates/fixedbitset/src/views/bytes.rt: change that, and not this.
//! A set as bytes of a caller's.

use crate::proved::fixedbitset::views::{Bits, BitsMut};
use crate::proved::bitjson::fills::{fill_bytes, fill_words};
use crate::proved::bitwords::positions;

impl BitsMut<'_> {
    /// Leaves the positions that bytes say: position `p` is set where bit `p % 8` of byte `p / 8`
    /// is. Bytes that are missing count as 0, and bits past the length are dropped.
    ///
    /// It looks at each byte at most once, and writes over each word.
    ///
    /// ```text
    /// let mut words = [0; 4];
    /// let mut set = BitsMut::settle(&mut words, 10, 10);
    /// set.assign_bytes(&[76, 255]);
    /// assert_eq!(words, [844, 0, 0, 0]);
    /// ```
    pub fn assign_bytes(&mut self, source: &[u8]) {
        let (words, length) = (&mut *self.words, self.length);
        fill_words(source, words);
        positions::clear_from(words, length);
    }
}

impl Bits<'_> {
    /// Writes the bytes of the set: position `p` is bit `p % 8` of byte `p / 8`. There have to be
    /// eight for each word that the length needs. It writes each byte once.
    ///
    /// ```text
    /// let (mut words, mut data) = ([516, 0, 0, 0], [7; 8]);
    /// let set = BitsMut::settle(&mut words, 10, 10);
    /// set.as_bits().to_bytes(&mut data);
    /// assert_eq!(data, [4, 2, 0, 0, 0, 0, 0, 0]);
    /// ```
    pub fn to_bytes(self, made: &mut [u8]) {
        fill_bytes(self.as_slice(), made);
    }
}
