// Made by front/erase from crates/fixedbitset/src/text.rt: change that, and not this.
//! The text of a set: one character for each position, from position 0 on, `1` where it is
//! set and `0` where not.

use crate::proved::fixedbitset::set::FixedBitSet;
use crate::proved::bitlanes::word::{BITS, Block};
use core::fmt;
use core::fmt::{Binary, Display};

impl Display for FixedBitSet {
    /// Writes what `Binary` writes, in as many calls.
    ///
    /// ```text
    /// let set = FixedBitSet::with_capacity_and_blocks(alloc, 4, [2])?;
    /// assert_eq!(set.to_string(alloc)?.as_str(), "0100");
    /// assert_eq!(format!(in alloc; "{set:#}")?.as_str(), "0b0100");
    /// ```
    fn fmt(&self, f: &mut fmt::Formatter<'_>) -> fmt::Result {
        Binary::fmt(self, f)
    }
}

impl Binary for FixedBitSet {
    /// Writes `len()` characters, that of position 0 first: `1` where the position is set, and
    /// `0` where not. So a set of length 0 is the empty text. `{:#}` puts `0b` in front; width
    /// and fill change nothing.
    ///
    /// It gives the writer the characters of one word at a time: `len() / 64` calls, rounded up,
    /// and one more for `0b`. `Err` comes only from the writer, which then has what was written
    /// before.
    ///
    /// ```text
    /// let set = FixedBitSet::with_capacity_and_blocks(alloc, 4, [2])?;
    /// let mut f = Formatter::new(String::new(alloc));
    /// Binary::fmt(&set, &mut f)?;
    /// assert_eq!(f.into_inner().as_str(), "0100");
    /// ```
    fn fmt(&self, f: &mut fmt::Formatter<'_>) -> fmt::Result {
        write_prefix(f)?;
        self.write_digits(f)
    }
}

// Writes what stands in front of the characters.
fn write_prefix(f: &mut fmt::Formatter<'_>) -> fmt::Result {
    if f.alternate() {
        f.write_str("0b")
    } else {
        Ok(())
    }
}

impl FixedBitSet {
    // Writes the characters of all positions.
    fn write_digits(&self, f: &mut fmt::Formatter<'_>) -> fmt::Result {
        let mut digits = [0; BITS];
        let mut left = self.len();
        for word in self.as_slice() {
            put_digits(*word, &mut digits);
            let count = left.min(BITS);
            f.write_str(text_of(&digits[..count]))?;
            left -= count;
        }
        Ok(())
    }
}

// The digits as a text: they are ASCII.
use crate::shim::text_of;

// Makes the bits of a word characters, the lowest bit first.
#[inline]
fn put_digits(word: Block, digits: &mut [u8; BITS]) {
    for index in 0..BITS {
        digits[index] = b'0' + (word >> index & 1) as u8;
    }
}
