// Made by front/erase from crates/bitjson/src/bytes.rt: change that, and not this.
//! Words from bytes, and words as bytes, in an allocation of their own.

use crate::shim::prelude::Vec;
use crate::proved::bitjson::fills::{fill_bytes, fill_words};
use crate::proved::bitlanes::Block;
use crate::shim::alloc::{AllocError, Global};

/// The first `count` words that `source` are the bytes of: eight for each word, the lowest byte
/// first. Past its end a byte is 0.
///
/// It looks at no more than `8 * count` bytes, each once, and allocates the words at once. `Err` is
/// returned only on allocation failure. Words past the bytes are 0 as they are made, and not
/// written again.
///
/// ```text
/// let words = bytes::words_of_bytes(alloc, &[1, 2], 2)?;
/// assert_eq!(words.as_slice(), [513, 0].as_slice());
/// ```
pub fn words_of_bytes(alloc: Global, source: &[u8], count: usize) -> Result<Vec<Block>, AllocError> {
    let mut words = crate::shim::row![in alloc; 0; count]?;
    fill_zeros(source, &mut words);
    Ok(words)
}

/// The bytes of the words: eight for each word, the lowest byte first.
///
/// It allocates the bytes at once. `Err` is returned only on allocation failure.
///
/// ```text
/// let data = bytes::bytes_of_words(alloc, &[513])?;
/// assert_eq!(data.as_slice(), [1, 2, 0, 0, 0, 0, 0, 0].as_slice());
/// ```
pub fn bytes_of_words(alloc: Global, words: &[Block]) -> Result<Vec<u8>, AllocError> {
    let mut made = crate::shim::row![in alloc; 0; 8 * words.len()]?;
    fill_bytes(words, &mut made);
    Ok(made)
}

// Writes over words that are 0 those that `source` are the bytes of. Words past the bytes stay.
fn fill_zeros(source: &[u8], words: &mut [Block]) {
    let used = words.len().min(source.len().div_ceil(8));
    fill_words(source, &mut words[..used]);
}
