// Made by front/erase from crates/bitjson/src/fills.rt: change that, and not this.
//! Words written from bytes, and bytes from words, over those that are there.

use crate::proved::bitlanes::Block;

/// Writes over the words those that `source` are the bytes of, as
/// [`words_of_bytes`](crate::proved::bitjson::bytes::words_of_bytes) makes them.
///
/// It looks at no more than eight bytes for a word, each once, and does not allocate.
///
/// ```text
/// let mut words = [7, 7];
/// fills::fill_words(&[1, 2], &mut words);
/// assert_eq!(words, [513, 0]);
/// ```
pub fn fill_words(source: &[u8], words: &mut [Block]) {
    for index in 0..words.len() {
        words[index] = word_of_bytes(source, index);
    }
}

/// Writes the bytes of the words over those of `made`, as
/// [`bytes_of_words`](crate::proved::bitjson::bytes::bytes_of_words) makes them. There have to be
/// eight bytes for each word.
///
/// It does not allocate.
///
/// ```text
/// let mut made = [7; 8];
/// fills::fill_bytes(&[513], &mut made);
/// assert_eq!(made, [1, 2, 0, 0, 0, 0, 0, 0]);
/// ```
pub fn fill_bytes(words: &[Block], made: &mut [u8]) {
    for index in 0..made.len() {
        made[index] = byte_of_words(words, index) as u8;
    }
}

// The word of eight bytes.
fn word_of_bytes(source: &[u8], index: usize) -> Block {
    let first = 8 * index;
    Block::from_le_bytes([
        byte_or_zero(source, first),
        byte_or_zero(source, first + 1),
        byte_or_zero(source, first + 2),
        byte_or_zero(source, first + 3),
        byte_or_zero(source, first + 4),
        byte_or_zero(source, first + 5),
        byte_or_zero(source, first + 6),
        byte_or_zero(source, first + 7),
    ])
}

// A byte, and 0 past the last one.
fn byte_or_zero(source: &[u8], index: usize) -> u8 {
    if index < source.len() {
        source[index]
    } else {
        0
    }
}

// One of the bytes of the words.
pub(crate) fn byte_of_words(words: &[Block], index: usize) -> Block {
    (words[index / 8] >> (8 * (index % 8))) % 256
}
