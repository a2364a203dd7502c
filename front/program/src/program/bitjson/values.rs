// Made by front/erase from crates/bitjson/src/values.rt: change that, and not this.
//! Words from the items of a JSON list, and words as a value in the form.

use crate::shim::prelude::Vec;
use crate::program::bitjson::fills::byte_of_words;
use crate::program::bitjson::form::byte_of;
use crate::proved::bitlanes::Block;
use crate::shim::serde_json::{Value, json};
use crate::shim::alloc::{AllocError, Global};

/// The first `count` words that the items are the bytes of: eight items for each word,
/// the lowest byte first. A byte is 0 where there is no item, and where the item is no
/// whole number from 0 to 255.
///
/// It looks at no more than `8 * count` items, each once, and allocates the words at once. `Err` is
/// returned only on allocation failure.
///
/// ```text
/// let value = Value::from_str(alloc, "[1,2]")?;
/// let items = value.as_array().ok_or("no list")?;
/// let words = values::words_of_items(alloc, items.as_slice(), 2)?;
/// assert_eq!(words.as_slice(), [513, 0].as_slice());
/// ```
pub fn words_of_items(
    alloc: Global,
    items: &[Value],
    count: usize,
) -> Result<Vec<Block>, AllocError> {
    let mut words = Vec::with_capacity(alloc, count)?;
    for index in 0..count {
        words.push(word_at(items, index))?;
    }
    Ok(words)
}

/// The object whose `length` is `bits` and whose `data` is the list of the bytes of the words:
/// eight for each word, the lowest byte first.
///
/// It makes one item for each byte, and allocates the items at once. `Err` is returned only where
/// the allocation of them or of the object failed.
///
/// ```text
/// let text = values::value_of_words(alloc, 10, &[513])?.to_string(alloc)?;
/// assert_eq!(text.as_str(), "{\"data\":[1,2,0,0,0,0,0,0],\"length\":10}");
/// ```
pub fn value_of_words(alloc: Global, bits: usize, words: &[Block]) -> Result<Value, AllocError> {
    let count = 8 * words.len();
    let mut data = Vec::with_capacity(alloc, count)?;
    for index in 0..count {
        let byte = byte_of_words(words, index);
        data.push(Value::from(byte))?;
    }
    let value = object_of(alloc, bits, data)?;
    Ok(value)
}

// The word of eight items.
fn word_at(items: &[Value], index: usize) -> Block {
    let start = 8 * index;
    Block::from_le_bytes([
        byte_at(items, start),
        byte_at(items, start + 1),
        byte_at(items, start + 2),
        byte_at(items, start + 3),
        byte_at(items, start + 4),
        byte_at(items, start + 5),
        byte_at(items, start + 6),
        byte_at(items, start + 7),
    ])
}

// The byte that an item is, and 0 past the last item.
fn byte_at(items: &[Value], index: usize) -> u8 {
    if index < items.len() {
        byte_of(&items[index]).unwrap_or(0)
    } else {
        0
    }
}

// The object with this length and these data.
fn object_of(alloc: Global, length: usize, items: Vec<Value>) -> Result<Value, AllocError> {
    json!(in alloc; {"length": length, "data": items})
}
