// Made by front/erase from crates/bitjson/src/form.rt: change that, and not this.
//! The form of a value: its length and its items, or the first error.

use crate::shim::prelude::AsArray;
use crate::program::bitjson::fault::JsonFault;
use crate::shim::serde_json::Value;

/// The length and the items of a value in the form: an object with exactly the keys `length` and
/// `data`, or a list of these two in this order. The length is a whole number of 64 bits, and each
/// item one from 0 to 255.
///
/// The items are borrowed from the value. Each item is looked at once, and nothing is allocated.
///
/// `Err` says the first error of the value, and it is never `Memory`.
///
/// ```text
/// let value = Value::from_str(alloc, "[10,[76,1]]")?;
/// let (length, items) = form::read_form(&value)?;
/// assert_eq!((length, items.len()), (10, 2));
/// ```
pub fn read_form(value: &Value) -> Result<(usize, &[Value]), JsonFault> {
    let (length, data) = parts_of(value)?;
    let length = length.as_u64().ok_or(JsonFault::Length)?;
    let items = items_of(data)?;
    Ok((length as usize, items))
}

// The length and the data, whatever they are.
fn parts_of(value: &Value) -> Result<(&Value, &Value), JsonFault> {
    match value {
        Value::Array(items) => {
            if items.len() != 2 {
                return Err(JsonFault::Count);
            }
            Ok((&items[0], &items[1]))
        }
        Value::Object(members) => {
            let Some(length) = value.get("length") else {
                return Err(JsonFault::NoLength);
            };
            let Some(data) = value.get("data") else {
                return Err(JsonFault::NoData);
            };
            if members.len() != 2 {
                return Err(JsonFault::Key);
            }
            Ok((length, data))
        }
        _ => Err(JsonFault::Shape),
    }
}

// The items of a list of bytes.
fn items_of(list: &Value) -> Result<&[Value], JsonFault> {
    let items = list.as_array().ok_or(JsonFault::Data)?;
    let items = items.as_slice();
    for index in 0..items.len() {
        if byte_of(&items[index]).is_none() {
            return Err(JsonFault::Item(index));
        }
    }
    Ok(items)
}

// The byte that a value is.
pub(crate) fn byte_of(value: &Value) -> Option<u8> {
    let number = value.as_u64()?;
    if number < 256 {
        Some(number as u8)
    } else {
        None
    }
}
