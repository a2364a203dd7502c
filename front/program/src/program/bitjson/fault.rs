// Made by front/erase from crates/bitjson/src/fault.rt: change that, and not this.
//! Why a JSON value gives nothing.

use crate::shim::alloc::AllocError;

/// Why a value is not in the form, or gives nothing although it is. It is the first of these
/// that holds, in this order.
///
/// ```text
/// assert_eq!(JsonFault::from(AllocError), JsonFault::Memory);
/// ```
#[derive(Debug, Clone, Copy, PartialEq, Eq)]
pub enum JsonFault {
    /// The value is neither an object nor a list.
    Shape,
    /// The value is a list, and has not two items.
    Count,
    /// The value is an object without the key `length`.
    NoLength,
    /// The value is an object without the key `data`.
    NoData,
    /// The value is an object with a key besides `length` and `data`.
    Key,
    /// The length is not a whole number from 0 to 2 ^ 64 - 1.
    Length,
    /// The data are not a list.
    Data,
    /// The item of the data at this index, from 0, is the first that is not a
    /// whole number from 0 to 255.
    Item(usize),
    /// The value is in the form, and an allocation failed.
    Memory,
}

impl From<AllocError> for JsonFault {
    fn from(_error: AllocError) -> JsonFault {
        JsonFault::Memory
    }
}
