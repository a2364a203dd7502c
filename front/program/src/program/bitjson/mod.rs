// Made by front/erase from crates/bitjson/src/lib.rt: change that, and not this.
//! The JSON form of a length and bytes: an object with exactly the keys `length` and `data`, or a
//! list of these two in this order.
//!
//! The form is read from a value, its bytes are made words, and words are made a value. No
//! call here knows a set.
pub use crate::proved::bitjson::*;
pub mod fault;
pub mod form;
pub mod values;
pub use self::fault::JsonFault;
