// Made by front/erase from crates/bitcommands/src/commands/printing.rt: change that, and not this.
//! Texts of replies, appended to an output.

use crate::shim::prelude::{Vec, WriteJson};
use crate::program::fixedbitset::Block;
use crate::shim::serde_json::Value;
use crate::shim::alloc::AllocError;
use core::cmp::Ordering;
use core::fmt;

// How many decimal digits a number has, at most.
const DIGITS: usize = 20;

#[inline]
pub(super) fn push_flag(flag: bool, output: &mut Vec<u8>) -> Result<(), AllocError> {
    if flag {
        output.extend_from_slice(b"true")
    } else {
        output.extend_from_slice(b"false")
    }
}

pub(super) fn order_name(order: Ordering) -> &'static str {
    match order {
        Ordering::Less => "less",
        Ordering::Equal => "equal",
        Ordering::Greater => "greater",
    }
}

// A text that is read as the value. Where an allocation fails the output is as it was.
pub(super) fn push_value(value: &Value, output: &mut Vec<u8>) -> Result<(), AllocError> {
    let text = value.to_vec(*output.allocator())?;
    output.extend_from_slice(text.as_slice())
}

// The text, and the number after it, if there is one. Where an allocation fails the output is as it
// was.
pub(super) fn push_numbered(
    text: &str,
    number: Option<usize>,
    output: &mut Vec<u8>,
) -> Result<(), AllocError> {
    let start = output.len();
    output.extend_from_slice(text.as_bytes())?;
    let Some(number) = number else {
        return Ok(());
    };
    let pushed = push_number(number, output);
    if pushed.is_err() {
        output.truncate(start);
    }
    pushed
}

// What stands in a list of a reply: an item of an iterator, or a word.
pub(super) trait Part {
    // Its text.

    // Appends the text to the output. Where an allocation fails the output is as it was.
    fn push_to(&self, output: &mut Vec<u8>) -> Result<(), AllocError>;

    // Writes the text.
    fn write_to(&self, f: &mut fmt::Formatter<'_>) -> fmt::Result;
}

impl Part for Option<usize> {
    fn push_to(&self, output: &mut Vec<u8>) -> Result<(), AllocError> {
        match self {
            Some(position) => push_number(*position, output),
            None => output.extend_from_slice(b"none"),
        }
    }

    fn write_to(&self, f: &mut fmt::Formatter<'_>) -> fmt::Result {
        match self {
            Some(position) => write!(f, "{position}"),
            None => f.write_str("none"),
        }
    }
}

impl Part for Block {
    fn push_to(&self, output: &mut Vec<u8>) -> Result<(), AllocError> {
        push_number(*self as usize, output)
    }

    fn write_to(&self, f: &mut fmt::Formatter<'_>) -> fmt::Result {
        write!(f, "{self}")
    }
}

// The words, one space between two of them, or `-` where there are none. Where an allocation fails
// the output is as it was.
pub(super) fn push_words(words: &[Block], output: &mut Vec<u8>) -> Result<(), AllocError> {
    if words.is_empty() {
        return output.extend_from_slice(b"-");
    }
    push_parts(words, output)
}

// One text for each, one space between two of them. Where an allocation fails the output is as it
// was.
pub(super) fn push_parts<P: Part>(parts: &[P], output: &mut Vec<u8>) -> Result<(), AllocError> {
    let before = output.len();
    let pushed = push_spaced(parts, output);
    if pushed.is_err() {
        output.truncate(before);
    }
    pushed
}

// The same. Where an allocation fails, a part of the text may be appended to the output.
fn push_spaced<P: Part>(parts: &[P], output: &mut Vec<u8>) -> Result<(), AllocError> {
    let Some((first, rest)) = parts.split_first() else {
        return Ok(());
    };
    first.push_to(output)?;
    for part in rest {
        output.push(b' ')?;
        part.push_to(output)?;
    }
    Ok(())
}

pub(super) fn push_number(number: usize, output: &mut Vec<u8>) -> Result<(), AllocError> {
    let mut digits = [0; DIGITS];
    let start = write_digits(number, &mut digits);
    output.extend_from_slice(&digits[start..])
}

// Writes the digits at the end of the buffer, and returns where they start. Two digits a turn halve
// the divisions that wait for one another.
#[inline]
fn write_digits(number: usize, digits: &mut [u8; DIGITS]) -> usize {
    let mut start = DIGITS;
    let mut rest = number;
    while rest > 99 {
        start -= 1;
        digits[start] = b'0' + (rest % 10) as u8;
        start -= 1;
        digits[start] = b'0' + (rest / 10 % 10) as u8;
        rest /= 100;
    }
    if rest > 9 {
        start -= 1;
        digits[start] = b'0' + (rest % 10) as u8;
        start -= 1;
        digits[start] = b'0' + (rest / 10) as u8;
        return start;
    }
    start -= 1;
    digits[start] = b'0' + rest as u8;
    start
}
