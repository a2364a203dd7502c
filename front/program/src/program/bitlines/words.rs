// Made by front/erase from crates/bitlines/src/words.rt: change that, and not this.
//! The words of a line.

use crate::shim::prelude::{AsArray, JsonError, ReadJson};
use crate::program::bitlines::fault::LineFault;
use crate::shim::serde_json::Value;
use crate::shim::alloc::Global;

/// The words of a line that are still to be read.
#[derive(Clone)]
pub(crate) struct Words<'a> {
    rest: Option<&'a [u8]>,
}

impl<'a> Words<'a> {
    #[inline]
    pub(crate) fn new(line: &'a [u8]) -> Words<'a> {
        Words { rest: Some(line) }
    }

    /// The next word.
    #[inline]
    pub(crate) fn next(&mut self) -> Option<&'a [u8]> {
        let line = self.rest?;
        match find(line, b' ') {
            Some(end) => {
                self.rest = Some(&line[end + 1..]);
                Some(&line[..end])
            }
            None => {
                self.rest = None;
                Some(line)
            }
        }
    }

    /// The next word as a number.
    #[inline]
    pub(crate) fn number(&mut self) -> Result<usize, LineFault> {
        let line = self.rest.ok_or(LineFault::NotACommand)?;
        let (number, rest) = first_number(line)?;
        self.rest = rest;
        Ok(number)
    }

    /// The next word as `true` or `false`.
    pub(crate) fn flag(&mut self) -> Result<bool, LineFault> {
        let word = self.next().ok_or(LineFault::NotACommand)?;
        flag(word).ok_or(LineFault::NotACommand)
    }

    /// All the words that are left, with the spaces between them, as a JSON value.
    pub(crate) fn json(&self, alloc: Global) -> Result<Value, LineFault> {
        let text = self.rest.ok_or(LineFault::NotACommand)?;
        json(alloc, text)
    }

    /// Whether no word is left.
    #[inline]
    pub(crate) fn is_empty(&self) -> bool {
        self.rest.is_none()
    }

    /// No word is left.
    #[inline]
    pub(crate) fn end(&self) -> Result<(), LineFault> {
        match self.rest {
            Some(_) => Err(LineFault::NotACommand),
            None => Ok(()),
        }
    }
}

/// The place of the first such byte.
#[inline]
pub(crate) fn find(text: &[u8], byte: u8) -> Option<usize> {
    text.iter().position(|b| *b == byte)
}

/// Whether the word is this text. The first bytes are compared before all are, so a caller with
/// many texts is compiled to a jump by that byte.
#[inline(always)]
pub(crate) fn is<const N: usize>(word: &[u8], text: &[u8; N]) -> bool {
    match word.as_array::<N>() {
        Some(word) => (N == 0 || word[0] == text[0]) && *word == *text,
        None => false,
    }
}

fn flag(word: &[u8]) -> Option<bool> {
    if is(word, b"true") {
        Some(true)
    } else if is(word, b"false") {
        Some(false)
    } else {
        None
    }
}

// A text as a JSON value.
fn json(alloc: Global, text: &[u8]) -> Result<Value, LineFault> {
    match Value::from_slice(alloc, text) {
        Ok(value) => Ok(value),
        Err(error) if error.is_memory() => Err(LineFault::Memory),
        Err(_) => Err(LineFault::NotACommand),
    }
}

/// The first word of a text as a number, and the text after the space after it, if there is one.
/// Each byte is looked at once.
#[inline]
fn first_number(text: &[u8]) -> Result<(usize, Option<&[u8]>), LineFault> {
    if text.is_empty() || !text[0].is_ascii_digit() {
        return Err(LineFault::NotACommand);
    }
    let mut value = 0;
    let mut at = 0;
    while at < text.len() {
        match with_digit(value, text[at]) {
            Some(more) => value = more,
            None if text[at] == b' ' => return Ok((value, Some(&text[at + 1..]))),
            None => return Err(LineFault::NotACommand),
        }
        at += 1;
    }
    Ok((value, None))
}

/// One or more decimal digits as a number, where it is below 2 ^ 64.
#[inline]
pub(crate) fn number(word: &[u8]) -> Option<usize> {
    if word.is_empty() {
        return None;
    }
    let mut value = 0;
    for byte in word {
        value = with_digit(value, *byte)?;
    }
    Some(value)
}

// A number with one more digit, where it is one, and below 2 ^ 64.
#[inline(always)]
fn with_digit(value: usize, byte: u8) -> Option<usize> {
    if !byte.is_ascii_digit() {
        return None;
    }
    let tens = value.checked_mul(10)?;
    tens.checked_add(usize::from(byte - b'0'))
}
