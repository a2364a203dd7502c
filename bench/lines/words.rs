//! The words of a line.

use crate::commands::Fault;

/// What is left of a line, from the space before the next word on.
pub struct Words<'a> {
    rest: &'a [u8],
}

/// A range from a line: its two bounds, where they stand.
pub type Span = (Option<usize>, Option<usize>);

/// The first word of a line, and those behind it.
pub fn split(line: &[u8]) -> (&[u8], Words<'_>) {
    let end = line.iter().position(|byte| *byte == b' ');
    let (name, rest) = line.split_at(end.unwrap_or(line.len()));
    (name, Words { rest })
}

/// The number that the digits at the front write, and how many they are.
fn digits(text: &[u8]) -> Option<(usize, usize)> {
    let mut value: usize = 0;
    let mut count = 0;
    for byte in text {
        let digit = byte.wrapping_sub(b'0');
        if digit > 9 {
            break;
        }
        value = value.checked_mul(10)?.checked_add(usize::from(digit))?;
        count += 1;
    }
    (count > 0).then_some((value, count))
}

/// The number that the whole text writes.
fn number(text: &[u8]) -> Option<usize> {
    let (value, count) = digits(text)?;
    (count == text.len()).then_some(value)
}

fn bound(text: &[u8]) -> Option<Option<usize>> {
    if text.is_empty() {
        return Some(None);
    }
    number(text).map(Some)
}

/// A bound, or `=` and the last position.
fn end_bound(text: &[u8]) -> Option<Option<usize>> {
    match text.strip_prefix(b"=") {
        Some(last) => Some(Some(number(last)?.saturating_add(1))),
        None => bound(text),
    }
}

impl<'a> Words<'a> {
    pub fn next(&mut self) -> Result<&'a [u8], Fault> {
        let Some((b' ', text)) = self.rest.split_first() else {
            return Err(Fault::NotACommand);
        };
        let end = text.iter().position(|byte| *byte == b' ');
        let (word, rest) = text.split_at(end.unwrap_or(text.len()));
        self.rest = rest;
        Ok(word)
    }

    pub fn number(&mut self) -> Result<usize, Fault> {
        let Some((b' ', text)) = self.rest.split_first() else {
            return Err(Fault::NotACommand);
        };
        let (value, count) = digits(text).ok_or(Fault::NotACommand)?;
        self.rest = &text[count..];
        Ok(value)
    }

    /// What stands behind the space.
    pub fn text(self) -> Result<&'a [u8], Fault> {
        self.rest.strip_prefix(b" ").ok_or(Fault::NotACommand)
    }

    pub fn numbers(mut self) -> Result<Vec<usize>, Fault> {
        let mut list = Vec::new();
        while !self.rest.is_empty() {
            list.push(self.number()?);
        }
        Ok(list)
    }

    pub fn range(&mut self) -> Result<Span, Fault> {
        let word = self.next()?;
        let dot = word.iter().position(|byte| *byte == b'.');
        let (start, end) = word.split_at(dot.ok_or(Fault::NotACommand)?);
        let end = end.strip_prefix(b"..").ok_or(Fault::NotACommand)?;
        let start = bound(start).ok_or(Fault::NotACommand)?;
        let end = end_bound(end).ok_or(Fault::NotACommand)?;
        Ok((start, end))
    }

    /// The letters of the ends of a walk, at least one.
    pub fn ends(&mut self) -> Result<&'a [u8], Fault> {
        let word = self.next()?;
        if word.is_empty() || !word.iter().all(|letter| matches!(letter, b'f' | b'b')) {
            return Err(Fault::NotACommand);
        }
        Ok(word)
    }

    pub fn end(&self) -> Result<(), Fault> {
        if self.rest.is_empty() {
            Ok(())
        } else {
            Err(Fault::NotACommand)
        }
    }
}
