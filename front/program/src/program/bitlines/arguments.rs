// Made by front/erase from crates/bitlines/src/arguments.rt: change that, and not this.
//! The arguments of commands.

use crate::shim::prelude::Vec;
use crate::program::bitlines::fault::LineFault;
use crate::program::bitlines::words::{Words, find, number};
use crate::program::bitcommands::commands::{End, Span};
use crate::program::fixedbitset::IndexRange;
use crate::shim::serde_json::Value;
use crate::shim::alloc::Global;

pub(crate) fn one(mut args: Words<'_>) -> Result<usize, LineFault> {
    let number = args.number()?;
    args.end()?;
    Ok(number)
}

pub(crate) fn two(mut args: Words<'_>) -> Result<(usize, usize), LineFault> {
    let first = args.number()?;
    let second = args.number()?;
    args.end()?;
    Ok((first, second))
}

pub(crate) fn three(mut args: Words<'_>) -> Result<(usize, usize, usize), LineFault> {
    let first = args.number()?;
    let second = args.number()?;
    let third = args.number()?;
    args.end()?;
    Ok((first, second, third))
}

pub(crate) fn two_and_flag(mut args: Words<'_>) -> Result<(usize, usize, bool), LineFault> {
    let first = args.number()?;
    let second = args.number()?;
    let value = args.flag()?;
    args.end()?;
    Ok((first, second, value))
}

pub(crate) fn one_and_range(mut args: Words<'_>) -> Result<(usize, Span), LineFault> {
    let set = args.number()?;
    let range = range_in(&mut args)?;
    args.end()?;
    Ok((set, range))
}

pub(crate) fn range_and_flag(mut args: Words<'_>) -> Result<(usize, Span, bool), LineFault> {
    let set = args.number()?;
    let range = range_in(&mut args)?;
    let value = args.flag()?;
    args.end()?;
    Ok((set, range, value))
}

fn range_in(args: &mut Words<'_>) -> Result<Span, LineFault> {
    let word = args.next().ok_or(LineFault::NotACommand)?;
    range(word)
}

// The two bounds with two dots between them.
fn range(word: &[u8]) -> Result<Span, LineFault> {
    let dot = find(word, b'.').ok_or(LineFault::NotACommand)?;
    if dot + 1 >= word.len() || word[dot + 1] != b'.' {
        return Err(LineFault::NotACommand);
    }
    bounds(&word[..dot], &word[dot + 2..])
}

fn bounds(from: &[u8], to: &[u8]) -> Result<Span, LineFault> {
    let start = bound(from)?;
    let end = end_bound(to)?;
    Ok(Span { start, end })
}

// A bound, or `=` and the last position of the range.
fn end_bound(word: &[u8]) -> Result<Option<usize>, LineFault> {
    if word.is_empty() || word[0] != b'=' {
        return bound(word);
    }
    let last = number(&word[1..]).ok_or(LineFault::NotACommand)?;
    Ok((..=last).end())
}

// Nothing, or a number.
fn bound(word: &[u8]) -> Result<Option<usize>, LineFault> {
    if word.is_empty() {
        return Ok(None);
    }
    let number = number(word).ok_or(LineFault::NotACommand)?;
    Ok(Some(number))
}

pub(crate) fn one_and_ends(
    alloc: Global,
    mut args: Words<'_>,
) -> Result<(usize, Vec<End>), LineFault> {
    let set = args.number()?;
    let ends = ends_in(alloc, &mut args)?;
    args.end()?;
    Ok((set, ends))
}

pub(crate) fn two_and_ends(
    alloc: Global,
    mut args: Words<'_>,
) -> Result<(usize, usize, Vec<End>), LineFault> {
    let a = args.number()?;
    let b = args.number()?;
    let ends = ends_in(alloc, &mut args)?;
    args.end()?;
    Ok((a, b, ends))
}

fn ends_in(alloc: Global, args: &mut Words<'_>) -> Result<Vec<End>, LineFault> {
    let word = args.next().ok_or(LineFault::NotACommand)?;
    ends(alloc, word)
}

// One or more letters, an end for each.
fn ends(alloc: Global, word: &[u8]) -> Result<Vec<End>, LineFault> {
    if word.is_empty() {
        return Err(LineFault::NotACommand);
    }
    let mut ends = Vec::new(alloc);
    for letter in word {
        let Some(end) = end_of(*letter) else {
            return Err(LineFault::NotACommand);
        };
        if ends.push(end).is_err() {
            return Err(LineFault::Memory);
        }
    }
    Ok(ends)
}

fn end_of(letter: u8) -> Option<End> {
    match letter {
        b'f' => Some(End::Front),
        b'b' => Some(End::Back),
        _ => None,
    }
}

pub(crate) fn one_and_list(
    alloc: Global,
    mut args: Words<'_>,
) -> Result<(usize, Vec<usize>), LineFault> {
    let set = args.number()?;
    let items = numbers(alloc, args)?;
    Ok((set, items))
}

pub(crate) fn two_and_list(
    alloc: Global,
    mut args: Words<'_>,
) -> Result<(usize, usize, Vec<usize>), LineFault> {
    let set = args.number()?;
    let bits = args.number()?;
    let blocks = numbers(alloc, args)?;
    Ok((set, bits, blocks))
}

// A number for each word that is left.
fn numbers(alloc: Global, mut args: Words<'_>) -> Result<Vec<usize>, LineFault> {
    let mut list = Vec::new(alloc);
    while !args.is_empty() {
        let Ok(number) = args.number() else {
            return Err(LineFault::NotACommand);
        };
        if list.push(number).is_err() {
            return Err(LineFault::Memory);
        }
    }
    Ok(list)
}

pub(crate) fn one_and_json(alloc: Global, mut args: Words<'_>) -> Result<(usize, Value), LineFault> {
    let set = args.number()?;
    let json = args.json(alloc)?;
    Ok((set, json))
}
