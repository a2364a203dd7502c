// Made by front/erase from crates/bits_c/src/structs.rt: change that, and not this.
//! The structs that a caller keeps, but for the sets and the tables. `front/c/bits.h` declares them
//! as `bits`, `bits_walk`, `bits_run_walk`, `bits_sieve`, `bits_pair` and `bits_ranks`.
//!
//! They stand in a file of their own, since the definitions of `specs/` name them.

use crate::proved::bitlanes::Block;

/// Room for a set: words that may hold anything, and the length in bits of the set to be.
pub struct Room<'a> {
    pub words: &'a mut [Block],
    pub length: usize,
}

/// An iterator over the positions that are set: the first and the last word of those left, without
/// the bits that were given, the positions of their bits 0, and the words between them.
#[derive(Clone)]
pub struct Ones<'a> {
    pub(crate) front: Block,
    pub(crate) back: Block,
    pub(crate) front_at: usize,
    pub(crate) back_at: usize,
    pub(crate) words: &'a [Block],
}

/// An iterator over the positions that are not set. Its first and its last word are inverted, and
/// those between are not.
#[derive(Clone)]
pub struct Zeroes<'a> {
    pub(crate) front: Block,
    pub(crate) back: Block,
    pub(crate) front_at: usize,
    pub(crate) back_at: usize,
    pub(crate) words: &'a [Block],
}

/// An iterator over runs: whether they are of positions that are set, how many positions there are,
/// where the runs left are, and the words.
#[derive(Clone)]
pub struct Runs<'a> {
    pub(crate) are_set: bool,
    pub(crate) end: usize,
    pub(crate) low: usize,
    pub(crate) high: usize,
    pub(crate) words: &'a [Block],
}

/// An iterator over the positions of one set that another one has, or over those that it lacks. Its
/// first and its last word have no other bits. Each of the words between is joined with the word at
/// its place of `other` when it is taken.
#[derive(Clone)]
pub struct Sieve<'a> {
    pub walk: Ones<'a>,
    pub other: &'a [Block],
}

/// Two such iterators, one after the other. In a union the first takes the words of its set as they
/// are.
#[derive(Clone)]
pub struct Pair<'a> {
    pub first: Sieve<'a>,
    pub second: Sieve<'a>,
}

/// A set that is borrowed with a directory of its words: the words, the length in bits, and the
/// directory.
#[derive(Clone)]
pub struct Ranks<'a> {
    pub(crate) words: &'a [Block],
    pub(crate) length: usize,
    pub(crate) directory: &'a [usize],
}
