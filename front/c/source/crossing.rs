//! The structs of `bits.h`, and the values of Rust that they stand for during a call.
//!
//! A function here asks what `bits.h` asks of a caller: a pointer to a struct points to one, and a pointer to words, positions or
//! bytes points to as many as the number beside it says, or that number is 0.

use crate::bits_c::structs::{Ones, Pair, Ranks, Room, Runs, Sieve, Zeroes};
use crate::proved::bitlanes::Block;
use crate::proved::bitrows::{Rows, RowsMut};
use crate::proved::fixedbitset::views::{Bits, BitsMut};
use core::slice;

/// `bits`, and `bits_view`.
#[repr(C)]
pub struct CSet {
    words: *mut Block,
    count: usize,
    length: usize,
}

/// `bits_walk`.
#[repr(C)]
pub struct CWalk {
    front: Block,
    back: Block,
    front_at: usize,
    back_at: usize,
    words: *const Block,
    count: usize,
}

/// `bits_run_walk`.
#[repr(C)]
pub struct CRuns {
    are_set: bool,
    end: usize,
    low: usize,
    high: usize,
    words: *const Block,
    count: usize,
}

/// `bits_sieve`.
#[repr(C)]
pub struct CSieve {
    walk: CWalk,
    other: *const Block,
    other_count: usize,
}

/// `bits_pair`.
#[repr(C)]
pub struct CPair {
    first: CSieve,
    second: CSieve,
}

/// `bits_rows`.
#[repr(C)]
pub struct CRows {
    words: *mut Block,
    count: usize,
    rows: usize,
    columns: usize,
}

/// `bits_ranks`.
#[repr(C)]
pub struct CRanks {
    words: *const Block,
    count: usize,
    length: usize,
    directory: *const usize,
    entries: usize,
}

/// So many values, to be read. The pointer may be null where there are none.
pub unsafe fn lent<'a, T>(values: *const T, count: usize) -> &'a [T] {
    if count == 0 {
        &[]
    } else {
        slice::from_raw_parts(values, count)
    }
}

/// So many values, to be changed. The pointer may be null where there are none.
pub unsafe fn lent_mut<'a, T>(values: *mut T, count: usize) -> &'a mut [T] {
    if count == 0 {
        &mut []
    } else {
        slice::from_raw_parts_mut(values, count)
    }
}

/// A value that crosses as a struct of C.
pub trait Crosses {
    type Struct;

    /// The value that the struct stands for.
    unsafe fn read(from: *const Self::Struct) -> Self;
}

/// A walk, or ranks: a call changes the value, and the struct with it.
pub trait Kept: Crosses {
    /// What a begin changes, whatever the struct had before.
    fn nothing() -> Self;

    fn kept(self) -> Self::Struct;
}

/// Values by their structs: the fields that cross as they are, and each slice with the field that has its number.
macro_rules! crosses {
    ($($value:ident as $struct:ident: $($field:ident)*, $($lend:ident($slice:ident $count:ident))*;)*) => { $(
        impl Crosses for $value<'_> {
            type Struct = $struct;

            unsafe fn read(from: *const $struct) -> Self {
                $value {
                    $($field: (*from).$field,)*
                    $($slice: $lend((*from).$slice, (*from).$count),)*
                }
            }
        }
    )* };
}
crosses! {
    Bits as CSet: length, lent(words count);
    BitsMut as CSet: length, lent_mut(words count);
    Room as CSet: length, lent_mut(words count);
    Rows as CRows: rows columns, lent(words count);
    RowsMut as CRows: rows columns, lent_mut(words count);
    Ones as CWalk: front back front_at back_at, lent(words count);
    Zeroes as CWalk: front back front_at back_at, lent(words count);
    Runs as CRuns: are_set end low high, lent(words count);
    Ranks as CRanks: length, lent(words count) lent(directory entries);
}

/// The same for what a call writes back.
macro_rules! kept {
    ($($value:ident as $struct:ident: $($field:ident)*, $($slice:ident $count:ident),*;)*) => { $(
        impl Kept for $value<'_> {
            fn nothing() -> Self {
                $value {
                    $($field: Default::default(),)*
                    $($slice: &[],)*
                }
            }

            fn kept(self) -> $struct {
                $struct {
                    $($field: self.$field,)*
                    $($slice: self.$slice.as_ptr(), $count: self.$slice.len(),)*
                }
            }
        }
    )* };
}
kept! {
    Ones as CWalk: front back front_at back_at, words count;
    Zeroes as CWalk: front back front_at back_at, words count;
    Runs as CRuns: are_set end low high, words count;
    Ranks as CRanks: length, words count, directory entries;
}

impl Crosses for Sieve<'_> {
    type Struct = CSieve;

    unsafe fn read(from: *const CSieve) -> Self {
        Sieve {
            walk: Ones::read(&(*from).walk),
            other: lent((*from).other, (*from).other_count),
        }
    }
}

impl Kept for Sieve<'_> {
    fn nothing() -> Self {
        Sieve {
            walk: Ones::nothing(),
            other: &[],
        }
    }

    fn kept(self) -> CSieve {
        CSieve {
            walk: self.walk.kept(),
            other: self.other.as_ptr(),
            other_count: self.other.len(),
        }
    }
}

impl Crosses for Pair<'_> {
    type Struct = CPair;

    unsafe fn read(from: *const CPair) -> Self {
        Pair {
            first: Sieve::read(&(*from).first),
            second: Sieve::read(&(*from).second),
        }
    }
}

impl Kept for Pair<'_> {
    fn nothing() -> Self {
        Pair {
            first: Sieve::nothing(),
            second: Sieve::nothing(),
        }
    }

    fn kept(self) -> CPair {
        CPair {
            first: self.first.kept(),
            second: self.second.kept(),
        }
    }
}
