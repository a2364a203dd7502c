// Made by front/erase from crates/bitrows/src/views.rt: change that, and not this.
//! A table over words that someone else keeps: `Rows` to be read, and `RowsMut` to be changed.
//!
//! The words are those of a table (`IsTable`): for each row as many as a set of `columns` positions
//! keeps, one row after the other, and no bit past the columns. So a row is a set over borrowed
//! words ([`Bits`](fixedbitset::Bits)). `RowsMut::blank` makes any words those of a table. No call
//! allocates. The calls of [`BitRows`](crate::proved::bitrows::BitRows) hand over to these.

mod changes;
mod reads;

use crate::proved::bitlanes::Block;

/// A table over borrowed words, to be read: the words of its rows, how many rows there are, and how
/// many columns.
#[derive(Clone, Copy)]
pub struct Rows<'a> {
    pub(crate) words: &'a [Block],
    pub(crate) rows: usize,
    pub(crate) columns: usize,
}

/// A table over borrowed words, to be changed. Its numbers of rows and of columns stay.
pub struct RowsMut<'a> {
    pub(crate) words: &'a mut [Block],
    pub(crate) rows: usize,
    pub(crate) columns: usize,
}
