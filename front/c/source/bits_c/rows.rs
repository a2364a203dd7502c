// Made by front/erase from crates/bits_c/src/rows.rt: change that, and not this.
//! Tables of bits: rows of one length, in words of the caller's.
//!
//! A table is the struct `bits_rows` of `front/c/bits.h`: here `bitrows::Rows` where it is read,
//! and `bitrows::RowsMut` where it is changed. Each row keeps as many words as a set of `columns`
//! positions, one row after the other. `bits_rows_clear` makes any words those of a table with no
//! bit.

use crate::bits_c::structs::Ones;
use crate::bits_c::{NONE, bits_words};
use crate::proved::bitlanes::{Block, Steps};
use crate::proved::bitrows::{Rows, RowsMut};
use crate::proved::bitwords::cursors::{Cursor, Plain};

/// Returns how many words a table of this many rows and columns has, or `NONE` if that number does
/// not fit in a `usize`.
pub fn bits_rows_words(rows: usize, columns: usize) -> usize {
    rows.checked_mul(bits_words(columns)).unwrap_or(NONE)
}

/// Turns any words into the words of a table of this many rows and columns with no bit set, and
/// returns `true`; returns `false` and changes nothing if `count` is not `bits_rows_words(rows,
/// columns)`. Words that are all zeros are already the words of such a table.
pub fn bits_rows_clear(words: &mut [Block], rows: usize, columns: usize) -> bool {
    if words.len() == bits_rows_words(rows, columns) {
        RowsMut::blank(words, rows, columns);
        true
    } else {
        false
    }
}

/// Returns whether the row has a bit at the column; `false` if the row or the column is out of
/// range.
pub fn bits_rows_get(rows: &Rows<'_>, row: usize, column: usize) -> bool {
    if row < rows.rows {
        rows.get(row, column)
    } else {
        false
    }
}

/// Sets the bit of the row at the column, or clears it if `enabled` is `false`, and returns `true`;
/// returns `false` and changes nothing if the row or the column is out of range.
pub fn bits_rows_set(
    rows: &mut RowsMut<'_>,
    row: usize,
    column: usize,
    enabled: bool,
) -> bool {
    if row < rows.rows && column < rows.columns {
        rows.set(row, column, enabled);
        true
    } else {
        false
    }
}

/// Adds the bits of row `from` to row `into`, writes to `changed` whether a bit was added, and
/// returns `true`. Returns `false`, changes nothing, and writes nothing to `changed`, if a row is
/// out of range.
pub fn bits_rows_union(
    rows: &mut RowsMut<'_>,
    from: usize,
    into: usize,
    changed: &mut bool,
) -> bool {
    if from < rows.rows && into < rows.rows {
        *changed = rows.union_rows(from, into);
        true
    } else {
        false
    }
}

/// Initializes the iterator over the columns at which the row has a bit, in ascending order, and
/// returns `true`; `bits_ones_next` and `bits_ones_next_back` return the columns. Returns `false`
/// if the row is out of range; the iterator is then empty.
pub fn bits_rows_ones<'a>(walk: &mut Ones<'a>, rows: &Rows<'a>, row: usize) -> bool {
    if row < rows.rows {
        *walk = Ones::of(rows.row(row).ones());
        true
    } else {
        *walk = Ones::of(Cursor::over(Plain { words: [].iter() }));
        false
    }
}

/// Replaces the table by the transitive closure of the graph with an edge from each row to each
/// column at which the row has a bit: afterwards row `a` has a bit at column `b` if and only if
/// some path of one or more edges led from `a` to `b`.
pub fn bits_rows_close(rows: &mut RowsMut<'_>) {
    rows.close(&mut Steps::new());
}
