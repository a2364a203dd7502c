// Made by front/erase from crates/bitrows/src/views/changes.rt: change that, and not this.
//! Tables made and changed, and the closure of a graph.

use crate::proved::bitrows::views::{Rows, RowsMut};
use crate::proved::bitlanes::word::Block;
use crate::proved::bitlanes::{Steps, lanes};
use crate::proved::fixedbitset::views::storage_words;
use crate::proved::fixedbitset::{Bits, BitsMut};

impl<'a> RowsMut<'a> {
    /// Makes any words those of a table of so many rows and columns, with no bit.
    /// There have to be as many words as it keeps: for each row as many as
    /// [`storage_words`](fixedbitset::views::storage_words) of the columns. It
    /// writes each word once.
    ///
    /// ```text
    /// let mut words = [7; 8];
    /// RowsMut::blank(&mut words, 2, 70);
    /// assert_eq!(words, [0; 8]);
    /// ```
    #[inline(always)]
    pub fn blank(words: &'a mut [Block], rows: usize, columns: usize) -> Self {
        lanes::zero(words, &mut Steps::new());
        RowsMut {
            words,
            rows,
            columns,
        }
    }

    /// The table to be read.
    ///
    /// ```text
    /// let mut words = [7; 8];
    /// let table = RowsMut::blank(&mut words, 2, 70);
    /// assert!(!table.as_rows().get(1, 64));
    /// ```
    #[inline(always)]
    pub fn as_rows(&self) -> Rows<'_> {
        Rows {
            words: self.words,
            rows: self.rows,
            columns: self.columns,
        }
    }

    /// A row, and the rows before and after it, each part to be changed by itself. The row is a set
    /// of `columns` positions over its words, and each of the two parts counts its rows from 0. The
    /// row has to be one of the table's.
    ///
    /// ```text
    /// let mut words = [7; 12];
    /// let table = RowsMut::blank(&mut words, 3, 70);
    /// let (mut low, mut row, mut high) = table.split_row_mut(1);
    /// low.set(0, 3, true);
    /// row.insert(64);
    /// high.set(0, 1, true);
    /// assert_eq!(words, [8, 0, 0, 0, 0, 1, 0, 0, 2, 0, 0, 0]);
    /// ```
    #[inline(always)]
    pub fn split_row_mut(self, row: usize) -> (RowsMut<'a>, BitsMut<'a>, RowsMut<'a>) {
        let (low, rest) = self.split_rows_mut(row);
        let (one, high) = rest.split_rows_mut(1);
        let RowsMut {
            words,
            rows: _,
            columns,
        } = one;
        let row = BitsMut {
            words,
            length: columns,
        };
        (low, row, high)
    }

    /// A row, to be changed: a set of `columns` positions over the words of the row, the middle of
    /// [`split_row_mut`](Self::split_row_mut). The other rows stay. The row has to be one of the
    /// table's.
    ///
    /// ```text
    /// let mut words = [7; 8];
    /// let table = RowsMut::blank(&mut words, 2, 70);
    /// table.row_mut(1).insert_range(63, 66, &mut Steps::new());
    /// assert_eq!(words, [0, 0, 0, 0, 1 << 63, 3, 0, 0]);
    /// ```
    #[inline(always)]
    pub fn row_mut(self, row: usize) -> BitsMut<'a> {
        let (_, row, _) = self.split_row_mut(row);
        row
    }

    /// The rows before row `at`, and those from it on, each part to be changed by itself. The
    /// second counts its rows from 0 too. The table has to have as many rows.
    ///
    /// ```text
    /// let mut words = [7; 8];
    /// let table = RowsMut::blank(&mut words, 2, 70);
    /// let (mut low, mut high) = table.split_rows_mut(1);
    /// low.set(0, 3, true);
    /// high.set(0, 64, true);
    /// assert_eq!(words, [8, 0, 0, 0, 0, 1, 0, 0]);
    /// ```
    #[inline(always)]
    pub fn split_rows_mut(self, at: usize) -> (RowsMut<'a>, RowsMut<'a>) {
        let RowsMut {
            words,
            rows,
            columns,
        } = self;
        let (low, high) = words.split_at_mut(at * storage_words(columns));
        let first = RowsMut {
            words: low,
            rows: at,
            columns,
        };
        let second = RowsMut {
            words: high,
            rows: rows - at,
            columns,
        };
        (first, second)
    }

    /// Sets the bit of the row at the column, or clears it where `enabled` is false. The table has
    /// to have both. It writes one word.
    ///
    /// ```text
    /// let mut words = [7; 8];
    /// let mut table = RowsMut::blank(&mut words, 2, 70);
    /// table.set(1, 64, true);
    /// assert_eq!(words, [0, 0, 0, 0, 0, 1, 0, 0]);
    /// ```
    #[inline(always)]
    pub fn set(&mut self, row: usize, column: usize, enabled: bool) {
        let wide = storage_words(self.columns);
        let start = row * wide;
        let end = start + wide;
        set_in(&mut self.words[start..end], self.columns, column, enabled);
    }

    /// Row `into` takes in the bits of row `from`, and the other rows stay. It returns whether a
    /// bit came in. The table has to have both rows; where they are one, nothing changes. It reads
    /// each word of the two rows once.
    ///
    /// ```text
    /// let mut words = [7; 8];
    /// let mut table = RowsMut::blank(&mut words, 2, 70);
    /// table.set(0, 64, true);
    /// assert!(table.union_rows(0, 1));
    /// assert_eq!(words, [0, 1, 0, 0, 0, 1, 0, 0]);
    /// ```
    #[inline]
    pub fn union_rows(&mut self, from: usize, into: usize) -> bool {
        if from == into {
            return false;
        }
        let wide = storage_words(self.columns);
        join_rows(self.words, self.rows, wide, self.columns, from, into)
    }

    /// The transitive closure of the graph that has an edge from each row to each column at which
    /// the row has a bit, with the joins of two rows that it makes: one for each pair of nodes `a`
    /// and `k` with a path from `a` to `k` whose nodes between its ends are all below `k`. With `n`
    /// rows and `m` columns it looks at `n * min(n, m)` bits.
    ///
    /// ```text
    /// let mut words = [7; 12];
    /// let mut table = RowsMut::blank(&mut words, 3, 3);
    /// table.set(0, 1, true);
    /// table.set(1, 2, true);
    /// table.close(&mut Steps::new());
    /// assert_eq!(words, [6, 0, 0, 0, 4, 0, 0, 0, 0, 0, 0, 0]);
    /// ```
    pub fn close(&mut self, joins: &mut Steps) {
        for through in 0..self.rows.min(self.columns) {
            for row in 0..self.rows {
                if self.as_rows().get(row, through) {
                    joins.tick();
                    self.union_rows(through, row);
                }
            }
        }
    }
}

// Row `into` of these words takes in what row `from` has. It returns whether a bit came in.
#[inline]
fn join_rows(
    words: &mut [Block],
    rows: usize,
    width: usize,
    columns: usize,
    from: usize,
    into: usize,
) -> bool {
    if from < into {
        let (low, high) = words.split_at_mut(into * width);
        let start = from * width;
        let other = &low[start..start + width];
        take_in(&mut high[..width], other, columns)
    } else {
        let (low, high) = words.split_at_mut(from * width);
        let start = into * width;
        let row = &mut low[start..start + width];
        take_in(row, &high[..width], columns)
    }
}

// The words of a row take in those of another. It returns whether a bit came in.
#[inline(always)]
fn take_in(words: &mut [Block], other: &[Block], length: usize) -> bool {
    let other = Bits {
        words: other,
        length,
    };
    let words = &mut *words;
    BitsMut { words, length }.union_with_change(other, &mut Steps::new())
}

// Sets the bit of a row at the column, or clears it where `enabled` is false.
#[inline(always)]
fn set_in(words: &mut [Block], length: usize, column: usize, enabled: bool) {
    let words = &mut *words;
    BitsMut { words, length }.set(column, enabled);
}
