// Made by front/erase from crates/bitrows/src/table.rt: change that, and not this.
//! The table itself: making one, its sizes, single bits, rows, and the closure of a graph.

use crate::shim::prelude::Vec;
use crate::proved::bitrows::counted;
use crate::proved::bitrows::views::{Rows, RowsMut};
use crate::proved::bitlanes::Steps;
use crate::proved::bitlanes::word::Block;
use crate::proved::bitwalks::walks::Ones;
use crate::proved::fixedbitset::views::storage_words;
use crate::shim::alloc::{AllocError, Global};

/// A table of bits: so many rows of so many columns.
///
/// The rows stand in one row of words. Each keeps the words that its columns need, and up to three
/// more, so that they make whole lanes of four. Two tables are the same value exactly if their
/// numbers of columns, their numbers of rows and their bits are.
#[derive(Clone)]
pub struct BitRows {
    pub(crate) words: Vec<Block>,
    pub(crate) rows: usize,
    pub(crate) columns: usize,
}

impl BitRows {
    /// A table of `rows` rows and `columns` columns, with no bit. It writes each word once: a row
    /// has `columns / 64` words, rounded up to whole lanes of four.
    ///
    /// `Err` is returned only where the allocation of the words failed. So it is where there would
    /// be more than `usize::MAX` words.
    ///
    /// ```text
    /// let table = BitRows::new(alloc, 3, 70)?;
    /// assert_eq!(table.rows(), 3);
    /// assert_eq!(table.columns(), 70);
    /// assert!(!table.get(2, 69));
    /// ```
    pub fn new(alloc: Global, rows: usize, columns: usize) -> Result<BitRows, AllocError> {
        let Some(count) = rows.checked_mul(storage_words(columns)) else {
            return Err(AllocError);
        };
        Ok(BitRows {
            words: crate::shim::row![in alloc; 0; count]?,
            rows,
            columns,
        })
    }

    /// How many rows there are.
    ///
    /// ```text
    /// let table = BitRows::new(alloc, 3, 70)?;
    /// assert_eq!(table.rows(), 3);
    /// ```
    #[inline]
    pub fn rows(&self) -> usize {
        self.rows
    }

    /// How many columns there are. Each row is a set of this length.
    ///
    /// ```text
    /// let table = BitRows::new(alloc, 3, 70)?;
    /// assert_eq!(table.columns(), 70);
    /// ```
    #[inline]
    pub fn columns(&self) -> usize {
        self.columns
    }

    /// The table as a view, to be read: no word is copied.
    ///
    /// ```text
    /// let table = BitRows::new(alloc, 3, 70)?;
    /// assert!(table.as_rows().row(2).is_clear(&mut Steps::new()));
    /// ```
    #[inline(always)]
    pub fn as_rows(&self) -> Rows<'_> {
        Rows {
            words: &self.words,
            rows: self.rows,
            columns: self.columns,
        }
    }

    /// Whether the row has a bit at the column: `false` past the rows and past the columns.
    ///
    /// ```text
    /// let mut table = BitRows::new(alloc, 3, 70)?;
    /// table.set(1, 69, true);
    /// assert!(table.get(1, 69) && !table.get(2, 69));
    /// assert!(!table.get(1, 500) && !table.get(3, 69));
    /// ```
    #[inline]
    pub fn get(&self, row: usize, column: usize) -> bool {
        row < self.rows() && self.as_rows().get(row, column)
    }

    /// Sets the bit of the row at the column, or clears it where `enabled` is false. The table has
    /// to have both. It writes one word.
    ///
    /// ```text
    /// let mut table = BitRows::new(alloc, 3, 70)?;
    /// table.set(1, 69, true);
    /// table.set(1, 3, true);
    /// table.set(1, 69, false);
    /// assert!(table.row(1).eq([3]));
    /// ```
    #[inline]
    pub fn set(&mut self, row: usize, column: usize, enabled: bool) {
        let (words, rows, columns) = (&mut *self.words.as_mut_slice(), self.rows, self.columns);
        RowsMut {
            words,
            rows,
            columns,
        }
        .set(row, column, enabled);
    }

    /// Row `into` takes in the bits of row `from`, and the other rows stay. It returns whether a
    /// bit came in. The table has to have both rows; where they are one, nothing changes. It reads
    /// each word of the two rows once.
    ///
    /// ```text
    /// let mut table = BitRows::new(alloc, 3, 70)?;
    /// table.set(0, 69, true);
    /// assert!(table.union_rows(0, 2));
    /// assert!(!table.union_rows(0, 2) && !table.union_rows(0, 0));
    /// assert!(table.get(2, 69) && !table.get(1, 69));
    /// ```
    #[inline]
    pub fn union_rows(&mut self, from: usize, into: usize) -> bool {
        let (words, rows, columns) = (&mut *self.words.as_mut_slice(), self.rows, self.columns);
        RowsMut {
            words,
            rows,
            columns,
        }
        .union_rows(from, into)
    }

    /// The columns at which the row has a bit, in ascending order. The row has to be one of the
    /// table's. It does not allocate, and reads the first and the last word that the columns need;
    /// those between are not yet taken.
    ///
    /// ```text
    /// let mut table = BitRows::new(alloc, 3, 70)?;
    /// table.set(1, 69, true);
    /// table.set(1, 3, true);
    /// assert!(table.row(1).eq([3, 69]));
    /// ```
    #[inline]
    pub fn row(&self, row: usize) -> Ones<'_> {
        Ones::over(self.as_rows().row(row).as_slice())
    }

    /// The transitive closure of the graph that has an edge from each row to each column at which
    /// the row has a bit: afterwards row `a` has a bit at column `b` exactly if some path of one or
    /// more edges led from `a` to `b`.
    ///
    /// Nothing leads on from a column that is no row. It does not allocate. With `n` rows and `m`
    /// columns it looks at `n * min(n, m)` bits, and joins two rows for each bit that it finds set.
    /// [`counted::close`](crate::proved::bitrows::counted::close) counts these joins.
    ///
    /// ```text
    /// let mut table = BitRows::new(alloc, 3, 3)?;
    /// table.set(0, 2, true);
    /// table.set(2, 1, true);
    /// table.close();
    /// assert!(table.row(0).eq([1, 2]));
    /// assert!(table.get(2, 1) && !table.get(1, 0));
    /// ```
    pub fn close(&mut self) {
        counted::close(self, &mut Steps::new());
    }
}
