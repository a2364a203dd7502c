// Made by front/erase from crates/bitrows/src/views/reads.rt: change that, and not this.
//! The rows of a table, and its single bits.

use crate::proved::bitrows::views::Rows;
use crate::proved::fixedbitset::Bits;
use crate::proved::fixedbitset::views::storage_words;

impl<'a> Rows<'a> {
    /// A row, as a set of `columns` positions. The row has to be one of the table's.
    ///
    /// ```text
    /// let mut words = [7; 8];
    /// let mut table = RowsMut::blank(&mut words, 2, 70);
    /// table.set(1, 64, true);
    /// assert!(table.as_rows().row(1).ones().eq([64]));
    /// ```
    #[inline(always)]
    pub fn row(self, row: usize) -> Bits<'a> {
        let wide = storage_words(self.columns);
        let start = row * wide;
        Bits {
            words: &self.words[start..start + wide],
            length: self.columns,
        }
    }

    /// Whether the row has a bit at the column: `false` past the columns. The row has to
    /// be one of the table's.
    ///
    /// ```text
    /// let mut words = [7; 8];
    /// let mut table = RowsMut::blank(&mut words, 2, 70);
    /// table.set(1, 64, true);
    /// assert!(table.as_rows().get(1, 64));
    /// assert!(!table.as_rows().get(0, 64));
    /// ```
    #[inline(always)]
    pub fn get(self, row: usize, column: usize) -> bool {
        self.row(row).contains(column)
    }
}
