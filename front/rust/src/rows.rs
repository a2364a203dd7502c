//! Bit matrices. Upstream has none.
use crate::changes::asserts;
use crate::proved::bitrows::{table, views as tables};
use crate::{panics, Bits, BitsMut, Ones};
use core::fmt::{Debug, Formatter, Result as Written};
use core::hash::{Hash, Hasher};

/// A table of bits: so many rows of so many columns.
///
/// The rows stand in one row of words. Each keeps the words that a set of so many columns has: whole lanes of four. So a row is
/// a [`Bits`], with each call of that.
///
/// Proved: what its calls return and leave ([contract](crate::contracts#bitrowsrowsmutclose)).
///
/// ```
/// use fixedbitset::BitRows;
///
/// let mut edges = BitRows::new(3, 3);
/// edges.set(0, 2, true);
/// edges.set(2, 1, true);
/// edges.close();
/// assert_eq!(format!("{edges:?}"), "[{1, 2}, {}, {1}]");
/// ```
#[derive(Clone)]
pub struct BitRows {
    pub(crate) table: table::BitRows,
}

/// Some rows of a table, one after the other, to be changed: to a [`BitRows`] what a slice `&mut [T]` is to a `Vec`.
///
/// [`split_rows_mut`](BitRows::split_rows_mut) makes two of a table, for example for two threads.
///
/// Proved: of each call what its page says ([contract](crate::contracts#bitrowsrowsmut)).
///
/// ```
/// # use fixedbitset::BitRows;
/// let mut table = BitRows::new(4, 70);
/// let (mut low, mut high) = table.split_rows_mut(2);
/// std::thread::scope(|scope| {
///     scope.spawn(move || low.row_bits_mut(1).insert(3));
///     scope.spawn(move || high.row_bits_mut(1).insert_range(68..));
/// });
/// assert_eq!(format!("{table:?}"), "[{}, {3}, {}, {68, 69}]");
/// ```
pub struct RowsMut<'a> {
    pub(crate) table: tables::RowsMut<'a>,
}

/// Declares the calls of a table by its rows, which its parts have too.
macro_rules! tables {
    ($($name:ty;)*) => { $(
        impl $name {
            asserts! {
                assert_row(&self, row: usize)
                    row >= self.rows() => panics::no_row(row, self.rows());
                assert_cell(&self, row: usize, column: usize)
                    row >= self.rows() || column >= self.columns()
                        => panics::no_cell(row, column, self.rows(), self.columns());
                assert_pair(&self, from: usize, into: usize)
                    from >= self.rows() || into >= self.rows() => panics::no_pair(from, into, self.rows());
            }

            /// The proved view, to be changed.
            #[inline]
            fn lent(&mut self) -> tables::RowsMut<'_> {
                let (rows, columns) = (self.rows(), self.columns());
                let words = &mut self.table.words;
                tables::RowsMut { words, rows, columns }
            }

            /// The columns at which the row has a bit, in ascending order.
            ///
            /// **Panics** where the table has no such row.
            ///
            /// Proved: each item, for each row of the table ([contract](crate::contracts#bitrowsrowsrow)).
            ///
            /// ```
            /// # use fixedbitset::BitRows;
            /// let mut table = BitRows::new(3, 70);
            /// table.set(1, 69, true);
            /// table.set(1, 3, true);
            /// assert_eq!(table.row(1).rev().collect::<Vec<_>>(), [69, 3]);
            /// ```
            #[inline]
            #[must_use]
            #[track_caller]
            pub fn row(&self, row: usize) -> Ones<'_> {
                self.row_bits(row).ones()
            }

            /// The row as a set of so many positions as there are columns, to be read. No word is copied.
            ///
            /// **Panics** where the table has no such row.
            ///
            /// Proved: the set, for each row of the table ([contract](crate::contracts#bitrowsrowsrow)).
            ///
            /// ```
            /// # use fixedbitset::BitRows;
            /// let mut table = BitRows::new(3, 70);
            /// table.set(1, 69, true);
            /// assert_eq!(table.row_bits(1).count_ones(3..), 1);
            /// assert!(table.row_bits(0).is_subset(table.row_bits(1)));
            /// ```
            #[inline]
            #[must_use]
            #[track_caller]
            pub fn row_bits(&self, row: usize) -> Bits<'_> {
                self.assert_row(row);
                let view = self.table.as_rows().row(row);
                Bits { view }
            }

            /// [`row_bits`](Self::row_bits), to be changed. The other rows stay.
            ///
            /// **Panics** where the table has no such row.
            ///
            /// Proved: the set, for each row of the table ([contract](crate::contracts#bitrowsrowsmutrow_mut)). That the table
            /// has what is left of it, and its other rows as they were, is not.
            ///
            /// ```
            /// # use fixedbitset::{BitRows, FixedBitSet};
            /// let mut table = BitRows::new(3, 70);
            /// table.row_bits_mut(1).insert_range(60..);
            /// table.row_bits_mut(1).intersect_with(FixedBitSet::from([3, 64]).as_bits());
            /// assert_eq!(format!("{table:?}"), "[{}, {64}, {}]");
            /// ```
            #[inline]
            #[track_caller]
            pub fn row_bits_mut(&mut self, row: usize) -> BitsMut<'_> {
                self.assert_row(row);
                let view = self.lent().row_mut(row);
                BitsMut { view }
            }

            /// The rows before a row, the row as a set, and the rows after it, each part to be changed by itself. The third
            /// counts its rows from 0 too.
            ///
            /// **Panics** where the table has no such row.
            ///
            /// Proved: the three parts, for each row of the table
            /// ([contract](crate::contracts#bitrowsrowsmutsplit_row_mut)). That the table has what is left of them is not.
            ///
            /// ```
            /// # use fixedbitset::BitRows;
            /// let mut table = BitRows::new(4, 70);
            /// table.set(3, 69, true);
            /// let (_, mut row, after) = table.split_row_mut(1);
            /// row.union_with(after.row_bits(1));
            /// assert_eq!(format!("{table:?}"), "[{}, {69}, {}, {69}]");
            /// ```
            #[inline]
            #[must_use]
            #[track_caller]
            pub fn split_row_mut(&mut self, row: usize) -> (RowsMut<'_>, BitsMut<'_>, RowsMut<'_>) {
                self.assert_row(row);
                let (low, view, high) = self.lent().split_row_mut(row);
                (RowsMut { table: low }, BitsMut { view }, RowsMut { table: high })
            }

            /// The rows before row `at`, and those from it on, each part to be changed by itself. The second counts its rows
            /// from 0 too.
            ///
            /// **Panics** where `at` is greater than the number of rows.
            ///
            /// Proved: both parts, for each number of rows that the table has
            /// ([contract](crate::contracts#bitrowsrowsmutsplit_rows_mut)). That the table has what is left of them is not.
            ///
            /// ```
            /// # use fixedbitset::BitRows;
            /// let mut table = BitRows::new(4, 70);
            /// let (mut first, mut others) = table.split_rows_mut(1);
            /// let (second, third_and_fourth) = others.split_rows_mut(1);
            /// first.row_bits_mut(0).union_with(second.row_bits(0));
            /// assert_eq!(third_and_fourth.rows(), 2);
            /// ```
            #[inline]
            #[must_use]
            #[track_caller]
            pub fn split_rows_mut(&mut self, at: usize) -> (RowsMut<'_>, RowsMut<'_>) {
                if at > self.rows() {
                    panics::no_row(at, self.rows());
                }
                let (low, high) = self.lent().split_rows_mut(at);
                (RowsMut { table: low }, RowsMut { table: high })
            }
        }

        /// Proved: the columns of each row ([contract](crate::contracts#bitrowsrowsrow)). The text around them is not.
        impl Debug for $name {
            /// The columns of each row.
            fn fmt(&self, f: &mut Formatter<'_>) -> Written {
                let rows = (0..self.rows()).map(|row| self.row(row));
                f.debug_list().entries(rows).finish()
            }
        }
    )* };
}
tables! {
    BitRows;
    RowsMut<'_>;
}

impl BitRows {
    /// The rows that have words: none where there are no columns, however many rows there are.
    fn sets(&self) -> impl Iterator<Item = Bits<'_>> {
        let count = if self.columns() > 0 { self.rows() } else { 0 };
        (0..count).map(|row| self.row_bits(row))
    }
}

/// Proved: of two rows whether they are equal ([contract](crate::contracts#fixedbitsetbitsis_equal)).
impl PartialEq for BitRows {
    /// Whether both have the same numbers of rows and of columns, and the same bits.
    fn eq(&self, other: &Self) -> bool {
        let is_like = self.rows() == other.rows() && self.columns() == other.columns();
        is_like && self.sets().eq(other.sets())
    }
}

/// Proved: of two rows that they are equal exactly where their positions are
/// ([contract](crate::contracts#fixedbitsetbitsis_equal)).
impl Eq for BitRows {}

/// Proved: the words of each row ([contract](crate::contracts#fixedbitsetbitsas_slice)). That they are fed after the number of
/// rows is not.
impl Hash for BitRows {
    fn hash<H: Hasher>(&self, state: &mut H) {
        self.rows().hash(state);
        self.sets().for_each(|row| row.hash(state));
    }
}
