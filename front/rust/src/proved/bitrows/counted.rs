// Made by front/erase from crates/bitrows/src/counted.rt: change that, and not this.
//! The call with a counter: it is the call of that name of the table, with one argument more.

use crate::proved::bitrows::table::BitRows;
use crate::proved::bitrows::views::RowsMut;
use crate::proved::bitlanes::Steps;

/// [`BitRows::close`], with the joins of two rows that it makes: one for each pair of nodes `a` and
/// `k` with a path from `a` to `k` whose nodes between its ends are all below `k`.
///
/// ```text
/// let mut table = BitRows::new(alloc, 2, 2)?;
/// table.set(0, 1, true);
/// counted::close(&mut table, &mut Steps::new());
/// assert!(table.row(0).eq([1]));
/// ```
pub fn close(table: &mut BitRows, joins: &mut Steps) {
    let (words, rows, columns) = (&mut *table.words.as_mut_slice(), table.rows, table.columns);
    RowsMut {
        words,
        rows,
        columns,
    }
    .close(joins);
}
