//! Tables beside flags, for several numbers of columns.

use crate::rows::slow::{flag, join, rows};
use bitlanes::{Block, Steps};
use bitrows::{BitRows, Rows, RowsMut};
use fixedbitset::views::storage_words;
use std::alloc::{AllocError, Global};
use std::mem::ManuallyDrop;
use std::process::Abort;
use std::test::Fail;

// At the ends of words and of lanes of four, and beside them.
const COLUMNS: [usize; 11] = [0, 1, 3, 63, 64, 65, 128, 255, 256, 257, 513];

// Sets or clears each bit as the flags say.
fn fill(rt: &impl Abort, table: &mut BitRows, wanted: &[Vec<bool>]) {
    for row in 0..wanted.len() {
        for column in 0..table.columns() {
            assert!(rt; row < table.rows() && column < table.columns());
            table.set(row, column, flag(wanted, row, column));
        }
    }
}

fn filled(
    rt: &impl Abort,
    alloc: Global,
    columns: usize,
    wanted: &[Vec<bool>],
) -> Result<BitRows, AllocError> {
    let mut table = BitRows::new(alloc, wanted.len(), columns)?;
    fill(rt, &mut table, wanted);
    Ok(table)
}

// The table has these sizes, these bits, and no other; each walk gives them in order.
fn assert_same(rt: &impl Abort, table: &BitRows, columns: usize, wanted: &[Vec<bool>]) {
    assert_eq!(rt; table.rows(), wanted.len());
    assert_eq!(rt; table.columns(), columns);
    for row in 0..table.rows() {
        let mut walk = table.row(row);
        for column in 0..columns {
            let is_set = flag(wanted, row, column);
            assert_eq!(rt; table.get(row, column), is_set, "{row} {column}");
            if is_set {
                assert_eq!(rt; walk.next(), Some(column), "{row}");
            }
        }
        assert_eq!(rt; walk.next(), None, "{row}");
        for past in [columns, columns.saturating_add(300), usize::MAX] {
            assert!(rt; !table.get(row, past), "{row} {past}");
        }
    }
    assert!(rt; !table.get(table.rows(), 0) && !table.get(usize::MAX, columns));
}

#[test]
fn each_bit_set_and_cleared(rt: HostRuntime) -> Result<(), Fail> {
    let alloc = rt.alloc();
    for columns in COLUMNS {
        let mut wanted = rows(alloc, columns)?;
        let mut table = filled(&rt, alloc, columns, &wanted)?;
        assert_same(&rt, &table, columns, &wanted);
        wanted.reverse();
        fill(&rt, &mut table, &wanted);
        assert_same(&rt, &table, columns, &wanted);
    }
    Ok(())
}

#[test]
fn each_row_joined_with_each(rt: HostRuntime) -> Result<(), Fail> {
    let alloc = rt.alloc();
    for columns in COLUMNS {
        for from in 0..4 {
            for into in 0..4 {
                let mut wanted = rows(alloc, columns)?;
                let mut table = filled(&rt, alloc, columns, &wanted)?;
                assert!(rt; from < table.rows() && into < table.rows());
                let changed = join(&mut wanted, columns, from, into);
                assert_eq!(rt;
                    table.union_rows(from, into),
                    changed,
                    "{columns} {from} {into}"
                );
                assert_same(&rt, &table, columns, &wanted);
                assert!(rt; !table.union_rows(from, into), "{columns} {from} {into}");
            }
        }
    }
    Ok(())
}

#[test]
fn each_row_by_itself_in_two_parts(rt: HostRuntime) -> Result<(), Fail> {
    for columns in COLUMNS {
        for at in 0..5 {
            for own in 0..4 {
                let mut words = vec![in rt.alloc(); 1; 4 * storage_words(columns)]?;
                let table = RowsMut::blank(words.as_mut_slice(), 4, columns);
                let (low, high) = table.split_rows_mut(at);
                assert!(rt; low.rows == at && high.rows == 4 - at, "{columns} {at}");
                assert!(rt; low.columns == columns && high.columns == columns, "{at}");
                let mut row = if own < at {
                    low.row_mut(own)
                } else {
                    high.row_mut(own - at)
                };
                assert_eq!(rt; row.length, columns);
                row.insert_range(0, columns, &mut Steps::new());
                assert_own(&rt, &words, columns, own);
            }
        }
    }
    Ok(())
}

// Of four rows this one has each bit, and the others have none.
fn assert_own(rt: &impl Abort, words: &[Block], columns: usize, own: usize) {
    let table = Rows {
        words,
        rows: 4,
        columns,
    };
    for row in 0..4 {
        for column in 0..columns {
            assert_eq!(rt;
                table.get(row, column),
                row == own,
                "{columns} {own} {column}"
            );
        }
    }
}

#[test]
fn no_rows_and_too_many(rt: HostRuntime) -> Result<(), Fail> {
    let mut table = BitRows::new(rt.alloc(), 0, 70)?;
    assert_same(&rt, &table, 70, &[]);
    table.close();
    assert_same(&rt, &table, 70, &[]);
    assert!(rt; BitRows::new(rt.alloc(), usize::MAX, 65).is_err());
    Ok(())
}

// Where memory is there, a new table refuses no number of its own choice. To drop it drops its words one by one, so it is left.
#[test]
fn of_more_than_a_million_rows(rt: HostRuntime) -> Result<(), Fail> {
    let (rows, columns) = (1_000_001, 300);
    let mut table = BitRows::new(rt.alloc(), rows, columns)?;
    assert!(rt; table.rows() == rows && table.columns() == columns);
    table.set(rows - 1, columns - 1, true);
    assert!(rt; table.get(rows - 1, columns - 1) && !table.get(rows - 2, columns - 1));
    assert!(rt; table.row(rows - 1).eq([columns - 1]));
    let _ = ManuallyDrop::new(table);
    Ok(())
}
