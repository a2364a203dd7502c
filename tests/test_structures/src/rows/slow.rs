//! Slow values: a flag for each bit of a table, and what paths reach, edge by edge.

use std::alloc::{AllocError, Global};
use std::mem;
use test_values::slow::multiples;

/// Four rows: in one the multiples of 2 are set, in the next those of 3, and so on.
pub fn rows(alloc: Global, columns: usize) -> Result<Vec<Vec<bool>>, AllocError> {
    let mut rows = Vec::new(alloc);
    for step in 2..6 {
        rows.push(multiples(alloc, columns, step)?)?;
    }
    Ok(rows)
}

/// The flag of a bit: `false` where there is none.
pub fn flag(rows: &[Vec<bool>], row: usize, column: usize) -> bool {
    match rows.get(row) {
        Some(flags) => matches!(flags.get(column), Some(true)),
        None => false,
    }
}

/// Row `into` takes in row `from`. It answers whether a flag came in.
pub fn join(rows: &mut [Vec<bool>], columns: usize, from: usize, into: usize) -> bool {
    let mut changed = false;
    for column in 0..columns {
        if flag(rows, from, column) {
            if let Some(flags) = rows.get_mut(into) {
                changed |= mark(flags, column);
            }
        }
    }
    changed
}

/// The nodes that a path of one or more edges leads to from the start: each edge is followed, until none leads to a new node.
pub fn reached(
    alloc: Global,
    nodes: usize,
    edges: &[(usize, usize)],
    start: usize,
) -> Result<Vec<bool>, AllocError> {
    let mut reached = vec![in alloc; false; nodes]?;
    for _ in 0..nodes {
        let mut changed = false;
        for (from, to) in edges {
            if *from == start || matches!(reached.get(*from), Some(true)) {
                changed |= mark(&mut reached, *to);
            }
        }
        if !changed {
            break;
        }
    }
    Ok(reached)
}

// Marks the place, if there is one, and answers whether it was not marked.
fn mark(flags: &mut [bool], place: usize) -> bool {
    match flags.get_mut(place) {
        Some(flag) => !mem::replace(flag, true),
        None => false,
    }
}
