//! Closures of graphs beside a slow one.

use crate::rows::slow::{flag, reached};
use bitrows::BitRows;
use std::alloc::{AllocError, Global};
use std::process::Abort;
use std::test::Fail;

// The factor and the summand of a number drawn from the one before.
const FACTOR: u64 = 6_364_136_223_846_793_005;

const SUMMAND: u64 = 1_442_695_040_888_963_407;

// Numbers by chance.
#[derive(Drop)]
struct Drawn(u64);

impl Drawn {
    // A number below 65,536, and from it one below the count.
    fn below(&mut self, count: usize) -> usize {
        self.0 = self.0.wrapping_mul(FACTOR).wrapping_add(SUMMAND);
        let number = (self.0 >> 48) as usize;
        number % count.max(1)
    }
}

// Closes the graph with these edges in a table of so many rows and columns, and compares each bit.
fn assert_closed(
    rt: &impl Abort,
    alloc: Global,
    (rows, columns): (usize, usize),
    edges: &[(usize, usize)],
) -> Result<(), AllocError> {
    let nodes = rows.max(columns);
    let mut table = BitRows::new(alloc, rows, columns)?;
    for (from, to) in edges {
        assert!(rt; *from < table.rows() && *to < table.columns());
        table.set(*from, *to, true);
    }
    table.close();
    let mut wanted = Vec::new(alloc);
    for node in 0..nodes {
        wanted.push(reached(alloc, nodes, edges, node)?)?;
    }
    assert!(rt; table.rows() == rows && table.columns() == columns);
    for from in 0..rows {
        for to in 0..columns {
            assert!(rt; from < table.rows());
            assert_eq!(rt; table.get(from, to), flag(&wanted, from, to), "{edges:?}");
        }
    }
    Ok(())
}

#[test]
fn each_graph_of_three_nodes(rt: HostRuntime) -> Result<(), Fail> {
    let alloc = rt.alloc();
    for graph in 0..512u32 {
        let mut edges = Vec::new(alloc);
        for pair in 0..9usize {
            if graph >> pair & 1 == 1 {
                edges.push((pair / 3, pair % 3))?;
            }
        }
        assert_closed(&rt, alloc, (3, 3), &edges)?;
    }
    Ok(())
}

#[test]
fn graphs_by_chance(rt: HostRuntime) -> Result<(), Fail> {
    let alloc = rt.alloc();
    let mut drawn = Drawn(1);
    for (nodes, count) in [(1, 1), (5, 6), (20, 25), (64, 70), (65, 80), (130, 140)] {
        for _ in 0..2 {
            let mut edges = Vec::new(alloc);
            for _ in 0..count {
                edges.push((drawn.below(nodes), drawn.below(nodes)))?;
            }
            assert_closed(&rt, alloc, (nodes, nodes), &edges)?;
        }
    }
    Ok(())
}

// Rows that are no column, and columns that are no row.
#[test]
fn tables_that_are_not_square(rt: HostRuntime) -> Result<(), Fail> {
    let alloc = rt.alloc();
    let mut drawn = Drawn(2);
    for (rows, columns) in [(0, 3), (3, 0), (40, 3), (3, 40), (64, 130), (300, 65)] {
        for count in [rows.min(columns), 2 * rows.max(columns)] {
            let mut edges = Vec::new(alloc);
            if rows.min(columns) > 0 {
                for _ in 0..count {
                    edges.push((drawn.below(rows), drawn.below(columns)))?;
                }
            }
            assert_closed(&rt, alloc, (rows, columns), &edges)?;
        }
    }
    Ok(())
}

#[test]
fn a_chain_and_a_ring(rt: HostRuntime) -> Result<(), Fail> {
    let alloc = rt.alloc();
    let nodes = 70;
    let mut edges = Vec::new(alloc);
    for node in 1..nodes {
        edges.push((node, node - 1))?;
    }
    assert_closed(&rt, alloc, (nodes, nodes), &edges)?;
    edges.push((0, 69))?;
    assert_closed(&rt, alloc, (nodes, nodes), &edges)?;
    Ok(())
}

// An edge to a column that is no row leads no further.
#[test]
fn columns_that_are_no_rows(rt: HostRuntime) -> Result<(), Fail> {
    let mut table = BitRows::new(rt.alloc(), 2, 5)?;
    assert!(rt; table.rows() == 2 && table.columns() == 5);
    table.set(0, 1, true);
    assert!(rt; table.rows() == 2 && table.columns() == 5);
    table.set(1, 4, true);
    table.close();
    assert!(rt; table.rows() == 2);
    assert!(rt; table.row(0).eq([1, 4]) && table.row(1).eq([4]));
    Ok(())
}
