//! Edges in the order of the flow: worked lists, and a chain whose edges stand in the wrong order.

use fixedbitset::{FixedBitSet, Steps};
use flow::{in_order, is_problem, solve_in_order};
use std::test::Fail;

// Nodes, edges, and these in the order of the flow: a chain, a branch, a loop that no entry leads to, a loop of one node and an
// edge from no node, and no edges.
const ORDERS: &[(usize, &[(usize, usize)], &[(usize, usize)]); 5] = &[
    (4, &[(2, 3), (1, 2), (0, 1)], &[(0, 1), (1, 2), (2, 3)]),
    (
        4,
        &[(1, 3), (2, 3), (0, 1), (0, 2)],
        &[(0, 2), (0, 1), (1, 3), (2, 3)],
    ),
    (4, &[(1, 2), (2, 1), (0, 3)], &[(0, 3), (1, 2), (2, 1)]),
    (1, &[(5, 0), (0, 0), (0, 7)], &[(0, 7), (0, 0), (5, 0)]),
    (0, &[], &[]),
];

#[test]
fn worked_orders(rt: HostRuntime) -> Result<(), Fail> {
    for (nodes, edges, wanted) in ORDERS {
        let ordered = in_order(rt.alloc(), edges, *nodes)?;
        assert_eq!(rt; ordered.as_slice(), *wanted);
    }
    Ok(())
}

// How many nodes the chain has. In the order of its edges it would take as many rounds.
const NODES: usize = 20_000;

#[test]
fn a_chain_in_the_wrong_order(rt: HostRuntime) -> Result<(), Fail> {
    let alloc = rt.alloc();
    let none = FixedBitSet::with_capacity(alloc, 1)?;
    let mut edges = Vec::new(alloc);
    let mut gens = vec![in alloc; none.clone()?; NODES]?;
    let kills = vec![in alloc; none; NODES]?;
    for node in 1..NODES {
        edges.push((NODES - node - 1, NODES - node))?;
    }
    gens[0].insert(0);
    assert!(rt; is_problem(1, &edges, &gens, &kills));
    let answer = solve_in_order(alloc, 1, &edges, &gens, &kills, &mut Steps::new())?;
    assert!(rt; answer.outs.iter().all(|facts| facts.contains(0)));
    Ok(())
}
