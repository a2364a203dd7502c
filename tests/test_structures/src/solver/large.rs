//! Problems of many nodes: where memory is there, the solver refuses no number of its own choice.

use fixedbitset::{FixedBitSet, Steps};
use flow::{is_problem, solve};
use std::mem::ManuallyDrop;
use std::test::Fail;

// How many nodes and how many facts there are.
const NODES: usize = 5_000;

const FACTS: usize = 70;

// A chain: what the first node generates comes to each node behind it.
#[test]
fn a_chain_of_many_nodes(rt: HostRuntime) -> Result<(), Fail> {
    let alloc = rt.alloc();
    let none = FixedBitSet::with_capacity(alloc, FACTS)?;
    let mut edges = Vec::new(alloc);
    let mut gens = vec![in alloc; FixedBitSet::from_iter(alloc, [FACTS - 1])?; 1]?;
    let mut kills = vec![in alloc; none.clone()?; 1]?;
    for node in 1..NODES {
        edges.push((node - 1, node))?;
        gens.push(none.clone()?)?;
        kills.push(none.clone()?)?;
    }
    assert!(rt; is_problem(FACTS, &edges, &gens, &kills));
    let answer = solve(alloc, FACTS, &edges, &gens, &kills, &mut Steps::new())?;
    assert_eq!(rt; answer.ins.len(), NODES);
    for set in &answer.outs {
        assert_eq!(rt; set.minimum(), Some(FACTS - 1));
    }
    Ok(())
}

// Sets of no facts take no memory, so that the test takes few seconds. They are left, for to drop them takes as long as a call.
#[test]
fn more_than_a_million_nodes(rt: HostRuntime) -> Result<(), Fail> {
    let alloc = rt.alloc();
    let mut none = Vec::new(alloc);
    none.resize_with(1_000_001, || FixedBitSet::new(alloc))?;
    let edges = [(0, 1_000_000)];
    assert!(rt; is_problem(0, &edges, &none, &none));
    let answer = solve(alloc, 0, &edges, &none, &none, &mut Steps::new())?;
    assert!(rt; answer.ins.len() == 1_000_001 && answer.outs.len() == 1_000_001);
    let _ = ManuallyDrop::new((none, answer));
    Ok(())
}
