//! Tests of the loops that fill a set of `test_callers::fills`.

use crate::walks::slow::set_of;
use fixedbitset::FixedBitSet;
use std::alloc::{AllocError, Global};
use std::test::Fail;
use test_callers::fills::{fill, first_again, reached};
use test_callers::zeroes;

#[test]
fn all_slots_are_taken(rt: HostRuntime) -> Result<(), Fail> {
    let mut set = set_of(rt.alloc(), 130, [0, 64, 129].as_slice())?;
    fill(&mut set);
    assert_eq!(rt; zeroes::count(&set), 0);
    assert_eq!(rt; set.as_slice(), [u64::MAX, u64::MAX, 3].as_slice());
    Ok(())
}

#[test]
fn a_cycle_is_found(rt: HostRuntime) -> Result<(), Fail> {
    let next = [3, 4, 0, 1, 3];
    for (start, again, nodes) in [(0, 3, 4), (1, 1, 3), (2, 3, 5)] {
        let mut visited = set_of(rt.alloc(), 5, [].as_slice())?;
        assert!(rt; start < 5 && next.iter().all(|node| *node < 5));
        assert_eq!(rt; first_again(&mut visited, &next, start), again);
        assert_eq!(rt; visited.ones().count(), nodes);
    }
    Ok(())
}

// The edges of six nodes. One leads to no node.
fn edges(alloc: Global) -> Result<Vec<Vec<usize>>, AllocError> {
    let mut edges = Vec::new(alloc);
    edges.push(vec![in alloc; 2, 3]?)?;
    edges.push(vec![in alloc; 9]?)?;
    edges.push(vec![in alloc; 0, 5, 2]?)?;
    edges.push(Vec::new(alloc))?;
    edges.push(vec![in alloc; 0]?)?;
    edges.push(Vec::new(alloc))?;
    Ok(edges)
}

// The one word of a set of nodes.
fn word_of(nodes: &FixedBitSet) -> Option<u64> {
    nodes.as_slice().first().copied()
}

#[test]
fn reached_nodes(rt: HostRuntime) -> Result<(), Fail> {
    let edges = edges(rt.alloc())?;
    for (start, word) in [(0, 45), (1, 2), (3, 8), (4, 61)] {
        let nodes = reached(rt.alloc(), &edges, start)?;
        assert!(rt; word_of(&nodes) == Some(word), "from {start}");
    }
    Ok(())
}
