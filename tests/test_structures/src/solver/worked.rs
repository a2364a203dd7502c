//! Worked problems with their least solutions, and what is no problem.

use fixedbitset::{FixedBitSet, Steps};
use flow::{Solution, is_problem, solve};
use std::alloc::{AllocError, Global};
use std::process::Abort;
use std::test::Fail;

// A set of this length for each list of positions.
fn sets(
    alloc: Global,
    length: usize,
    members: &[&[usize]],
) -> Result<Vec<FixedBitSet>, AllocError> {
    let mut sets = Vec::new(alloc);
    for positions in members {
        let mut set = FixedBitSet::with_capacity(alloc, length)?;
        for position in *positions {
            if *position < set.len() {
                set.insert(*position);
            }
        }
        sets.push(set)?;
    }
    Ok(sets)
}

// The answer that is wanted, by its positions.
fn wanted(
    alloc: Global,
    facts: usize,
    ins: &[&[usize]],
    outs: &[&[usize]],
) -> Result<Solution, AllocError> {
    let ins = sets(alloc, facts, ins)?;
    let outs = sets(alloc, facts, outs)?;
    Ok(Solution { ins, outs })
}

// Each problem is solved with its edges in their order and the other way round.
fn assert_solved(
    rt: &impl Abort,
    alloc: Global,
    facts: usize,
    edges: &[(usize, usize)],
    gens: &[&[usize]],
    kills: &[&[usize]],
    wanted: &Solution,
) -> Result<(), Fail> {
    let gens = sets(alloc, facts, gens)?;
    let kills = sets(alloc, facts, kills)?;
    let mut edges = edges.to_vec(alloc)?;
    for _ in 0..2 {
        assert!(rt; is_problem(facts, &edges, &gens, &kills));
        let answer = solve(alloc, facts, &edges, &gens, &kills, &mut Steps::new())?;
        assert!(rt; answer.ins == wanted.ins, "{answer:?}");
        assert!(rt; answer.outs == wanted.outs, "{answer:?}");
        edges.reverse();
    }
    Ok(())
}

#[test]
fn worked_rows(rt: HostRuntime) -> Result<(), Fail> {
    let alloc = rt.alloc();
    let answer = wanted(
        alloc,
        3,
        &[&[], &[0, 1], &[0, 1], &[0, 1]],
        &[&[0], &[0, 1], &[1], &[0, 1, 2]],
    )?;
    assert_solved(
        &rt,
        alloc,
        3,
        &[(0, 1), (1, 2), (2, 1), (1, 3)],
        &[&[0], &[], &[1], &[2]],
        &[&[1], &[], &[0], &[]],
        &answer,
    )?;
    let none = [[].as_slice(), &[]];
    let answer = wanted(alloc, 2, &none, &none)?;
    assert_solved(&rt, alloc, 2, &[(0, 1), (1, 0)], &none, &none, &answer)?;
    let answer = wanted(alloc, 1, &[&[0]], &[&[0]])?;
    assert_solved(&rt, alloc, 1, &[(0, 0), (0, 0)], &[&[0]], &[&[0]], &answer)?;
    let answer = wanted(alloc, 0, &none, &none)?;
    assert_solved(&rt, alloc, 0, &[(0, 1)], &none, &none, &answer)?;
    let answer = wanted(alloc, 5, &[], &[])?;
    assert_solved(&rt, alloc, 5, &[], &[], &[], &answer)
}

// A ring over facts of three words: against the order of its edges what a node passes on takes a round an edge.
#[test]
fn a_ring(rt: HostRuntime) -> Result<(), Fail> {
    let alloc = rt.alloc();
    let answer = wanted(
        alloc,
        130,
        &[&[0], &[0, 129], &[0, 129], &[0, 64]],
        &[&[0, 129], &[0, 129], &[0, 64], &[0]],
    )?;
    assert_solved(
        &rt,
        alloc,
        130,
        &[(3, 0), (2, 3), (1, 2), (0, 1)],
        &[&[129], &[], &[64], &[0]],
        &[&[], &[1], &[129], &[64]],
        &answer,
    )
}

#[test]
fn no_problems(rt: HostRuntime) -> Result<(), Fail> {
    let alloc = rt.alloc();
    let gens = sets(alloc, 3, &[&[], &[]])?;
    let kills = sets(alloc, 3, &[&[0], &[]])?;
    let one = sets(alloc, 3, &[&[]])?;
    let mut longer = sets(alloc, 3, &[&[]])?;
    longer.push(FixedBitSet::with_capacity(alloc, 4)?)?;
    assert!(rt; is_problem(3, &[(0, 1), (1, 1)], &gens, &kills));
    assert!(rt; !is_problem(3, &[(0, 1), (0, 2)], &gens, &kills));
    assert!(rt; !is_problem(3, &[(2, 0)], &gens, &kills));
    assert!(rt; !is_problem(3, &[], &gens, &longer));
    assert!(rt; !is_problem(3, &[], &longer, &kills));
    assert!(rt; !is_problem(4, &[], &gens, &kills));
    assert!(rt; !is_problem(3, &[], &gens, &one));
    assert!(rt; !is_problem(0, &[(0, 0)], &[], &[]));
    assert!(rt; is_problem(usize::MAX, &[], &[], &[]));
    Ok(())
}

// Facts that no memory holds, of no node: no set is made. (test_refusals refuses each request of a problem with nodes.)
#[test]
fn facts_of_no_node(rt: HostRuntime) -> Result<(), Fail> {
    let answer = solve(rt.alloc(), usize::MAX, &[], &[], &[], &mut Steps::new())?;
    assert!(rt; answer.ins.is_empty() && answer.outs.is_empty());
    Ok(())
}
