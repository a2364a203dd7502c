//! How many rounds `solve` counts, beside a slow solver over words: a round goes over all edges, and the last one changes nothing.
//! `wrong_runs` runs this over the `Steps` of counting_steps.rs.

use fixedbitset::{FixedBitSet, Steps};
use flow::solve;
use std::alloc::{AllocError, Global};
use std::process::Abort;
use std::test::Fail;

fn sets(alloc: Global, words: &[u64]) -> Result<Vec<FixedBitSet>, AllocError> {
    let mut sets = Vec::new(alloc);
    for word in words {
        sets.push(FixedBitSet::with_capacity_and_blocks(alloc, 3, [*word])?)?;
    }
    Ok(sets)
}

// The rounds that the slow solver goes, over four nodes.
fn rounds(edges: &[(usize, usize)], gens: &[u64; 4], kills: &[u64; 4]) -> usize {
    let (mut ins, mut outs, mut rounds, mut changed) = ([0, 0, 0, 0], *gens, 0, true);
    while changed {
        rounds += 1;
        changed = false;
        for (from, to) in edges {
            if outs[*from] & !ins[*to] != 0 {
                ins[*to] |= outs[*from];
                outs[*to] |= ins[*to] & !kills[*to];
                changed = true;
            }
        }
    }
    rounds
}

#[test]
fn rounds_are_counted(rt: HostRuntime) -> Result<(), Fail> {
    let alloc = rt.alloc();
    let (gens, kills) = ([1, 0, 4, 0], [0, 2, 0, 1]);
    let problems: [&[(usize, usize)]; 5] = [
        &[],
        &[(0, 1), (1, 2), (2, 3)],
        &[(2, 3), (1, 2), (0, 1)],
        &[(3, 0), (2, 3), (1, 2), (0, 1)],
        &[(0, 0), (2, 1), (1, 0)],
    ];
    for edges in problems {
        let mut steps = Steps::new();
        let _ = solve(alloc, 3, edges, &sets(alloc, &gens)?, &sets(alloc, &kills)?, &mut steps)?;
        assert_eq!(rt; steps.taken(), rounds(edges, &gens, &kills));
    }
    Ok(())
}
