//! Small problems by chance, beside a solver that tries all solutions.

use crate::solver::slow::{FACTS, NODES, Sets, Small, least};
use fixedbitset::{FixedBitSet, Steps};
use flow::{is_problem, solve, solve_in_order};
use std::alloc::{AllocError, Global};
use std::process::Abort;
use std::test::Fail;

// How many problems are tried.
const PROBLEMS: usize = 4000;

// The factor and the summand of a number drawn from the one before.
const FACTOR: u64 = 6_364_136_223_846_793_005;

const SUMMAND: u64 = 1_442_695_040_888_963_407;

// Numbers by chance.
#[derive(Drop)]
struct Drawn(u64);

impl Drawn {
    // A number below 8: the three highest bits of the next one.
    fn below_eight(&mut self) -> u8 {
        self.0 = self.0.wrapping_mul(FACTOR).wrapping_add(SUMMAND);
        (self.0 >> 61) as u8
    }

    fn sets(&mut self) -> [u8; NODES] {
        [self.below_eight(), self.below_eight(), self.below_eight()]
    }

    // Each edge is there for three numbers of eight.
    fn problem(&mut self) -> Small {
        let mut edges = [[false; NODES]; NODES];
        for from in 0..NODES {
            for to in 0..NODES {
                edges[from][to] = self.below_eight() < 3;
            }
        }
        Small {
            edges,
            gens: self.sets(),
            kills: self.sets(),
        }
    }
}

// The edges as pairs, in this order or the other way round, with the first one doubled.
fn pairs(
    alloc: Global,
    problem: &Small,
    reversed: bool,
) -> Result<Vec<(usize, usize)>, AllocError> {
    let mut pairs = Vec::new(alloc);
    for from in 0..NODES {
        for to in 0..NODES {
            if problem.edges[from][to] {
                pairs.push((from, to))?;
            }
        }
    }
    if let Some(first) = pairs.first().copied() {
        pairs.push(first)?;
    }
    if reversed {
        pairs.reverse();
    }
    Ok(pairs)
}

// The set of the facts of a number.
fn set_of(alloc: Global, number: u8) -> Result<FixedBitSet, AllocError> {
    let mut set = FixedBitSet::with_capacity(alloc, FACTS)?;
    for fact in 0..FACTS {
        if number >> fact & 1 == 1 && fact < set.len() {
            set.insert(fact);
        }
    }
    Ok(set)
}

fn sets_of(alloc: Global, numbers: [u8; NODES]) -> Result<Vec<FixedBitSet>, AllocError> {
    let mut sets = Vec::new(alloc);
    for number in numbers {
        sets.push(set_of(alloc, number)?)?;
    }
    Ok(sets)
}

fn assert_sets(
    rt: &impl Abort,
    alloc: Global,
    answer: &[FixedBitSet],
    numbers: [u8; NODES],
    problem: &Small,
) -> Result<(), AllocError> {
    let wanted = sets_of(alloc, numbers)?;
    assert!(rt; answer == wanted.as_slice(), "{problem:?}");
    Ok(())
}

fn assert_least(
    rt: &impl Abort,
    alloc: Global,
    problem: &Small,
    wanted: &Sets,
    reversed: bool,
) -> Result<(), AllocError> {
    let edges = pairs(alloc, problem, reversed)?;
    let gens = sets_of(alloc, problem.gens)?;
    let kills = sets_of(alloc, problem.kills)?;
    assert!(rt; is_problem(FACTS, &edges, &gens, &kills));
    let answer = solve(alloc, FACTS, &edges, &gens, &kills, &mut Steps::new())?;
    assert_sets(rt, alloc, &answer.ins, wanted.ins, problem)?;
    assert_sets(rt, alloc, &answer.outs, wanted.outs, problem)?;
    let answer = solve_in_order(alloc, FACTS, &edges, &gens, &kills, &mut Steps::new())?;
    assert_sets(rt, alloc, &answer.ins, wanted.ins, problem)?;
    assert_sets(rt, alloc, &answer.outs, wanted.outs, problem)
}

#[test]
fn the_least_of_all_solutions(rt: HostRuntime) -> Result<(), Fail> {
    let mut drawn = Drawn(1);
    for turn in 0..PROBLEMS {
        let problem = drawn.problem();
        let Some(wanted) = least(&problem) else {
            panic!(rt; "no least solution: {problem:?}");
        };
        assert_least(&rt, rt.alloc(), &problem, &wanted, turn % 2 == 1)?;
    }
    Ok(())
}
