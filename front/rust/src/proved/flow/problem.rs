// Made by front/erase from crates/flow/src/problem.rt: change that, and not this.
//! What is a problem for the solver.

use crate::proved::fixedbitset::FixedBitSet;

/// Whether these are a problem that [`solve`](crate::proved::flow::solver::solve) takes: `gens` and `kills` are
/// equally long, each set has length `facts`, and both ends of each edge are below `gens.len()`.
///
/// It does not allocate, and looks at each set's length and at each edge once at most. With no
/// nodes and no edges it is `true`, whatever `facts` is.
///
/// ```text
/// let gens = [FixedBitSet::from_iter(alloc, [0, 69])?];
/// let kills = [FixedBitSet::with_capacity(alloc, 70)?];
/// assert!(flow::is_problem(70, &[(0, 0)], &gens, &kills));
/// assert!(!flow::is_problem(70, &[(0, 1)], &gens, &kills));
/// assert!(!flow::is_problem(69, &[(0, 0)], &gens, &kills));
/// ```
pub fn is_problem(
    facts: usize,
    edges: &[(usize, usize)],
    gens: &[FixedBitSet],
    kills: &[FixedBitSet],
) -> bool {
    gens.len() == kills.len()
        && have_length(gens, facts)
        && have_length(kills, facts)
        && ends_below(edges, gens.len())
}

// Whether each set has length `facts`.
fn have_length(sets: &[FixedBitSet], facts: usize) -> bool {
    sets.iter().all(|set| set.len() == facts)
}

// Whether both ends of each edge are below `nodes`.
fn ends_below(edges: &[(usize, usize)], nodes: usize) -> bool {
    edges.iter().all(|(from, to)| *from < nodes && *to < nodes)
}
