// Made by front/erase from crates/flow/src/postorder.rt: change that, and not this.
//! The same solution in fewer rounds: a round takes the edges in the order of the flow.

use crate::shim::prelude::Vec;
use crate::proved::flow::solver::{Solution, solve};
use crate::proved::fixedbitset::FixedBitSet;
use crate::shim::Steps;
use crate::shim::alloc::{AllocError, Global};
use core::mem;

/// [`solve`](crate::proved::flow::solver::solve), whose rounds take the edges [`in_order`], so that few rounds
/// are needed, however the edges stand.
///
/// The solution is that of `solve`, and so is its precondition. `Err` is returned only on
/// allocation failure, and no round was ticked then.
///
/// ```text
/// let none = FixedBitSet::with_capacity(alloc, 1)?;
/// let gens = [none.clone()?, FixedBitSet::from_iter(alloc, [0])?];
/// let kills = [none.clone()?, none];
/// let mut rounds = Steps::new();
/// let answer = flow::solve_in_order(alloc, 1, &[(1, 0)], &gens, &kills, &mut rounds)?;
/// assert!(answer.outs.iter().all(|facts| facts.contains(0)));
/// ```
pub fn solve_in_order(
    alloc: Global,
    facts: usize,
    edges: &[(usize, usize)],
    gens: &[FixedBitSet],
    kills: &[FixedBitSet],
    rounds: &mut Steps,
) -> Result<Solution, AllocError> {
    let ordered = in_order(alloc, edges, gens.len())?;
    solve(alloc, facts, &ordered, gens, kills, rounds)
}

/// The edges in the order of the flow, each as often as it is given: by the reverse postorder of
/// their first nodes, in a depth-first search from the nodes to which no edge leads. Edges from
/// nodes that this search does not come to are last, in the reverse postorder of a search from the
/// least of these nodes on.
///
/// An edge with an end that is no node, at or past `nodes`, stays in the list, and is not gone
/// along. `Err` is returned only on allocation failure. The order takes a number of steps in
/// proportion to the nodes and edges.
///
/// ```text
/// let ordered = flow::in_order(alloc, &[(1, 2), (0, 1), (3, 0)], 4)?;
/// assert_eq!(ordered.as_slice(), [(3, 0), (0, 1), (1, 2)].as_slice());
/// ```
pub fn in_order(
    alloc: Global,
    edges: &[(usize, usize)],
    nodes: usize,
) -> Result<Vec<(usize, usize)>, AllocError> {
    let lists = Lists::of(alloc, edges, nodes)?;
    let (entered, others) = postorders(alloc, edges, nodes)?;
    let mut part = Part::new(alloc, edges.len())?;
    lists.take_all(&entered, edges, &mut part)?;
    lists.take_all(&others, edges, &mut part)?;
    for index in 0..edges.len() {
        part.take(edges, index)?;
    }
    Ok(part.list)
}

// Some of the edges in another order, and which of them these are.
struct Part {
    taken: FixedBitSet,
    list: Vec<(usize, usize)>,
}

impl Part {
    // None of so many edges.
    fn new(alloc: Global, edges: usize) -> Result<Part, AllocError> {
        let taken = FixedBitSet::with_capacity(alloc, edges)?;
        Ok(Part {
            taken,
            list: Vec::new(alloc),
        })
    }

    // Takes in the edge of this index, where there is one that was not taken.
    fn take(&mut self, edges: &[(usize, usize)], index: usize) -> Result<(), AllocError> {
        if index >= edges.len() || self.taken.put(index) {
            return Ok(());
        }
        self.list.push(edges[index])?;
        Ok(())
    }
}

// The edges from each node, as a list: its first edge, and behind each edge the next one. Each is
// an index and 1 more, or 0 at the end.
#[derive(Clone)]
struct Lists {
    first: Vec<usize>,
    next: Vec<usize>,
}

impl Lists {
    fn of(alloc: Global, edges: &[(usize, usize)], nodes: usize) -> Result<Lists, AllocError> {
        let mut first = crate::shim::row![in alloc; 0; nodes]?;
        let mut next = crate::shim::row![in alloc; 0; edges.len()]?;
        for index in 0..edges.len() {
            let (from, _) = edges[index];
            if from < first.len() && index < next.len() {
                next[index] = first[from];
                first[from] = index + 1;
            }
        }
        Ok(Lists { first, next })
    }

    // Takes the first edge off the list of a node.
    fn take_first(&mut self, node: usize) -> Option<usize> {
        let edge = self.first.get(node)?.checked_sub(1)?;
        if node < self.first.len() {
            self.first[node] = self.next.get(edge).copied().unwrap_or(0);
        }
        Some(edge)
    }

    // Takes in the edges from each of these nodes, of the last one first.
    fn take_all(
        &self,
        nodes: &[usize],
        edges: &[(usize, usize)],
        part: &mut Part,
    ) -> Result<(), AllocError> {
        for node in nodes.iter().rev() {
            self.take_from(*node, edges, part)?;
        }
        Ok(())
    }

    // Takes in all edges from a node.
    fn take_from(
        &self,
        node: usize,
        edges: &[(usize, usize)],
        part: &mut Part,
    ) -> Result<(), AllocError> {
        let mut at = self.first.get(node).copied().unwrap_or(0);
        for _ in 0..edges.len() {
            let Some(edge) = at.checked_sub(1) else {
                return Ok(());
            };
            part.take(edges, edge)?;
            at = self.next.get(edge).copied().unwrap_or(0);
        }
        Ok(())
    }
}

// The nodes that a search from those to which no edge leads comes to, and the others: each node
// behind those to which it leads and that were not seen before it.
fn postorders(
    alloc: Global,
    edges: &[(usize, usize)],
    nodes: usize,
) -> Result<(Vec<usize>, Vec<usize>), AllocError> {
    let mut search = Search::new(alloc, edges, nodes)?;
    let mut led_to = FixedBitSet::with_capacity(alloc, nodes)?;
    for (_, to) in edges {
        if *to < led_to.len() {
            led_to.insert(*to);
        }
    }
    for node in led_to.zeroes() {
        search.from(node, edges)?;
    }
    let entered = mem::replace(&mut search.done, Vec::new(alloc));
    for node in 0..nodes {
        search.from(node, edges)?;
    }
    Ok((entered, search.done))
}

// A depth-first search: the edges that it has not gone along, the nodes that it has seen, those on
// the way, and those that are done.
struct Search {
    left: Lists,
    seen: FixedBitSet,
    stack: Vec<usize>,
    done: Vec<usize>,
}

impl Search {
    fn new(alloc: Global, edges: &[(usize, usize)], nodes: usize) -> Result<Search, AllocError> {
        let left = Lists::of(alloc, edges, nodes)?;
        let seen = FixedBitSet::with_capacity(alloc, nodes)?;
        Ok(Search {
            left,
            seen,
            stack: Vec::new(alloc),
            done: Vec::new(alloc),
        })
    }

    // Searches from a node. A turn goes along an edge, or is done with a node.
    fn from(&mut self, node: usize, edges: &[(usize, usize)]) -> Result<(), AllocError> {
        self.see(node)?;
        let turns = self.seen.len().saturating_add(edges.len());
        for _ in 0..turns {
            let Some(node) = self.stack.pop() else {
                return Ok(());
            };
            if let Some(edge) = self.left.take_first(node) {
                self.stack.push(node)?;
                if let Some((_, to)) = edges.get(edge) {
                    self.see(*to)?;
                }
            } else {
                self.done.push(node)?;
            }
        }
        Ok(())
    }

    fn see(&mut self, node: usize) -> Result<(), AllocError> {
        if node < self.seen.len() && !self.seen.put(node) {
            self.stack.push(node)?;
        }
        Ok(())
    }
}
