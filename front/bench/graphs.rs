//! Times algorithms of petgraph that keep their nodes in a set of bits. It prints a line for each: the algorithm, the graph,
//! and the least nanoseconds. Which crate the sets are of, is decided where petgraph is built: `petgraph` builds it over both.

use petgraph::algo::{
    dijkstra, has_path_connecting, is_cyclic_directed, kosaraju_scc, tarjan_scc, toposort,
};
use petgraph::graph::{DiGraph, NodeIndex};
use petgraph::visit::{depth_first_search, Bfs, Control, Dfs, DfsEvent, DfsPostOrder, Topo};
use std::hint::black_box;
use std::time::Instant;
use turns::turns;

#[allow(dead_code)]
#[path = "../../bench/turns.rs"]
mod turns;

type Graph = DiGraph<(), u32>;

/// An algorithm, and what of its answer is looked at.
type Algorithm = fn(&Graph) -> usize;

const SIDE: usize = 100;
const TURNS: usize = 40;

fn start() -> NodeIndex {
    NodeIndex::new(0)
}

fn last(graph: &Graph) -> NodeIndex {
    NodeIndex::new(graph.node_count() - 1)
}

/// What a walk gives one by one.
macro_rules! walked {
    ($graph:ident, $walk:expr) => {{
        let (mut walk, mut sum) = ($walk, 0_usize);
        while let Some(node) = walk.next($graph) {
            sum = sum.wrapping_mul(31) ^ node.index();
        }
        sum
    }};
}

const ALGORITHMS: [(&str, Algorithm); 10] = [
    ("Dfs", |graph| walked!(graph, Dfs::new(graph, start()))),
    ("DfsPostOrder", |graph| {
        walked!(graph, DfsPostOrder::new(graph, start()))
    }),
    ("Bfs", |graph| walked!(graph, Bfs::new(graph, start()))),
    ("Topo", |graph| walked!(graph, Topo::new(graph))),
    ("toposort", |graph| {
        toposort(graph, None).map_or(0, |all| all.len())
    }),
    ("kosaraju_scc", |graph| kosaraju_scc(graph).len()),
    ("tarjan_scc", |graph| tarjan_scc(graph).len()),
    ("dijkstra", |graph| {
        dijkstra(graph, start(), None, |edge| *edge.weight()).len()
    }),
    ("depth_first_search", |graph| {
        let mut count = 0;
        depth_first_search(graph, Some(start()), |event| {
            count += usize::from(matches!(event, DfsEvent::CrossForwardEdge(..)));
            Control::<()>::Continue
        });
        count
    }),
    ("has_path_connecting, is_cyclic_directed", |graph| {
        usize::from(has_path_connecting(graph, start(), last(graph), None))
            + usize::from(is_cyclic_directed(graph))
    }),
];

/// Nodes in rows of a hundred, each with an edge to the next of its row and to the one below it.
fn grid() -> Graph {
    let mut graph = Graph::new();
    let nodes: Vec<NodeIndex> = (0..SIDE * SIDE).map(|_| graph.add_node(())).collect();
    for at in 0..nodes.len() {
        if at % SIDE + 1 < SIDE {
            graph.add_edge(nodes[at], nodes[at + 1], 1 + at as u32 % 7);
        }
        if at + SIDE < nodes.len() {
            graph.add_edge(nodes[at], nodes[at + SIDE], 1 + at as u32 % 5);
        }
    }
    graph
}

/// As many nodes with five edges each, by chance, from a lesser node to a greater one.
fn by_chance() -> Graph {
    let mut graph = Graph::new();
    let nodes: Vec<NodeIndex> = (0..SIDE * SIDE).map(|_| graph.add_node(())).collect();
    let mut state = 88_172_645_463_325_252_u64;
    for _ in 0..5 * nodes.len() {
        state ^= state << 13;
        state ^= state >> 7;
        state ^= state << 17;
        let (a, b) = (
            state as usize % nodes.len(),
            (state >> 32) as usize % nodes.len(),
        );
        if a != b {
            graph.add_edge(nodes[a.min(b)], nodes[a.max(b)], 1 + state as u32 % 9);
        }
    }
    graph
}

fn least_nanoseconds(algorithm: Algorithm, graph: &Graph) -> f64 {
    let mut least = f64::INFINITY;
    for () in turns(TURNS) {
        let begun = Instant::now();
        black_box(algorithm(black_box(graph)));
        least = least.min(begun.elapsed().as_nanos() as f64);
    }
    least
}

fn main() {
    for (kind, graph) in [("a grid", grid()), ("edges by chance", by_chance())] {
        for (name, algorithm) in ALGORITHMS {
            println!(
                "\"{name}\",\"{kind}\",{:.0}",
                least_nanoseconds(algorithm, &graph)
            );
        }
    }
}
