//! Times the data-flow solver beside two worklists by hand: over upstream's sets and over words. It prints a line for each
//! problem: nodes, facts, edges, then the least nanoseconds of each, and the most bytes that each has allocated at once.
//!
//! All three get the same list of edges, shuffled, and the same sets, and return the same solution.
use fixedbitset::dataflow::{Direction, Meet, Problem};
use std::alloc::{GlobalAlloc, Layout, System};
use std::collections::VecDeque;
use std::hint::black_box;
use std::sync::atomic::{AtomicBool, AtomicUsize, Ordering::Relaxed};
use std::time::Instant;

const TURNS: usize = 7;
const BITS: usize = 64;

/// Whether bytes are counted; those that are allocated now, and the most at once.
static COUNTS: AtomicBool = AtomicBool::new(false);
static NOW: AtomicUsize = AtomicUsize::new(0);
static MOST: AtomicUsize = AtomicUsize::new(0);

struct Counting;

// SAFETY: the system's allocator does it all; beside it numbers are kept.
unsafe impl GlobalAlloc for Counting {
    unsafe fn alloc(&self, layout: Layout) -> *mut u8 {
        if COUNTS.load(Relaxed) {
            let now = NOW.fetch_add(layout.size(), Relaxed) + layout.size();
            MOST.fetch_max(now, Relaxed);
        }
        unsafe { System.alloc(layout) }
    }

    unsafe fn dealloc(&self, at: *mut u8, layout: Layout) {
        if COUNTS.load(Relaxed) {
            NOW.fetch_sub(layout.size(), Relaxed);
        }
        unsafe { System.dealloc(at, layout) }
    }
}

#[global_allocator]
static COUNTING: Counting = Counting;

/// A chain of random numbers (xorshift).
struct Random(u64);

impl Random {
    fn below(&mut self, end: usize) -> usize {
        for shift in [13, 7, 17] {
            self.0 ^= if shift == 7 {
                self.0 >> shift
            } else {
                self.0 << shift
            };
        }
        (self.0 % end as u64) as usize
    }

    fn shuffle<T>(&mut self, list: &mut [T]) {
        (1..list.len())
            .rev()
            .for_each(|last| list.swap(last, self.below(last + 1)));
    }
}

type Edges = Vec<(usize, usize)>;

/// One after the other.
fn chain(nodes: usize, _: &mut Random) -> Edges {
    (1..nodes).map(|node| (node - 1, node)).collect()
}

/// Branches that meet again, and loops with one entry.
fn reducible(nodes: usize, random: &mut Random) -> Edges {
    let mut edges = chain(nodes, random);
    edges.extend(
        (0..nodes - 4)
            .filter(|node| node % 3 == 0)
            .map(|node| (node, node + 2 + random.below(2))),
    );
    edges.extend(
        (40..nodes)
            .step_by(20)
            .map(|node| (node, node - random.below(20) - 1)),
    );
    edges
}

/// Edges from anywhere to anywhere, two for each node.
fn random(nodes: usize, random: &mut Random) -> Edges {
    (0..2 * nodes)
        .map(|_| (random.below(nodes), random.below(nodes)))
        .collect()
}

/// Edges, and for each node what it generates and what it kills: one fact each.
struct Flow {
    nodes: usize,
    facts: usize,
    edges: Edges,
    gens: Vec<usize>,
    kills: Vec<usize>,
}

impl Flow {
    fn new(nodes: usize, facts: usize, graph: fn(usize, &mut Random) -> Edges) -> Self {
        let mut any = Random(nodes as u64 * 31 + 7);
        let mut edges = graph(nodes, &mut any);
        let mut names: Vec<usize> = (0..nodes).collect();
        any.shuffle(&mut names);
        edges
            .iter_mut()
            .for_each(|edge| *edge = (names[edge.0], names[edge.1]));
        any.shuffle(&mut edges);
        let mut each = || (0..nodes).map(|_| any.below(facts)).collect();
        Flow {
            nodes,
            facts,
            edges,
            gens: each(),
            kills: each(),
        }
    }

    /// The nodes that an edge leads to, by node.
    fn next(&self) -> Vec<Vec<usize>> {
        let mut next = vec![vec![]; self.nodes];
        self.edges.iter().for_each(|edge| next[edge.0].push(edge.1));
        next
    }

    fn problem(&self) -> Problem {
        let mut problem = Problem::new(self.nodes, self.facts);
        problem.extend(self.edges.iter().copied());
        for node in 0..self.nodes {
            problem.gen_mut(node).insert(self.gens[node]);
            problem.kill_mut(node).insert(self.kills[node]);
        }
        problem
    }
}

/// The nodes in reverse postorder of a depth-first search, from those that no edge leads to first.
fn reverse_postorder(next: &[Vec<usize>]) -> Vec<usize> {
    let (mut is_seen, mut is_led_to) = (vec![false; next.len()], vec![false; next.len()]);
    next.iter().flatten().for_each(|&to| is_led_to[to] = true);
    let (entries, others): (Vec<usize>, Vec<usize>) =
        (0..next.len()).partition(|&node| !is_led_to[node]);
    let mut order = vec![];
    for start in entries.into_iter().chain(others) {
        let mut path = if is_seen[start] {
            vec![]
        } else {
            vec![(start, 0)]
        };
        is_seen[start] = true;
        while let Some((node, at)) = path.pop() {
            if let Some(&to) = next[node].get(at) {
                path.push((node, at + 1));
                if !std::mem::replace(&mut is_seen[to], true) {
                    path.push((to, 0));
                }
            } else {
                order.push(node);
            }
        }
    }
    order.reverse();
    order
}

/// The nodes that have to be looked at, each once.
struct Worklist {
    queue: VecDeque<usize>,
    is_in: Vec<bool>,
}

impl Worklist {
    fn all(next: &[Vec<usize>]) -> Self {
        Worklist {
            queue: reverse_postorder(next).into(),
            is_in: vec![true; next.len()],
        }
    }

    fn pop(&mut self) -> Option<usize> {
        let node = self.queue.pop_front()?;
        self.is_in[node] = false;
        Some(node)
    }

    fn push(&mut self, node: usize) {
        if !std::mem::replace(&mut self.is_in[node], true) {
            self.queue.push_back(node);
        }
    }
}

/// How many facts hold behind all nodes together, by upstream's sets.
fn by_sets(flow: &Flow, gens: &[upstream::FixedBitSet], kills: &[upstream::FixedBitSet]) -> usize {
    let next = flow.next();
    let mut ins = vec![upstream::FixedBitSet::with_capacity(flow.facts); flow.nodes];
    let mut outs = gens.to_vec();
    let mut work = Worklist::all(&next);
    while let Some(node) = work.pop() {
        for &to in &next[node] {
            if outs[node].is_subset(&ins[to]) {
                continue;
            }
            ins[to].union_with(&outs[node]);
            let mut came = ins[to].clone();
            came.difference_with(&kills[to]);
            if !came.is_subset(&outs[to]) {
                outs[to].union_with(&came);
                work.push(to);
            }
        }
    }
    outs.iter().map(|set| set.count_ones(..)).sum()
}

/// The same by words, of which each node has `width`.
fn by_words(flow: &Flow, gens: &[u64], kills: &[u64], width: usize) -> usize {
    let next = flow.next();
    let (mut ins, mut outs) = (vec![0; gens.len()], gens.to_vec());
    let mut work = Worklist::all(&next);
    while let Some(node) = work.pop() {
        for &to in &next[node] {
            let mut changed = 0;
            for at in 0..width {
                let (from, at) = (node * width + at, to * width + at);
                ins[at] |= outs[from];
                let out = outs[at] | ins[at] & !kills[at];
                changed |= out ^ outs[at];
                outs[at] = out;
            }
            if changed != 0 {
                work.push(to);
            }
        }
    }
    outs.iter()
        .map(|word: &u64| word.count_ones() as usize)
        .sum()
}

/// The least nanoseconds of some turns of each side, the sides in turn.
fn times(sides: &mut [&mut dyn FnMut() -> usize]) -> Vec<u128> {
    let (mut times, mut found) = (vec![u128::MAX; sides.len()], vec![]);
    for _ in 0..TURNS {
        for (at, side) in sides.iter_mut().enumerate() {
            let began = Instant::now();
            found.push(black_box(side()));
            times[at] = times[at].min(began.elapsed().as_nanos());
        }
    }
    assert!(
        found.iter().all(|count| *count == found[0]),
        "the solutions differ"
    );
    times
}

/// The most bytes that a side has allocated at once.
fn bytes(side: &mut dyn FnMut() -> usize) -> usize {
    NOW.store(0, Relaxed);
    MOST.store(0, Relaxed);
    COUNTS.store(true, Relaxed);
    black_box(side());
    COUNTS.store(false, Relaxed);
    MOST.load(Relaxed)
}

fn measure(name: &str, flow: &Flow) {
    let problem = flow.problem();
    let one = |fact: &usize| {
        let mut set = upstream::FixedBitSet::with_capacity(flow.facts);
        set.insert(*fact);
        set
    };
    let sets = [&flow.gens, &flow.kills].map(|facts| facts.iter().map(one).collect::<Vec<_>>());
    let width = flow.facts.div_ceil(BITS);
    let words = [&flow.gens, &flow.kills].map(|facts| {
        let mut words = vec![0_u64; flow.nodes * width];
        facts
            .iter()
            .enumerate()
            .for_each(|(node, fact)| words[node * width + fact / BITS] |= 1 << (fact % BITS));
        words
    });
    let mut ours = || {
        let found = problem.solve(Direction::Forward, Meet::Union);
        (0..flow.nodes)
            .map(|node| found.after(node).count_ones(..))
            .sum()
    };
    let mut theirs = || by_sets(flow, &sets[0], &sets[1]);
    let mut by_hand = || by_words(flow, &words[0], &words[1], width);
    let sides: &mut [&mut dyn FnMut() -> usize] = &mut [&mut ours, &mut theirs, &mut by_hand];
    let mut columns: Vec<String> = times(sides).iter().map(u128::to_string).collect();
    columns.extend(sides.iter_mut().map(|side| bytes(side).to_string()));
    println!(
        "{name},{},{},{},{}",
        flow.nodes,
        flow.facts,
        flow.edges.len(),
        columns.join(",")
    );
}

fn main() {
    println!(
        "graph,nodes,facts,edges,solver,sets,words,bytes of solver,bytes of sets,bytes of words"
    );
    measure("reducible", &Flow::new(100, 64, reducible));
    measure("chain", &Flow::new(20_000, 256, chain));
    measure("reducible", &Flow::new(20_000, 1024, reducible));
    measure("random", &Flow::new(5_000, 1024, random));
    measure("reducible", &Flow::new(2_000, 4096, reducible));
    measure("reducible", &Flow::new(100_000, 64, reducible));
}
