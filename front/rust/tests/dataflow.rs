//! Data-flow problems: those of textbooks, and random ones beside a solver that goes over the equations.
use fixedbitset::dataflow::{Direction, Meet, Problem, Solution};
use std::collections::BTreeSet;
use Direction::{Backward, Forward};
use Meet::{Intersection, Union};

const WAYS: [(Direction, Meet); 4] = [
    (Forward, Union),
    (Forward, Intersection),
    (Backward, Union),
    (Backward, Intersection),
];

/// The problem of so many facts in which each node generates and kills these.
fn problem_of(
    facts: usize,
    nodes: &[(&[usize], &[usize])],
    edges: impl IntoIterator<Item = (usize, usize)>,
) -> Problem {
    let mut problem = Problem::new(nodes.len(), facts);
    for (node, (gens, kills)) in nodes.iter().enumerate() {
        problem.gen_mut(node).insert_all(gens);
        problem.kill_mut(node).insert_all(kills);
    }
    problem.extend(edges);
    problem
}

/// The facts before and after each node.
fn rows(nodes: usize, solution: &Solution) -> Vec<[Vec<usize>; 2]> {
    let sets = |node| [solution.before(node), solution.after(node)];
    (0..nodes)
        .map(|node| sets(node).map(|set| set.ones().collect()))
        .collect()
}

/// Compares a solution with these facts before and after each node.
fn assert_rows(solution: &Solution, wanted: &[[&[usize]; 2]]) {
    let found = rows(wanted.len(), solution);
    assert_eq!(found, wanted);
}

#[test]
fn reaching_definitions() {
    // d1: i = m - 1; d2: j = n; d3: a = u1
    // do { d4: i = i + 1; d5: j = j - 1; if e1 { d6: a = u2 } else {} d7: i = u3 } while e2
    let [d1, d2, d3, d4, d5, d6, d7] = [0, 1, 2, 3, 4, 5, 6];
    let reaching = problem_of(
        7,
        &[
            (&[d1, d2, d3], &[d4, d5, d6, d7]),
            (&[d4, d5], &[d1, d2, d7]),
            (&[d6], &[d3]),
            (&[d7], &[d1, d4]),
            (&[], &[]),
        ],
        [(0, 1), (1, 2), (1, 3), (2, 3), (3, 1), (3, 4)],
    );
    assert_rows(
        &reaching.solve(Forward, Union),
        &[
            [&[], &[d1, d2, d3]],
            [&[d1, d2, d3, d5, d6, d7], &[d3, d4, d5, d6]],
            [&[d3, d4, d5, d6], &[d4, d5, d6]],
            [&[d3, d4, d5, d6], &[d3, d5, d6, d7]],
            [&[d3, d5, d6, d7], &[d3, d5, d6, d7]],
        ],
    );
}

#[test]
fn live_variables() {
    // 0: x = 2   1: y = 4   2: x = 1   3: if y > x   4: z = y   5: z = y * y   6: x = z
    const X: usize = 0;
    const Y: usize = 1;
    const Z: usize = 2;
    let mut live = problem_of(
        3,
        &[
            (&[], &[X]),
            (&[], &[Y]),
            (&[], &[X]),
            (&[X, Y], &[]),
            (&[Y], &[Z]),
            (&[Y], &[Z]),
            (&[Z], &[X]),
        ],
        [(0, 1), (1, 2), (2, 3), (3, 4), (3, 5), (4, 6), (5, 6)],
    );
    let mut wanted: [[&[usize]; 2]; 7] = [
        [&[], &[]],
        [&[], &[Y]],
        [&[Y], &[X, Y]],
        [&[X, Y], &[Y]],
        [&[Y], &[Z]],
        [&[Y], &[Z]],
        [&[Z], &[]],
    ];
    assert_rows(&live.solve(Backward, Union), &wanted);
    // What is read after the last statement is live there.
    live.boundary(6).insert(X);
    wanted[6] = [&[Z], &[X]];
    assert_rows(&live.solve(Backward, Union), &wanted);
}

#[test]
fn available_expressions() {
    // 0: x = a + b   1: y = a * b   2: while y > a + b {   3: a = a + 1   4: x = a + b   }
    const SUM: usize = 0;
    const PRODUCT: usize = 1;
    const NEXT: usize = 2;
    let mut available = problem_of(
        3,
        &[
            (&[SUM], &[]),
            (&[PRODUCT], &[]),
            (&[SUM], &[]),
            (&[], &[SUM, PRODUCT, NEXT]),
            (&[SUM], &[]),
        ],
        [(0, 1), (1, 2), (2, 3), (3, 4), (4, 2)],
    );
    let wanted: [[&[usize]; 2]; 5] = [
        [&[], &[SUM]],
        [&[SUM], &[SUM, PRODUCT]],
        [&[SUM], &[SUM]],
        [&[SUM], &[]],
        [&[], &[SUM]],
    ];
    assert_rows(&available.solve(Forward, Intersection), &wanted);
    // What the caller has computed is available where the function begins, and in the loop no more.
    available.boundary(0).insert(PRODUCT);
    let mut wanted = wanted;
    wanted[0] = [&[PRODUCT], &[SUM, PRODUCT]];
    wanted[1] = [&[SUM, PRODUCT], &[SUM, PRODUCT]];
    assert_rows(&available.solve(Forward, Intersection), &wanted);
}

#[test]
fn very_busy_expressions() {
    // 0: if a > b   1: x = b - a   2: y = a - b   else   3: y = b - a   4: x = a - b
    let [a_less_b, b_less_a] = [0, 1];
    let busy = problem_of(
        2,
        &[
            (&[], &[]),
            (&[b_less_a], &[]),
            (&[a_less_b], &[]),
            (&[b_less_a], &[]),
            (&[a_less_b], &[]),
        ],
        [(0, 1), (1, 2), (0, 3), (3, 4)],
    );
    assert_rows(
        &busy.solve(Backward, Intersection),
        &[
            [&[a_less_b, b_less_a], &[a_less_b, b_less_a]],
            [&[a_less_b, b_less_a], &[a_less_b]],
            [&[a_less_b], &[]],
            [&[a_less_b, b_less_a], &[a_less_b]],
            [&[a_less_b], &[]],
        ],
    );
}

#[test]
fn a_node_that_is_entered_and_led_back_to() {
    // Node 0 is a loop, and nothing leads to the loop 1, 2.
    let mut problem = problem_of(
        3,
        &[(&[0], &[1]), (&[], &[1]), (&[], &[])],
        [(0, 0), (1, 2), (2, 1)],
    );
    let lonely: [&[usize]; 2] = [&[0, 2], &[0, 2]];
    assert_rows(
        &problem.solve(Forward, Intersection),
        &[lonely, lonely, lonely],
    );
    assert_rows(
        &problem.solve(Forward, Union),
        &[[&[0], &[0]], [&[], &[]], [&[], &[]]],
    );
    problem.boundary(0);
    let entered = problem.solve(Forward, Intersection);
    assert_rows(&entered, &[[&[], &[0]], lonely, lonely]);
    problem.boundary(0).insert_range(1..);
    let entered = problem.solve(Forward, Intersection);
    assert_rows(&entered, &[[&[2], &[0, 2]], lonely, lonely]);
    assert_rows(
        &problem.solve(Forward, Union),
        &[[&[0, 1, 2], &[0, 2]], [&[], &[]], [&[], &[]]],
    );
}

#[test]
fn a_node_has_one_boundary() {
    for (direction, meet) in WAYS {
        let mut problem = Problem::new(2, 4);
        problem.edge(0, 1);
        let entered = [0, 1][direction as usize];
        problem.boundary(entered).insert(1);
        problem.boundary(entered).insert(3);
        let both: &[usize] = &[1, 3];
        assert_rows(&problem.solve(direction, meet), &[[both, both]; 2]);
    }
}

#[test]
fn nothing_to_solve() {
    for (direction, meet) in WAYS {
        assert_eq!(Problem::new(0, 9).solve(direction, meet).rounds(), 1);
        let solution = Problem::new(1, 0).solve(direction, meet);
        assert!(solution.before(0).is_empty() && solution.rounds() == 1);
    }
}

#[test]
fn the_order_of_the_edges_costs_no_round() {
    const NODES: usize = 1000;
    let chain = || (1..NODES).map(|node| (node - 1, node));
    let (mut one, mut other) = (Problem::new(NODES, 1), Problem::new(NODES, 1));
    one.extend(chain());
    other.extend(chain().rev());
    for problem in [&mut one, &mut other] {
        problem.gen_mut(0).insert(0);
        problem.gen_mut(NODES - 1).insert(0);
        for (direction, _) in WAYS {
            assert_eq!(problem.solve(direction, Union).rounds(), 2);
        }
        // A way back takes one round more.
        problem.edge(NODES - 1, 0);
        assert_eq!(problem.solve(Forward, Union).rounds(), 2);
        problem.gen_mut(0).remove(0);
        assert_eq!(problem.solve(Forward, Union).rounds(), 3);
    }
}

#[test]
fn loops_within_loops_cost_one_round() {
    const NODES: usize = 1000;
    let mut edges: Vec<_> = (0..=NODES).map(|node| (node, node + 1)).collect();
    for long in [10, 100] {
        let ends = (long..=NODES).step_by(long);
        edges.extend(ends.map(|end| (end, end + 1 - long)));
    }
    let mut random = Random(0x9e37_79b9_7f4a_7c15);
    for _ in 0..10 {
        for last in (1..edges.len()).rev() {
            edges.swap(last, random.below(last + 1));
        }
        let mut problem = Problem::new(NODES + 2, 1);
        problem.extend(edges.iter().copied());
        problem.gen_mut(NODES / 2 + 5).insert(0);
        for direction in [Forward, Backward] {
            assert_eq!(problem.solve(direction, Union).rounds(), 3);
        }
    }
}

#[test]
fn texts() {
    let mut problem = problem_of(2, &[(&[0], &[1]), (&[], &[0])], [(0, 1)]);
    problem.boundary(0).insert(0);
    let text = format!("{problem:?}");
    assert!(text
        .contains("edges: [(0, 1)], gens: [{0}, {}, {}, {0}], kills: [{1}, {0}, {0, 1}, {0, 1}]"));
    let text = "Solution { sets: [[{0}, {0}], [{0}, {}]], rounds: 2 }";
    assert_eq!(format!("{:?}", problem.solve(Forward, Union)), text);
    assert_eq!((problem.nodes(), problem.facts()), (2, 2));
}

type Facts = BTreeSet<usize>;

fn list(facts: &Facts) -> Vec<usize> {
    facts.iter().copied().collect()
}

/// A problem by sets of numbers.
struct Slow {
    facts: usize,
    nodes: Vec<[Facts; 2]>,
    edges: Vec<(usize, usize)>,
    boundaries: Vec<Option<Facts>>,
}

impl Slow {
    /// The sets that come to each node and out of it, by the equations until none of them changes a set.
    fn solve(&self, direction: Direction, meet: Meet) -> Vec<[Facts; 2]> {
        let first: Facts = (0..self.facts * usize::from(meet == Intersection)).collect();
        let mut sets = vec![[first.clone(), first]; self.nodes.len()];
        loop {
            let mut is_solved = true;
            for (node, [gens, kills]) in self.nodes.iter().enumerate() {
                let mut met = self.boundaries[node].clone();
                for &(from, to) in &self.edges {
                    let (from, to) = [(from, to), (to, from)][usize::from(direction == Backward)];
                    if to == node {
                        let more = &sets[from][1];
                        met = Some(match met {
                            None => more.clone(),
                            Some(it) if meet == Union => &it | more,
                            Some(it) => &it & more,
                        });
                    }
                }
                let into = met.unwrap_or_default();
                let out = gens | &(&into - kills);
                is_solved &= sets[node] == [into.clone(), out.clone()];
                sets[node] = [into, out];
            }
            if is_solved {
                return sets;
            }
        }
    }
}

/// Numbers by chance.
struct Random(u64);

impl Random {
    fn below(&mut self, bound: usize) -> usize {
        self.0 ^= self.0 << 13;
        self.0 ^= self.0 >> 7;
        self.0 ^= self.0 << 17;
        (self.0 % bound as u64) as usize
    }

    /// Each number with a chance of one in `sparse`.
    fn facts(&mut self, facts: usize, sparse: usize) -> Facts {
        (0..facts).filter(|_| self.below(sparse) == 0).collect()
    }

    fn problem(&mut self) -> Slow {
        let (nodes, most) = (1 + self.below(12), [8, 71][self.below(2)]);
        let facts = self.below(most);
        let sparse = 2 + self.below(9);
        let mut sets = |facts, sparse| self.facts(facts, sparse);
        let its_nodes: Vec<_> = (0..nodes)
            .map(|_| [sets(facts, sparse), sets(facts, 4)])
            .collect();
        let edges = (0..self.below(2 * nodes + 1)).map(|_| (self.below(nodes), self.below(nodes)));
        let edges = edges.collect();
        let boundaries = (0..nodes).map(|_| (self.below(4) == 0).then(|| self.facts(facts, 2)));
        let boundaries = boundaries.collect();
        Slow {
            facts,
            nodes: its_nodes,
            edges,
            boundaries,
        }
    }
}

#[test]
fn random_problems_are_solved_as_by_the_equations() {
    let mut random = Random(0x9e37_79b9_7f4a_7c15);
    for number in 0..4000 {
        let slow = random.problem();
        let nodes = slow.nodes.len();
        let mut problem = Problem::new(nodes, slow.facts);
        problem.extend(slow.edges.iter().copied());
        for (node, [gens, kills]) in slow.nodes.iter().enumerate() {
            problem.gen_mut(node).insert_all(&list(gens));
            problem.kill_mut(node).insert_all(&list(kills));
            if let Some(facts) = &slow.boundaries[node] {
                problem.boundary(node).insert_all(&list(facts));
            }
        }
        let outsides = 1 + slow.boundaries.iter().flatten().count();
        let (direction, meet) = WAYS[number % 4];
        let solution = problem.solve(direction, meet);
        let wanted = slow.solve(direction, meet);
        for (found, [into, out]) in rows(nodes, &solution).into_iter().zip(wanted) {
            let wanted = match direction {
                Forward => [into, out],
                Backward => [out, into],
            };
            assert_eq!(found, wanted.map(|facts| list(&facts)));
        }
        // A path that comes to no node twice has fewer edges against the order than nodes.
        let most = ((nodes + outsides) * slow.facts + 1).min(nodes + 1);
        assert!((1..=most).contains(&solution.rounds()));
    }
}

#[test]
#[should_panic(expected = "node 3 exceeds a problem of 3 nodes")]
fn a_set_of_no_node() {
    Problem::new(3, 1).gen_mut(3);
}

#[test]
#[should_panic(expected = "node 4 exceeds a problem of 3 nodes")]
fn an_edge_to_no_node() {
    Problem::new(3, 1).extend([(0, 2), (2, 4)]);
}

#[test]
#[should_panic(expected = "node 0 exceeds a problem of 0 nodes")]
fn facts_of_no_node() {
    let solution = Problem::new(0, 1).solve(Forward, Union);
    let _ = solution.after(0);
}
