//! Data-flow analysis by gen and kill sets. Upstream has none.
//!
//! A [`Problem`] has nodes (the statements or basic blocks of a program), edges between them, and facts, such as variables,
//! definitions or expressions. Each node has a set of facts that it generates and one of facts that it kills. A [`Solution`] has
//! the facts that hold before each node and those that hold after it, in the order of the program.
//!
//! | Problem | Direction | Meet |
//! |---|---|---|
//! | reaching definitions | [`Forward`](Direction::Forward) | [`Union`](Meet::Union) |
//! | live variables | [`Backward`](Direction::Backward) | [`Union`](Meet::Union) |
//! | available expressions | [`Forward`](Direction::Forward) | [`Intersection`](Meet::Intersection) |
//! | very busy expressions | [`Backward`](Direction::Backward) | [`Intersection`](Meet::Intersection) |
//!
//! ```
//! use fixedbitset::dataflow::{Direction, Meet, Problem};
//!
//! // Which variables are live? 0: x = ..   1: y = x   2: if y goto 1   3: return x
//! let (x, y) = (0, 1);
//! let mut live = Problem::new(4, 2);
//! live.extend([(0, 1), (1, 2), (2, 1), (2, 3)]);
//! for (node, used) in [(1, x), (2, y), (3, x)] {
//!     live.gen_mut(node).insert(used);
//! }
//! live.kill_mut(0).insert(x);
//! live.kill_mut(1).insert(y);
//! let live = live.solve(Direction::Backward, Meet::Union);
//! assert!(live.after(0).ones().eq([x]) && live.after(1).ones().eq([x, y]));
//! ```
//!
//! # The equations
//!
//! Forward, of each node `n`: `after(n) = gen(n) ∪ (before(n) − kill(n))`, and `before(n)` is the meet of the sets `after(m)` over
//! all edges `(m, n)`, and of the boundary of `n`, if it has one. Backward, `before(n) = gen(n) ∪ (after(n) − kill(n))`, and
//! `after(n)` is the meet of the sets `before(m)` over all edges `(n, m)`, and of the boundary. So a fact that a node both
//! generates and kills comes out of it. Where there is neither an edge nor a boundary to meet over, no fact holds, by both meets:
//! there the program begins, or backward ends.
//!
//! By [`Meet::Union`] the solution is the least one, and by [`Meet::Intersection`] the greatest one. They differ from other
//! solutions in cycles alone. In a cycle that nothing leads to, no fact holds by union but what is generated in it, and by
//! intersection each fact holds but where it was killed in it.
//!
//! A boundary has the facts that come from outside, at a node where the program may be entered or, backward, left
//! ([`boundary`](Problem::boundary)). By union what holds there is the union of it with what the edges bring, and by intersection
//! what is in both. **A node that an edge leads back to, and at which the program begins, has to be given one,** though it has no
//! fact: else by intersection what the edge brings is all that there is to meet over.
//!
//! # What it costs
//!
//! The solver goes in rounds over all edges until no set changes. A round takes them by a reverse postorder of the nodes that
//! they leave. So there are two rounds more, at most, than there are edges against that order on a path that comes to no node
//! twice: about as many as loops stand within each other. In any order it takes at most one round for each fact of each node (the
//! outside is a node too, and so is each boundary), and one more, which is proved.
//!
//! Proved is the solver, for all edges and sets: it returns the least solution of its equations
//! ([contract](crate::contracts#flowsolve_in_order)), and a round takes each edge once; only tests show in which order.
//! So is a law: that the complement of the least solution for the facts that are lost is the greatest one by intersection
//! (`bitlaws::laws::greatest_by_complement`). Glue, which is tested, are the direction, the edges from outside, the boundaries,
//! and that the sets of lost facts and the complements are made so.
use crate::memory::OrAbort;
use crate::proved::fixedbitset::FixedBitSet;
use crate::proved::flow;
use crate::shim::{alloc::Global, row, Steps};
use crate::views::{lent, lent_mut};
use crate::{panics, AllocError, Bits, BitsMut};
use alloc::vec::Vec;
use core::fmt::{Debug, Formatter, Result as Written};

/// Along which way facts go.
///
/// ```
/// # use fixedbitset::dataflow::{Direction, Meet, Problem};
/// // A variable is live before a statement that uses it, and a definition reaches what comes after it.
/// let mut problem = Problem::new(3, 1);
/// problem.extend([(0, 1), (1, 2)]);
/// problem.gen_mut(1).insert(0);
/// let holds = |way| [0, 1, 2].map(|node| problem.solve(way, Meet::Union).before(node)[0]);
/// assert_eq!(holds(Direction::Forward), [false, false, true]);
/// assert_eq!(holds(Direction::Backward), [true, true, false]);
/// ```
#[derive(Clone, Copy, PartialEq, Eq, Hash, Debug)]
pub enum Direction {
    /// Along the edges: from what was done before.
    Forward,
    /// Against the edges: from what is to be done.
    Backward,
}

/// What holds where edges meet.
///
/// ```
/// # use fixedbitset::dataflow::{Direction, Meet, Problem};
/// // Is `a + b` computed before statement 2? On the path by statement 1 it is.
/// let mut problem = Problem::new(3, 1);
/// problem.extend([(0, 1), (0, 2), (1, 2)]);
/// problem.gen_mut(1).insert(0);
/// let holds = |meet| problem.solve(Direction::Forward, meet).before(2)[0];
/// assert_eq!([Meet::Union, Meet::Intersection].map(holds), [true, false]);
/// ```
#[derive(Clone, Copy, PartialEq, Eq, Hash, Debug)]
pub enum Meet {
    /// What holds on some path.
    Union,
    /// What holds on all paths.
    Intersection,
}

/// Nodes with what each of them generates and kills, and edges.
///
/// Proved: that the solver returns the least solution of its equations
/// ([contract](crate::contracts#flowsolve_in_order)). The module's page says what is glue.
///
/// ```
/// # use fixedbitset::dataflow::{Direction, Meet, Problem};
/// // Which definitions of x reach statement 2? 0: x = 1   1: x = 2   2: print x
/// let mut reaching = Problem::new(3, 2);
/// reaching.extend([(0, 1), (1, 2)]);
/// for (node, definition) in [(0, 0), (1, 1)] {
///     reaching.gen_mut(node).insert(definition);
///     reaching.kill_mut(node).insert_range(..);
/// }
/// assert!(reaching.solve(Direction::Forward, Meet::Union).before(2).ones().eq([1]));
/// ```
#[derive(Debug)]
pub struct Problem {
    facts: usize,
    edges: Vec<(usize, usize)>,
    // Of each node; then of the outside, where no fact holds; then of each boundary. From there comes what is generated there,
    // by both meets: all is killed.
    gens: Sets,
    kills: Sets,
    // Of each node which of these it has outside.
    outsides: Vec<usize>,
}

/// The facts that hold before and after each node.
///
/// Proved: that the solver's solution is the least one ([contract](crate::contracts#flowsolve_in_order)). The module's page
/// says what is glue.
///
/// ```
/// # use fixedbitset::dataflow::{Direction, Meet, Problem};
/// let mut problem = Problem::new(2, 3);
/// problem.edge(0, 1);
/// problem.gen_mut(0).insert(2);
/// let solution = problem.solve(Direction::Forward, Meet::Union);
/// assert!(solution.before(0).is_clear() && solution.after(1)[2]);
/// assert_eq!(format!("{solution:?}"), "Solution { sets: [[{}, {2}], [{2}, {2}]], rounds: 2 }");
/// ```
#[derive(Debug)]
pub struct Solution {
    // Before the nodes and after them.
    sets: [Sets; 2],
    rounds: usize,
}

/// Sets, by the numbers of their nodes.
struct Sets(row::Vec<FixedBitSet>);

/// Edges, as the solver is given them.
type Edges = row::Vec<(usize, usize)>;

impl Problem {
    /// So many nodes and facts, with no edge, where no node generates or kills a fact. Each node takes two sets of so many
    /// positions.
    ///
    /// Where an allocation fails the program ends; of this module [`try_solve`](Self::try_solve) alone returns an error instead.
    ///
    /// Proved: that a set is empty ([contract](crate::contracts#fixedbitsetfixedbitsetwith_capacity)). That each node has two is
    /// not.
    ///
    /// ```
    /// # use fixedbitset::dataflow::{Direction, Meet, Problem};
    /// // Ten statements and four variables: as nothing is used, nothing is live.
    /// let nothing = Problem::new(10, 4).solve(Direction::Backward, Meet::Union);
    /// assert!(nothing.before(0).is_clear());
    /// ```
    #[must_use]
    pub fn new(nodes: usize, facts: usize) -> Self {
        let mut problem = Problem {
            facts,
            edges: Vec::new(),
            gens: Sets(row::Vec::EMPTY),
            kills: Sets(row::Vec::EMPTY),
            outsides: alloc::vec![nodes; nodes],
        };
        (0..=nodes).for_each(|node| problem.add(node == nodes));
        problem
    }

    /// Adds the two sets of a node, or of something outside.
    fn add(&mut self, is_outside: bool) {
        for (sets, are_full) in [(&mut self.gens, false), (&mut self.kills, is_outside)] {
            let mut set = FixedBitSet::with_capacity(Global::Abort, self.facts).or_abort();
            set.set_range(.., are_full);
            sets.0.push(set).or_abort();
        }
    }

    /// How many nodes there are.
    ///
    /// Not proved: it returns what was given.
    ///
    /// ```
    /// # use fixedbitset::dataflow::Problem;
    /// // Which of four variables are live in ten statements?
    /// assert_eq!(Problem::new(10, 4).nodes(), 10);
    /// ```
    pub fn nodes(&self) -> usize {
        self.outsides.len()
    }

    /// How many facts there are: the length of each set.
    ///
    /// Not proved: it returns what was given.
    ///
    /// ```
    /// # use fixedbitset::dataflow::Problem;
    /// // Which of four variables are live in ten statements?
    /// assert_eq!(Problem::new(10, 4).facts(), 4);
    /// ```
    pub fn facts(&self) -> usize {
        self.facts
    }

    /// The facts that the node generates, to be changed: the uses of a variable, or the definitions and the expressions that it
    /// computes.
    ///
    /// **Panics** where there is no such node.
    ///
    /// Not proved: it returns the set that is kept.
    ///
    /// ```
    /// # use fixedbitset::dataflow::{Direction, Meet, Problem};
    /// // 0: z = x + y
    /// let mut live = Problem::new(1, 3);
    /// live.gen_mut(0).insert_all(&[0, 1]);
    /// assert!(live.solve(Direction::Backward, Meet::Union).before(0).ones().eq([0, 1]));
    /// ```
    #[track_caller]
    pub fn gen_mut(&mut self, node: usize) -> BitsMut<'_> {
        lent_mut(&mut self.gens.0[checked(node, self.outsides.len())])
    }

    /// The facts that the node kills, to be changed: the variable that it defines, with the other definitions of it, or with
    /// the expressions that have it. Of these come out of the node those that it generates too.
    ///
    /// **Panics** where there is no such node.
    ///
    /// Not proved: it returns the set that is kept.
    ///
    /// ```
    /// # use fixedbitset::dataflow::{Direction, Meet, Problem};
    /// // 0: x = x + y   1: return x
    /// let mut live = Problem::new(2, 2);
    /// live.edge(0, 1);
    /// live.gen_mut(1).insert(0);
    /// live.kill_mut(0).insert(0);
    /// live.gen_mut(0).insert_range(..);
    /// assert!(live.solve(Direction::Backward, Meet::Union).before(0).ones().eq([0, 1]));
    /// ```
    #[track_caller]
    pub fn kill_mut(&mut self, node: usize) -> BitsMut<'_> {
        lent_mut(&mut self.kills.0[checked(node, self.outsides.len())])
    }

    /// The facts that come to the node from outside, to be changed: those that hold where the program is entered at this node
    /// (forward: before it), or where it is left there (backward: after it). There are none at first.
    ///
    /// Where edges lead to the node too (backward: from it), by union what holds is the union of these facts with what the edges
    /// bring, and by intersection what is in both. So by intersection the call itself says that the program may be entered here,
    /// though no fact is put into the set. A node that has no such edge needs no boundary: nothing holds there.
    ///
    /// **Panics** where there is no such node.
    ///
    /// Not proved: it returns the set that is kept.
    ///
    /// ```
    /// # use fixedbitset::dataflow::{Direction, Meet, Problem};
    /// // A loop that computes `a + b` and is entered at 0, where it is not yet available.
    /// let mut available = Problem::new(2, 1);
    /// available.extend([(0, 1), (1, 0)]);
    /// available.gen_mut(1).insert(0);
    /// assert!(available.solve(Direction::Forward, Meet::Intersection).before(0)[0]);
    /// available.boundary(0);
    /// assert!(!available.solve(Direction::Forward, Meet::Intersection).before(0)[0]);
    /// ```
    #[track_caller]
    pub fn boundary(&mut self, node: usize) -> BitsMut<'_> {
        if self.outsides[checked(node, self.nodes())] == self.nodes() {
            self.outsides[node] = self.gens.0.len();
            self.add(true);
        }
        lent_mut(&mut self.gens.0[self.outsides[node]])
    }

    /// An edge: the program may go from one node to the other. It does so in both directions; a backward problem turns it round.
    /// An edge may be given twice, and lead from a node to itself.
    ///
    /// **Panics** where there is no such node.
    ///
    /// Not proved: it keeps the edge.
    ///
    /// ```
    /// # use fixedbitset::dataflow::{Direction, Meet, Problem};
    /// let mut live = Problem::new(2, 1);
    /// live.edge(0, 1);
    /// live.gen_mut(1).insert(0);
    /// assert!(live.solve(Direction::Backward, Meet::Union).after(0)[0]);
    /// ```
    #[track_caller]
    pub fn edge(&mut self, from: usize, to: usize) {
        self.extend([(from, to)]);
    }

    /// The facts that hold before and after each node: the least solution by [`Meet::Union`], the greatest by
    /// [`Meet::Intersection`].
    ///
    /// Where an allocation fails the program ends; [`try_solve`](Self::try_solve) returns an error instead.
    ///
    /// Proved: that the solver returns the least solution of its equations, for all sets and edges
    /// ([contract](crate::contracts#flowsolve_in_order)). The module's page says what is glue.
    ///
    /// ```
    /// # use fixedbitset::dataflow::{Direction, Meet, Problem};
    /// // Both branches compute `a + b`, so it is very busy after the test: 0: if ..   1: x = a + b   2: y = a + b
    /// let mut busy = Problem::new(3, 1);
    /// busy.extend([(0, 1), (0, 2)]);
    /// busy.gen_mut(1).insert(0);
    /// busy.gen_mut(2).insert(0);
    /// assert!(busy.solve(Direction::Backward, Meet::Intersection).after(0)[0]);
    /// ```
    #[must_use]
    pub fn solve(&self, direction: Direction, meet: Meet) -> Solution {
        self.solved(Global::Abort, direction, meet).or_abort()
    }

    /// [`solve`](Self::solve), which returns an error if an allocation fails.
    ///
    /// Proved: that the solver returns the least solution of its equations, for all sets and edges
    /// ([contract](crate::contracts#flowsolve_in_order)).
    ///
    /// ```
    /// # use fixedbitset::dataflow::{Direction, Meet, Problem};
    /// // `a + b` is available after the statement that computes it.
    /// let mut available = Problem::new(1, 1);
    /// available.gen_mut(0).insert(0);
    /// assert!(available.try_solve(Direction::Forward, Meet::Intersection)?.after(0)[0]);
    /// # Ok::<(), fixedbitset::AllocError>(())
    /// ```
    pub fn try_solve(&self, direction: Direction, meet: Meet) -> Result<Solution, AllocError> {
        self.solved(Global::Try, direction, meet)
    }

    fn solved(&self, alloc: Global, way: Direction, meet: Meet) -> Result<Solution, AllocError> {
        let (edges, mut rounds) = (self.edges_along(alloc, way)?, Steps::new());
        // By intersection the solver is asked for the facts that do not hold. A node generates of them what it kills and does
        // not generate, and kills what it generates.
        let mut lost = row::Vec::EMPTY;
        if meet == Meet::Intersection {
            lost = row::Vec::with_capacity(alloc, self.gens.0.len())?;
            for (gens, kills) in self.gens.0.iter().zip(self.kills.0.iter()) {
                let mut set = FixedBitSet::from_bits(alloc, kills.as_bits())?;
                set.difference_with(gens);
                lost.push(set)?;
            }
        }
        let (gens, kills) = match meet {
            Meet::Union => (&self.gens.0, &self.kills.0),
            Meet::Intersection => (&lost, &self.gens.0),
        };
        let found = flow::solve_in_order(alloc, self.facts, &edges, gens, kills, &mut rounds)?;
        let mut sets = [found.ins, found.outs];
        for set in &mut sets {
            set.truncate(self.nodes());
            if meet == Meet::Intersection {
                set.iter_mut().for_each(|set| set.toggle_range(..));
            }
        }
        // (Backward, what comes to a node is after it.)
        sets.swap(0, way as usize);
        let (sets, rounds) = (sets.map(Sets), rounds.0);
        Ok(Solution { sets, rounds })
    }

    /// The edges in the direction, and one from outside to each node that has a boundary or that no other edge leads to.
    fn edges_along(&self, alloc: Global, way: Direction) -> Result<Edges, AllocError> {
        let nodes = self.nodes();
        let mut edges = Edges::with_capacity(alloc, self.edges.len().saturating_add(nodes))?;
        edges.extend((self.edges.iter()).map(|&(a, b)| [(a, b), (b, a)][way as usize]))?;
        let mut inner = FixedBitSet::with_capacity(alloc, nodes)?;
        edges.iter().for_each(|&(_, to)| inner.insert(to));
        let entries = (0..nodes).filter(|&it| self.outsides[it] != nodes || !inner.contains(it));
        edges.extend(entries.map(|node| (self.outsides[node], node)))?;
        Ok(edges)
    }
}

/// Not proved: it keeps the edges.
impl Extend<(usize, usize)> for Problem {
    /// [`edge`](Problem::edge) for each.
    #[track_caller]
    fn extend<I: IntoIterator<Item = (usize, usize)>>(&mut self, edges: I) {
        for (from, to) in edges {
            let (from, to) = (checked(from, self.nodes()), checked(to, self.nodes()));
            self.edges.push((from, to));
        }
    }
}

impl Solution {
    /// The facts that hold before the node in the order of the program, so backward after its own gen and kill sets.
    ///
    /// **Panics** where there is no such node.
    ///
    /// Proved: that the solver's sets are the least solution ([contract](crate::contracts#flowsolve_in_order)).
    ///
    /// ```
    /// # use fixedbitset::dataflow::{Direction, Meet, Problem};
    /// // 0: print x
    /// let mut live = Problem::new(1, 1);
    /// live.gen_mut(0).insert(0);
    /// let live = live.solve(Direction::Backward, Meet::Union);
    /// assert!(live.before(0)[0] && !live.after(0)[0]);
    /// ```
    #[must_use]
    #[track_caller]
    pub fn before(&self, node: usize) -> Bits<'_> {
        lent(&self.sets[0].0[checked(node, self.sets[0].0.len())])
    }

    /// The facts that hold after the node in the order of the program, so backward before its own gen and kill sets.
    ///
    /// **Panics** where there is no such node.
    ///
    /// Proved: that the solver's sets are the least solution ([contract](crate::contracts#flowsolve_in_order)).
    ///
    /// ```
    /// # use fixedbitset::dataflow::{Direction, Meet, Problem};
    /// // 0: x = 1
    /// let mut reaching = Problem::new(1, 1);
    /// reaching.gen_mut(0).insert(0);
    /// let reaching = reaching.solve(Direction::Forward, Meet::Union);
    /// assert!(!reaching.before(0)[0] && reaching.after(0)[0]);
    /// ```
    #[must_use]
    #[track_caller]
    pub fn after(&self, node: usize) -> Bits<'_> {
        lent(&self.sets[1].0[checked(node, self.sets[1].0.len())])
    }

    /// How many rounds over all edges the solver went, with the last one, in which no set changed.
    ///
    /// Proved: that it is at least one, and at most one more than all facts of all nodes, the outside and the boundaries among
    /// them ([contract](crate::contracts#flowsolve_in_order)).
    ///
    /// ```
    /// # use fixedbitset::dataflow::{Direction, Meet, Problem};
    /// // Facts go along a chain in one round, and the second one changes nothing.
    /// let mut reaching = Problem::new(100, 1);
    /// reaching.extend((1..100).map(|node| (node - 1, node)));
    /// reaching.gen_mut(0).insert(0);
    /// assert_eq!(reaching.solve(Direction::Forward, Meet::Union).rounds(), 2);
    /// ```
    pub fn rounds(&self) -> usize {
        self.rounds
    }
}

/// The node. It panics where it is none of so many.
#[track_caller]
fn checked(node: usize, nodes: usize) -> usize {
    if node >= nodes {
        panics::no_node(node, nodes);
    }
    node
}

impl Debug for Sets {
    fn fmt(&self, f: &mut Formatter<'_>) -> Written {
        let facts = self.0.iter().map(|set| lent(set).ones());
        f.debug_list().entries(facts).finish()
    }
}
