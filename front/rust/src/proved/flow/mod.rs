// Made by front/erase from crates/flow/src/lib.rt: change that, and not this.
//! Data-flow analysis over bit sets: the least sets of facts that solve the equations of gen and
//! kill sets.
//!
//! Nodes are the numbers below the length of `gens`, facts the positions below `facts`, and an edge
//! `(u, v)` goes from node u to node v. For each node v the equations have a set In(v), the union
//! of Out(u) over the edges `(u, v)`, and a set Out(v), the union of Gen(v) and those members of
//! In(v) that are not in Kill(v) (`specs/Flow.antt`).
pub mod postorder;
pub mod problem;
pub mod rounds;
pub mod solver;
pub use self::postorder::{in_order, solve_in_order};
pub use self::problem::is_problem;
pub use self::solver::{Solution, solve};
