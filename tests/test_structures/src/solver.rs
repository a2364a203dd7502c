//! Tests of the data-flow solver: worked problems with their least solutions, what is no problem, refused memory, a
//! problem of many nodes, and small problems beside a solver that tries all solutions.

mod large;
mod order;
mod slow;
mod small;
mod worked;
