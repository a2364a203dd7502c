//! Tests of what goes beyond one set: two sets, walks, the data-flow solver, ranks, and tables. They share a crate, so that
//! the libraries are read once for all of them.

#[cfg(test)]
mod pairs;
#[cfg(test)]
mod ranks;
#[cfg(test)]
mod rows;
#[cfg(test)]
mod slow;
#[cfg(test)]
mod solver;
#[cfg(test)]
mod walks;
