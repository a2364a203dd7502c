//! Tests of the loops and chains of `test_callers`, at worked values. They go beyond: every length up to 200 against a slow list
//! of positions, from both ends, and the kernels of `bitlanes` beside plain loops.

mod chains;
mod counts;
mod ends;
mod fills;
mod gives;
mod handfuls;
mod kernels;
mod loops;
mod pair_walks;
mod single_walks;
mod slow;
mod zeroes;
