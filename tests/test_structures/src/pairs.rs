//! Tests of two sets: values from outside, every pair of fifteen lengths beside slow values, and the steps that callers
//! know of.

mod calls;
mod differences;
mod steps;
mod sweeps;
mod worked;
