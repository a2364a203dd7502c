//! Tests of commands over numbered sets: the commands on two sets by every pair of fifteen lengths beside slow values, a
//! run past a refusal, lengths near the greatest, many items, and the texts of replies.

mod greatest;
mod large;
mod pairs;
mod replies;
mod runs;
