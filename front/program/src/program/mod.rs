// Made by front/erase from crates: change that, and not this.
//! The proved modules, as plain Rust. Contracts and proofs stand at their sources.
pub(crate) mod bitwalks;
pub(crate) mod bitjson;
pub(crate) mod fixedbitset;
pub(crate) mod bitcommands;
pub(crate) mod bitlines;
