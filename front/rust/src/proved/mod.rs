// Made by front/erase from crates: change that, and not this.
//! The proved modules, as plain Rust. Contracts and proofs stand at their sources.
pub(crate) mod bitlanes;
pub(crate) mod bitwords;
pub(crate) mod bitwalks;
pub(crate) mod bitjson;
pub(crate) mod fixedbitset;
pub(crate) mod bitranks;
pub(crate) mod bitrows;
pub(crate) mod flow;
pub(crate) mod bitslots;
