// Made by front/erase from crates/bitcommands/src/lib.rt: change that, and not this.
//! Commands over numbered bit sets: what each does and returns.
pub mod commands;
