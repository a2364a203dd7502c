// Made by front/erase from crates/bitlines/src/lib.rt: change that, and not this.
//! Lines as commands over numbered bit sets, and the program that replies to each line.
pub mod arguments;
pub mod fault;
pub mod lines;
pub mod names;
pub mod near;
pub mod program;
pub mod words;
