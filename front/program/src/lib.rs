//! The program `bits` as a plain Rust program: lines of commands over sixteen sets, and one reply a line.
//!
//! The modules of `program` are made of proved sources, and those of `proved` are the crate's; contracts and proofs stand at the
//! sources. [`run`] calls the proved `run_text`. By hand are the shim, which has what Rattle's library and Rust's have unlike,
//! and what looks at the words of a call.
#![no_std]
#![forbid(unsafe_code)]

#[cfg(not(target_pointer_width = "64"))]
compile_error!(
    "bits: the numbers of commands have 64 bits, so it takes a target whose `usize` has as many"
);

extern crate alloc;
extern crate std;

#[rustfmt::skip]
#[allow(clippy::all, dead_code, unused_imports, unused_variables)]
mod program;
#[path = "../../rust/src/proved/mod.rs"]
#[rustfmt::skip]
#[allow(clippy::all, dead_code, unused_imports, unused_labels, unused_variables)]
mod proved;
mod shim;
#[cfg(test)]
mod tests;

use program::bitlines::program::{run_text, status};
use shim::alloc::Global;

/// What a row takes its memory from that is copied: a call that is refused memory says so.
pub(crate) const ALLOCATOR_OF_ROWS: Global = Global::Try;

/// Answers all lines of the reader, and returns the exit status: 0; 1 where a read failed, 3 where memory was refused, and then
/// nothing was written; 2 where a write failed, and then a beginning of the replies was.
///
/// Nothing is written before the reader has ended.
pub fn run<R: std::io::Read, W: std::io::Write>(reader: &mut R, writer: &mut W) -> u8 {
    status(&run_text(Global::Try, reader, writer))
}
