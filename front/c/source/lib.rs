//! The calls of `bits.h` for any target that rustc knows: `make -C front/c from-source` makes a static library of this.
//!
//! `proved` and `bits_c` are the proved sources without their contracts, as `front/erase` makes them. `crossing` has the structs
//! of `bits.h`, `exports` a function for each call, as `front/calls` makes them, and `system` what a library says that has no
//! system below it: these three alone have `unsafe`. A set of C is its words by a pointer and a number; here it becomes a slice
//! for the time of a call.
#![no_std]
#![deny(unsafe_code)]
#![allow(dead_code)] // (these modules have more than C calls)

extern crate alloc;

#[path = "../../rust/src/shim.rs"]
mod shim;
#[allow(unused_imports, unused_labels)]
#[path = "../../rust/src/proved/mod.rs"]
mod proved;

mod bits_c;
#[allow(unsafe_code)]
mod crossing;
#[allow(unsafe_code, clippy::missing_safety_doc)]
mod exports;
#[allow(unsafe_code)]
mod system;

/// What a row takes its memory from that is copied.
const ALLOCATOR_OF_ROWS: shim::alloc::Global = shim::alloc::Global::Abort;
