//! The memory of all sides: each block begins at a multiple of 64, so that no side's words lie better than another's.

use std::alloc::{GlobalAlloc, Layout, System};

struct Lines;

fn lines(layout: Layout) -> Layout {
    layout.align_to(64).expect("a size that memory can have")
}

unsafe impl GlobalAlloc for Lines {
    unsafe fn alloc(&self, layout: Layout) -> *mut u8 {
        unsafe { System.alloc(lines(layout)) }
    }

    unsafe fn dealloc(&self, block: *mut u8, layout: Layout) {
        unsafe { System.dealloc(block, lines(layout)) }
    }
}

#[global_allocator]
static MEMORY: Lines = Lines;
