//! What a library with no system below it has to say: a panic ends the program, and no memory is there. No call asks for memory,
//! and none panics whose words are as `bits.h` asks.

use core::alloc::{GlobalAlloc, Layout};

#[cfg(not(target_family = "wasm"))]
extern "C" {
    fn abort() -> !;
}

#[cfg(not(target_family = "wasm"))]
#[panic_handler]
fn end(_: &core::panic::PanicInfo<'_>) -> ! {
    // SAFETY: it is C's, and asks nothing.
    unsafe { abort() }
}

// A module of WebAssembly has no C below it.
#[cfg(target_family = "wasm")]
#[panic_handler]
fn end(_: &core::panic::PanicInfo<'_>) -> ! {
    core::arch::wasm32::unreachable()
}

struct NoMemory;

// SAFETY: no memory is given, so none is ever given back.
unsafe impl GlobalAlloc for NoMemory {
    unsafe fn alloc(&self, _: Layout) -> *mut u8 {
        core::ptr::null_mut()
    }

    unsafe fn dealloc(&self, _: *mut u8, _: Layout) {}
}

#[global_allocator]
static NO_MEMORY: NoMemory = NoMemory;
