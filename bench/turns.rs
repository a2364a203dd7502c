//! Turns of timing on a core that this program has for itself.
//!
//! A core of a host may do another machine's work beside ours, by its second thread. A loop that keeps the core busy then takes
//! up to one and a half times as long, and the counts of `/proc/stat` do not show it. What shows it is how many additions a
//! cycle the core gives.

use std::arch::asm;
use std::sync::atomic::{AtomicUsize, Ordering};
use std::time::Instant;

/// Below so many additions a cycle the core does something else too. One that does not gives four or more.
const ADDITIONS: f64 = 3.4;

/// So many times the turns that are wanted are made where the core is never free for long enough.
const PATIENCE: usize = 4;

static TIMED: AtomicUsize = AtomicUsize::new(0);
static SHARED: AtomicUsize = AtomicUsize::new(0);

fn seconds(run: impl FnOnce()) -> f64 {
    let begun = Instant::now();
    run();
    begun.elapsed().as_secs_f64()
}

/// Whether the core gives fewer additions a cycle than it can, at three looks.
pub fn is_shared() -> bool {
    (0..3).all(|_| gives_few())
}

/// At one look: each addition of the first loop waits for the one before, and eight of the second do not. They add a register,
/// for a number that stands in the instruction takes a newer processor no time.
fn gives_few() -> bool {
    const LOOPS: u64 = 400;
    let one_by_one = seconds(|| unsafe {
        asm!("2:", ".rept 64", "add {sum}, {one}", ".endr", "dec {loops}", "jnz 2b",
            sum = inout(reg) 0_u64 => _, one = in(reg) 1_u64, loops = inout(reg) LOOPS => _);
    });
    let eight_at_once = seconds(|| unsafe {
        asm!("2:", ".rept 8", "add {a}, {one}", "add {b}, {one}", "add {c}, {one}", "add {d}, {one}",
            "add {e}, {one}", "add {f}, {one}", "add {g}, {one}", "add {h}, {one}", ".endr", "dec {loops}", "jnz 2b",
            a = inout(reg) 0_u64 => _, b = inout(reg) 0_u64 => _, c = inout(reg) 0_u64 => _, d = inout(reg) 0_u64 => _,
            e = inout(reg) 0_u64 => _, f = inout(reg) 0_u64 => _, g = inout(reg) 0_u64 => _, h = inout(reg) 0_u64 => _,
            one = in(reg) 1_u64, loops = inout(reg) LOOPS => _);
    });
    one_by_one < ADDITIONS * eight_at_once
}

/// Turns until so many were made on a core that was free when they ended.
pub fn turns(wanted: usize) -> impl Iterator<Item = ()> {
    let (mut made, mut free) = (0, 0);
    std::iter::from_fn(move || {
        free += usize::from(made > 0 && !is_shared());
        made += 1;
        if free < wanted && made <= PATIENCE * wanted {
            return Some(());
        }
        TIMED.fetch_add(1, Ordering::Relaxed);
        SHARED.fetch_add(usize::from(free < wanted / 4), Ordering::Relaxed);
        None
    })
}

/// How many of the rows so far had the core to themselves for less than a quarter of the turns that were wanted.
pub fn said() -> String {
    let (timed, shared) = (
        TIMED.load(Ordering::Relaxed),
        SHARED.load(Ordering::Relaxed),
    );
    format!(
        "Of {timed} rows {shared} had a core of their own for less than a quarter of their turns."
    )
}
