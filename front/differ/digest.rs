//! The same calls on the crate alone, and one number of all that they answered and left: the same on each target.
//!
//! usage: digest STEPS START    For wasm32 it is a library with the one call `digest`.
//!
//! With `--cfg counting` the crate is one whose `Steps` counts, as front/wrong_translations makes it, and the number is also one
//! of the lanes and words that each call went over, and of the calls of counted.rs.
#![allow(dead_code)]

mod erased_side {
    use fixedbitset as it;
    include!("world.rs");
}

/// How many steps are made on sets before new ones take their place.
const STEPS_OF_ONE: u32 = 20_000;

#[cfg(counting)]
extern "C" {
    static TAKEN: std::sync::atomic::AtomicU64;
    fn counted(calls: u32, start: u64) -> u64;
}

#[cfg(counting)]
fn taken() -> u64 {
    // SAFETY: the crate has it, and nothing changes it but by its own calls.
    unsafe { TAKEN.load(std::sync::atomic::Ordering::Relaxed) }
}

#[cfg(not(counting))]
fn taken() -> u64 {
    0
}

/// The digest of the last step.
#[no_mangle]
pub extern "C" fn digest(steps: u32, start: u32) -> u64 {
    let (mut made, mut left, mut world) = (0_u64, steps, 0);
    while left > 0 {
        let mut sets = erased_side::World::new(start as u64 + world);
        for _ in 0..left.min(STEPS_OF_ONE) {
            // (A world's digest begins at zero, so those of the worlds before it go in here.)
            made = sets.step() ^ made.rotate_left(1) ^ taken();
        }
        left -= left.min(STEPS_OF_ONE);
        world += 1;
    }
    made
}

fn main() {
    let mut numbers = std::env::args().skip(1).map(|word| word.parse::<u32>());
    let (Some(Ok(steps)), Some(Ok(start))) = (numbers.next(), numbers.next()) else {
        panic!("usage: digest STEPS START");
    };
    // SAFETY: the crate has it, and it asks nothing of its caller.
    #[cfg(counting)]
    println!("{:016x} {:016x}", unsafe { counted(steps, start as u64) }, taken());
    println!("{:016x}", digest(steps, start));
}
