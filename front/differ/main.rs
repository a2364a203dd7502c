//! The same calls on the proved archive and on the crate of erased sources: answers and words have to agree.
//!
//! usage: differ STEPS START
mod archive;
mod declared;

mod proved_side {
    use crate::archive as it;
    include!("world.rs");
}

mod erased_side {
    use fixedbitset as it;
    include!("world.rs");
}

/// How many steps are made on sets before new ones take their place.
const STEPS_OF_ONE: u64 = 20_000;

fn main() {
    let mut numbers = std::env::args().skip(1).map(|word| word.parse::<u64>());
    let (Some(Ok(steps)), Some(Ok(start))) = (numbers.next(), numbers.next()) else {
        panic!("usage: differ STEPS START");
    };
    let (mut digest, mut left, mut world) = (0, steps, 0);
    while left > 0 {
        let mut one = proved_side::World::new(start.wrapping_add(world));
        let mut other = erased_side::World::new(start.wrapping_add(world));
        for step in 0..left.min(STEPS_OF_ONE) {
            digest = one.step();
            if digest != other.step() {
                eprintln!(
                    "start {start}, sets {world}, step {step}: {:?} and {:?}",
                    one.said, other.said
                );
                std::process::exit(1);
            }
        }
        left -= left.min(STEPS_OF_ONE);
        world += 1;
    }
    println!("start {start}: {steps} steps agree, and the last digest is {digest:016x}");
}
