//! Times calls of the proved archive, as a program in C makes them, beside what the machine can do. `run` builds and starts
//! it, once for each processor.

#[allow(dead_code)]
#[path = "../front/differ/archive.rs"]
mod archive;
mod carries;
#[allow(dead_code)]
#[path = "../front/differ/declared.rs"]
mod declared;
mod limits;
mod lists;
mod memory;
mod sets;
mod turns;

fn main() {
    limits::print();
    lists::print();
}
