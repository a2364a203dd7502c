//! Any bytes: what tests/model/check.rs asks of an input holds of them.
#![no_main]

#[path = "../../tests/model/mod.rs"]
mod model;

libfuzzer_sys::fuzz_target!(|input: &[u8]| {
    if let Some(fault) = model::check::fault(input) {
        panic!("{fault}");
    }
});
