//! A lean program for the lines of `bits`, over upstream's crate: it reads all input at once, matches a name by its
//! length and its bytes, reads a number in one loop over its digits, and writes once. It knows the commands that
//! `run_lines` times, with the checks and the replies of `bits`.

mod commands;
mod form;
mod replies;
mod words;

use commands::Machine;
use std::io::{self, Read, Write};

fn main() -> io::Result<()> {
    let mut input = Vec::new();
    io::stdin().lock().read_to_end(&mut input)?;
    let mut machine = Machine::default();
    for line in input.split_inclusive(|byte| *byte == b'\n') {
        machine.answer(line.strip_suffix(b"\n").unwrap_or(line));
    }
    io::stdout().lock().write_all(machine.output())
}
