//! Looks each second whether its core does other work beside, until it is ended: it prints `1` where it does, and else `0`.
//! With a word it looks once, and ends with that number as its status.

#[allow(dead_code)]
mod turns;

use std::env::args;
use std::process::ExitCode;
use std::thread::sleep;
use std::time::Duration;

fn main() -> ExitCode {
    if args().len() > 1 {
        return ExitCode::from(u8::from(turns::is_shared()));
    }
    loop {
        println!("{}", u8::from(turns::is_shared()));
        sleep(Duration::from_secs(1));
    }
}
