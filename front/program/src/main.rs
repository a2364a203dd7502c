//! The program `bits`: its words, its streams, and what it says on standard error.
//!
//! The replies are those of `bits::run`, which is made of the proved sources, or of the program that `--engine` names.
#![forbid(unsafe_code)]

mod arguments;
mod ending;
mod engine;
mod forms;
mod replies;
mod streams;
mod why;

use arguments::{Asked, Call};
use ending::Ending;
use replies::Watch;
use std::fs::File;
use std::io::{Read, Write};
use std::process::ExitCode;

fn main() -> ExitCode {
    let ending = begin().unwrap_or_else(|ending| ending);
    ending.tell();
    ExitCode::from(ending.status())
}

fn begin() -> Result<Ending, Ending> {
    match arguments::read(std::env::args_os().skip(1))? {
        Asked::Help => print(arguments::HELP),
        Asked::Version => print(concat!("bits ", env!("CARGO_PKG_VERSION"), "\n")),
        Asked::Look(file) => streams::look(file.as_deref()).map(|()| Ending::Done),
        Asked::Replies(call) => answer(&call),
    }
}

fn print(text: &str) -> Result<Ending, Ending> {
    let written = output()?.write_all(text.as_bytes());
    written.map_err(|_| Ending::WriteFailed)?;
    Ok(Ending::Done)
}

/// Answers the lines of the input.
fn answer(call: &Call) -> Result<Ending, Ending> {
    let mut input = streams::input(call.file.as_deref())?;
    if call.file.is_none() {
        streams::say_when_answers_come();
    }
    match &call.engine {
        _ if call.why => watch_why(call, input),
        Some(engine) if call.strict => watch(call, None, |replies| {
            engine::watched(engine, engine::Lines::Of(input), replies)
        }),
        Some(engine) => engine::run(engine, input),
        None if call.strict => watch(call, None, |replies| Ok(made(&mut input, replies))),
        None => Ok(made(&mut input, &mut output()?)),
    }
}

/// Answers lines of which it then says what they lack. So it reads them first, and keeps them.
fn watch_why(call: &Call, input: File) -> Result<Ending, Ending> {
    let lines = streams::whole(input)?;
    match &call.engine {
        Some(engine) => watch(call, Some(&lines), |replies| {
            engine::watched(engine, engine::Lines::Kept(&lines), replies)
        }),
        None => watch(call, Some(&lines), |replies| {
            Ok(made(&mut lines.as_slice(), replies))
        }),
    }
}

/// Has the replies looked at as they pass. The ending is then that of `--strict`, where all was written.
fn watch<F>(call: &Call, lines: Option<&[u8]>, replies_to: F) -> Result<Ending, Ending>
where
    F: FnOnce(&mut Watch<File>) -> Result<Ending, Ending>,
{
    let mut replies = Watch::new(output()?, lines);
    let ending = replies_to(&mut replies)?;
    match (replies.finish(), ending) {
        (Some(refused), Ending::Done) if call.strict => Ok(Ending::LineRefused(refused)),
        (_, ending) => Ok(ending),
    }
}

/// The replies of this program itself.
fn made<R: Read, W: Write>(input: &mut R, output: &mut W) -> Ending {
    Ending::of_status(bits::run(input, output)).unwrap_or(Ending::MemoryRefused)
}

fn output() -> Result<File, Ending> {
    streams::output().map_err(|_| Ending::WriteFailed)
}
