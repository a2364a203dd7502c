//! The program that `--engine` names, whose replies stand for our own.
use crate::ending::Ending;
use crate::replies::Watch;
use std::fs::File;
use std::io::{self, Read, Write};
use std::path::Path;
use std::process::{Child, ChildStdin, Command, ExitStatus, Stdio};
use std::thread::{Builder, Scope};

/// The lines that an engine is given.
pub enum Lines<'a> {
    Of(File),
    /// These have been read.
    Kept(&'a [u8]),
}

/// Has the engine answer on our standard output.
pub fn run(engine: &Path, input: File) -> Result<Ending, Ending> {
    let mut child = start(engine, Command::new(engine).stdin(input))?;
    ending_of(engine, child.wait())
}

/// Has the engine answer, and its replies looked at and handed on as they come. Where they cannot be written, that is the
/// ending, however the engine ends.
pub fn watched<W: Write>(
    engine: &Path,
    lines: Lines,
    replies: &mut Watch<W>,
) -> Result<Ending, Ending> {
    let mut command = Command::new(engine);
    command.stdout(Stdio::piped());
    let handed = match lines {
        Lines::Of(input) => {
            let mut child = start(engine, command.stdin(input))?;
            let handed = hand_on(&mut child, replies);
            (child.wait(), handed)
        }
        Lines::Kept(lines) => {
            let mut child = start(engine, command.stdin(Stdio::piped()))?;
            let handed = hand_on_while_fed(&mut child, lines, replies);
            (child.wait(), handed)
        }
    };
    match handed {
        (_, Err(fault)) => Err(fault),
        (status, Ok(())) => ending_of(engine, status),
    }
}

fn start(engine: &Path, command: &mut Command) -> Result<Child, Ending> {
    let not_started = |fault| {
        Ending::Stopped(format!(
            "the engine {} cannot be started: {fault}",
            engine.display()
        ))
    };
    command.spawn().map_err(not_started)
}

/// Hands the replies on while another thread writes the lines: an engine may answer before it has read all of them.
fn hand_on_while_fed<W: Write>(
    child: &mut Child,
    lines: &[u8],
    replies: &mut Watch<W>,
) -> Result<(), Ending> {
    std::thread::scope(|scope| {
        if feed(scope, child.stdin.take(), lines).is_err() {
            let _ = child.kill();
            return Err(Ending::Stopped(
                "no thread can be had to hand the lines to the engine".into(),
            ));
        }
        hand_on(child, replies)
    })
}

fn feed<'scope, 'a: 'scope>(
    scope: &'scope Scope<'scope, '_>,
    to: Option<ChildStdin>,
    lines: &'a [u8],
) -> io::Result<()> {
    // (An engine that ends early reads no more. How it ended is told.)
    let write = move || to.map(|mut it| it.write_all(lines));
    Builder::new().spawn_scoped(scope, write).map(drop)
}

/// Hands the replies on until they end. Where they cannot be written the engine's output is closed.
fn hand_on<W: Write>(child: &mut Child, replies: &mut Watch<W>) -> Result<(), Ending> {
    let Some(mut from) = child.stdout.take() else {
        return Ok(());
    };
    let mut piece = vec![0; 1 << 16];
    loop {
        match from.read(&mut piece) {
            Ok(0) => return Ok(()),
            Ok(count) => replies
                .write_all(&piece[..count])
                .map_err(|_| Ending::WriteFailed)?,
            Err(fault) if fault.kind() == io::ErrorKind::Interrupted => {}
            Err(fault) => {
                return Err(Ending::Stopped(format!(
                    "the engine's replies cannot be read: {fault}"
                )))
            }
        }
    }
}

/// How a run of the engine ended: by one of the four statuses that a run has, or as no run does.
fn ending_of(engine: &Path, status: io::Result<ExitStatus>) -> Result<Ending, Ending> {
    let name = engine.display();
    let status = status.map_err(|fault| {
        Ending::Stopped(format!("the engine {name} cannot be waited for: {fault}"))
    })?;
    let Some(number) = status.code() else {
        // (`status` says which signal it was)
        let signal = status.to_string().replace(':', "");
        return Err(Ending::Stopped(format!(
            "the engine {name} was ended by {signal}"
        )));
    };
    let of_a_run = u8::try_from(number).ok().and_then(Ending::of_status);
    let told = || {
        Ending::Stopped(format!(
            "the engine {name} ended with status {number}, which is none of 0 to 3"
        ))
    };
    of_a_run.ok_or_else(told)
}
