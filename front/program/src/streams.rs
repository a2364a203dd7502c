//! The standard streams and FILE.
use crate::ending::{tell, Ending};
use std::fs::File;
use std::io::{self, ErrorKind, IsTerminal, Read};
use std::path::Path;

#[cfg(not(windows))]
use std::os::fd::AsFd;
#[cfg(windows)]
use std::os::windows::io::AsHandle;

/// A standard stream as a file, so that each fault of a read or a write is told: Rust's own streams take a stream that was not
/// opened for them as one that is empty, or as one that takes all.
#[cfg(not(windows))]
fn file_of(stream: impl AsFd) -> io::Result<File> {
    stream.as_fd().try_clone_to_owned().map(File::from)
}

#[cfg(windows)]
fn file_of(stream: impl AsHandle) -> io::Result<File> {
    stream.as_handle().try_clone_to_owned().map(File::from)
}

/// The file, or standard input where there is none.
pub fn input(file: Option<&Path>) -> Result<File, Ending> {
    let Some(path) = file else {
        return standard_input();
    };
    if path.is_dir() {
        return Err(Ending::Stopped(format!(
            "{} is a folder and no file",
            path.display()
        )));
    }
    File::open(path)
        .map_err(|_| Ending::Stopped(format!("the file {} cannot be read", path.display())))
}

/// Standard input, looked at by a read of no bytes. (A terminal may hold up even such a read.)
fn standard_input() -> Result<File, Ending> {
    let unreadable = |_| Ending::NoInput("closed or open for writing alone");
    let mut input = file_of(io::stdin()).map_err(unreadable)?;
    if input.metadata().is_ok_and(|it| it.is_dir()) {
        return Err(Ending::NoInput("a folder"));
    }
    if !input.is_terminal() {
        input.read(&mut []).map_err(unreadable)?;
    }
    Ok(input)
}

/// Whether there is an input. A pipe that has a name is not opened for that: who writes to it would see it close.
pub fn look(file: Option<&Path>) -> Result<(), Ending> {
    let found = file.and_then(|it| it.metadata().ok());
    match found {
        Some(found) if !found.is_file() && !found.is_dir() => Ok(()),
        _ => input(file).map(drop),
    }
}

/// Says that answers do not come line by line, to who types the lines.
pub fn say_when_answers_come() {
    if io::stdin().is_terminal() {
        tell("answers come after the end of input (ctrl-d)");
    }
}

/// All of the input.
pub fn whole(mut input: File) -> Result<Vec<u8>, Ending> {
    let mut found = Vec::new();
    input
        .read_to_end(&mut found)
        .map_err(|fault| match fault.kind() {
            ErrorKind::OutOfMemory => Ending::MemoryRefused,
            _ => Ending::ReadFailed,
        })?;
    Ok(found)
}

pub fn output() -> io::Result<File> {
    file_of(io::stdout())
}

#[cfg(unix)]
pub fn output_is_a_pipe() -> bool {
    use std::os::unix::fs::FileTypeExt;
    output()
        .and_then(|it| it.metadata())
        .is_ok_and(|it| it.file_type().is_fifo())
}

#[cfg(not(unix))]
pub fn output_is_a_pipe() -> bool {
    false
}
