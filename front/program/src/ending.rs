//! How the program ends: its exit status, and the sentence for it.
use crate::replies::Refused;
use crate::streams;
use std::io::Write;

/// How a run ends.
#[derive(Debug, PartialEq)]
pub enum Ending {
    /// All was read, carried out and written.
    Done,
    ReadFailed,
    /// Standard input is such that no line can come from it.
    NoInput(&'static str),
    WriteFailed,
    MemoryRefused,
    /// With `--strict`: all was done, and this line is the first that was refused.
    LineRefused(Refused),
    /// The words are wrong, FILE cannot be read, or the engine did not do its part.
    Stopped(String),
}

impl Ending {
    /// How a run ended that has this status; none, where it is not one of a run's.
    pub fn of_status(status: u8) -> Option<Self> {
        match status {
            0 => Some(Self::Done),
            1 => Some(Self::ReadFailed),
            2 => Some(Self::WriteFailed),
            3 => Some(Self::MemoryRefused),
            _ => None,
        }
    }

    pub fn status(&self) -> u8 {
        match self {
            Self::Done => 0,
            Self::ReadFailed | Self::NoInput(_) => 1,
            Self::WriteFailed => 2,
            Self::MemoryRefused => 3,
            Self::LineRefused(_) => 4,
            Self::Stopped(_) => 125,
        }
    }

    /// Says on standard error how the run ended, where that is not well. A pipe that nobody reads any more is its reader's
    /// choice, and no sentence is due.
    pub fn tell(&self) {
        match self {
            Self::Done => {}
            Self::WriteFailed if streams::output_is_a_pipe() => {}
            Self::ReadFailed => tell("a read failed, and nothing was written"),
            Self::NoInput(what) => {
                tell(&format!(
                    "standard input is {what}, so a read failed, and nothing was written"
                ));
            }
            Self::WriteFailed => tell("a write failed, and a beginning of the output was written"),
            Self::MemoryRefused => tell("memory was refused, and nothing was written"),
            Self::LineRefused(Refused { number, reply }) => {
                tell(&format!(
                    "line {number} is the first that was refused: {reply}"
                ));
            }
            Self::Stopped(sentence) => tell(sentence),
        }
    }
}

/// Says a sentence on standard error, in one write. Where that fails there is nobody to tell.
pub fn tell(sentence: &str) {
    let line = format!("bits: {sentence}\n");
    let _ = std::io::stderr().write_all(line.as_bytes());
}
