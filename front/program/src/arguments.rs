//! The words that the program is called with.
use crate::ending::Ending;
use std::ffi::OsString;
use std::path::PathBuf;

pub const HELP: &str = "\
usage: bits [--strict] [--why] [--engine PROGRAM] [FILE]

Reads lines of commands over sixteen numbered sets from FILE, or from standard input, and answers each with one line once
the input has ended. The commands and their replies stand in docs/COMMANDS.md, and an example in examples/first.txt.

  --strict           end with status 4 where a line was refused, and say on standard error which was the first
  --why              say on standard error what each line lacks that is no command (F8), for which it keeps the input in
                     memory once more
  --engine PROGRAM   take the replies from PROGRAM, which is given the lines as its standard input
  --look             look at the words, and at whether there is an input, and do no more
  --help             print this
  --version          print the version

Status: 0, or 1 to 3 where reading, writing or memory failed, with a sentence on standard error. It is 125 where the words
are wrong, FILE cannot be read, or PROGRAM cannot be started or ends by another status.

The script ./bits takes the same words, and builds this program by cargo. With --proved before all other words the kit
first proves and builds a PROGRAM of the same sources, whose replies it gives from then on until a source changes, but not
with --unproved. Without cargo the kit runs that PROGRAM, with checks and unproved, and the one word is FILE.
";

const WORDS: &str = "it takes --strict, --why, --engine PROGRAM, --help, --version or one FILE";

/// What a call asks for.
#[derive(Debug, PartialEq)]
pub enum Asked {
    Help,
    Version,
    /// Whether FILE, or standard input, can be read.
    Look(Option<PathBuf>),
    Replies(Call),
}

/// A call that asks for replies.
#[derive(Debug, Default, PartialEq)]
pub struct Call {
    /// Whether a line that was refused has a status of its own.
    pub strict: bool,
    /// Whether it says what a line lacks that is no command.
    pub why: bool,
    /// The program that the replies come from, where it is not this one.
    pub engine: Option<PathBuf>,
    /// The file of the lines, where it is not standard input.
    pub file: Option<PathBuf>,
}

/// What the words ask for: flags, and then at most one file.
pub fn read(words: impl Iterator<Item = OsString>) -> Result<Asked, Ending> {
    let (mut call, mut looks) = (Call::default(), false);
    let mut words = words.peekable();
    while let Some(flag) = words.next_if(|it| it.to_string_lossy().starts_with("--")) {
        match flag.to_str() {
            Some("--help") => return Ok(Asked::Help),
            Some("--version") => return Ok(Asked::Version),
            Some("--strict") => call.strict = true,
            Some("--why") => call.why = true,
            Some("--look") => looks = true,
            Some("--engine") => call.engine = Some(words.next().ok_or_else(no_engine)?.into()),
            _ => return Err(Ending::Stopped(WORDS.into())),
        }
    }
    call.file = words.next().map(PathBuf::from);
    let is_flag = |it: &PathBuf| it.as_os_str().len() > 1 && it.to_string_lossy().starts_with('-');
    if words.next().is_some() || call.file.as_ref().is_some_and(is_flag) {
        return Err(Ending::Stopped(WORDS.into()));
    }
    Ok(if looks {
        Asked::Look(call.file)
    } else {
        Asked::Replies(call)
    })
}

fn no_engine() -> Ending {
    Ending::Stopped("--engine takes the name of a program".into())
}

#[cfg(test)]
mod tests {
    use super::{read, Asked, Call, WORDS};
    use crate::ending::Ending;

    fn asked(words: &str) -> Result<Asked, Ending> {
        read(words.split_whitespace().map(Into::into))
    }

    fn replies(strict: bool, why: bool, engine: &str, file: &str) -> Result<Asked, Ending> {
        let path = |it: &str| (!it.is_empty()).then(|| it.into());
        Ok(Asked::Replies(Call {
            strict,
            why,
            engine: path(engine),
            file: path(file),
        }))
    }

    #[test]
    fn words_ask() {
        for (words, wanted) in [
            ("", replies(false, false, "", "")),
            ("lines", replies(false, false, "", "lines")),
            ("-", replies(false, false, "", "-")),
            ("--strict --why lines", replies(true, true, "", "lines")),
            ("--engine --why --strict", replies(true, false, "--why", "")),
            (
                "--engine one --engine two lines",
                replies(false, false, "two", "lines"),
            ),
            ("--look", Ok(Asked::Look(None))),
            ("--why --look lines", Ok(Asked::Look(Some("lines".into())))),
            ("--strict --help --nosuch", Ok(Asked::Help)),
            ("--version lines lines", Ok(Asked::Version)),
        ] {
            assert_eq!(asked(words), wanted, "{words}");
        }
    }

    #[test]
    fn wrong_words_are_refused() {
        for words in [
            "--nosuch",
            "-s",
            "--",
            "lines lines",
            "lines --strict",
            "--unproved",
            "--stric",
        ] {
            assert_eq!(asked(words), Err(Ending::Stopped(WORDS.into())), "{words}");
        }
        let told = "--engine takes the name of a program";
        assert_eq!(asked("--why --engine"), Err(Ending::Stopped(told.into())));
    }
}
