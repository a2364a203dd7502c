//! What a line lacks that is no command.
use crate::forms::{form_of, nearest, Argument, Form, Kind};
use std::fmt::{self, Display, Formatter};

#[cfg(test)]
mod tests;

/// How many characters of a word are shown.
const SHOWN: usize = 40;

/// What is wrong with a line.
#[derive(Debug)]
pub enum Fault<'a> {
    /// It is not UTF-8 from this byte on, counted from 1.
    Bytes(usize),
    Empty,
    SpaceBefore,
    /// Two spaces stand behind this part of it.
    TwoSpaces(&'a str),
    SpaceAtTheEnd,
    Tab,
    CarriageReturn,
    Name(&'a str),
    /// This argument of the form is missing.
    Missing(&'static str, Form),
    TooMany(&'a str, Form),
    /// This word is not what the argument of the form has to be.
    Argument {
        word: &'a str,
        name: &'static str,
        form: Form,
        lack: Lack<'a>,
    },
}

/// What a word lacks that stands for an argument.
#[derive(Debug)]
pub enum Lack<'a> {
    Digits,
    /// It is a number, and not below 2^64.
    TooGreat,
    Truth,
    Range,
    /// A number of a range has a fault of its own.
    Bound(&'a str, Box<Lack<'a>>),
    Ends,
    Json(serde_json::Error),
}

/// A word as a sentence shows it: the beginning of a long one, and no control characters.
struct Shown<'a>(&'a str);

/// What the line lacks, in words.
pub fn lack_of(line: &[u8]) -> String {
    match fault_of(line) {
        Some(fault) => fault.to_string(),
        None => "it is one by docs/COMMANDS.md".into(),
    }
}

/// What is wrong with a line, or nothing where it is a command.
pub fn fault_of(line: &[u8]) -> Option<Fault<'_>> {
    let text = match std::str::from_utf8(line) {
        Ok(text) => text,
        Err(fault) => return Some(Fault::Bytes(fault.valid_up_to() + 1)),
    };
    if text.is_empty() {
        return Some(Fault::Empty);
    }
    let name = text.split(' ').next().unwrap_or_default();
    let form = form_of(name);
    let is_open = form.is_some_and(Form::has_json);
    // (JSON may have any spaces, and stands behind the second one)
    let words: Vec<&str> = if is_open {
        text.splitn(3, ' ').collect()
    } else {
        text.split(' ').collect()
    };
    let spaced = if is_open && words.len() == 3 {
        &text[..text.len() - words[2].len()]
    } else {
        text
    };
    space_fault(spaced, spaced.len() < text.len()).or_else(|| match form {
        Some(form) => argument_fault(form, &words[1..]),
        None => Some(Fault::Name(name)),
    })
}

/// What is wrong with the spaces of a line, or of what stands before JSON in it, which ends with one space.
fn space_fault(text: &str, is_before_json: bool) -> Option<Fault<'_>> {
    let two = text.find("  ");
    match text {
        _ if text.starts_with(' ') => Some(Fault::SpaceBefore),
        _ if two.is_some() => two.map(|at| Fault::TwoSpaces(&text[..at])),
        _ if text.ends_with(' ') && !is_before_json => Some(Fault::SpaceAtTheEnd),
        _ if text.contains('\t') => Some(Fault::Tab),
        _ if text.contains('\r') => Some(Fault::CarriageReturn),
        _ => None,
    }
}

/// What is wrong with the arguments of a command: their number, or the first that is not as its form says.
fn argument_fault<'a>(form: Form, words: &[&'a str]) -> Option<Fault<'a>> {
    let mut arguments: Vec<Argument> = form.arguments().collect();
    if form.is_open() {
        let last = arguments[arguments.len() - 1];
        arguments.resize(words.len().max(arguments.len() - 1), last);
    }
    if let Some(missing) = arguments.get(words.len()) {
        return Some(Fault::Missing(missing.name, form));
    }
    if let Some(word) = words.get(arguments.len()) {
        return Some(Fault::TooMany(word, form));
    }
    words
        .iter()
        .zip(arguments)
        .find_map(|(word, Argument { name, kind })| {
            lack_of_word(word, kind).map(|lack| Fault::Argument {
                word,
                name,
                form,
                lack,
            })
        })
}

fn lack_of_word(word: &str, kind: Kind) -> Option<Lack<'_>> {
    match kind {
        Kind::Number => number_lack(word),
        Kind::Range => range_lack(word),
        Kind::Truth => (!matches!(word, "true" | "false")).then_some(Lack::Truth),
        Kind::Ends => (word.is_empty() || !word.bytes().all(|it| matches!(it, b'f' | b'b')))
            .then_some(Lack::Ends),
        Kind::Json => serde_json::from_str::<serde_json::Value>(word)
            .err()
            .map(Lack::Json),
    }
}

fn number_lack(word: &str) -> Option<Lack<'_>> {
    if word.is_empty() || !word.bytes().all(|it| it.is_ascii_digit()) {
        return Some(Lack::Digits);
    }
    word.parse::<u64>().is_err().then_some(Lack::TooGreat)
}

fn range_lack(word: &str) -> Option<Lack<'_>> {
    let Some((start, end)) = word.split_once("..").filter(|(_, end)| *end != "=") else {
        return Some(Lack::Range);
    };
    let bounds = [start, end.strip_prefix('=').unwrap_or(end)];
    let given = bounds.into_iter().filter(|it| !it.is_empty());
    given
        .map(|it| number_lack(it).map(|lack| Lack::Bound(it, Box::new(lack))))
        .find_map(|it| it)
}

impl Display for Fault<'_> {
    fn fmt(&self, f: &mut Formatter<'_>) -> fmt::Result {
        match self {
            Self::Bytes(first) => write!(f, "it is not UTF-8 from byte {first} on"),
            Self::Empty => f.write_str("it is empty"),
            Self::SpaceBefore => f.write_str("a space stands before the command"),
            Self::TwoSpaces(part) => {
                let part = Shown(part);
                write!(f, "two spaces stand behind {part}, and there has to be one")
            }
            Self::SpaceAtTheEnd => f.write_str("a space stands at its end"),
            Self::Tab => f.write_str("a tab stands in it, and there has to be one space"),
            Self::CarriageReturn => f.write_str("a carriage return stands in it"),
            Self::Name(name) => {
                let start: String = name.chars().take(SHOWN).collect();
                let (name, near) = (Shown(name), nearest(&start));
                write!(f, "there is no command {name}, and the nearest is `{near}`")
            }
            Self::Missing(name, form) => write!(f, "`{name}` is missing, for the form is `{form}`"),
            Self::TooMany(word, form) => {
                let word = Shown(word);
                write!(
                    f,
                    "{word} is one argument too many, for the form is `{form}`"
                )
            }
            Self::Argument {
                word,
                name,
                form,
                lack,
            } => {
                let word = Shown(word);
                write!(f, "{word}, which stands for `{name}` of `{form}`, {lack}")
            }
        }
    }
}

impl Display for Lack<'_> {
    fn fmt(&self, f: &mut Formatter<'_>) -> fmt::Result {
        match self {
            Self::Digits => f.write_str("is no number of decimal digits"),
            Self::TooGreat => write!(f, "is above {}", u64::MAX),
            Self::Truth => f.write_str("is neither `true` nor `false`"),
            Self::Range => {
                f.write_str("is no range, as `..`, `5..`, `..9`, `5..9` and `5..=9` are")
            }
            Self::Bound(number, lack) => write!(f, "has {}, which {lack}", Shown(number)),
            Self::Ends => f.write_str("has a letter that is neither `f` nor `b`"),
            Self::Json(fault) => write!(f, "is not valid JSON: {fault}"),
        }
    }
}

impl Display for Shown<'_> {
    fn fmt(&self, f: &mut Formatter<'_>) -> fmt::Result {
        let more = if self.0.chars().nth(SHOWN).is_some() {
            ".."
        } else {
            ""
        };
        f.write_str("`")?;
        for letter in self.0.chars().take(SHOWN) {
            match letter {
                '"' | '\'' | '\\' => write!(f, "{letter}")?,
                _ => write!(f, "{}", letter.escape_debug())?,
            }
        }
        write!(f, "{more}`")
    }
}
