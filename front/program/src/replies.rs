//! Replies as they pass: which lines were refused.
use crate::ending::tell;
use crate::why;
use std::io::{self, Write};
use std::slice::Split;

const LINE_END: u8 = b'\n';
/// How many bytes of a reply are kept. A refusal has fewer.
const KEPT: usize = 80;

type Lines<'a> = Split<'a, u8, fn(&u8) -> bool>;

/// A line that was refused, counted from 1, and its reply.
#[derive(Debug, PartialEq)]
pub struct Refused {
    pub number: usize,
    pub reply: String,
}

/// Hands replies on to an output, and looks at each. Of a line that is no command it says on standard error what it lacks,
/// where it has the lines.
pub struct Watch<'a, W> {
    output: W,
    lines: Option<Lines<'a>>,
    /// The beginning of the reply that passes.
    reply: Vec<u8>,
    /// How many replies have passed.
    count: usize,
    first: Option<Refused>,
}

impl<'a, W: Write> Watch<'a, W> {
    pub fn new(output: W, lines: Option<&'a [u8]>) -> Self {
        let is_end: fn(&u8) -> bool = |byte| *byte == LINE_END;
        let lines = lines.map(|it| it.split(is_end));
        Self {
            output,
            lines,
            reply: Vec::new(),
            count: 0,
            first: None,
        }
    }

    /// The first line that was refused.
    pub fn finish(mut self) -> Option<Refused> {
        if !self.reply.is_empty() {
            self.end_reply();
        }
        self.first
    }

    fn look(&mut self, passed: &[u8]) {
        for part in passed.split_inclusive(|byte| *byte == LINE_END) {
            let room = KEPT - self.reply.len();
            self.reply.extend(part.iter().take(room));
            if part.ends_with(&[LINE_END]) {
                self.end_reply();
            }
        }
    }

    fn end_reply(&mut self) {
        self.count += 1;
        let line = self.lines.as_mut().and_then(Iterator::next);
        if matches!(self.reply[..], [b'F', b'1'..=b'8', b' ', ..]) {
            let reply = String::from_utf8_lossy(&self.reply).trim_end().to_owned();
            if let (Some(line), true) = (line, reply.starts_with("F8 ")) {
                tell(&format!(
                    "line {} is no command: {}",
                    self.count,
                    why::lack_of(line)
                ));
            }
            let number = self.count;
            self.first.get_or_insert(Refused { number, reply });
        }
        self.reply.clear();
    }
}

impl<W: Write> Write for Watch<'_, W> {
    fn write(&mut self, bytes: &[u8]) -> io::Result<usize> {
        let count = self.output.write(bytes)?;
        self.look(&bytes[..count]);
        Ok(count)
    }

    fn flush(&mut self) -> io::Result<()> {
        self.output.flush()
    }
}

#[cfg(test)]
mod tests {
    use super::{Refused, Watch};
    use std::io::{self, Write};

    /// An output that takes one byte at a time.
    struct Slow(Vec<u8>);

    impl Write for Slow {
        fn write(&mut self, bytes: &[u8]) -> io::Result<usize> {
            self.0.extend(bytes.first());
            Ok(bytes.len().min(1))
        }

        fn flush(&mut self) -> io::Result<()> {
            Ok(())
        }
    }

    /// What passed was taken, byte by byte, and no more is looked at.
    #[test]
    fn what_is_taken_is_looked_at() {
        let mut replies = Watch::new(Slow(Vec::new()), None);
        replies.write_all(b"ok\nok\nF2 no\nok\n").unwrap();
        assert_eq!(replies.count, 4);
        let refused = Refused {
            number: 3,
            reply: "F2 no".into(),
        };
        assert_eq!(replies.finish(), Some(refused));
    }

    fn first_of(pieces: &[&str]) -> (String, Option<Refused>) {
        let mut output = Vec::new();
        let mut replies = Watch::new(&mut output, None);
        for piece in pieces {
            replies.write_all(piece.as_bytes()).unwrap();
        }
        let first = replies.finish();
        (String::from_utf8(output).unwrap(), first)
    }

    #[test]
    fn the_first_refusal_is_found() {
        let long = "0 ".repeat(100_000);
        for (pieces, wanted) in [
            (&["ok\nF2 no\nF1 no\n"][..], Some((2, "F2 no"))),
            (
                &["o", "k\nF", "8", " not", "\ntr", "ue"],
                Some((2, "F8 not")),
            ),
            (&["F6 no memory"], Some((1, "F6 no memory"))),
            (
                &[&long, "F1 no\n", &long, "\nF5 J8 3\n"],
                Some((3, "F5 J8 3")),
            ),
            (
                &["ok\n-\n\n{\"data\":[],\"length\":0}\nF9 no\nF1\n F1 no\n"],
                None,
            ),
            (&[], None),
        ] {
            let refused = wanted.map(|(number, reply)| Refused {
                number,
                reply: reply.into(),
            });
            assert_eq!(first_of(pieces), (pieces.concat(), refused));
        }
    }
}
