//! The stored examples, the rows of docs/COMMANDS.md, and how the program ends.
mod model;

use model::lines::FORMS;
use std::collections::BTreeSet;
use std::io::{self, Error, ErrorKind, Read, Write};
use std::path::{Path, PathBuf};

fn top() -> PathBuf {
    Path::new(env!("CARGO_MANIFEST_DIR")).join("../..")
}

fn stored(name: &str) -> Vec<u8> {
    std::fs::read(top().join(name)).unwrap_or_else(|fault| panic!("{name}: {fault}"))
}

fn commands() -> String {
    String::from_utf8(stored("docs/COMMANDS.md")).expect("docs/COMMANDS.md is no text")
}

/// The output for an input, where all is read and written.
fn output_of(input: &[u8]) -> String {
    let mut output = Vec::new();
    assert_eq!(bits::run(&mut &input[..], &mut output), 0);
    String::from_utf8(output).expect("the output is no text")
}

#[test]
fn stored_inputs_have_the_stored_outputs() {
    let pairs = [
        ("examples/first.txt", "examples/first.out"),
        ("examples/second.txt", "examples/second.out"),
        ("examples/wrong.txt", "examples/wrong.out"),
        ("crates/bits/stdin", "crates/bits/stdout"),
    ];
    for (input, output) in pairs {
        let (input, wanted) = (stored(input), stored(output));
        assert!(!wanted.is_empty(), "{output} is empty");
        assert_eq!(output_of(&input).as_bytes(), wanted, "{output}");
        assert_eq!(model::output_of(&input), wanted, "{output}, by the model");
    }
}

/// The cells of a row of a table, or none where the line is no row.
fn cells(line: &str) -> Vec<&str> {
    if line.starts_with('|') {
        line.trim_matches('|').split(" | ").map(str::trim).collect()
    } else {
        Vec::new()
    }
}

/// What stands in a cell as code.
fn code(cell: &str) -> impl Iterator<Item = &str> {
    cell.split('`').skip(1).step_by(2)
}

/// Each row of a table of examples: the sets before, the line, the reply, and the sets after.
fn rows(text: &str) -> Vec<[&str; 4]> {
    let (mut found, mut is_inside) = (Vec::new(), false);
    for line in text.lines() {
        let cells = cells(line);
        if cells.starts_with(&["Sets before", "Line", "Reply"]) {
            is_inside = true;
        } else if cells.is_empty() {
            is_inside = false;
        } else if is_inside && !cells[0].starts_with("---") {
            found.push([
                cells[0],
                cells[1].trim_matches('`'),
                cells[2].trim_matches('`'),
                cells.get(3).unwrap_or(&""),
            ]);
        }
    }
    found
}

/// The sets of a cell, such as `0 = 10 {3, 5..=9}`: a number, a length and positions.
fn sets_of(cell: &str) -> Vec<(usize, usize, Vec<usize>)> {
    let number = |it: &str| {
        it.parse::<usize>()
            .unwrap_or_else(|_| panic!("'{it}' is no number in '{cell}'"))
    };
    code(cell)
        .map(|text| {
            let (at, rest) = text.split_once(" = ").expect("a set without ` = `");
            let (length, rest) = rest.split_once(" {").expect("a set without positions");
            let listed = rest
                .trim_end_matches('}')
                .split(", ")
                .filter(|it| !it.is_empty());
            let positions = listed.flat_map(|it| {
                let (first, last) = it.split_once("..=").unwrap_or((it, it));
                number(first)..=number(last)
            });
            (number(at), number(length), positions.collect())
        })
        .collect()
}

/// The lines that make the sets of a row, its line, and those that ask for all sets; and the replies to all of them.
fn session(row: [&str; 4]) -> (Vec<String>, Vec<String>) {
    let [before, line, reply, after] = row;
    let (mut lines, mut sets) = (Vec::new(), vec![(0, Vec::new()); 16]);
    for (at, length, positions) in sets_of(before) {
        lines.push(format!("with_capacity {at} {length}"));
        lines.extend(positions.iter().map(|it| format!("insert {at} {it}")));
        sets[at] = (length, positions);
    }
    let mut replies = vec!["ok".to_string(); lines.len()];
    lines.push(line.into());
    replies.push(reply.into());
    for (at, length, positions) in sets_of(after) {
        sets[at] = (length, positions);
    }
    for (at, (length, positions)) in sets.iter().enumerate() {
        lines.push(format!("len {at}"));
        replies.push(length.to_string());
        lines.push(format!("ones {at} {}", "f".repeat(positions.len() + 1)));
        replies.push(
            positions
                .iter()
                .map(|it| format!("{it} "))
                .collect::<String>()
                + "none",
        );
    }
    (lines, replies)
}

#[test]
fn rows_of_the_documents_hold() {
    let text = commands();
    let (rows, mut tried) = (rows(&text), BTreeSet::new());
    for row in &rows {
        let (lines, wanted) = session(*row);
        let input = lines.join("\n");
        let found = output_of(input.as_bytes());
        assert_eq!(found.lines().collect::<Vec<_>>(), wanted, "{}", row[1]);
        assert_eq!(
            model::output_of(input.as_bytes()),
            found.as_bytes(),
            "{}, by the model",
            row[1]
        );
        tried.extend(row[1].split(' ').next());
    }
    assert_eq!(
        tried,
        FORMS.iter().map(|it| it.0).collect(),
        "the commands that have a row"
    );
}

/// A form as docs/COMMANDS.md has it, by the letters of the model.
fn by_letters(form: &str) -> (String, String) {
    let mut words = form.split(' ');
    let name = words.next().unwrap_or("").to_string();
    let letter = |it: &str| match it {
        "a" | "b" | "d" | "s" => "k".to_string(),
        "from" | "to" => "p".into(),
        "bits" => "b".into(),
        "index" => "x".into(),
        "value" => "v".into(),
        "JSON" => "json".into(),
        other => other.into(),
    };
    (name, words.map(letter).collect::<Vec<_>>().join(" "))
}

#[test]
fn the_model_has_the_forms_of_the_documents() {
    let text = commands();
    let section = text
        .split("\n## Commands\n")
        .nth(1)
        .and_then(|it| it.split("\n## ").next())
        .expect("no commands");
    let tables = section.lines().map(cells).filter(|it| it.len() >= 3);
    let listed: BTreeSet<_> = tables
        .flat_map(|it| code(it[0]).map(by_letters).collect::<Vec<_>>())
        .collect();
    let known: BTreeSet<_> = FORMS
        .iter()
        .map(|it| (it.0.to_string(), it.1.to_string()))
        .collect();
    assert_eq!(listed, known);
}

#[test]
fn numbers_of_json_that_are_not_whole_are_valid() {
    let long = "1".repeat(300);
    for number in [
        "18446744073709551616.5",
        "18446744073709551617.5",
        "18446744073709551619.0",
        "1e-400",
        "0e999",
        "-0",
        &long,
    ] {
        let input = format!("from_value 0 {number}\nfrom_value 0 [{number},[]]\nfrom_value 0 [9,[7,{number}]]\nlen 0\n");
        assert_eq!(
            output_of(input.as_bytes()),
            "F5 J1\nF5 J6\nF5 J8 1\n0\n",
            "{number}"
        );
    }
    assert_eq!(output_of(b"from_value 0 1e400"), "F8 not a command\n");
}

/// Gives the text in pieces of at most this size, and then ends, or fails with an error.
struct Pieces<'a> {
    left: &'a [u8],
    most: usize,
    fault: Option<ErrorKind>,
}

impl Read for Pieces<'_> {
    fn read(&mut self, buffer: &mut [u8]) -> io::Result<usize> {
        if let (true, Some(kind)) = (self.left.is_empty(), self.fault) {
            return Err(Error::from(kind));
        }
        let count = self.most.min(buffer.len()).min(self.left.len());
        buffer[..count].copy_from_slice(&self.left[..count]);
        self.left = &self.left[count..];
        Ok(count)
    }
}

/// Takes pieces of at most this size, and as many bytes as there is room. Then a write fails with an error, or takes nothing; so
/// does the flush, where there is an error for it. No call may follow one that failed.
#[derive(Default)]
struct Room {
    taken: Vec<u8>,
    most: usize,
    room: usize,
    fault: Option<ErrorKind>,
    flush_fault: Option<ErrorKind>,
    flushes: usize,
    has_failed: bool,
}

impl Write for Room {
    fn write(&mut self, bytes: &[u8]) -> io::Result<usize> {
        assert!(!self.has_failed, "a write behind one that failed");
        let count = self.most.min(bytes.len()).min(self.room - self.taken.len());
        self.has_failed = count == 0 && !bytes.is_empty();
        match self.fault {
            Some(kind) if self.has_failed => Err(Error::from(kind)),
            _ => {
                self.taken.extend(&bytes[..count]);
                Ok(count)
            }
        }
    }

    fn flush(&mut self) -> io::Result<()> {
        assert!(!self.has_failed, "a flush behind a write that failed");
        self.flushes += 1;
        self.flush_fault
            .map_or(Ok(()), |kind| Err(Error::from(kind)))
    }
}

const KINDS: [ErrorKind; 4] = [
    ErrorKind::Other,
    ErrorKind::Interrupted,
    ErrorKind::WouldBlock,
    ErrorKind::BrokenPipe,
];

#[test]
fn a_read_that_fails_is_status_1_and_nothing_is_written() {
    let input = stored("examples/first.txt");
    for kind in KINDS {
        for length in [0, 1, 7, input.len() - 1, input.len()] {
            let mut reader = Pieces {
                left: &input[..length],
                most: 5,
                fault: Some(kind),
            };
            let mut writer = Room {
                most: 9,
                room: 9999,
                ..Room::default()
            };
            assert_eq!(
                bits::run(&mut reader, &mut writer),
                1,
                "{kind:?} behind {length} bytes"
            );
            assert!(writer.taken.is_empty(), "{kind:?} behind {length} bytes");
        }
    }
}

#[test]
fn pieces_of_any_size_are_read_and_written() {
    let (input, wanted) = (stored("examples/second.txt"), stored("examples/second.out"));
    for most in [1, 2, 3, 7, 64, 9999] {
        let mut reader = Pieces {
            left: &input,
            most,
            fault: None,
        };
        let mut writer = Room {
            most,
            room: 9999,
            ..Room::default()
        };
        assert_eq!(
            bits::run(&mut reader, &mut writer),
            0,
            "pieces of {most} bytes"
        );
        assert_eq!(writer.taken, wanted, "pieces of {most} bytes");
        assert_eq!(writer.flushes, 1, "pieces of {most} bytes");
    }
}

#[test]
fn a_write_that_fails_is_status_2_behind_a_beginning_of_the_output() {
    let (input, wanted) = (stored("examples/first.txt"), stored("examples/first.out"));
    for fault in KINDS.map(Some).into_iter().chain([None]) {
        for (room, most) in (0..wanted.len()).zip([1, 2, 9, 9999].into_iter().cycle()) {
            let mut writer = Room {
                most,
                room,
                fault,
                ..Room::default()
            };
            assert_eq!(
                bits::run(&mut &input[..], &mut writer),
                2,
                "{fault:?} behind {room} bytes"
            );
            assert_eq!(
                writer.taken,
                wanted[..room],
                "{fault:?} behind {room} bytes"
            );
        }
    }
}

#[test]
fn a_flush_that_fails_is_status_2_behind_the_whole_output() {
    let (input, wanted) = (stored("examples/first.txt"), stored("examples/first.out"));
    for kind in KINDS {
        let mut writer = Room {
            most: 10,
            room: 9999,
            flush_fault: Some(kind),
            ..Room::default()
        };
        assert_eq!(bits::run(&mut &input[..], &mut writer), 2, "{kind:?}");
        assert_eq!(writer.taken, wanted, "{kind:?}");
    }
}

#[test]
fn lines_are_cut_at_each_line_end() {
    for (input, wanted) in [
        (&b""[..], ""),
        (b"\n", "F8 not a command\n"),
        (b"len 0", "0\n"),
        (b"len 0\n", "0\n"),
        (b"\nlen 0\n\n", "F8 not a command\n0\nF8 not a command\n"),
        (b"len 0\r\nlen 0", "F8 not a command\n0\n"),
        (
            b"len\x000\n\xff\nlen 0",
            "F8 not a command\nF8 not a command\n0\n",
        ),
    ] {
        assert_eq!(output_of(input), wanted, "{}", input.escape_ascii());
    }
}
