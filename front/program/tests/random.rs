//! Random lines: the program answers what the model answers.
//!
//! The start is that of BITS_START, or comes from the clock; BITS_LINES says how many lines are made. Where a reply differs, the
//! start and the lines up to the first such reply are printed.
mod model;

use model::chance::{self, Chance};
use model::{Model, Unseen};

/// With a set of more positions a case ends soon: the model is slow.
const LONG: usize = 10_000;

/// The lines of a case, and the model's replies. At the end stand lines that ask for each set.
fn case(chance: &mut Chance) -> (Vec<Vec<u8>>, Vec<String>) {
    let (mut model, mut lines, mut replies) = (Model::default(), Vec::new(), Vec::new());
    let mut left = 20 + chance.below(381);
    while left > 0 {
        let line = chance::line(chance, &model);
        replies.push(model.reply(&line));
        lines.push(line);
        left = if model.sets.iter().any(|it| it.len() > LONG) {
            (left - 1).min(12)
        } else {
            left - 1
        };
    }
    for number in 0..model.sets.len() {
        for question in ["len", "as_slice"] {
            let line = format!("{question} {number}").into_bytes();
            replies.push(model.reply(&line));
            lines.push(line);
        }
    }
    (lines, replies)
}

/// What the program answers to lines. The last one may lack its line end, where it is not empty.
fn answered(chance: &mut Chance, lines: &[Vec<u8>]) -> String {
    let mut input = lines.join(&b'\n');
    if chance.once_in(2) {
        input.push(b'\n');
    }
    let mut output = Vec::new();
    let status = bits::run(&mut input.as_slice(), &mut output);
    assert_eq!(status, 0, "the status of {} lines", lines.len());
    String::from_utf8(output).expect("an output that is no text")
}

/// The lines up to the first reply that differs, and both replies.
fn told(lines: &[Vec<u8>], wanted: &[String], found: &str) -> String {
    let found: Vec<&str> = found.split('\n').collect();
    let at = wanted
        .iter()
        .zip(&found)
        .position(|(it, other)| it != other)
        .unwrap_or(wanted.len().min(found.len()));
    let shown: Vec<String> = lines
        .iter()
        .take(at + 1)
        .map(|it| it.escape_ascii().to_string())
        .collect();
    let short = |it: Option<&str>| it.map(|it| it.chars().take(300).collect::<String>());
    let (wanted, found) = (
        short(wanted.get(at).map(String::as_str)),
        short(found.get(at).copied()),
    );
    format!(
        "{}\nthe model answers {wanted:?}, and the program {found:?}",
        shown.join("\n")
    )
}

#[test]
fn replies_are_those_of_the_model() {
    let (start, wanted) = (
        chance::start(),
        chance::named("BITS_LINES").unwrap_or(250_000) as usize,
    );
    let (mut chance, mut count, mut cases) = (Chance(start), 0, 0);
    let mut unseen = Unseen::default();
    while count < wanted {
        let (lines, replies) = case(&mut chance);
        let found = answered(&mut chance, &lines);
        if found != replies.join("\n") + "\n" {
            panic!(
                "BITS_START={start}, case {cases}:\n{}",
                told(&lines, &replies, &found)
            );
        }
        lines
            .iter()
            .zip(&replies)
            .for_each(|(line, reply)| unseen.see(line, reply));
        count += lines.len();
        cases += 1;
    }
    println!("{count} lines in {cases} cases, BITS_START={start}");
    assert!(cases > 0, "no case was tried");
    if wanted >= 100_000 {
        unseen.assert_none();
    }
}
