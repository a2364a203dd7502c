//! The inputs of fuzz/corpus, and as many changed copies of them as BITS_FUZZ_RUNS says: what model/check.rs asks holds of each.
mod model;

use model::chance::{self, Chance};
use model::check::fault;
use std::panic::{catch_unwind, AssertUnwindSafe};
use std::path::Path;

/// The stored inputs with their names, in order.
fn corpus() -> Vec<(String, Vec<u8>)> {
    let folder = Path::new(env!("CARGO_MANIFEST_DIR")).join("fuzz/corpus");
    let paths = std::fs::read_dir(folder)
        .expect("fuzz/corpus")
        .map(|it| it.expect("a file of fuzz/corpus").path());
    let read = |path: std::path::PathBuf| {
        (
            path.display().to_string(),
            std::fs::read(&path).expect("an input"),
        )
    };
    let mut found: Vec<_> = paths.map(read).collect();
    found.sort();
    found
}

/// Fails with the input, where something is wrong with its output, or the program panics.
fn try_input(name: &str, input: &[u8]) {
    let found = catch_unwind(AssertUnwindSafe(|| fault(input))).unwrap_or(Some("a panic".into()));
    if let Some(fault) = found {
        panic!("{name}: {fault}\nthe input is {}", input.escape_ascii());
    }
}

#[test]
fn stored_inputs() {
    let inputs = corpus();
    assert!(inputs.len() >= 40, "{} inputs", inputs.len());
    for (name, input) in &inputs {
        try_input(name, input);
    }
}

#[test]
fn stored_inputs_have_each_command_and_each_refusal() {
    let mut unseen = model::Unseen::default();
    for (_, input) in corpus() {
        let replies = model::output_of(&input);
        for (line, reply) in model::lines_of(&input)
            .into_iter()
            .zip(model::lines_of(&replies))
        {
            unseen.see(
                line,
                std::str::from_utf8(reply).expect("a reply of the model"),
            );
        }
    }
    unseen.assert_none();
}

/// A copy of one input with a few changes: bytes, lines of another input, and random lines.
fn changed(chance: &mut Chance, inputs: &[(String, Vec<u8>)]) -> Vec<u8> {
    let mut found = inputs[chance.below(inputs.len())].1.clone();
    for _ in 0..=chance.below(6) {
        let (from, to) = (chance.below(found.len() + 1), chance.below(found.len() + 1));
        let (from, to) = (from.min(to), from.max(to).min(from.min(to) + 40));
        let byte = chance.one_of(b"\n\n    \0\t\r0019.,:[]{}\"\\fbtn=e-+\x80\xc3\xff");
        match chance.below(8) {
            0 => found.insert(from, byte),
            1 if from < found.len() => found[from] = byte,
            2 => drop(found.drain(from..to)),
            3 => found.extend_from_within(from..to),
            4 if from < found.len() => found[from] ^= 1 << chance.below(8),
            5 => {
                let other = &inputs[chance.below(inputs.len())].1;
                let line = model::lines_of(other)
                    .get(chance.below(12))
                    .copied()
                    .unwrap_or(b"")
                    .to_vec();
                found.splice(from..from, line).for_each(drop);
            }
            6 => {
                let line = chance::line(chance, &model::Model::default());
                found
                    .splice(from..from, [b"\n", &line[..], b"\n"].concat())
                    .for_each(drop);
            }
            _ => found.truncate(found.len().max(to)),
        }
    }
    found
}

#[test]
fn changed_inputs() {
    let (start, runs, inputs) = (
        chance::start(),
        chance::named("BITS_FUZZ_RUNS").unwrap_or(3000),
        corpus(),
    );
    let mut chance = Chance(start);
    assert!(!inputs.is_empty(), "there is no stored input");
    for run in 0..runs {
        let input = changed(&mut chance, &inputs);
        try_input(&format!("BITS_START={start}, run {run}"), &input);
    }
}
