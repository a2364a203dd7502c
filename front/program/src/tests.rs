//! What the program has and its replies alone do not show.
use crate::program::bitcommands::commands::{apply, run};
use crate::program::bitlines::lines::parse_line;
use crate::program::fixedbitset::FixedBitSet;
use crate::shim::alloc::Global;
use crate::shim::prelude::{Vec, WriteText};
use std::{assert_eq, concat, env, fs};

const SETS: usize = 16;
const LIMIT: usize = 1_000_000;

fn sets() -> std::vec::Vec<FixedBitSet> {
    (0..SETS).map(|_| FixedBitSet::new(Global::Try)).collect()
}

/// The program puts its replies behind an output, and carries out one command at a time. Of each stored input the replies print
/// the same, and all commands at once have the same replies.
#[test]
fn replies_print_what_they_put_and_all_commands_at_once_have_them() {
    for file in fs::read_dir(concat!(env!("CARGO_MANIFEST_DIR"), "/fuzz/corpus")).unwrap() {
        let input = fs::read(file.unwrap().path()).unwrap();
        let lines = input.split(|byte| *byte == b'\n');
        let commands = lines.filter_map(|line| parse_line(Global::Try, line).ok());
        let commands = commands.collect::<std::vec::Vec<_>>();
        let (mut one_by_one, mut at_once) = (sets(), sets());
        let replies = run(Global::Try, &mut at_once, &commands, LIMIT)
            .ok()
            .unwrap();
        assert_eq!(replies.len(), commands.len());
        for (command, other) in commands.iter().zip(&replies) {
            let reply = apply(Global::Try, &mut one_by_one, command, LIMIT);
            let (mut put, mut other_put) = (Vec::new(Global::Try), Vec::new(Global::Try));
            reply.push_text(&mut put).ok().unwrap();
            other.push_text(&mut other_put).ok().unwrap();
            let printed = reply.to_string(Global::Try).ok().unwrap();
            assert_eq!(printed.as_bytes(), put.as_slice());
            assert_eq!(printed.as_bytes(), other_put.as_slice());
        }
    }
}
