//! The program's output, for inputs given at once and byte by byte.

use crate::{sessions, set_sessions, walk_sessions};
use bitlines::program::{RunFault, run_text, status};
use std::alloc::{AllocError, Global};
use std::process::Abort;
use std::test::Fail;
use test_callers::streams::{Calls, Failure, Sink, Source, output_of};

// The reader was called exactly so often, then the writer so often to write, and then so often to flush.
pub fn assert_calls(rt: &impl Abort, calls: &Calls, reads: usize, writes: usize, flushes: usize) {
    assert_eq!(rt; calls.counts(), (reads, writes, flushes));
    assert!(rt; calls.are_in_order());
}

// The program writes this output for that input, also byte by byte.
pub fn assert_output(
    rt: &impl Abort,
    alloc: Global,
    input: &str,
    output: &str,
) -> Result<(), Fail> {
    let written = output_of(alloc, input.as_bytes())?;
    assert_eq!(rt; written.as_slice(), output.as_bytes());
    let calls = Calls::new();
    let mut source = Source::new(input.as_bytes(), &calls, Failure::Nowhere);
    let mut sink = Sink::new(Vec::new(alloc), &calls, Failure::Nowhere);
    run_text(alloc, &mut source, &mut sink)?;
    assert_eq!(rt; sink.taken.as_slice(), output.as_bytes());
    assert_calls(rt, &calls, input.len().wrapping_add(1), output.len(), 1);
    Ok(())
}

// The program answers these lines by these replies.
pub fn assert_replies(rt: &impl Abort, alloc: Global, rows: &[(&str, &str)]) -> Result<(), Fail> {
    let mut input = String::new(alloc);
    let mut output = String::new(alloc);
    for (line, reply) in rows {
        push_line(&mut input, line)?;
        push_line(&mut output, reply)?;
    }
    assert_output(rt, alloc, &input, &output)
}

fn push_line(text: &mut String, line: &str) -> Result<(), AllocError> {
    text.push_str(line)?;
    text.push_str("\n")
}

#[test]
fn runs_of_commands(rt: HostRuntime) -> Result<(), Fail> {
    assert_replies(&rt, rt.alloc(), &sessions::FIRST)?;
    assert_replies(&rt, rt.alloc(), &sessions::GROWTH)?;
    assert_replies(&rt, rt.alloc(), &sessions::MADE_AGAIN)
}

#[test]
fn sets_made_and_copied(rt: HostRuntime) -> Result<(), Fail> {
    assert_replies(&rt, rt.alloc(), &set_sessions::MADE)?;
    assert_replies(&rt, rt.alloc(), &set_sessions::BLOCKS)
}

#[test]
fn sets_looked_at_and_changed(rt: HostRuntime) -> Result<(), Fail> {
    assert_replies(&rt, rt.alloc(), &set_sessions::LOOKS)?;
    assert_replies(&rt, rt.alloc(), &set_sessions::CHANGED)
}

#[test]
fn items_taken_in(rt: HostRuntime) -> Result<(), Fail> {
    assert_replies(&rt, rt.alloc(), &set_sessions::TAKEN_IN)?;
    assert_replies(&rt, rt.alloc(), &set_sessions::NO_COMMANDS)
}

#[test]
fn walks_from_the_front(rt: HostRuntime) -> Result<(), Fail> {
    assert_replies(&rt, rt.alloc(), &sessions::WALKS)
}

#[test]
fn walks_from_both_ends(rt: HostRuntime) -> Result<(), Fail> {
    assert_replies(&rt, rt.alloc(), &walk_sessions::BOTH_ENDS)?;
    assert_replies(&rt, rt.alloc(), &walk_sessions::ZEROES)?;
    assert_replies(&rt, rt.alloc(), &walk_sessions::ZEROES_FROM_BOTH_ENDS)?;
    assert_replies(&rt, rt.alloc(), &walk_sessions::NO_WALKS)
}

#[test]
fn walks_over_two_sets(rt: HostRuntime) -> Result<(), Fail> {
    assert_replies(&rt, rt.alloc(), &walk_sessions::JOINED)?;
    assert_replies(&rt, rt.alloc(), &walk_sessions::UNLIKE_LENGTHS)?;
    assert_replies(&rt, rt.alloc(), &walk_sessions::SAME_SET_TWICE)
}

#[test]
fn commands_over_ranges(rt: HostRuntime) -> Result<(), Fail> {
    assert_replies(&rt, rt.alloc(), &sessions::NO_POSITIONS)?;
    assert_replies(&rt, rt.alloc(), &sessions::SET_RANGES)?;
    assert_replies(&rt, rt.alloc(), &sessions::TOGGLED_RANGES)?;
    assert_replies(&rt, rt.alloc(), &sessions::INCLUSIVE_RANGES)
}

#[test]
fn ranges_that_are_not_valid(rt: HostRuntime) -> Result<(), Fail> {
    assert_replies(&rt, rt.alloc(), &sessions::RANGES_NOT_VALID)
}

#[test]
fn commands_over_two_sets(rt: HostRuntime) -> Result<(), Fail> {
    assert_replies(&rt, rt.alloc(), &sessions::TWO_SETS)?;
    assert_replies(&rt, rt.alloc(), &sessions::GROWN_BY_A_UNION)
}

// A set of 9 positions, of them 1 and 5, and what a walk gives of it after the command names it twice.
fn assert_with_itself(
    rt: &impl Abort,
    alloc: Global,
    command: &str,
    (walk, items): (&str, &str),
) -> Result<(), Fail> {
    let input = format!(in alloc;
        "grow 3 9\ninsert 3 1\ninsert 3 5\n{command} 3 3\nlen 3\n{walk}\n"
    )?;
    let output = format!(in alloc; "ok\nok\nok\nok\n9\n{items}\n")?;
    assert_output(rt, alloc, &input, &output)
}

#[test]
fn one_set_named_twice(rt: HostRuntime) -> Result<(), Fail> {
    for command in [
        "union_with",
        "bitor_assign",
        "intersect_with",
        "bitand_assign",
        "clone_from",
        "clone",
    ] {
        assert_with_itself(&rt, rt.alloc(), command, ("ones 3 fff", "1 5 none"))?;
    }
    for command in [
        "symmetric_difference_with",
        "bitxor_assign",
        "difference_with",
    ] {
        assert_with_itself(&rt, rt.alloc(), command, ("ones 3 f", "none"))?;
    }
    assert_replies(&rt, rt.alloc(), &sessions::WITH_ITSELF)
}

// The tests of a command come in the order of the table, and a refused command changes nothing.
#[test]
fn the_first_test_that_refuses_is_the_reply(rt: HostRuntime) -> Result<(), Fail> {
    assert_replies(&rt, rt.alloc(), &sessions::NO_SUCH_SET)?;
    assert_replies(&rt, rt.alloc(), &sessions::LIMIT)
}

#[test]
fn line_ends(rt: HostRuntime) -> Result<(), Fail> {
    for (input, output) in [
        ("len 0\n", "0\n"),
        ("len 0", "0\n"),
        ("\n", "F8 not a command\n"),
        ("", ""),
        ("len 0\n\nlen 1", "0\nF8 not a command\n0\n"),
    ] {
        assert_output(&rt, rt.alloc(), input, output)?;
    }
    Ok(())
}

// Each line is no command, and the line after them is answered.
#[test]
fn lines_that_are_no_commands(rt: HostRuntime) -> Result<(), Fail> {
    for line in sessions::NO_COMMANDS {
        let input = format!(in rt.alloc(); "{line}\nlen 0\n")?;
        assert_output(&rt, rt.alloc(), &input, "F8 not a command\n0\n")?;
    }
    assert_replies(&rt, rt.alloc(), &sessions::LEADING_ZEROS)
}

#[test]
fn bytes_that_are_no_text(rt: HostRuntime) -> Result<(), Fail> {
    let input = [
        0xff, 0xfe, b'\n', b'l', b'e', b'n', b' ', 0xb2, b'\n', 0, b'\n', b'l', b'e', b'n', b' ',
        b'0',
    ];
    let written = output_of(rt.alloc(), input.as_slice())?;
    assert_eq!(rt;
        written.as_slice(),
        "F8 not a command\nF8 not a command\nF8 not a command\n0\n".as_bytes()
    );
    Ok(())
}

#[test]
fn each_input_of_one_byte(rt: HostRuntime) -> Result<(), Fail> {
    for byte in 0..256_usize {
        let input = [byte as u8];
        let written = output_of(rt.alloc(), input.as_slice())?;
        assert_eq!(rt;
            written.as_slice(),
            "F8 not a command\n".as_bytes(),
            "byte {byte}"
        );
    }
    Ok(())
}

#[test]
fn a_line_of_a_million_bytes(rt: HostRuntime) -> Result<(), Fail> {
    let mut input = Vec::new(rt.alloc());
    input.resize(1_000_000, b'7')?;
    input.extend_from_slice("\nlen 0".as_bytes())?;
    let written = output_of(rt.alloc(), input.as_slice())?;
    assert_eq!(rt; written.as_slice(), "F8 not a command\n0\n".as_bytes());
    Ok(())
}

#[test]
fn statuses(rt: HostRuntime) {
    assert_eq!(rt; status(&Ok(())), 0);
    assert_eq!(rt; status(&Err(RunFault::Read)), 1);
    assert_eq!(rt; status(&Err(RunFault::Write)), 2);
    assert_eq!(rt; status(&Err(RunFault::Memory)), 3);
}

#[test]
fn texts_of_faults(rt: HostRuntime) -> Result<(), Fail> {
    let read = RunFault::Read.to_string(rt.alloc())?;
    let write = RunFault::Write.to_string(rt.alloc())?;
    let memory = RunFault::Memory.to_string(rt.alloc())?;
    assert_eq!(rt; read.as_str(), "read failed");
    assert_eq!(rt; write.as_str(), "write failed");
    assert_eq!(rt; memory.as_str(), "no memory");
    Ok(())
}
