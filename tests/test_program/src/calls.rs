//! How the program calls its reader and its writer: how often, in which order, and that it ends at the first failure.
use crate::program::assert_calls;
use bitlines::program::{run_text, status};
use std::alloc::{AllocError, Global};
use std::io::ErrorKind;
use std::process::Abort;
use std::test::Fail;
use test_callers::streams::{Calls, Failure, Sink, Source};

// How a run ends.
#[derive(Clone, Copy)]
struct Ending<'a> {
    status: u8,
    taken: &'a [u8],
    reads: usize,
    writes: usize,
    flushes: usize,
}

// For this input, given and taken byte by byte, the program ends so, where that call fails.
fn assert_ends(rt: &impl Abort, alloc: Global, input: &[u8], failure: Failure, ending: Ending<'_>) {
    let calls = Calls::new();
    let mut source = Source::new(input, &calls, failure);
    let mut sink = Sink::new(Vec::new(alloc), &calls, failure);
    let outcome = run_text(alloc, &mut source, &mut sink);
    assert_eq!(rt; status(&outcome), ending.status);
    assert!(rt; sink.taken.as_slice() == ending.taken);
    assert_calls(rt, &calls, ending.reads, ending.writes, ending.flushes);
}

// Errors that programs often try again, and one that they do not.
const KINDS: [ErrorKind; 3] = [
    ErrorKind::Interrupted,
    ErrorKind::WouldBlock,
    ErrorKind::Other,
];

// 15 bytes, of which come 5.
const INPUT: &str = "grow 0 9\nlen 0\n";

const OUTPUT: &str = "ok\n9\n";

// A text, as often as that.
fn repeated(alloc: Global, text: &str, count: usize) -> Result<Vec<u8>, AllocError> {
    let mut bytes = Vec::new(alloc);
    for _ in 0..count {
        bytes.extend_from_slice(text.as_bytes())?;
    }
    Ok(bytes)
}

// All is read before the first byte is written, and the flush comes behind the last one.
#[test]
fn reads_then_writes_then_a_flush(rt: HostRuntime) {
    let ending = Ending {
        status: 0,
        taken: OUTPUT.as_bytes(),
        reads: 16,
        writes: 5,
        flushes: 1,
    };
    assert_ends(&rt, rt.alloc(), INPUT.as_bytes(), Failure::Nowhere, ending);
}

#[test]
fn thousands_of_bytes_one_at_a_time(rt: HostRuntime) -> Result<(), Fail> {
    let input = repeated(rt.alloc(), INPUT, 500)?;
    let output = repeated(rt.alloc(), OUTPUT, 500)?;
    let ending = Ending {
        status: 0,
        taken: output.as_slice(),
        reads: 7_501,
        writes: 2_500,
        flushes: 1,
    };
    assert_ends(&rt, rt.alloc(), input.as_slice(), Failure::Nowhere, ending);
    Ok(())
}

// An output of no bytes: one read, which finds the end, no write, and a flush.
#[test]
fn no_bytes(rt: HostRuntime) {
    let ending = Ending {
        status: 0,
        taken: &[],
        reads: 1,
        writes: 0,
        flushes: 1,
    };
    assert_ends(&rt, rt.alloc(), &[], Failure::Nowhere, ending);
}

// Behind a failed read nothing is read, and nothing is written or flushed at all.
#[test]
fn each_read_fails_in_turn(rt: HostRuntime) -> Result<(), Fail> {
    let long = repeated(rt.alloc(), INPUT, 500)?;
    for kind in KINDS {
        for call in 1..17 {
            let ending = Ending {
                status: 1,
                taken: &[],
                reads: call,
                writes: 0,
                flushes: 0,
            };
            let failure = Failure::Read { call, kind };
            assert_ends(&rt, rt.alloc(), INPUT.as_bytes(), failure, ending);
        }
        let ending = Ending {
            status: 1,
            taken: &[],
            reads: 6_543,
            writes: 0,
            flushes: 0,
        };
        let failure = Failure::Read { call: 6_543, kind };
        assert_ends(&rt, rt.alloc(), long.as_slice(), failure, ending);
    }
    Ok(())
}

// Behind a failed write, and behind one that took nothing, nothing is written or flushed.
#[test]
fn each_write_fails_in_turn(rt: HostRuntime) {
    for call in 1..6 {
        let ending = Ending {
            status: 2,
            taken: &OUTPUT.as_bytes()[..call - 1],
            reads: 16,
            writes: call,
            flushes: 0,
        };
        for kind in KINDS {
            let failure = Failure::Write { call, kind };
            assert_ends(&rt, rt.alloc(), INPUT.as_bytes(), failure, ending);
        }
        let failure = Failure::TakesNothing { call };
        assert_ends(&rt, rt.alloc(), INPUT.as_bytes(), failure, ending);
    }
}

#[test]
fn a_flush_that_fails(rt: HostRuntime) {
    for kind in KINDS {
        for (input, output) in [(INPUT, OUTPUT), ("", "")] {
            let ending = Ending {
                status: 2,
                taken: output.as_bytes(),
                reads: input.len().wrapping_add(1),
                writes: output.len(),
                flushes: 1,
            };
            let failure = Failure::Flush { kind };
            assert_ends(&rt, rt.alloc(), input.as_bytes(), failure, ending);
        }
    }
}
