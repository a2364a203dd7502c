//! Sets as JSON and as text, and their equality and order, by the program.

use crate::json_sessions;
use crate::program::{assert_output, assert_replies};
use std::test::Fail;
use test_callers::streams::output_of;

#[test]
fn a_run_with_json(rt: HostRuntime) -> Result<(), Fail> {
    assert_replies(&rt, rt.alloc(), &json_sessions::SECOND)
}

#[test]
fn faults_of_json(rt: HostRuntime) -> Result<(), Fail> {
    assert_replies(&rt, rt.alloc(), &json_sessions::FAULTS)?;
    assert_replies(&rt, rt.alloc(), &json_sessions::ORDER_OF_TESTS)?;
    assert_replies(&rt, rt.alloc(), &json_sessions::HOSTILE)
}

#[test]
fn spaces_in_json(rt: HostRuntime) -> Result<(), Fail> {
    assert_replies(&rt, rt.alloc(), &json_sessions::SPACES)
}

#[test]
fn sets_written_and_read(rt: HostRuntime) -> Result<(), Fail> {
    assert_replies(&rt, rt.alloc(), &json_sessions::WRITTEN)
}

#[test]
fn sets_compared(rt: HostRuntime) -> Result<(), Fail> {
    assert_replies(&rt, rt.alloc(), &json_sessions::COMPARED)
}

// A list in a list, so many deep.
#[test]
fn nested_lists(rt: HostRuntime) -> Result<(), Fail> {
    for (depth, reply) in [(1, "F5 J2"), (127, "F5 J2"), (128, "F8 not a command")] {
        let mut input = format!(in rt.alloc(); "from_value 0 ")?;
        for _ in 0..depth {
            input.push_str("[")?;
        }
        for _ in 0..depth {
            input.push_str("]")?;
        }
        let output = format!(in rt.alloc(); "{reply}\n")?;
        assert_output(&rt, rt.alloc(), &input, &output)?;
    }
    Ok(())
}

// A byte that is not UTF-8 makes the first line no command; the second is the same without it.
#[test]
fn json_that_is_no_text(rt: HostRuntime) -> Result<(), Fail> {
    let input = b"from_value 0 \"\xff\"\nfrom_value 0 \"\"\n";
    let written = output_of(rt.alloc(), input)?;
    assert_eq!(rt; written.as_slice(), "F8 not a command\nF5 J1\n".as_bytes());
    Ok(())
}
