//! Commands with numbers near the greatest, where no limit stands before them.

use bitcommands::commands::{Change, Command, Look, apply};
use fixedbitset::FixedBitSet;
use std::alloc::{AllocError, Global};
use std::process::Abort;
use std::test::Fail;
use test_values::slow::is_same;

// The command gets this reply, and leaves this value.
fn assert_step(
    rt: &impl Abort,
    alloc: Global,
    sets: &mut [FixedBitSet; 1],
    command: Change,
    (text, flags): (&str, &[bool]),
) -> Result<(), AllocError> {
    assert_replies(rt, alloc, sets, &Command::Change(command), text)?;
    assert!(rt; is_same(&sets[0], flags), "{text}");
    Ok(())
}

fn assert_replies(
    rt: &impl Abort,
    alloc: Global,
    sets: &mut [FixedBitSet; 1],
    command: &Command,
    text: &str,
) -> Result<(), AllocError> {
    let mut output = Vec::new(alloc);
    apply(alloc, sets, command, usize::MAX).push_text(&mut output)?;
    assert_eq!(rt; output.as_slice(), text.as_bytes(), "{command:?}");
    Ok(())
}

// The words of such a length take 2 to the 61 bytes, which no machine has: the request is refused, and takes nothing.
#[test]
fn growth_that_no_memory_holds(rt: HostRuntime) -> Result<(), Fail> {
    let alloc = rt.alloc();
    let mut sets = [FixedBitSet::with_capacity_and_blocks(alloc, 4, [8])?];
    let (set, bits, bit) = (0, usize::MAX, usize::MAX - 1);
    let (lacks, left) = ("F6 no memory", [false, false, false, true]);
    assert_step(
        &rt,
        alloc,
        &mut sets,
        Change::Grow { set, bits },
        (lacks, &left),
    )?;
    assert_step(
        &rt,
        alloc,
        &mut sets,
        Change::GrowAndInsert { set, bit },
        (lacks, &left),
    )?;
    let mut items = vec![in alloc; 2; 1]?;
    items.extend_from_slice(&[bit, usize::MAX])?;
    let left = [false, false, true, true];
    assert_step(
        &rt,
        alloc,
        &mut sets,
        Change::Extend { set, items },
        (lacks, &left),
    )?;
    Ok(())
}

#[test]
fn the_greatest_number_as_a_position(rt: HostRuntime) -> Result<(), Fail> {
    let alloc = rt.alloc();
    let mut sets = [FixedBitSet::with_capacity_and_blocks(alloc, 4, [12])?];
    let set = 0;
    let mut items = vec![in alloc; 1; 1]?;
    items.push(usize::MAX)?;
    let left = [false, true, true, true];
    let fault = "F4 position too great";
    assert_step(
        &rt,
        alloc,
        &mut sets,
        Change::Extend { set, items },
        (fault, &left),
    )?;
    let bit = usize::MAX;
    let look = Command::Look(Look::Contains { set, bit });
    assert_replies(&rt, alloc, &mut sets, &look, "false")?;
    let (from, to) = (usize::MAX, 3);
    let left = [false, true, true, false];
    assert_step(
        &rt,
        alloc,
        &mut sets,
        Change::CopyBit { set, from, to },
        ("ok", &left),
    )?;
    Ok(())
}
