//! Commands with many items, each once: where memory is there, no command refuses a number of its own choice.

use bitcommands::commands::{Change, Command, End, Look, Make, Walk, apply, run};
use fixedbitset::FixedBitSet;
use std::alloc::{AllocError, Global};
use std::mem::ManuallyDrop;
use std::test::Fail;

// How many items a command has, and the greatest length.
const ITEMS: usize = 1_000_000;

// Each position below the length.
fn positions(alloc: Global) -> Result<Vec<usize>, AllocError> {
    let mut positions = Vec::new(alloc);
    positions.resize(ITEMS, 0)?;
    let places = positions.as_mut_slice();
    for position in 0..ITEMS {
        places[position] = position;
    }
    Ok(positions)
}

// A call from the front for each of them.
fn ends(alloc: Global) -> Result<Vec<End>, AllocError> {
    let mut ends = Vec::new(alloc);
    ends.resize_with(ITEMS, || End::Front)?;
    Ok(ends)
}

// The commands in order, each with the length of its reply.
fn commands(alloc: Global) -> Result<[(Command, usize); 7], AllocError> {
    let (target, source, set) = (0, 1, 0);
    let items = positions(alloc)?;
    let made = Make::FromIter {
        target,
        items: items.to_vec(alloc)?,
    };
    let added = Change::Extend { set: source, items };
    let ends = ends(alloc)?;
    Ok([
        (Command::Change(added), 2),
        (Command::Make(made), 2),
        (Command::Make(Make::Clone { target, source }), 2),
        (Command::Look(Look::Text { set }), 1_000_000),
        (Command::Look(Look::AsSlice { set }), 328_124),
        (Command::Look(Look::ToValue { set }), 500_027),
        (Command::Walk(Walk::Ones { set, ends }), 6_888_889),
    ])
}

// To drop the commands and the output drops their items one by one, so they are left.
#[test]
fn commands_with_a_million_items(rt: HostRuntime) -> Result<(), Fail> {
    let alloc = rt.alloc();
    let mut sets = [FixedBitSet::new(alloc), FixedBitSet::new(alloc)];
    let commands = ManuallyDrop::new(commands(alloc)?);
    for (command, length) in commands.iter() {
        let mut output = ManuallyDrop::new(Vec::new(alloc));
        apply(alloc, &mut sets, command, ITEMS).push_text(&mut output)?;
        assert_eq!(rt; output.len(), *length);
    }
    Ok(())
}

#[test]
fn a_hundred_thousand_commands(rt: HostRuntime) -> Result<(), Fail> {
    let alloc = rt.alloc();
    let mut commands = Vec::with_capacity(alloc, 100_000)?;
    for bits in 0..100_000 {
        commands.push(Command::Change(Change::Grow { set: 0, bits }))?;
    }
    let mut sets = [FixedBitSet::new(alloc)];
    let replies = run(alloc, &mut sets, &commands, ITEMS)?;
    assert_eq!(rt; replies.len(), 100_000);
    assert_eq!(rt; sets[0].len(), 99_999);
    Ok(())
}
