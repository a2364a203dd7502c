//! A list of commands.

use bitcommands::commands::{Change, Command, Look, Make, Refusal, Reply, run};
use fixedbitset::FixedBitSet;
use std::test::Fail;

// A refused command is a reply, and the commands after it go on.
#[test]
fn a_run_past_a_refusal(rt: HostRuntime) -> Result<(), Fail> {
    let alloc = rt.alloc();
    let mut sets = [FixedBitSet::new(alloc), FixedBitSet::new(alloc)];
    let commands = [
        Command::Make(Make::WithCapacity {
            target: 1,
            bits: 10,
        }),
        Command::Change(Change::Insert { set: 1, bit: 10 }),
        Command::Change(Change::Put { set: 1, bit: 9 }),
        Command::Look(Look::Len { set: 1 }),
    ];
    let replies = run(alloc, &mut sets, &commands, 10)?;
    assert_eq!(rt; replies.len(), 4);
    assert!(rt; matches!(&replies[0], Reply::Done));
    assert!(rt; matches!(&replies[1], Reply::Refused(Refusal::Position)));
    assert!(rt; matches!(&replies[2], Reply::Bool(false)));
    assert!(rt; matches!(&replies[3], Reply::Number(10)));
    assert!(rt; sets[1].contains(9));
    Ok(())
}
