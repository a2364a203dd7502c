// Made by front/erase from crates/bitcommands/src/commands.rt: change that, and not this.
//! Commands over numbered sets.

mod arguments;
mod calling;
mod changing;
mod comparing;
mod joining;
mod looking;
mod making;
mod printing;
mod ranging;
mod refusals;
mod replies;
mod values;
mod walking;

use crate::shim::prelude::Vec;
pub use arguments::{End, Span};
pub use changing::Change;
use changing::apply_change;
pub use comparing::Compare;
use comparing::apply_compare;
use crate::program::fixedbitset::FixedBitSet;
pub use joining::Whole;
use joining::apply_whole;
pub use looking::Look;
use looking::apply_look;
pub use making::Make;
use making::apply_make;
pub use ranging::Ranged;
use ranging::apply_ranged;
pub use refusals::Refusal;
pub use replies::Reply;
use crate::shim::alloc::{AllocError, Global};
pub use walking::Walk;
use walking::apply_walk;

/// A command over sets that are named by their numbers, from 0 on.
pub enum Command {
    Make(Make),
    Look(Look),
    Change(Change),
    Ranged(Ranged),
    Whole(Whole),
    Compare(Compare),
    Walk(Walk),
}

/// Carries out one command, and returns its reply.
///
/// The guards of the command are tested first, in the order of the table (`specs/Table.antt`): the
/// first that refuses is the reply, and then no set changes. `limit` is the greatest length that a
/// command may ask for. The reply is `Refusal::Memory` only where the table says that an allocation
/// may fail, and then no set changes either, but for [`Change::Extend`]. The set of that one keeps
/// the items before the item that stopped it: that is no position (`Refusal::Greatest`), or its
/// allocation failed.
///
/// ```text
/// let mut sets = [FixedBitSet::with_capacity(alloc, 70)?];
/// let insert = Command::Change(Change::Insert { set: 0, bit: 64 });
/// assert!(matches!(commands::apply(alloc, &mut sets, &insert, 100), Reply::Done));
/// let past = Command::Change(Change::Insert { set: 0, bit: 70 });
/// let reply = commands::apply(alloc, &mut sets, &past, 100);
/// assert!(matches!(reply, Reply::Refused(Refusal::Position)));
/// ```
#[inline(always)]
pub fn apply(alloc: Global, sets: &mut [FixedBitSet], command: &Command, limit: usize) -> Reply {
    match command {
        Command::Make(command) => reply_of(apply_make(alloc, sets, command, limit)),
        Command::Look(command) => reply_of(apply_look(alloc, sets, command, limit)),
        Command::Change(command) => reply_of(apply_change(sets, command, limit)),
        Command::Ranged(command) => reply_of(apply_ranged(sets, command, limit)),
        Command::Whole(command) => reply_of(apply_whole(alloc, sets, command, limit)),
        Command::Compare(command) => reply_of(apply_compare(sets, command, limit)),
        Command::Walk(command) => reply_of(apply_walk(alloc, sets, command, limit)),
    }
}

/// Carries out the commands in order, and returns one reply for each.
///
/// The places of all replies are reserved before the first command: where that fails, the call
/// returns `Err`, no command was carried out and no set has changed. A refused command is a reply,
/// and the commands after it go on.
///
/// ```text
/// let mut sets = [FixedBitSet::new(alloc)];
/// let list = [
///     Command::Change(Change::Insert { set: 0, bit: 3 }),
///     Command::Change(Change::Grow { set: 0, bits: 70 }),
///     Command::Look(Look::Len { set: 0 }),
/// ];
/// let replies = commands::run(alloc, &mut sets, &list, 100)?;
/// assert!(matches!(replies.first(), Some(Reply::Refused(Refusal::Position))));
/// assert!(matches!(replies.last(), Some(Reply::Number(70))));
/// ```
pub fn run(
    alloc: Global,
    sets: &mut [FixedBitSet],
    commands: &[Command],
    limit: usize,
) -> Result<Vec<Reply>, AllocError> {
    let mut replies = Vec::with_capacity(alloc, commands.len())?;
    for command in commands {
        let reply = apply(alloc, sets, command, limit);
        replies.push(reply)?;
    }
    Ok(replies)
}

#[inline(always)]
fn reply_of(outcome: Result<Reply, Refusal>) -> Reply {
    match outcome {
        Ok(reply) => reply,
        Err(refusal) => Reply::Refused(refusal),
    }
}
