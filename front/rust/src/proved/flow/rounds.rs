// Made by front/erase from crates/flow/src/rounds.rt: change that, and not this.
//! Rounds over all edges, until nothing goes along one. Nothing here allocates.

use crate::proved::fixedbitset::FixedBitSet;
use crate::shim::Steps;
use crate::shim::alloc::{AllocError, Global};
use core::mem;

// The nodes that may have something to pass on in this round, and in the next one.
pub(crate) struct Room {
    due: FixedBitSet,
    next: FixedBitSet,
}

impl Room {
    // Room before the first round, in which each node may have something to pass on.
    pub(crate) fn new(alloc: Global, nodes: usize) -> Result<Room, AllocError> {
        let mut due = FixedBitSet::with_capacity(alloc, nodes)?;
        due.insert_range(..);
        let next = FixedBitSet::with_capacity(alloc, nodes)?;
        Ok(Room { due, next })
    }
}

// Goes in rounds until nothing goes along an edge.
pub(crate) fn settle(
    edges: &[(usize, usize)],
    kills: &[FixedBitSet],
    ins: &mut [FixedBitSet],
    outs: &mut [FixedBitSet],
    room: &mut Room,
    rounds: &mut Steps,
) {
    'turns: loop {
        rounds.tick();
        if !turn(edges, kills, ins, outs, room) {
            return;
        }
        mem::swap(&mut room.due, &mut room.next);
        room.next.clear();
    }
}

// One turn over all edges: along each of them goes what its first node has in `outs` and its second
// node lacks in `ins`. Returns whether anything went.
fn turn(
    edges: &[(usize, usize)],
    kills: &[FixedBitSet],
    ins: &mut [FixedBitSet],
    outs: &mut [FixedBitSet],
    room: &mut Room,
) -> bool {
    let mut changed = false;
    for (from, to) in edges {
        if pass(&room.due, *from, *to, kills, ins, outs) {
            room.due.insert(*to);
            room.next.insert(*to);
            changed = true;
        }
    }
    changed
}

// Where node `from` is due, lets what its out set has go along an edge to node `to`: all of it to
// the in set, and what is not killed to the out set. Returns whether the in set lacked some of it;
// else nothing is changed.
fn pass(
    due: &FixedBitSet,
    from: usize,
    to: usize,
    kills: &[FixedBitSet],
    ins: &mut [FixedBitSet],
    outs: &mut [FixedBitSet],
) -> bool {
    if !due.contains(from) {
        return false;
    }
    if !add(&mut ins[to], &outs[from]) {
        return false;
    }
    add_spared(&mut outs[to], &ins[to], &kills[to]);
    true
}

// Adds the positions of another set of the same length, and returns whether one came in. That does
// not allocate, so it cannot fail.
fn add(set: &mut FixedBitSet, other: &FixedBitSet) -> bool {
    set.union_with_change(other).unwrap_or(false)
}

// Adds the positions of another set of the same length that `kills` lacks. That does not allocate,
// so it cannot fail.
fn add_spared(set: &mut FixedBitSet, other: &FixedBitSet, kills: &FixedBitSet) {
    let _ = set.union_with_difference(other, kills);
}
