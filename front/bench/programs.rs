//! Five programs as users write them, for the sets of the module above. Where upstream lacks a call, its side has what its users
//! write.
use super::{Set, beyond};
use crate::Row;
use std::collections::HashMap;
use std::hint::black_box;

pub fn programs(bits: usize) -> Vec<Row> {
    vec![
        search(bits),
        liveness(bits),
        keys(),
        slots(bits),
        access(bits),
    ]
}

fn program(name: &'static str, items: usize, mut run: impl FnMut() -> usize + 'static) -> Row {
    Row::new(name, items, move |rounds| {
        for _ in 0..rounds {
            black_box(run());
        }
    })
}

/// The nodes of a square grid that a search comes to, by rows of a sparse matrix: an item is an edge.
fn search(bits: usize) -> Row {
    let side = bits.isqrt();
    let (mut starts, mut ends) = (vec![0], vec![]);
    for node in 0..side * side {
        let (row, column) = (node / side, node % side);
        let near = [
            (row > 0).then(|| node - side),
            (column > 0).then(|| node - 1),
            (column + 1 < side).then(|| node + 1),
            (row + 1 < side).then(|| node + side),
        ];
        ends.extend(near.into_iter().flatten());
        starts.push(ends.len());
    }
    program("program, search of a grid", ends.len(), move || {
        let (mut visited, mut left) = (Set::with_capacity(side * side), vec![0]);
        visited.insert(0);
        while let Some(node) = left.pop() {
            for &next in &ends[starts[node]..starts[node + 1]] {
                if !visited.put(next) {
                    left.push(next);
                }
            }
        }
        visited.count_ones(..)
    })
}

/// The variables that are live before each of 64 blocks, four of which make a loop: an item is a block.
fn liveness(bits: usize) -> Row {
    const BLOCKS: usize = 64;
    let some = |of: usize| -> Vec<Set> {
        let set = |block| {
            let mut set = Set::with_capacity(bits);
            set.extend((0..4).map(|it| (block * 37 + it * of * 11) % bits));
            set
        };
        (0..BLOCKS).map(set).collect()
    };
    let (uses, defines) = (some(3), some(5));
    program("program, live variables", BLOCKS, move || {
        let mut before = uses.clone();
        let mut after = vec![Set::with_capacity(bits); BLOCKS];
        let mut is_changed = true;
        while is_changed {
            is_changed = false;
            for block in (0..BLOCKS).rev() {
                let back = (block % 4 == 3).then(|| block - 3);
                for next in (block + 1..BLOCKS).take(1).chain(back) {
                    if beyond::union_with_change(&mut after[block], &before[next]) {
                        let new = &mut before[block];
                        is_changed |=
                            beyond::union_with_difference(new, &after[block], &defines[block]);
                    }
                }
            }
        }
        before.iter().map(|set| set.count_ones(..)).sum()
    })
}

/// The subset construction of an automaton with 60 states, each set of states a key of a map: an item is a set.
fn keys() -> Row {
    const STATES: usize = 60;
    const FROM_END: usize = 8;
    program("program, sets as keys", 1 << FROM_END, || {
        let mut start = beyond::key(STATES);
        start.insert(0);
        let mut numbers = HashMap::from([(start.clone(), 0)]);
        let mut left = vec![start];
        while let Some(set) = left.pop() {
            for letter in [0, 1] {
                let mut to = beyond::key(STATES);
                for state in set.ones() {
                    if state == 0 {
                        to.insert(0);
                    }
                    if (state > 0 || letter == 1) && state < FROM_END {
                        to.insert(state + 1);
                    }
                }
                let number = numbers.len();
                if !numbers.contains_key(&to) {
                    numbers.insert(to.clone(), number);
                    left.push(to);
                }
            }
        }
        numbers.len()
    })
}

/// An allocator of 64 times as many slots, three quarters of them taken: an item is a slot that is given back and the least one
/// that is taken.
fn slots(bits: usize) -> Row {
    const TURNS: usize = 256;
    let taken = 48 * bits;
    let mut slots = beyond::Slots::new(64 * bits);
    (0..taken).for_each(|slot| assert_eq!(slots.take(), Some(slot)));
    let mut random = 88_172_645_463_325_252_usize;
    program("program, 64 n slots", TURNS, move || {
        let mut sum = 0;
        for _ in 0..TURNS {
            random ^= random << 13;
            random ^= random >> 7;
            random ^= random << 17;
            slots.give_back(random % taken);
            sum += slots.take().unwrap_or(0);
        }
        sum
    })
}

/// Whether a role has all rights that are asked for, and the first that it lacks: an item is a question.
fn access(bits: usize) -> Row {
    const ROLES: usize = 16;
    const QUESTIONS: usize = 64;
    let rights = |of: usize, many: usize| {
        let mut set = Set::with_capacity(bits);
        set.extend((0..many).map(|it| (it * 7 + it * it * of) % bits));
        set
    };
    let roles: Vec<Set> = (0..ROLES).map(|role| rights(role, bits / 2)).collect();
    let asked: Vec<Set> = (0..QUESTIONS)
        .map(|question| rights(question % ROLES, 5))
        .collect();
    program("program, access checks", QUESTIONS, move || {
        let mut allowed = 0;
        for (question, asked) in asked.iter().enumerate() {
            let role = &roles[question * 5 % ROLES];
            if asked.is_subset(role) && role.contains(question % bits) {
                allowed += 1;
            } else {
                allowed += beyond::first_lacking(role, asked).unwrap_or(0) % 2;
            }
        }
        allowed
    })
}
