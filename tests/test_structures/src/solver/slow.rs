//! The least solution of a small problem, by trying all. A set is a number whose bits are its facts.

/// Greatest numbers of nodes and of facts.
pub const NODES: usize = 3;

pub const FACTS: usize = 3;

/// For each pair of nodes, from the first to the second, whether there is an edge, and for each node two sets.
#[derive(Clone, Copy, Debug)]
pub struct Small {
    pub edges: [[bool; NODES]; NODES],
    pub gens: [u8; NODES],
    pub kills: [u8; NODES],
}

/// A set In and a set Out for each node.
#[derive(Clone, Copy, Debug)]
pub struct Sets {
    pub ins: [u8; NODES],
    pub outs: [u8; NODES],
}

/// The intersection of all solutions, where it is itself one.
pub fn least(problem: &Small) -> Option<Sets> {
    let outs = [
        outs_of(problem, 0),
        outs_of(problem, 1),
        outs_of(problem, 2),
    ];
    let mut all = Sets {
        ins: [7; NODES],
        outs: [7; NODES],
    };
    for first in 0..8 {
        for second in 0..8 {
            for third in 0..8 {
                let sets = Sets {
                    ins: [first as u8, second as u8, third as u8],
                    outs: [outs[0][first], outs[1][second], outs[2][third]],
                };
                if is_in(problem, &sets, 0) && are_ins(problem, &sets) {
                    all = common(&all, &sets);
                }
            }
        }
    }
    (are_ins(problem, &all) && are_outs(&outs, &all)).then_some(all)
}

// What the second equation says is Out of a node, for each set In.
fn outs_of(problem: &Small, node: usize) -> [u8; 8] {
    let mut outs = [0; 8];
    for number in 0..8 {
        outs[number] = problem.gens[node] | (number as u8 & !problem.kills[node]);
    }
    outs
}

// Whether Out is what the second equation says.
fn are_outs(outs: &[[u8; 8]; NODES], sets: &Sets) -> bool {
    for node in 0..NODES {
        if sets.outs[node] != outs[node][usize::from(sets.ins[node])] {
            return false;
        }
    }
    true
}

// Whether In is what the first equation says.
fn are_ins(problem: &Small, sets: &Sets) -> bool {
    is_in(problem, sets, 0) && is_in(problem, sets, 1) && is_in(problem, sets, 2)
}

// Whether In of this node is what comes to it.
fn is_in(problem: &Small, sets: &Sets, node: usize) -> bool {
    let mut come = 0;
    if problem.edges[0][node] {
        come |= sets.outs[0];
    }
    if problem.edges[1][node] {
        come |= sets.outs[1];
    }
    if problem.edges[2][node] {
        come |= sets.outs[2];
    }
    sets.ins[node] == come
}

// What both have.
fn common(sets: &Sets, others: &Sets) -> Sets {
    let mut both = *sets;
    for node in 0..NODES {
        both.ins[node] &= others.ins[node];
        both.outs[node] &= others.outs[node];
    }
    both
}
