//! Each kernel of `bitlanes` on slices of 0 to 20 words beside a plain loop, and the steps that it takes.

use bitlanes::ops::{And, AndNot, Or, WordOp, Xor};
use bitlanes::{Block, Steps, lanes};
use std::process::Abort;

const LEFT: [Block; 20] = [
    1, 3, 0, 9, 5, 0, 255, 12, 7, 0, 0, 0, 0, 6, 64, 9, 0, 2, 4, 128,
];

const RIGHT: [Block; 20] = [
    2, 1, 8, 9, 7, 4, 170, 3, 8, 1, 2, 3, 4, 0, 64, 6, 5, 0, 12, 1,
];

// Words that are 0 but for one.
fn single(at: usize) -> [Block; 20] {
    let mut words = [0; 20];
    words[at] = 1 << 63;
    words
}

fn count<O: WordOp>(a: &[Block], b: &[Block]) -> usize {
    lanes::count::<O>(a, b, &mut Steps::new())
}

fn count_one(a: &[Block]) -> usize {
    lanes::count_one(a, &mut Steps::new())
}

// An operation on words by its name.
#[derive(Clone, Copy, Debug)]
enum Operation {
    Or,
    And,
    AndNot,
    Xor,
}

impl Operation {
    fn joined(self, left: Block, right: Block) -> Block {
        match self {
            Operation::Or => left | right,
            Operation::And => left & right,
            Operation::AndNot => left & !right,
            Operation::Xor => left ^ right,
        }
    }

    fn apply(self, dst: &mut [Block], src: &[Block]) {
        let mut steps = Steps::new();
        match self {
            Operation::Or => lanes::apply::<Or>(dst, src, &mut steps),
            Operation::And => lanes::apply::<And>(dst, src, &mut steps),
            Operation::AndNot => lanes::apply::<AndNot>(dst, src, &mut steps),
            Operation::Xor => lanes::apply::<Xor>(dst, src, &mut steps),
        }
    }

    fn count(self, a: &[Block], b: &[Block]) -> usize {
        match self {
            Operation::Or => count::<Or>(a, b),
            Operation::And => count::<And>(a, b),
            Operation::AndNot => count::<AndNot>(a, b),
            Operation::Xor => count::<Xor>(a, b),
        }
    }

    fn none(self, a: &[Block], b: &[Block]) -> bool {
        let mut steps = Steps::new();
        match self {
            Operation::Or => lanes::none::<Or>(a, b, &mut steps),
            Operation::And => lanes::none::<And>(a, b, &mut steps),
            Operation::AndNot => lanes::none::<AndNot>(a, b, &mut steps),
            Operation::Xor => lanes::none::<Xor>(a, b, &mut steps),
        }
    }

    fn none_masked(self, mask: Block, words: &[Block]) -> bool {
        let mut steps = Steps::new();
        match self {
            Operation::Or => lanes::none_masked::<Or>(mask, words, &mut steps),
            Operation::And => lanes::none_masked::<And>(mask, words, &mut steps),
            Operation::AndNot => lanes::none_masked::<AndNot>(mask, words, &mut steps),
            Operation::Xor => lanes::none_masked::<Xor>(mask, words, &mut steps),
        }
    }
}

// What the kernels make of slices: the words that were changed, the ones, and whether there are none.
#[derive(PartialEq, Debug, Drop)]
struct Outcome {
    words: [Block; 20],
    ones: usize,
    is_none: bool,
}

// The outcome of a plain loop over the first words of two slices.
fn plain(operation: Operation, left: &[Block; 20], right: &[Block; 20], common: usize) -> Outcome {
    let mut words = *left;
    let mut ones = 0usize;
    for at in 0..common {
        words[at] = operation.joined(left[at], right[at]);
        ones = ones.wrapping_add(words[at].count_ones() as usize);
    }
    Outcome {
        words,
        ones,
        is_none: ones == 0,
    }
}

// The outcome of the kernels of two slices, of `m` words and of `k`.
fn by_lanes(
    operation: Operation,
    left: &[Block; 20],
    right: &[Block; 20],
    m: usize,
    k: usize,
) -> Outcome {
    let mut words = *left;
    operation.apply(&mut words[..m], &right[..k]);
    let ones = operation.count(&left[..m], &right[..k]);
    let is_none = operation.none(&left[..m], &right[..k]);
    Outcome {
        words,
        ones,
        is_none,
    }
}

// The kernels of two slices at each pair of lengths.
fn each_pair(rt: &impl Abort, operation: Operation, left: &[Block; 20], right: &[Block; 20]) {
    for m in 0..21 {
        for k in 0..21 {
            let found = by_lanes(operation, left, right, m, k);
            let wanted = plain(operation, left, right, m.min(k));
            assert_eq!(rt; found, wanted, "{operation:?}: {m} and {k} words");
        }
    }
}

fn each_operation(rt: &impl Abort, left: &[Block; 20], right: &[Block; 20]) {
    for operation in [
        Operation::Or,
        Operation::And,
        Operation::AndNot,
        Operation::Xor,
    ] {
        each_pair(rt, operation, left, right);
    }
}

// The outcome of a plain loop over the first `m` words, which clears them.
fn plain_one(words: &[Block; 20], m: usize) -> Outcome {
    let mut cleared = *words;
    let mut ones = 0usize;
    for at in 0..m {
        cleared[at] = 0;
        ones = ones.wrapping_add(words[at].count_ones() as usize);
    }
    Outcome {
        words: cleared,
        ones,
        is_none: ones == 0,
    }
}

// The outcome of the kernels of one slice.
fn by_lanes_one(words: &[Block; 20], m: usize) -> Outcome {
    let mut cleared = *words;
    lanes::zero(&mut cleared[..m], &mut Steps::new());
    let ones = count_one(&words[..m]);
    let is_none = lanes::none_one(&words[..m], &mut Steps::new());
    Outcome {
        words: cleared,
        ones,
        is_none,
    }
}

// The kernels of one slice at each length.
fn each_length(rt: &impl Abort, words: &[Block; 20]) {
    for m in 0..21 {
        assert_eq!(rt; by_lanes_one(words, m), plain_one(words, m), "{m} words");
    }
}

#[test]
fn two_slices(rt: HostRuntime) {
    each_operation(&rt, &LEFT, &RIGHT);
    for at in 0..20 {
        each_operation(&rt, &single(at), &[u64::MAX; 20]);
        each_operation(&rt, &single(at), &single(19 - at));
    }
}

#[test]
fn one_slice(rt: HostRuntime) {
    each_length(&rt, &LEFT);
    for at in 0..20 {
        each_length(&rt, &single(at));
    }
}

// The words joined with the mask 4 have no bit up to `most` words, and one from there on.
fn masked_up_to(rt: &impl Abort, operation: Operation, words: &[Block; 20], most: usize) {
    for m in 0..21 {
        let is_none = operation.none_masked(4, &words[..m]);
        assert_eq!(rt; is_none, m <= most, "{operation:?}: {m} words");
    }
}

// The mask makes no bit past the words: `LEFT` has bit 2 from its word 4 on.
#[test]
fn masked_words(rt: HostRuntime) {
    masked_up_to(&rt, Operation::And, &LEFT, 4);
    masked_up_to(&rt, Operation::Or, &[0; 20], 0);
    masked_up_to(&rt, Operation::AndNot, &[4; 20], 20);
}

// 24 words of ones, the first `m` of which are those of `first`.
fn ones_behind(first: &[Block; 20], m: usize) -> [Block; 24] {
    let mut words = [u64::MAX; 24];
    for at in 0..m {
        words[at] = first[at];
    }
    words
}

// The words of the right slice, each bit turned.
fn turned() -> [Block; 20] {
    let mut words = RIGHT;
    for at in 0..20 {
        words[at] = !RIGHT[at];
    }
    words
}

fn joined_before_ones(m: usize) -> [Block; 24] {
    let mut words = [u64::MAX; 24];
    lanes::apply::<Xor>(&mut words[..m], &RIGHT, &mut Steps::new());
    words
}

fn cleared_before_ones(m: usize) -> [Block; 24] {
    let mut words = [u64::MAX; 24];
    lanes::zero(&mut words[..m], &mut Steps::new());
    words
}

// A kernel that writes works on the first `m` words alone: those behind them stay.
#[test]
fn words_past_the_slice_stay(rt: HostRuntime) {
    let turned = turned();
    for m in 0..21 {
        assert_eq!(rt; joined_before_ones(m), ones_behind(&turned, m), "{m} words");
        assert_eq!(rt;
            cleared_before_ones(m),
            ones_behind(&[0; 20], m),
            "{m} words"
        );
    }
}

#[test]
fn steps_take_no_bytes(rt: HostRuntime) {
    assert_eq!(rt; size_of::<Steps>(), 0);
}
