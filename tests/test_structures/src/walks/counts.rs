//! How many positions a cursor has left, beside the positions that it then gives.

use bitlanes::ops::{And, AndNot, Or, WordOp, Xor};
use bitlanes::{Block, Steps};
use bitwords::cursors::{Beside, Cursor, Inverted, Middle, Plain};
use std::alloc::AllocError;
use std::process::Abort;

const WORDS: [Block; 11] = [
    9,
    0,
    Block::MAX,
    1 << 63,
    0,
    255,
    3,
    0x0123_4567_89ab_cdef,
    0,
    0xf0f0,
    6,
];

const OTHERS: [Block; 11] = [3, 7, 255, 0, 1, Block::MAX, 5, 0, 1 << 62, 0xff00, 2];

// The cursor after so many calls from the front, and as many from the back.
fn after<M: Middle + Drop>(cursor: Cursor<M>, calls: usize) -> Cursor<M> {
    let mut cursor = cursor;
    for _ in 0..calls {
        let _ = cursor.next();
        let _ = cursor.next_back();
    }
    cursor
}

// Two cursors over the same words: what the one counts, the other gives.
fn counts_like<M: Middle + Drop>(rt: &impl Abort, counted: Cursor<M>, given: Cursor<M>) {
    let left = counted.count_left(&mut Steps::new());
    assert_eq!(rt; left, given.count());
}

fn beside<O: WordOp>(rt: &impl Abort, words: &[Block], others: &[Block], calls: usize) {
    counts_like(
        rt,
        after(Cursor::over(Beside::<O>::of(words, others)), calls),
        after(Cursor::over(Beside::<O>::of(words, others)), calls),
    );
}

fn plain(words: &[Block], calls: usize) -> Cursor<Plain<'_>> {
    after(
        Cursor::over(Plain {
            words: words.iter(),
        }),
        calls,
    )
}

fn inverted(words: &[Block], calls: usize) -> Cursor<Inverted<'_>> {
    let plain = Plain {
        words: words.iter(),
    };
    after(Cursor::over(Inverted { plain }), calls)
}

#[test]
fn cursors_count_what_they_give(rt: HostRuntime) {
    for m in 0..WORDS.len() + 1 {
        let words = &WORDS[..m];
        for calls in [0, 1, 3, 40] {
            counts_like(&rt, plain(words, calls), plain(words, calls));
            counts_like(&rt, inverted(words, calls), inverted(words, calls));
            for k in 0..OTHERS.len() + 1 {
                beside::<And>(&rt, words, &OTHERS[..k], calls);
                beside::<AndNot>(&rt, words, &OTHERS[..k], calls);
                beside::<Or>(&rt, words, &OTHERS[..k], calls);
                beside::<Xor>(&rt, words, &OTHERS[..k], calls);
            }
        }
    }
}

#[test]
fn owned_words_are_counted(rt: HostRuntime) -> Result<(), AllocError> {
    for m in 0..WORDS.len() + 1 {
        for calls in [0, 1, 40] {
            let words = WORDS[..m].to_vec(rt.alloc())?;
            let owned = after(Cursor::over(words.into_iter()), calls);
            let left = owned.count_left(&mut Steps::new());
            assert_eq!(rt;
                left,
                plain(&WORDS[..m], calls).count(),
                "{m} words, {calls} calls"
            );
        }
    }
    Ok(())
}
