//! Words that are given whole to a list of places, beside a plain loop over their bits, at every number of places.

use bitlanes::Block;
use bitwords::cursors::{Cursor, Inverted, Plain};
use bitwords::handfuls::{give_word, give_words};

const MARK: usize = usize::MAX;

// Words with many positions, then some with few, and then many again.
const WORDS: [Block; 20] = [
    Block::MAX,
    255,
    0,
    0x0123_4567_89ab_cdef,
    1,
    0xf0f0_f0f0_f0f0_f0f0,
    7,
    3,
    0,
    0,
    1 << 63,
    0,
    0,
    2,
    Block::MAX,
    85,
    1023,
    Block::MAX - 1,
    5,
    511,
];

// The positions of the words, and how many they are.
fn slow(words: &[Block]) -> ([usize; 1280], usize) {
    let mut places = [MARK; 1280];
    let mut count = 0;
    for position in 0..64 * words.len() {
        if words[position / 64] & (1 << (position % 64)) != 0 {
            places[count] = position;
            count += 1;
        }
    }
    (places, count)
}

#[test]
fn a_word_gives_its_positions(rt: HostRuntime) {
    for word in WORDS {
        let (wanted, all) = slow(&[word]);
        let mut places = [MARK; 72];
        let count = give_word(word, 640, &mut places);
        assert_eq!(rt; count, all, "{word}");
        for index in 0..72 {
            if index < count {
                assert_eq!(rt; places[index], 640 + wanted[index], "{word} at {index}");
            } else if index >= 8 * count.div_ceil(8) {
                assert_eq!(rt; places[index], MARK, "{word} at {index}");
            }
        }
    }
}

// At each number of places the first positions are given, the others are left, and places that no position reaches stay.
#[test]
fn words_give_their_first_positions(rt: HostRuntime) {
    for begin in 0..WORDS.len() {
        let words = &WORDS[begin..];
        let (wanted, all) = slow(words);
        for room in 0..600 {
            let mut places = [MARK; 600];
            let mut held = Cursor::over(Plain {
                words: words.iter(),
            })
            .into_held();
            let count = give_words(&mut held, &mut places[..room]);
            assert!(rt; count <= room, "{room} places from word {begin}");
            for index in 0..600 {
                if index < count {
                    assert_eq!(rt;
                        places[index],
                        wanted[index],
                        "{index} of {room} from {begin}"
                    );
                } else if index >= all || index >= room {
                    assert_eq!(rt; places[index], MARK, "{index} of {room} from {begin}");
                }
            }
            let mut rest = Cursor::of_held(held);
            for index in count..all {
                assert!(rt;
                    matches!(rest.next(), Some(position) if position == wanted[index]),
                    "{room} places from {begin}"
                );
            }
            assert!(rt; rest.next().is_none(), "{room} places from {begin}");
        }
    }
}

// Where words have many positions they are given, and where they have few none is.
#[test]
fn words_of_many_positions_are_given(rt: HostRuntime) {
    let mut places = [MARK; 600];
    let mut held = Cursor::over(Plain {
        words: WORDS.iter(),
    })
    .into_held();
    assert_eq!(rt; give_words(&mut held, &mut places), 64 + 8 + 32 + 1);
    let plain = Plain {
        words: [0; 9].iter(),
    };
    let mut held = Cursor::over(Inverted { plain }).into_held();
    assert_eq!(rt; give_words(&mut held, &mut places), 256);
    assert_eq!(rt; places[255], 255);
    let mut held = Cursor::over(Plain {
        words: [1; 20].iter(),
    })
    .into_held();
    assert_eq!(rt; give_words(&mut held, &mut places), 0);
}
