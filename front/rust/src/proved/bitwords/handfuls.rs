// Made by front/erase from crates/bitwords/src/handfuls.rt: change that, and not this.
//! Positions in batches: words are given whole, and their positions are written to a slice in
//! groups of eight.
//!
//! A group takes no branch for a position. So it writes eight numbers also where a word has fewer
//! positions left, and the places after those of the word hold anything until the positions of the
//! next words are written there.
//!
//! From the back on, the bits of a word are reversed first. So both ends share the groups.

use crate::proved::bitwords::cursors::{Held, Seen};
use crate::proved::bitlanes::word::{BITS, Block};

// How many numbers are written at once.
const GROUP: usize = 8;

// How many words are looked at after the one that is given, and how many positions they have at
// least.
const AHEAD: usize = 4;

const MANY: usize = 8;

// What position a bit is given as, where the bits are taken from the lowest on. Bit 0 of the word
// that has the positions has position `base`.
trait Order {
    fn place(base: usize, bit: usize) -> usize;
}

// The bits of the word itself, so that the positions ascend.
#[derive(Clone)]
struct Ascending;

impl Order for Ascending {
    #[inline(always)]
    fn place(base: usize, bit: usize) -> usize {
        base.wrapping_add(bit)
    }
}

// The bits of the word in reverse, so that the positions descend.
#[derive(Clone)]
struct Descending;

impl Order for Descending {
    #[inline(always)]
    fn place(base: usize, bit: usize) -> usize {
        (base + (BITS - 1)).wrapping_sub(bit)
    }
}

/// Writes the positions of the bits set in the word to the front of the slice, in ascending order.
/// Bit 0 has position `base`. It returns how many they are.
///
/// It writes a multiple of eight places, up to seven more than there are positions. Those after the
/// positions hold anything then, and the slice has to have them.
///
/// ```text
/// let mut places = [0; 8];
/// assert_eq!(handfuls::give_word(9, 640, &mut places), 2);
/// assert_eq!(places[1], 643);
/// ```
#[inline(always)]
pub fn give_word(word: Block, base: usize, places: &mut [usize]) -> usize {
    give_in_order::<Ascending>(word, base, places)
}

/// Writes the positions of the bits set in the word to the front of the slice, in descending order.
/// Bit 0 has position `base`. It returns how many they are.
///
/// It reverses the bits of the word first, in some twenty instructions, and then takes the time of
/// `give_word`. As there it writes a multiple of eight places, and those after the positions hold
/// anything then.
///
/// ```text
/// let mut places = [0; 8];
/// assert_eq!(handfuls::give_word_back(9, 640, &mut places), 2);
/// assert_eq!(places[0], 643);
/// assert_eq!(places[1], 640);
/// ```
#[inline(always)]
pub fn give_word_back(word: Block, base: usize, places: &mut [usize]) -> usize {
    give_in_order::<Descending>(reversed(word), base, places)
}

// Writes what the positions of the bits set are given as, from the lowest bit on, in groups of
// eight, and returns how many they are.
#[inline(always)]
fn give_in_order<O: Order>(word: Block, base: usize, places: &mut [usize]) -> usize {
    let count = word.count_ones() as usize;
    let mut left = word;
    let mut at = 0;
    while at < count {
        left = give_eight::<O>(left, base, &mut places[at..at + GROUP]);
        at += GROUP;
    }
    count
}

/// Writes the positions of first words of those left to the front of the slice, and takes these
/// words. It returns how many positions they are.
///
/// A word is given as long as there is room for its positions and seven more, and the four words
/// after it are not the last one and have eight positions or more. So where positions are few no
/// word is given. Places that the positions left are too few to reach stay; up to seven after those
/// that were written may hold anything.
///
/// ```text
/// let cursor = Cursor::over(Plain { words: [9, 255, 0, 0, 0, 1].iter() });
/// let mut held = cursor.into_held();
/// let mut places = [7; 10];
/// assert_eq!(handfuls::give_words(&mut held, &mut places), 2);
/// assert_eq!(places[1], 3);
/// assert_eq!(held.front, 255);
/// ```
#[inline(always)]
pub fn give_words<M: Seen>(held: &mut Held<M>, places: &mut [usize]) -> usize {
    let mut count = 0;
    while are_many_ahead(&held.middle) {
        let room = places.len() - count;
        if room < held.front.count_ones() as usize + (GROUP - 1) {
            break;
        }
        count += give_word(held.front, held.front_at, &mut places[count..]);
        held.front = 0;
        let Some(word) = held.middle.take_first() else {
            break;
        };
        held.front = word;
        held.front_at += BITS;
    }
    count
}

/// Writes the positions of last words of those left to the front of the slice, in descending order,
/// and takes these words. It returns how many positions they are.
///
/// As in `give_words` a word is given as long as there is room for its positions and seven more,
/// and the four words before it are not the first one and have eight positions or more. Each word
/// given takes the time of `give_word_back`.
///
/// ```text
/// let cursor = Cursor::over(Plain { words: [1, 0, 0, 0, 255, 9].iter() });
/// let mut held = cursor.into_held();
/// let mut places = [7; 10];
/// assert_eq!(handfuls::give_words_back(&mut held, &mut places), 2);
/// assert_eq!(places[0], 323);
/// assert_eq!(held.back, 255);
/// ```
#[inline(always)]
pub fn give_words_back<M: Seen>(held: &mut Held<M>, places: &mut [usize]) -> usize {
    let mut count = 0;
    while are_many_behind(&held.middle) {
        let room = places.len() - count;
        if room < held.back.count_ones() as usize + (GROUP - 1) {
            break;
        }
        count += give_word_back(held.back, held.back_at, &mut places[count..]);
        held.back = 0;
        let Some(word) = held.middle.take_last() else {
            break;
        };
        held.back = word;
        held.back_at -= BITS;
    }
    count
}

// Whether the next words have many positions, and others follow them.
#[inline(always)]
fn are_many_ahead<M: Seen>(middle: &M) -> bool {
    middle.left() >= AHEAD && ones_of_four(middle, 0) >= MANY
}

// Whether the last words have many positions, and others stand before them.
#[inline(always)]
fn are_many_behind<M: Seen>(middle: &M) -> bool {
    let left = middle.left();
    left >= AHEAD && ones_of_four(middle, left - AHEAD) >= MANY
}

// How many positions the word at this place and the three after it have.
#[inline(always)]
fn ones_of_four<M: Seen>(middle: &M, first: usize) -> usize {
    ones_at(middle, first)
        + ones_at(middle, first + 1)
        + ones_at(middle, first + 2)
        + ones_at(middle, first + 3)
}

// How many positions the word at this place has.
#[inline(always)]
fn ones_at<M: Seen>(middle: &M, index: usize) -> usize {
    match middle.peek(index) {
        Some(word) => ones_of(word),
        None => 0,
    }
}

// How many positions a word has.
#[inline(always)]
fn ones_of(word: Block) -> usize {
    word.count_ones() as usize
}

// Writes what the first eight positions are given as, or all of them with any numbers after, and
// returns the word without their bits.
#[inline(always)]
fn give_eight<O: Order>(word: Block, base: usize, eight: &mut [usize]) -> Block {
    let mut left = word;
    for index in 0..GROUP {
        eight[index] = O::place(base, left.trailing_zeros() as usize);
        left &= left.wrapping_sub(1);
    }
    left
}

// The word with its bits in reverse.
#[inline(always)]
fn reversed(word: Block) -> Block {
    let ones = swapped(word, 1, Block::MAX / 3);
    let twos = swapped(ones, 2, Block::MAX / 5);
    let fours = swapped(twos, 4, Block::MAX / 17);
    let eights = swapped(fours, 8, Block::MAX / 257);
    let sixteens = swapped(eights, 16, Block::MAX / 65_537);
    swapped(sixteens, 32, Block::MAX / 4_294_967_297)
}

// The word where each two bits that are `by` apart change places: one that is set in `low`, and
// the one above it.
#[inline(always)]
fn swapped(word: Block, by: usize, low: Block) -> Block {
    ((word >> by) & low) | ((word & low) << by)
}
