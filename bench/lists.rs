//! Times the positions of a set written to a list, beside loops that write them to a list of as many places and eight more:
//! as quick as we know how to list positions, for the limits.

use crate::declared::{Lent, Walk, bits_ones, bits_ones_take, bits_ones_take_u32, bits_words};
use crate::turns::turns;
use std::hint::black_box;
use std::ptr::NonNull;
use std::time::Instant;

const BITS: usize = 1_000_000;
const TURNS: usize = 60;

/// The shares of positions that are set, in a hundred thousand, and their names.
const SHARES: [(usize, &str); 5] = [
    (90_000, "90 %"),
    (50_000, "50 %"),
    (10_000, "10 %"),
    (1_000, "1 %"),
    (100, "0.1 %"),
];

/// Writes the positions of the words to the list, and answers how many they are.
type List<P> = fn(&[usize], &mut [P]) -> usize;

/// What a place of a list holds: a position, or its low 32 bits.
trait Place: Copy + Default + PartialEq {
    fn of(position: usize) -> Self;
}

impl Place for usize {
    fn of(position: usize) -> usize {
        position
    }
}

impl Place for u32 {
    fn of(position: usize) -> u32 {
        position as u32
    }
}

/// One branch for each position.
fn one_by_one<P: Place>(words: &[usize], list: &mut [P]) -> usize {
    let mut count = 0;
    for (index, word) in words.iter().enumerate() {
        let mut left = *word;
        while left != 0 {
            list[count] = P::of(64 * index + left.trailing_zeros() as usize);
            left &= left - 1;
            count += 1;
        }
    }
    count
}

/// Eight positions at once, with no branch for each.
fn by_groups<P: Place>(words: &[usize], list: &mut [P]) -> usize {
    let mut count = 0;
    for (index, word) in words.iter().enumerate() {
        let (mut left, ones) = (*word, word.count_ones() as usize);
        for at in (0..ones).step_by(8) {
            for place in &mut list[count + at..count + at + 8] {
                *place = P::of(64 * index + left.trailing_zeros() as usize);
                left &= left.wrapping_sub(1);
            }
        }
        count += ones;
    }
    count
}

/// The positions of each byte, and with no position behind them.
const POSITIONS: [[u8; 8]; 256] = {
    let mut all = [[0; 8]; 256];
    let mut byte = 0;
    while byte < 256 {
        let (mut bit, mut count) = (0, 0);
        while bit < 8 {
            if byte >> bit & 1 == 1 {
                all[byte][count] = bit;
                count += 1;
            }
            bit += 1;
        }
        byte += 1;
    }
    all
};

/// Writes the sums of a number and each of these eight.
#[cfg(target_feature = "avx2")]
fn place_eight(places: &mut [usize], base: usize, eight: &[u8; 8]) {
    use std::arch::x86_64::*;
    let [a, b, c, d, rest @ ..] = *eight;
    assert!(places.len() == 8);
    for (at, four) in [(0, [a, b, c, d]), (4, rest)] {
        unsafe {
            let wide = _mm256_cvtepu8_epi64(_mm_cvtsi32_si128(i32::from_le_bytes(four)));
            let sums = _mm256_add_epi64(wide, _mm256_set1_epi64x(base as i64));
            _mm256_storeu_si256(places.as_mut_ptr().add(at).cast(), sums);
        }
    }
}

#[cfg(not(target_feature = "avx2"))]
fn place_eight(places: &mut [usize], base: usize, eight: &[u8; 8]) {
    for (place, number) in places.iter_mut().zip(eight) {
        *place = base + *number as usize;
    }
}

/// Eight places for each byte, from a table.
fn by_table(words: &[usize], list: &mut [usize]) -> usize {
    let mut count = 0;
    for (index, word) in words.iter().enumerate().filter(|(_, word)| **word != 0) {
        for (at, byte) in word.to_le_bytes().into_iter().enumerate() {
            let base = 64 * index + 8 * at;
            place_eight(&mut list[count..count + 8], base, &POSITIONS[byte as usize]);
            count += byte.count_ones() as usize;
        }
    }
    count
}

/// A walk over the set of these words.
fn walk_over(words: &[usize]) -> Walk {
    let set = Lent {
        words: NonNull::from(words).cast(),
        count: words.len(),
        length: BITS,
    };
    let mut walk = Walk::NONE;
    unsafe { bits_ones(&mut walk, &set) };
    walk
}

/// The call: all that such a walk gives.
fn taken(words: &[usize], list: &mut [usize]) -> usize {
    let (places, room) = (NonNull::from(&mut *list).cast(), list.len());
    unsafe { bits_ones_take(&mut walk_over(words), places, room) }
}

/// The same in places of 32 bits.
fn taken_u32(words: &[usize], list: &mut [u32]) -> usize {
    let (places, room) = (NonNull::from(&mut *list).cast(), list.len());
    unsafe { bits_ones_take_u32(&mut walk_over(words), places, room) }
}

/// The words of a set of which about so many of a hundred thousand positions are set, in no order.
fn scattered(share: usize) -> Vec<usize> {
    let mut words = vec![0; unsafe { bits_words(BITS) }];
    let mut state = 88_172_645_463_325_252_usize;
    for position in 0..BITS {
        state ^= state << 13;
        state ^= state >> 7;
        state ^= state << 17;
        words[position / 64] |= usize::from(state % 100_000 < share) << (position % 64);
    }
    words
}

fn nanoseconds(run: impl FnOnce() -> usize) -> f64 {
    let start = Instant::now();
    black_box(run());
    start.elapsed().as_nanos() as f64
}

/// Prints the rows: the least nanoseconds of the loops, and of the call.
pub fn print() {
    for (share, name) in SHARES {
        let (words, set) = (scattered(share), format!("{name} set"));
        let wide: [List<usize>; 3] = [one_by_one, by_groups, by_table];
        print_row(&format!("ones_take, {set}"), &words, &wide, taken);
        let narrow: [List<u32>; 2] = [one_by_one, by_groups];
        print_row(&format!("ones_take_u32, {set}"), &words, &narrow, taken_u32);
    }
}

fn print_row<P: Place>(name: &str, words: &[usize], loops: &[List<P>], call: List<P>) {
    let mut list = vec![P::default(); BITS + 8];
    let count = one_by_one(words, &mut list);
    let wanted = list[..count].to_vec();
    for run in loops.iter().chain([&call]) {
        list.fill(P::default());
        assert!(run(words, &mut list) == count && list[..count] == wanted);
    }
    let [mut limit, mut ours] = [f64::INFINITY; 2];
    for () in turns(TURNS) {
        for run in loops {
            limit = limit.min(nanoseconds(|| run(black_box(words), &mut list)));
        }
        ours = ours.min(nanoseconds(|| call(black_box(words), &mut list)));
    }
    println!("\"{name}\",\"lists positions\",{limit:.1},{ours:.1}");
}
