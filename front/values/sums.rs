//! Functions whose values Rattle and Rust have to agree on: each has what Rust might read otherwise.
ghost use Rattle.std.specs.Prelude.{◌≡◌};

use crate::kept::{IndexRange, Kept, Looked, Walk, Way};
use std::alloc::AllocError;
use std::cmp::Ordering;
use std::marker::PhantomData;
use std::ops::{RangeTo, RangeToInclusive};
use std::simd::prelude::*;

pub const FOUR: usize = 4;

fn words() -> [usize; 6] {
    [5, 12, 7, 0, 255, 1024]
}

/// A trait that is imported for its method alone.
pub fn imported() -> usize {
    let mut kept = Kept { count: 8 };
    kept.count = 9;
    kept.look() + kept.look_twice()
}

fn twice<L: Looked + Drop>(it: L) -> usize {
    it.look() * L::STEP
}

/// A bound with `Drop` behind it, and sums that have none.
pub fn bounded() -> usize {
    let drop = 7;
    twice(Kept { count: 12 }) + drop
}

/// A value that is put in the place of another.
pub fn replaced() -> usize {
    let mut kept = Kept { count: 8 };
    let before = kept.put(3);
    before * 10 + kept.count
}

/// Ranges of each kind that stays.
pub fn ranged() -> usize {
    let words = words();
    let mut sum = words[..2].len() + words[FOUR..].len() * 10 + words[1..3].len() * 100;
    for at in (0..3).rev() {
        sum = sum * 3 + words[at];
    }
    sum
}

/// Bits of words, where a closure might begin.
pub fn joined() -> usize {
    let words = words();
    let low = (words[0] | words[1]) ^ (words[2] & 6 | 1 << 5);
    let is_odd = words[2] & 1 == 1 || words[3] == 0 && words[4] > 255;
    if is_odd {
        low << 3 | !words[5] >> 60
    } else {
        low
    }
}

/// Methods of numbers at their bounds.
pub fn at_bounds() -> usize {
    let words = words();
    let none = words[3].checked_sub(1).unwrap_or(17);
    let some = words[0].saturating_sub(9) + words[1].div_ceil(5);
    let around = words[3].wrapping_sub(1) >> 60;
    none + some * 100 + around * 1000 + words[5].trailing_zeros() as usize * 100_000
}

/// Lanes of four words.
pub fn in_lanes() -> usize {
    let lane = u64x4::from_array([1, 2, 4, 8]) << u64x4::splat(3);
    let [first, _, _, last] = (lane ^ u64x4::splat(9)).to_array();
    (lane.reduce_or() * 10_000 + first * 100 + last) as usize
}

/// What a comparison says.
pub fn ordered() -> usize {
    let mut sum = 0;
    for at in 0..5 {
        let words = words();
        sum = sum * 4
            + match words[at].cmp(&words[at + 1]) {
                Ordering::Less => 1,
                Ordering::Equal => 2,
                Ordering::Greater => 3,
            };
    }
    sum
}

/// A walk from both ends.
pub fn walked() -> usize {
    let mut walk = Walk::<Kept> {
        low: 2,
        high: 9,
        looked: PhantomData,
    };
    let mut sum = 0;
    if let Some(last) = walk.next_back() {
        sum = last;
    }
    for it in walk {
        sum = sum * 2 + it;
    }
    sum
}

fn stepped(way: Way, from: usize) -> Option<usize> {
    let to = match way {
        Way::Up | Way::By(0) => from + 1,
        Way::Down => from.checked_sub(1)?,
        Way::By(count) => from + count,
    };
    Some(to)
}

/// Variants, and an answer that ends a function early.
pub fn chosen() -> usize {
    let ways = [Way::Up, Way::Down, Way::By(0), Way::By(40)];
    let mut sum = 0;
    for at in 0..4 {
        let way = ways[at];
        let Some(one) = stepped(way, 5) else { return 1 };
        sum = sum * 10 + one + stepped(way, 0).unwrap_or(9);
    }
    sum
}

/// Rows in parts.
pub fn parted() -> usize {
    let mut words = words();
    let (low, high) = words.split_at_mut(FOUR);
    low[0] += high[1];
    let Some((first, rest)) = words.split_first() else {
        return 1
    };
    let last = rest.len() - 1;
    first * 100 + rest[last] / 8 + last
}

fn ends_of<R: IndexRange<usize> + Drop>(range: R) -> usize {
    range.start().unwrap_or(7) + range.end().unwrap_or(9) / 2
}

/// The ends of ranges, one of which ends with the last number.
pub fn ended() -> usize {
    let most = ends_of(RangeToInclusive { end: usize::MAX }) >> 60;
    let some = ends_of(RangeTo { end: 12 }) * 100 + ends_of(RangeToInclusive { end: 5 }) * 100_000;
    ends_of(3..FOUR) + most * 10_000 + some
}

/// Bits that are counted, and a number at its greatest.
pub fn counted() -> usize {
    let words = words();
    let bits = words[4].count_ones() + (!words[3]).count_ones() * 10;
    let most = usize::MAX.saturating_add(words[0]) >> 58;
    bits as usize + most * 1000 + words[5].leading_zeros() as usize * 100_000
}

/// The bytes of characters, and the lengths of texts.
pub fn lettered() -> usize {
    let words = words();
    let mut digits = [b'0'; 6];
    for index in 0..6 {
        digits[index] = b'0' + (words[1] >> index & 1) as u8;
    }
    let mut sum = (b'z' - b'A') as usize;
    for digit in digits.iter() {
        sum = sum * 3 + *digit as usize;
    }
    sum * 100 + "a b 9".len() * 10 + "0b".len() + "".len()
}

fn halved(from: usize) -> Result<usize, Way> {
    if from == 0 {
        return Err(Way::Down);
    }
    if from & 1 == 1 {
        return Err(Way::By(from));
    }
    Ok(from / 2)
}

fn quartered(from: usize) -> Result<usize, Way> {
    let half = halved(from)?;
    halved(half)
}

fn held(count: usize) -> Result<usize, AllocError> {
    if count > 99 {
        return Err(AllocError);
    }
    Ok(count)
}

/// What is refused, and the answer that ends a function with a fault.
pub fn refused() -> usize {
    let words = words();
    let mut sum = 0;
    for at in 0..6 {
        sum = sum * 10
            + match quartered(words[at]) {
                Ok(quarter) => quarter % 7,
                Err(Way::By(odd)) => odd % 5,
                Err(_) => 6,
            };
        sum = match held(words[at]) {
            Ok(count) => sum + count,
            Err(_) => sum * 2,
        };
    }
    sum
}

fn total<I: IntoIterator<Item = usize>>(items: I) -> usize {
    let mut sum = 0;
    for item in items {
        sum = sum * 3 + item;
    }
    sum
}

fn both<T: Copy>(item: T) -> (T, T) {
    (item, item)
}

/// Items with their places, of two rows side by side, and of what becomes an iterator.
pub fn placed() -> usize {
    let words = words();
    let mut sum = total(2..FOUR) + total(words);
    for (at, word) in words.iter().take(4).enumerate() {
        sum = sum * 2 + *word * at;
    }
    for (one, other) in words[1..].iter().zip(&words[..3]) {
        sum += *one * *other;
    }
    let (one, other) = both(sum);
    one * 3 + other
}
