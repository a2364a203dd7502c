//! Counts of bits by carries, in vectors of the processor's width: as quick as we know how to count, for the limits.
//!
//! At each place of a vector the bits of sixteen vectors are added as by hand, in binary. Four vectors keep the digits of
//! the sums so far, and what is carried out of them is counted: one vector in sixteen.

use std::arch::{asm, x86_64 as cpu};

// What is done with vectors, under one name for both widths.
macro_rules! operations {
    ($vector:ident: $($name:ident($($given:ident),*) = $made:expr;)*) => {
        type Vector = cpu::$vector;
        $(
            #[inline(always)]
            fn $name($($given: Vector),*) -> Vector {
                unsafe { $made }
            }
        )*
    };
}

#[cfg(target_feature = "avx2")]
operations! { __m256i:
    zeros() = cpu::_mm256_setzero_si256();
    and(a, b) = cpu::_mm256_and_si256(a, b);
    or(a, b) = cpu::_mm256_or_si256(a, b);
    xor(a, b) = cpu::_mm256_xor_si256(a, b);
    doubled(a) = cpu::_mm256_slli_epi64::<1>(a);
    add_bytes(a, b) = cpu::_mm256_add_epi8(a, b);
    add_numbers(a, b) = cpu::_mm256_add_epi64(a, b);
    sums_of_bytes(a) = cpu::_mm256_sad_epu8(a, zeros());
    low_half(a) = and(a, cpu::_mm256_set1_epi8(15));
    high_half(a) = low_half(cpu::_mm256_srli_epi16::<4>(a));
    ones_of_halves(a) = cpu::_mm256_shuffle_epi8(cpu::_mm256_broadcastsi128_si256(ones_of_numbers()), a);
}

#[cfg(not(target_feature = "avx2"))]
operations! { __m128i:
    zeros() = cpu::_mm_setzero_si128();
    and(a, b) = cpu::_mm_and_si128(a, b);
    or(a, b) = cpu::_mm_or_si128(a, b);
    xor(a, b) = cpu::_mm_xor_si128(a, b);
    doubled(a) = cpu::_mm_slli_epi64::<1>(a);
    add_bytes(a, b) = cpu::_mm_add_epi8(a, b);
    add_numbers(a, b) = cpu::_mm_add_epi64(a, b);
    sums_of_bytes(a) = cpu::_mm_sad_epu8(a, zeros());
    low_half(a) = and(a, cpu::_mm_set1_epi8(15));
    high_half(a) = low_half(cpu::_mm_srli_epi16::<4>(a));
    ones_of_halves(a) = cpu::_mm_shuffle_epi8(ones_of_numbers(), a);
}

// How many bits each number below sixteen has.
#[inline(always)]
fn ones_of_numbers() -> cpu::__m128i {
    unsafe { cpu::_mm_setr_epi8(0, 1, 1, 2, 1, 2, 2, 3, 1, 2, 2, 3, 2, 3, 3, 4) }
}

// How many words a vector has, and the sixteen of a turn.
const WIDTH: usize = size_of::<Vector>() / 8;
const TURN: usize = 16 * WIDTH;

// How many bits each number of a vector has.
#[inline(always)]
fn ones_of(vector: Vector) -> Vector {
    let low = ones_of_halves(low_half(vector));
    sums_of_bytes(add_bytes(low, ones_of_halves(high_half(vector))))
}

// Adds three bits at each place: the last digit of the sum stays, and the answer is the first one.
#[inline(always)]
fn add_three(digit: &mut Vector, first: Vector, second: Vector) -> Vector {
    let either = xor(*digit, first);
    let carried = or(and(*digit, first), and(either, second));
    *digit = xor(either, second);
    carried
}

// What two, four, eight or sixteen further vectors carry out of the first digits.
macro_rules! carried {
    ($($name:ident: two of $half:ident, at $place:literal;)*) => {
        $(
            #[inline(always)]
            fn $name(digits: &mut [Vector; 4], rows: &mut impl Rows) -> Vector {
                let first = $half(digits, rows);
                let second = $half(digits, rows);
                add_three(&mut digits[$place], first, second)
            }
        )*
    };
}

#[inline(always)]
fn one(_: &mut [Vector; 4], rows: &mut impl Rows) -> Vector {
    rows.take()
}

carried! {
    two: two of one, at 0;
    four: two of two, at 1;
    eight: two of four, at 2;
    sixteen: two of eight, at 3;
}

// The bits of so many turns.
#[inline(always)]
fn count_turns(turns: usize, mut rows: impl Rows) -> u64 {
    let mut digits = [zeros(); 4];
    let mut total = zeros();
    for _ in 0..turns {
        rows.begin();
        let carried = sixteen(&mut digits, &mut rows);
        total = add_numbers(total, ones_of(carried));
    }
    for digit in digits.iter().rev() {
        total = add_numbers(doubled(total), ones_of(*digit));
    }
    let numbers: [u64; WIDTH] = unsafe { std::mem::transmute(total) };
    numbers.iter().sum()
}

// What gives vectors in order.
trait Rows {
    // Begins a turn of sixteen.
    fn begin(&mut self);

    fn take(&mut self) -> Vector;
}

// The words from here on, of which each turn asks for what lies `AHEAD` bytes behind it, where that is not 0.
struct Row<const AHEAD: usize> {
    next: *const u64,
}

impl<const AHEAD: usize> Rows for Row<AHEAD> {
    #[inline(always)]
    fn begin(&mut self) {
        if AHEAD > 0 {
            for line in 0..TURN / 8 {
                let place = self.next.wrapping_add(8 * line + AHEAD / 8);
                unsafe { cpu::_mm_prefetch::<{ cpu::_MM_HINT_T0 }>(place.cast()) };
            }
        }
    }

    #[inline(always)]
    fn take(&mut self) -> Vector {
        let vector = unsafe { self.next.cast::<Vector>().read_unaligned() };
        self.next = self.next.wrapping_add(WIDTH);
        vector
    }
}

// What two rows both have.
struct Shared<const AHEAD: usize>(Row<AHEAD>, Row<AHEAD>);

impl<const AHEAD: usize> Rows for Shared<AHEAD> {
    #[inline(always)]
    fn begin(&mut self) {
        // So each row keeps a pointer of its own: an address of two registers takes one operation more.
        let (mut first, mut second) = (self.0.next, self.1.next);
        unsafe {
            asm!("/* {} {} */", inout(reg) first, inout(reg) second, options(nomem, nostack, preserves_flags));
        }
        (self.0.next, self.1.next) = (first, second);
        self.0.begin();
        self.1.begin();
    }

    #[inline(always)]
    fn take(&mut self) -> Vector {
        and(self.0.take(), self.1.take())
    }
}

/// How many bits are set in the words.
pub fn count<const AHEAD: usize>(words: &[u64]) -> u64 {
    let turns = words.len() / TURN;
    let total = count_turns(
        turns,
        Row::<AHEAD> {
            next: words.as_ptr(),
        },
    );
    let rest = words[TURN * turns..].iter();
    total + rest.map(|word| u64::from(word.count_ones())).sum::<u64>()
}

/// How many bits are set in both rows of words, as far as both go.
pub fn count_both<const AHEAD: usize>(words: &[u64], others: &[u64]) -> u64 {
    let turns = words.len().min(others.len()) / TURN;
    let [first, second] = [words, others].map(|row| Row::<AHEAD> { next: row.as_ptr() });
    let total = count_turns(turns, Shared(first, second));
    let rest = words[TURN * turns..].iter().zip(&others[TURN * turns..]);
    total
        + rest
            .map(|(word, other)| u64::from((word & other).count_ones()))
            .sum::<u64>()
}

/// Stops where a count is wrong, at some lengths.
pub fn try_out() {
    for length in 0..3 * TURN {
        let words: Vec<u64> = (1..)
            .map(|k: u64| k.wrapping_mul(0x9e37_79b9_7f4a_7c15))
            .take(length)
            .collect();
        let others: Vec<u64> = words.iter().map(|word| word.rotate_left(17)).collect();
        let ones = |row: &[u64]| {
            row.iter()
                .map(|word| u64::from(word.count_ones()))
                .sum::<u64>()
        };
        let shared: Vec<u64> = words
            .iter()
            .zip(&others)
            .map(|(word, other)| word & other)
            .collect();
        assert_eq!(count::<0>(&words), ones(&words));
        assert_eq!(count::<512>(&words), ones(&words));
        assert_eq!(count_both::<0>(&words, &others), ones(&shared));
        assert_eq!(count_both::<512>(&words, &others), ones(&shared));
    }
}
