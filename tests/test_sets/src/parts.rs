//! Shifts and parts at every length up to 200, beside slow values.

use crate::questions::fillings;
use crate::slow::Slow;
use bitlanes::word::{BITS, Block};
use fixedbitset::FixedBitSet;
use std::alloc::{AllocError, Global};
use std::process::Abort;
use std::test::Fail;
use test_values::slow::{are_words, filled, is_same, multiples};

// The calls that move positions by a number.
#[derive(Clone, Copy, Debug)]
enum Move {
    Up,
    Down,
    WithOwn,
}

fn moved(set: &mut FixedBitSet, call: Move, by: usize) {
    match call {
        Move::Up => set.shift_up(by),
        Move::Down => set.shift_down(by),
        Move::WithOwn => set.union_with_own_shift(by),
    }
}

// Whether a position is among flags that were moved up.
fn is_above(flags: &[bool], by: usize, position: usize) -> bool {
    match position.checked_sub(by) {
        Some(below) => below < flags.len() && flags[below],
        None => false,
    }
}

fn slow_moved(slow: &Slow, call: Move, by: usize) -> Slow {
    let mut new = *slow;
    for position in 0..slow.length {
        let is_above = by <= position && slow.has(position - by);
        new.set(
            position,
            match call {
                Move::Up => is_above,
                Move::Down => slow.has(position.saturating_add(by)),
                Move::WithOwn => is_above || slow.has(position),
            },
        );
    }
    new
}

fn assert_moved(rt: &impl Abort, alloc: Global, flags: &[bool]) -> Result<(), AllocError> {
    let (whole, slow) = (filled(alloc, flags)?, Slow::of(flags));
    let mut last = slow;
    assert!(rt; slow.is_at_each(&whole));
    for call in [Move::Up, Move::Down, Move::WithOwn] {
        for by in [0, 1, 63, 64, 65, 127, 130, 256, usize::MAX] {
            let mut set = whole.clone()?;
            moved(&mut set, call, by);
            let wanted = slow_moved(&slow, call, by);
            assert!(rt;
                wanted.is_at_each_anew(&mut last, &set),
                "{call:?} by {by} at {}",
                flags.len()
            );
        }
    }
    Ok(())
}

#[test]
fn moved_at_every_length(rt: HostRuntime) -> Result<(), Fail> {
    for length in 0..201 {
        for flags in fillings(rt.alloc(), length)? {
            assert_moved(&rt, rt.alloc(), &flags)?;
        }
    }
    Ok(())
}

// Rows of several lanes, with a second set that is moved into the first.
#[test]
fn joined_with_a_moved_set(rt: HostRuntime) -> Result<(), Fail> {
    for (length, other_length) in [
        (0, 70),
        (70, 0),
        (64, 64),
        (700, 130),
        (130, 700),
        (600, 599),
    ] {
        let flags = multiples(rt.alloc(), length, 5)?;
        let other = multiples(rt.alloc(), other_length, 3)?;
        for by in [0, 1, 63, 64, 100, 320, 513, usize::MAX] {
            let mut set = filled(rt.alloc(), &flags)?;
            set.union_with_shifted(&filled(rt.alloc(), &other)?, by);
            let mut wanted = Vec::new(rt.alloc());
            for position in 0..length {
                wanted.push(
                    position < flags.len() && flags[position] || is_above(&other, by, position),
                )?;
            }
            assert!(rt;
                is_same(&set, &wanted),
                "{other_length} by {by} at {length}"
            );
        }
    }
    Ok(())
}

// The set has these flags. The words and the number tell in which case it was looked at.
fn assert_same(rt: &impl Abort, set: &FixedBitSet, flags: &[bool], case: &str, number: usize) {
    assert!(rt;
        is_same(set, flags),
        "{case} {number}, {} flags",
        flags.len()
    );
}

// A set that is put together again is the one that was cut, which is asked for each position.
fn assert_cut(rt: &impl Abort, alloc: Global, flags: &[bool]) -> Result<(), AllocError> {
    let (set, whole) = (filled(alloc, flags)?, Slow::of(flags));
    assert!(rt; whole.is_at_each(&set));
    for cut in [0, 1, 63, 64, 65, 127, 128, 129] {
        if cut <= flags.len() && cut <= set.len() {
            let mut first = set.slice(alloc, ..cut)?;
            let second = set.slice(alloc, cut..)?;
            let are_parts = Slow::of(&flags[..cut]).is_at_each(&first)
                && Slow::of(&flags[cut..]).is_at_each(&second);
            assert!(rt; are_parts, "{} flags cut at {cut}", flags.len());
            if first.len() <= 200 && second.len() <= 200 {
                first.append(&second)?;
                assert!(rt;
                    whole.is(&first),
                    "{} flags put together at {cut}",
                    flags.len()
                );
            }
        }
    }
    Ok(())
}

#[test]
fn cut_and_put_together_at_every_length(rt: HostRuntime) -> Result<(), Fail> {
    for length in 0..201 {
        for flags in fillings(rt.alloc(), length)? {
            assert_cut(&rt, rt.alloc(), &flags)?;
        }
    }
    Ok(())
}

// The flags, where those of a part are written over them from `at` on.
fn slow_copied(
    alloc: Global,
    flags: &[bool],
    part: &[bool],
    at: usize,
) -> Result<Vec<bool>, AllocError> {
    let mut new = flags.to_vec(alloc)?;
    for position in 0..part.len() {
        new[at + position] = part[position];
    }
    Ok(new)
}

// A set and the slow value that it was made of.
#[derive(Drop)]
struct Pair<'a> {
    set: FixedBitSet,
    flags: &'a [bool],
}

fn paired(alloc: Global, flags: &[bool]) -> Result<Pair<'_>, AllocError> {
    Ok(Pair {
        set: filled(alloc, flags)?,
        flags,
    })
}

// The range of the other set, copied to place `at` of a copy of the set.
fn assert_copied(
    rt: &impl Abort,
    alloc: Global,
    one: &Pair<'_>,
    other: &Pair<'_>,
    start: usize,
    end: usize,
    at: usize,
) -> Result<(), AllocError> {
    let mut set = one.set.clone()?;
    set.copy_range(&other.set, start..end, at);
    let wanted = slow_copied(alloc, one.flags, &other.flags[start..end], at)?;
    assert!(rt;
        set.len() == wanted.len() && are_words(set.as_slice(), &wanted),
        "{start}..{end} of {} to {at} of {}",
        other.flags.len(),
        wanted.len()
    );
    Ok(())
}

// The ranges from this start, each one position longer, copied to the place. What is wanted gets that position each time.
fn assert_copied_to(
    rt: &impl Abort,
    one: &Pair<'_>,
    other: &Pair<'_>,
    start: usize,
    at: usize,
    mut wanted: Vec<Block>,
) -> Result<(), AllocError> {
    let most = (other.flags.len() - start).min(one.flags.len() - at);
    for size in 0..most + 1 {
        if size > 0 {
            let (from, to) = (start + size - 1, at + size - 1);
            wanted[to / BITS] &= !(1 << (to % BITS));
            wanted[to / BITS] |= Block::from(other.flags[from]) << (to % BITS);
        }
        let mut set = one.set.clone()?;
        set.copy_range(&other.set, start..start + size, at);
        assert!(rt;
            set.len() == one.flags.len() && set.as_slice() == wanted.as_slice(),
            "{start}..{} of {} to {at} of {}",
            start + size,
            other.flags.len(),
            one.flags.len()
        );
    }
    Ok(())
}

// Longer ones are copied in front/rust, which takes less time.
#[test]
fn every_range_is_copied_to_every_place(rt: HostRuntime) -> Result<(), Fail> {
    for (length, other_length) in [(0, 0), (1, 1), (65, 63)] {
        let flags = multiples(rt.alloc(), length, 3)?;
        let other = multiples(rt.alloc(), other_length, 7)?;
        let (one, other) = (paired(rt.alloc(), &flags)?, paired(rt.alloc(), &other)?);
        assert!(rt; are_words(one.set.as_slice(), &flags));
        for start in 0..other_length + 1 {
            for at in 0..length + 1 {
                let wanted = one.set.as_slice().to_vec(rt.alloc())?;
                assert_copied_to(&rt, &one, &other, start, at, wanted)?;
            }
        }
    }
    Ok(())
}

// Rows of several lanes.
#[test]
fn long_ranges_are_copied(rt: HostRuntime) -> Result<(), Fail> {
    let flags = multiples(rt.alloc(), 1300, 3)?;
    let other = multiples(rt.alloc(), 1100, 7)?;
    let (one, other) = (paired(rt.alloc(), &flags)?, paired(rt.alloc(), &other)?);
    for start in [0, 1, 63, 64, 65, 130, 320] {
        for end in [
            63, 64, 65, 130, 200, 320, 448, 512, 640, 705, 1024, 1099, 1100,
        ] {
            for at in [0, 1, 63, 64, 65, 192, 200] {
                if start <= end && end <= 1100 && at + (end - start) <= 1300 {
                    assert_copied(&rt, rt.alloc(), &one, &other, start, end, at)?;
                }
            }
        }
    }
    Ok(())
}

// The parts of a set that is cut, copied back to where they stood: in an empty set, and in the set itself. Each makes the set
// that was cut, which is asked for each position.
fn assert_copied_back(rt: &impl Abort, alloc: Global, flags: &[bool]) -> Result<(), AllocError> {
    let (set, whole) = (filled(alloc, flags)?, Slow::of(flags));
    assert!(rt; whole.is_at_each(&set));
    for cut in [0, 1, 63, 64, 65, 127, 128, 129] {
        if cut <= set.len() {
            let (first, second) = (set.slice(alloc, ..cut)?, set.slice(alloc, cut..)?);
            assert!(rt; first.len() == cut && second.len() == set.len() - cut);
            let mut new = set.clone()?;
            new.copy_range(&first, .., 0);
            assert!(rt; whole.is(&new), "{} flags copied up to {cut}", flags.len());
            new.clear();
            assert!(rt; new.len() == set.len());
            new.copy_range(&second, .., cut);
            assert!(rt; new.len() == set.len());
            new.copy_range(&first, .., 0);
            assert!(rt; whole.is(&new), "{} flags copied at {cut}", flags.len());
        }
    }
    Ok(())
}

#[test]
fn slices_are_copied_back_at_every_length(rt: HostRuntime) -> Result<(), Fail> {
    for length in 0..201 {
        for flags in fillings(rt.alloc(), length)? {
            assert_copied_back(&rt, rt.alloc(), &flags)?;
        }
    }
    Ok(())
}

// The flags from `start` on as a number, the first of them its lowest bit.
fn slow_number(flags: &[bool], start: usize, width: usize) -> Block {
    let mut number = 0;
    for position in start..start + width {
        number |= Block::from(flags[position]) << (position - start);
    }
    number
}

// A part of the set read as a number, and another number written over that part.
fn assert_number(
    rt: &impl Abort,
    alloc: Global,
    pair: &Pair<'_>,
    start: usize,
    width: usize,
) -> Result<(), AllocError> {
    let mut set = pair.set.clone()?;
    let number = set.load(start, width);
    assert!(rt;
        number == slow_number(pair.flags, start, width),
        "{width} from {start} on"
    );
    let other = number.rotate_left(7) ^ 0x9e37_79b9_7f4a_7c15;
    set.store(start, width, other);
    let mut wanted = pair.flags.to_vec(alloc)?;
    for position in start..start + width {
        wanted[position] = other >> (position - start) & 1 == 1;
    }
    assert_same(rt, &set, &wanted, "a number from", start);
    Ok(())
}

#[test]
fn numbers_of_every_width_at_every_edge(rt: HostRuntime) -> Result<(), Fail> {
    for length in [0, 1, 64, 65, 128, 200, 321] {
        for flags in fillings(rt.alloc(), length)? {
            let pair = paired(rt.alloc(), &flags)?;
            for start in [0, 1, 6, 63, 64, 65, 127, 256, length] {
                for width in [0, 1, 7, 58, 63, 64] {
                    if start + width <= length {
                        assert_number(&rt, rt.alloc(), &pair, start, width)?;
                    }
                }
            }
        }
    }
    Ok(())
}

// Lists of positions, set and then cleared: some of them twice, in any order.
#[test]
fn lists_of_positions(rt: HostRuntime) -> Result<(), Fail> {
    for length in [1, 64, 65, 200] {
        let mut flags = multiples(rt.alloc(), length, 3)?;
        let mut set = filled(rt.alloc(), &flags)?;
        let list = [length - 1, 0, length / 2, length - 1];
        set.insert_all(&list);
        for position in list {
            flags[position] = true;
        }
        assert_same(&rt, &set, &flags, "set at", length);
        set.remove_all(&list[1..]);
        for position in list[1..].iter() {
            flags[*position] = false;
        }
        assert_same(&rt, &set, &flags, "cleared at", length);
        set.insert_all(&[]);
        set.remove_all(&[]);
        assert_same(&rt, &set, &flags, "left at", length);
    }
    Ok(())
}

// Lists of positions that are asked: the same twice, in any order, and at and past the length.
#[test]
fn lists_of_positions_asked(rt: HostRuntime) -> Result<(), Fail> {
    for length in [0, 1, 64, 65, 200] {
        let flags = multiples(rt.alloc(), length, 3)?;
        let set = filled(rt.alloc(), &flags)?;
        let asked = [
            length / 2,
            length,
            0,
            length / 2,
            usize::MAX,
            length / 3 * 3,
        ];
        for (turned, count) in [(false, 6), (true, 6), (true, 0)] {
            let mut answers = [turned; 6];
            set.contains_each(&asked[..count], &mut answers[..count]);
            for (index, answer) in answers.iter().enumerate() {
                let is_set = asked[index] < length && flags[asked[index]];
                let wanted = if index < count { is_set } else { turned };
                assert_eq!(rt; *answer, wanted, "{index} of {count} at {length}");
            }
        }
    }
    Ok(())
}

fn assert_resized(rt: &impl Abort, alloc: Global, flags: &[bool]) -> Result<(), AllocError> {
    let (whole, slow) = (filled(alloc, flags)?, Slow::of(flags));
    let mut last = Slow::of(&[]);
    for enabled in [false, true] {
        for bits in [0, 1, 63, 64, 65, 128, 200] {
            let wanted = slow.resized(bits, enabled);
            let mut set = whole.clone()?;
            set.resize(bits, enabled)?;
            let is_resized = wanted.is_at_each(&set);
            assert!(rt; is_resized, "{} flags resized to {bits}", flags.len());
            set.truncate(64);
            let wanted = wanted.resized(bits.min(64), false);
            let is_cut = wanted.is_at_each_anew(&mut last, &set);
            assert!(rt; is_cut, "{} flags cut from {bits}", flags.len());
        }
    }
    Ok(())
}

#[test]
fn resized_at_every_length(rt: HostRuntime) -> Result<(), Fail> {
    for length in 0..201 {
        for flags in fillings(rt.alloc(), length)? {
            assert_resized(&rt, rt.alloc(), &flags)?;
        }
    }
    Ok(())
}

// The bytes of a set make it again, also where those at the end are missing.
#[test]
fn bytes_read_back_at_every_length(rt: HostRuntime) -> Result<(), Fail> {
    for length in 0..201 {
        for flags in fillings(rt.alloc(), length)? {
            let bytes = filled(rt.alloc(), &flags)?.to_bytes(rt.alloc())?;
            let set = FixedBitSet::from_bytes(rt.alloc(), length, &bytes)?;
            assert_same(&rt, &set, &flags, "bytes of", length);
            let needed = bytes.len().min(length.div_ceil(8));
            let set = FixedBitSet::from_bytes(rt.alloc(), length, &bytes[..needed])?;
            assert_same(&rt, &set, &flags, "bytes as needed,", needed);
        }
    }
    Ok(())
}
