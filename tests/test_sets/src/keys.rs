//! Sets that are compared, sorted, hashed and printed: as keys of maps as a user has them, beside a slow order, and by
//! their texts.

use fixedbitset::FixedBitSet;
use std::alloc::{AllocError, Global};
use std::cmp::Ordering;
use std::collections::{BTreeMap, BTreeSet, HashMap, HashSet};
use std::fmt::{self, Binary, Display};
use std::process::Abort;
use std::test::Fail;
use test_callers::sets::{alike, found_in_table, found_in_tree};
use test_values::slow::filled;

#[test]
fn a_key_is_found(rt: HostRuntime) -> Result<(), Fail> {
    let one = set_of(rt.alloc(), 70, &[3, 69])?;
    let two = set_of(rt.alloc(), 70, &[69, 3])?;
    let other = set_of(rt.alloc(), 71, &[3, 69])?;
    assert!(rt; alike(&one, &two));
    assert!(rt; !alike(&one, &other));
    assert_eq!(rt; found_in_tree(rt.alloc(), one.clone()?, &two)?, Some(7));
    assert_eq!(rt; found_in_tree(rt.alloc(), one.clone()?, &other)?, None);
    assert_eq!(rt; found_in_table(rt.alloc(), one.clone()?, &two)?, Some(7));
    assert_eq!(rt; found_in_table(rt.alloc(), one, &other)?, None);
    Ok(())
}

// ---- worked values

// The set of this length and these positions, as far as they are below it.
fn set_of(alloc: Global, length: usize, positions: &[usize]) -> Result<FixedBitSet, Fail> {
    let mut set = FixedBitSet::with_capacity(alloc, length)?;
    for position in positions {
        if *position < set.len() {
            set.insert(*position);
        }
    }
    Ok(set)
}

// Seven sets, each less than the next.
const ASCENDING: [(usize, &[usize]); 7] = [
    (0, &[]),
    (3, &[0]),
    (3, &[1]),
    (3, &[0, 1]),
    (4, &[]),
    (128, &[64]),
    (128, &[1]),
];

fn ascending(alloc: Global) -> Result<Vec<FixedBitSet>, Fail> {
    let mut sets = Vec::new(alloc);
    for (length, positions) in ASCENDING {
        sets.push(set_of(alloc, length, positions)?)?;
    }
    Ok(sets)
}

fn add_to_trees(
    sets: &mut BTreeSet<FixedBitSet>,
    places: &mut BTreeMap<FixedBitSet, usize>,
    place: usize,
    set: &FixedBitSet,
) -> Result<(), Fail> {
    sets.insert(set.clone()?)?;
    places.insert(set.clone()?, place)?;
    Ok(())
}

fn add_to_tables(
    sets: &mut HashSet<FixedBitSet>,
    places: &mut HashMap<FixedBitSet, usize>,
    place: usize,
    set: &FixedBitSet,
) -> Result<(), Fail> {
    sets.insert(set.clone()?)?;
    places.insert(set.clone()?, place)?;
    Ok(())
}

#[test]
fn maps_keep_each_key_once(rt: HostRuntime) -> Result<(), Fail> {
    let mut tree = BTreeSet::new(rt.alloc());
    let mut tree_map = BTreeMap::new(rt.alloc());
    let mut table = HashSet::new(rt.alloc());
    let mut table_map = HashMap::new(rt.alloc());
    let sets = ascending(rt.alloc())?;
    for _ in 0..2 {
        for (place, set) in sets.iter().enumerate() {
            add_to_trees(&mut tree, &mut tree_map, place, set)?;
            add_to_tables(&mut table, &mut table_map, place, set)?;
        }
    }
    assert_eq!(rt; (tree.len(), tree_map.len()), (7, 7));
    assert_eq!(rt; (table.len(), table_map.len()), (7, 7));
    for (place, set) in sets.iter().enumerate() {
        assert!(rt; tree.contains(set) && table.contains(set));
        assert_eq!(rt; tree_map.get(set), Some(&place));
        assert_eq!(rt; table_map.get(set), Some(&place));
    }
    assert!(rt; tree.iter().eq(sets.iter()));
    assert!(rt; tree_map.values().copied().eq(0..7));
    Ok(())
}

#[test]
fn a_list_of_sets_is_sorted_and_searched(rt: HostRuntime) -> Result<(), Fail> {
    let wanted = ascending(rt.alloc())?;
    let mut sets = ascending(rt.alloc())?;
    for set in &wanted {
        sets.push(set.clone()?)?;
    }
    sets.reverse();
    sets.sort()?;
    sets.dedup();
    assert!(rt; sets == wanted);
    assert!(rt; sets.iter().max() == wanted.last());
    assert!(rt; sets.iter().min() == wanted.first());
    for (place, set) in wanted.iter().enumerate() {
        assert!(rt; sets.binary_search(set) == Ok(place));
    }
    let between = set_of(rt.alloc(), 3, &[2])?;
    assert!(rt; sets.binary_search(&between) == Err(4));
    Ok(())
}

#[test]
fn the_greatest_position_of_the_first_stretch_decides(rt: HostRuntime) -> Result<(), Fail> {
    let late = set_of(rt.alloc(), 128, &[64])?;
    let early = set_of(rt.alloc(), 128, &[1])?;
    assert!(rt; late < early);
    let spread = set_of(rt.alloc(), 128, &[0, 3])?;
    let single = set_of(rt.alloc(), 128, &[4])?;
    assert!(rt; spread < single);
    assert!(rt; spread.max(single.clone()?) == single);
    Ok(())
}

#[test]
fn the_shorter_set_is_less(rt: HostRuntime) -> Result<(), Fail> {
    let short = set_of(rt.alloc(), 3, &[1])?;
    let long = set_of(rt.alloc(), 4, &[1])?;
    assert!(rt; short != long);
    assert!(rt; short < long);
    assert!(rt; short.is_subset(&long) && long.is_subset(&short));
    Ok(())
}

// ---- beside a slow order

// The order of two slow values: the shorter is less, and then the last flag that differs in the first 64 that do.
fn slow_order(a: &[bool], b: &[bool]) -> Ordering {
    if a.len() != b.len() {
        return a.len().cmp(&b.len());
    }
    for stretch in 0..a.len() / 64 + 1 {
        for back in 0..64 {
            let position = 64 * stretch + (63 - back);
            if position < a.len() && position < b.len() && a[position] != b[position] {
                return a[position].cmp(&b[position]);
            }
        }
    }
    Ordering::Equal
}

// Each pair of the slow values compares as their sets do.
fn assert_compares(rt: &impl Abort, all: &[Vec<bool>], sets: &[FixedBitSet]) {
    for (flags, set) in all.iter().zip(sets.iter()) {
        for (other_flags, other) in all.iter().zip(sets.iter()) {
            let wanted = slow_order(flags, other_flags);
            assert_eq!(rt; set.cmp(other), wanted);
            assert_eq!(rt; set.partial_cmp(other), Some(wanted));
            assert_eq!(rt; set == other, wanted == Ordering::Equal);
            assert_eq!(rt; set < other, wanted == Ordering::Less);
        }
    }
}

// The flags of this length in which `chosen[i]` is set where `number` has bit `i`.
fn flags_of(
    alloc: Global,
    length: usize,
    chosen: &[usize],
    number: usize,
) -> Result<Vec<bool>, Fail> {
    let mut flags = vec![in alloc; false; length]?;
    for (bit, position) in chosen.iter().enumerate() {
        if *position < flags.len() && bit < 64 {
            flags[*position] = number >> bit & 1 == 1;
        }
    }
    Ok(flags)
}

fn sets_of(alloc: Global, all: &[Vec<bool>]) -> Result<Vec<FixedBitSet>, Fail> {
    let mut sets = Vec::new(alloc);
    for flags in all {
        sets.push(filled(alloc, flags)?)?;
    }
    Ok(sets)
}

#[test]
fn every_pair_of_small_sets_compares(rt: HostRuntime) -> Result<(), Fail> {
    let mut all = Vec::new(rt.alloc());
    for length in 0..7 {
        for number in 0..1 << length {
            all.push(flags_of(rt.alloc(), length, &[0, 1, 2, 3, 4, 5], number)?)?;
        }
    }
    assert_eq!(rt; all.len(), 127);
    assert_compares(&rt, &all, &sets_of(rt.alloc(), &all)?);
    Ok(())
}

#[test]
fn pairs_of_three_stretches_compare(rt: HostRuntime) -> Result<(), Fail> {
    let mut all = Vec::new(rt.alloc());
    for length in [129, 191] {
        for number in 0..128 {
            all.push(flags_of(rt.alloc(), length, &[0, 1, 63, 64, 65, 127, 128], number)?)?;
        }
    }
    assert_compares(&rt, &all, &sets_of(rt.alloc(), &all)?);
    Ok(())
}

// ---- texts

// A set that `Display` prints as `Binary` does, so that a format can ask for `#`.
#[derive(Clone, Copy)]
struct InBinary<'a> {
    set: &'a FixedBitSet,
}

impl Display for InBinary<'_> {
    fn fmt<W: fmt::Write>(&self, f: &mut fmt::Formatter<W>) -> fmt::Result {
        Binary::fmt(self.set, f)
    }
}

// Whether a text was made, and is the one that is wanted.
fn is_said(made: Result<String, AllocError>, wanted: &str) -> Result<bool, AllocError> {
    Ok(made?.as_str() == wanted)
}

// The text of a set, and of `Binary`, is `wanted`, whatever width is asked for, and `marked` where `#` is.
fn assert_text(
    rt: &impl Abort,
    alloc: Global,
    set: &FixedBitSet,
    wanted: &str,
    marked: &str,
) -> Result<(), Fail> {
    let binary = InBinary { set };
    assert!(rt; is_said(set.to_string(alloc), wanted)?, "{wanted}");
    assert!(rt;
        is_said(format!(in alloc; "{set:>20}"), wanted)?,
        "{wanted}"
    );
    assert!(rt;
        is_said(format!(in alloc; "{set:020}"), wanted)?,
        "{wanted}"
    );
    assert!(rt; is_said(format!(in alloc; "{set:#}"), marked)?, "{marked}");
    assert!(rt; is_said(format!(in alloc; "{binary}"), wanted)?, "{wanted}");
    assert!(rt;
        is_said(format!(in alloc; "{binary:#}"), marked)?,
        "{marked}"
    );
    Ok(())
}

const TEXTS: [(usize, &[usize], &str, &str); 4] = [
    (0, &[], "", "0b"),
    (4, &[2], "0010", "0b0010"),
    (8, &[2, 4], "00101000", "0b00101000"),
    (
        16,
        &[1, 5, 7, 10, 14, 15],
        "0100010100100011",
        "0b0100010100100011",
    ),
];

#[test]
fn a_text_has_a_character_for_each_position(rt: HostRuntime) -> Result<(), Fail> {
    for (length, positions, wanted, marked) in TEXTS {
        let set = set_of(rt.alloc(), length, positions)?;
        assert_text(&rt, rt.alloc(), &set, wanted, marked)?;
    }
    let new = FixedBitSet::new(rt.alloc());
    assert_text(&rt, rt.alloc(), &new, "", "0b")?;
    let of_word = FixedBitSet::with_capacity_and_blocks(rt.alloc(), 4, [4])?;
    assert_text(&rt, rt.alloc(), &of_word, "0010", "0b0010")?;
    let items = FixedBitSet::from_iter(rt.alloc(), [1, 5, 7, 10, 14, 15]).expect(&rt, "one word");
    assert_text(
        &rt,
        rt.alloc(),
        &items,
        "0100010100100011",
        "0b0100010100100011",
    )
}

#[test]
fn a_text_crosses_words(rt: HostRuntime) -> Result<(), Fail> {
    for length in 0..200 {
        let flags = flags_of(
            rt.alloc(),
            length,
            &[0, 1, 63, 64, 65, 127, 128, 191, 192],
            511,
        )?;
        let text = filled(rt.alloc(), &flags)?.to_string(rt.alloc())?;
        assert_eq!(rt; text.len(), length);
        for (digit, flag) in text.bytes().zip(flags.iter()) {
            assert_eq!(rt; digit, if *flag { b'1' } else { b'0' });
        }
    }
    Ok(())
}
