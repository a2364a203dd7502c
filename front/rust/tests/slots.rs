//! Slots beside a list of flags, by random calls.
use fixedbitset::Slots;

/// The next of a chain of random numbers (xorshift), below `end`.
fn below(state: &mut u64, end: usize) -> usize {
    *state ^= *state << 13;
    *state ^= *state >> 7;
    *state ^= *state << 17;
    (*state % end as u64) as usize
}

/// The least start at or past `from`, a multiple of `align`, with so many flags that are down; of 0 that is 0 alone.
fn least(flags: &[bool], count: usize, align: usize, from: usize) -> Option<usize> {
    (from..=flags.len())
        .filter(|start| {
            if align == 0 {
                *start == 0
            } else {
                start % align == 0
            }
        })
        .find(|start| start + count <= flags.len() && !flags[*start..start + count].contains(&true))
}

fn check(slots: &Slots, flags: &[bool]) {
    assert_eq!(slots.len(), flags.len());
    assert_eq!(slots.free(), flags.iter().filter(|flag| !**flag).count());
    assert!(slots
        .taken()
        .ones()
        .eq((0..flags.len()).filter(|slot| flags[*slot])));
    assert!(
        (0..flags.len() + 2).all(|slot| slots.is_taken(slot) == (flags.get(slot) == Some(&true)))
    );
}

/// Takes what is found, in the flags too.
fn take(flags: &mut [bool], count: usize, found: Option<usize>) {
    if let Some(start) = found {
        flags[start..start + count].fill(true);
    }
}

#[test]
fn calls_beside_flags() {
    let mut state = 0x9E37_79B9_7F4A_7C15;
    for count in [0, 1, 5, 63, 64, 65, 128, 200, 300, 1_000] {
        let (mut slots, mut flags) = (Slots::new(count), vec![false; count]);
        for round in 0..600 {
            // (more is taken than given back, so words become full)
            match below(&mut state, 10) {
                0 => {
                    let (many, from) = (below(&mut state, 70), below(&mut state, count + 2));
                    let found = slots.take_stretch(many, from);
                    assert_eq!(found, least(&flags, many, 1, from));
                    take(&mut flags, many, found);
                }
                1 => {
                    let (many, align) = (below(&mut state, 20), below(&mut state, 9));
                    let found = slots.take_aligned_stretch(many, align);
                    assert_eq!(found, least(&flags, many, align, 0));
                    take(&mut flags, many, found);
                }
                2 | 3 if flags.contains(&true) => {
                    let slot = below(&mut state, count);
                    let slot = (0..count)
                        .map(|more| (slot + more) % count)
                        .find(|slot| flags[*slot])
                        .unwrap();
                    let end = (slot..count).find(|slot| !flags[*slot]).unwrap_or(count);
                    let many = if round % 2 == 0 {
                        1
                    } else {
                        below(&mut state, end - slot) + 1
                    };
                    if many == 1 {
                        slots.give_back(slot);
                    } else {
                        slots.give_back_stretch(slot, many);
                    }
                    flags[slot..slot + many].fill(false);
                }
                _ => {
                    let found = slots.take();
                    assert_eq!(found, least(&flags, 1, 1, 0));
                    take(&mut flags, 1, found);
                }
            }
        }
        check(&slots, &flags);
        while let Some(slot) = slots.take() {
            assert_eq!(least(&flags, 1, 1, 0), Some(slot));
            flags[slot] = true;
        }
        check(&slots, &flags);
        assert_eq!(slots.free(), 0);
    }
}

#[test]
fn memory_is_refused() {
    assert!(Slots::try_new(usize::MAX).is_err());
    let slots = Slots::try_new(70).unwrap();
    assert_eq!(
        format!("{slots:?}"),
        "Slots { taken: Bits { length: 70, ones: {} } }"
    );
}
