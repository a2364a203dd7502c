//! What long sets make resident. This is the one test of its process, whose memory it reads.
mod peak;
use fixedbitset::FixedBitSet;
use peak::{peak, stays_below};

/// A length whose words take 512 MiB, or half of that where a `usize` has 32 bits.
const LONG: usize = 1 << (31 + usize::BITS / 64);
const MEBIBYTE: usize = 1 << 20;

#[test]
fn a_word_that_is_not_written_takes_no_memory() {
    stays_below(
        64 * MEBIBYTE,
        &[
            ("with_capacity", &|| {
                let mut set = FixedBitSet::with_capacity(LONG);
                set.insert(LONG - 1);
                assert!(set.len() == LONG && set.contains(LONG - 1) && !set.contains(LONG / 2));
            }),
            ("with_capacity_and_blocks", &|| {
                let set = FixedBitSet::with_capacity_and_blocks(LONG, [5, 6]);
                assert!(set.len() == LONG && set.contains(2) && !set.contains(LONG - 1));
            }),
            ("from_bytes", &|| {
                let set = FixedBitSet::from_bytes(LONG, &[255; 9]);
                assert!(set.len() == LONG && set.contains(71) && !set.contains(72));
            }),
        ],
    );
    // The reading tells memory that is written.
    let (before, written) = (peak(), vec![1_u8; 128 * MEBIBYTE]);
    assert_eq!(std::hint::black_box(&written).last(), Some(&1));
    assert!(peak() >= before.map(|bytes| bytes + 32 * MEBIBYTE));
}
