//! What damaged input makes resident. This is the one test of its process, whose memory it reads.
#[path = "../../rust/tests/resident/peak.rs"]
mod peak;
use bincode::{ErrorKind, Options};
use fixedbitset::FixedBitSet;
use peak::stays_below;

const MEBIBYTE: usize = 1 << 20;

/// Eight bytes by bincode that have the positions 0 and 9, with this length.
fn with_length(length: u64) -> [u8; 24] {
    let mut bytes = [0; 24];
    bytes[..8].copy_from_slice(&length.to_le_bytes());
    (bytes[8], bytes[16], bytes[17]) = (8, 1, 2);
    bytes
}

/// The set, where one is read, has the positions below its length.
fn is_right(set: &FixedBitSet) -> bool {
    set.contains(0) != set.is_empty()
        && set.contains(9) == (set.len() > 9)
        && !set.contains(64)
        && !set.contains(set.len() / 2 + 99)
}

#[test]
fn a_claimed_length_makes_no_memory_resident() {
    stays_below(
        64 * MEBIBYTE,
        &[
            ("24 bytes that claim 2^32 positions", &|| {
                let set: FixedBitSet = bincode::deserialize(&with_length(1 << 32)).unwrap();
                assert!(set.len() == 1 << 32 && is_right(&set));
            }),
            ("a bit of a length that is another", &|| {
                for bit in 0..64 {
                    let read = bincode::deserialize::<FixedBitSet>(&with_length(66 ^ (1 << bit)));
                    assert!(read.as_ref().map_or(bit > 31, is_right), "bit {bit}");
                }
            }),
            ("a bit of a count that is another", &|| {
                for bit in 0..64 {
                    let mut bytes = with_length(66);
                    bytes[8 + bit / 8] ^= 1 << (bit % 8);
                    let read = bincode::deserialize::<FixedBitSet>(&bytes);
                    assert_eq!(read.is_ok(), bit == 3, "bit {bit}");
                }
            }),
            ("a reader with a limit, and a claim of 2^32 bytes", &|| {
                let mut bytes = with_length(66);
                bytes[8..16].copy_from_slice(&(1_u64 << 32).to_le_bytes());
                let form = bincode::options()
                    .with_limit(1 << 20)
                    .with_fixint_encoding();
                let read = form.deserialize_from::<_, FixedBitSet>(&bytes[..]);
                assert!(read.is_err_and(|error| matches!(*error, ErrorKind::SizeLimit)));
            }),
            ("JSON that claims 2^32 positions", &|| {
                let set: FixedBitSet =
                    serde_json::from_str(r#"{"length":4294967296,"data":[1,2]}"#).unwrap();
                assert!(set.len() == 1 << 32 && is_right(&set));
            }),
        ],
    );
}
