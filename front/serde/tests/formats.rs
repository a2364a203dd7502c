//! Sets in forms other than JSON: bincode beside the bytes that upstream's crate writes, and what a format is told and tells.
use bincode::{deserialize, deserialize_from, serialize};
use fixedbitset::FixedBitSet;
use serde_test::{assert_de_tokens, assert_de_tokens_error, assert_tokens, Token};

/// A length, positions, and the bytes of the words.
type Row = (usize, &'static [usize], &'static [u8]);

/// Their bytes are those that upstream's crate, version 0.5.7, writes on a machine of 64 bits.
#[rustfmt::skip]
const ROWS: [Row; 5] = [
    (0, &[], &[]),
    (1, &[0], &[1, 0, 0, 0, 0, 0, 0, 0]),
    (10, &[3, 9], &[8, 2, 0, 0, 0, 0, 0, 0]),
    (66, &[0, 9, 65], &[1, 2, 0, 0, 0, 0, 0, 0, 2, 0, 0, 0, 0, 0, 0, 0]),
    (130, &[1, 64, 129], &[2, 0, 0, 0, 0, 0, 0, 0, 1, 0, 0, 0, 0, 0, 0, 0, 2, 0, 0, 0, 0, 0, 0, 0]),
];

/// The same by a machine of 32 bits, whose words have four bytes, and by a writer that leaves zeros out.
const SHORTER: [Row; 4] = [
    (10, &[3, 9], &[8, 2, 0, 0]),
    (10, &[3, 9], &[8, 2]),
    (66, &[0, 9, 65], &[1, 2, 0, 0, 0, 0, 0, 0, 2, 0, 0, 0]),
    (300, &[], &[]),
];

fn set_of((length, positions, _): Row) -> FixedBitSet {
    let mut set = FixedBitSet::with_capacity(length);
    set.insert_all(positions);
    set
}

/// The form of bincode: the length and the count of bytes in eight bytes each, least first, and the bytes.
fn written(length: u64, data: &[u8]) -> Vec<u8> {
    let count = data.len() as u64;
    [&length.to_le_bytes(), &count.to_le_bytes(), data].concat()
}

#[test]
fn bincode_writes_and_reads_the_bytes_of_upstream() {
    assert_eq!(
        serialize(&set_of(ROWS[2])).unwrap(),
        [10, 0, 0, 0, 0, 0, 0, 0, 8, 0, 0, 0, 0, 0, 0, 0, 8, 2, 0, 0, 0, 0, 0, 0]
    );
    for row in ROWS {
        let bytes = written(row.0 as u64, row.2);
        assert_eq!(serialize(&set_of(row)).unwrap(), bytes);
        assert_eq!(deserialize::<FixedBitSet>(&bytes).unwrap(), set_of(row));
        assert_eq!(
            deserialize_from::<_, FixedBitSet>(&bytes[..]).unwrap(),
            set_of(row)
        );
    }
}

#[test]
fn bytes_that_are_missing_are_zeros() {
    for row in SHORTER {
        let bytes = written(row.0 as u64, row.2);
        assert_eq!(deserialize::<FixedBitSet>(&bytes).unwrap(), set_of(row));
    }
}

#[test]
fn bincode_that_ends_early_or_claims_too_much_is_an_error() {
    let bytes = written(66, ROWS[3].2);
    for end in 0..bytes.len() {
        assert!(
            deserialize::<FixedBitSet>(&bytes[..end]).is_err(),
            "{end} bytes"
        );
    }
    for length in [u64::MAX, u64::MAX - 255, 1 << 63, 1 << 60, 1 << 50] {
        assert!(
            deserialize::<FixedBitSet>(&written(length, &[1])).is_err(),
            "{length}"
        );
    }
}

/// The struct with these parts, by its name and the names of its fields.
fn tokens(name: &'static str, fields: [Token; 2], length: u64, data: Token) -> [Token; 6] {
    [
        Token::Struct { name, len: 2 },
        fields[0],
        Token::U64(length),
        fields[1],
        data,
        Token::StructEnd,
    ]
}

const NAMES: [Token; 2] = [Token::Str("length"), Token::Str("data")];

#[test]
fn a_format_is_told_the_names_of_upstream_in_its_order() {
    for row in ROWS {
        assert_tokens(
            &set_of(row),
            &tokens("FixedBitset", NAMES, row.0 as u64, Token::Bytes(row.2)),
        );
    }
}

#[test]
fn bytes_are_read_lent_given_or_as_a_list() {
    for row in ROWS.iter().chain(&SHORTER) {
        let (length, set) = (row.0 as u64, set_of(*row));
        for data in [
            Token::Bytes(row.2),
            Token::BorrowedBytes(row.2),
            Token::ByteBuf(row.2),
        ] {
            assert_de_tokens(&set, &tokens("FixedBitset", NAMES, length, data));
            assert_de_tokens(
                &set,
                &tokens("FixedBitset", [Token::U64(0), Token::U64(1)], length, data),
            );
            assert_de_tokens(
                &set,
                &[
                    Token::Seq { len: None },
                    Token::U64(length),
                    data,
                    Token::SeqEnd,
                ],
            );
        }
        // What a list claims to be long is not believed.
        for len in [None, Some(0), Some(usize::MAX)] {
            let bytes = row.2.iter().map(|&byte| Token::U8(byte));
            let start = [
                Token::Seq { len: None },
                Token::U64(length),
                Token::Seq { len },
            ];
            let list: Vec<_> = start
                .into_iter()
                .chain(bytes)
                .chain([Token::SeqEnd, Token::SeqEnd])
                .collect();
            assert_de_tokens(&set, &list);
        }
    }
}

#[test]
fn damaged_parts_are_errors() {
    let none = Token::Bytes(&[]);
    for (parts, error) in [
        (
            tokens("FixedBitset", NAMES, u64::MAX, none),
            "no memory holds a set of this length",
        ),
        (
            tokens("FixedBitset", [NAMES[0], NAMES[0]], 1, none),
            "duplicate field `length`",
        ),
        (
            tokens("FixedBitset", [NAMES[0], Token::Str("Data")], 1, none),
            "unknown field `Data`, expected `length` or `data`",
        ),
        (
            tokens("FixedBitset", [NAMES[0], Token::U64(2)], 1, none),
            "there are two fields",
        ),
    ] {
        assert_de_tokens_error::<FixedBitSet>(
            &parts[..if error.starts_with("no") { 6 } else { 4 }],
            error,
        );
    }
}
