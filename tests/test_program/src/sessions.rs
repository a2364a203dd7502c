//! Lines with their replies.

/// The lines of `examples/first.txt`, and the replies that `examples/first.out` has.
pub const FIRST: [(&str, &str); 16] = [
    ("with_capacity 0 10", "ok"),
    ("insert 0 3", "ok"),
    ("put 0 3", "true"),
    ("contains 0 3", "true"),
    ("contains 0 10", "false"),
    ("insert 0 10", "F2 position not below the length"),
    ("insert_range 0 5..", "ok"),
    ("count_ones 0 ..", "6"),
    ("with_capacity 1 70", "ok"),
    ("insert_range 1 ..4", "ok"),
    ("union_count 0 1", "9"),
    ("is_subset 1 0", "false"),
    ("bitand 2 0 1", "ok"),
    ("len 2", "10"),
    ("ones 2 ff", "3 none"),
    ("count_ones 2 5..11", "F3 range not valid"),
];

pub const GROWTH: [(&str, &str); 14] = [
    ("with_capacity 0 64", "ok"),
    ("insert 0 63", "ok"),
    ("grow 0 65", "ok"),
    ("put 0 64", "false"),
    ("contains 0 64", "true"),
    ("contains 0 65", "false"),
    ("toggle 0 63", "ok"),
    ("contains 0 63", "false"),
    ("grow 0 5", "ok"),
    ("len 0", "65"),
    ("grow 0 1000001", "F7 length above the limit"),
    ("remove 16 0", "F1 no such set"),
    ("set 0 65 true", "F2 position not below the length"),
    ("Len 0", "F8 not a command"),
];

pub const MADE_AGAIN: [(&str, &str); 7] = [
    ("with_capacity 15 3", "ok"),
    ("set 15 2 true", "ok"),
    ("set 15 1 false", "ok"),
    ("remove 15 0", "ok"),
    ("contains 15 2", "true"),
    ("with_capacity 15 3", "ok"),
    ("contains 15 2", "false"),
];

pub const WALKS: [(&str, &str); 8] = [
    ("with_capacity 2 131", "ok"),
    ("insert 2 130", "ok"),
    ("insert 2 0", "ok"),
    ("insert 2 64", "ok"),
    ("ones 2 fffff", "0 64 130 none none"),
    ("ones 9 f", "none"),
    ("ones 2", "F8 not a command"),
    ("ones 2 ff", "0 64"),
];

pub const NO_POSITIONS: [(&str, &str); 5] = [
    ("count_ones 0 ..", "0"),
    ("contains_all_in_range 0 ..", "true"),
    ("contains_any_in_range 0 ..", "false"),
    ("range_is_valid 0 0..0", "true"),
    ("range_is_valid 0 ..1", "false"),
];

pub const SET_RANGES: [(&str, &str); 12] = [
    ("with_capacity 1 48", "ok"),
    ("insert_range 1 ..", "ok"),
    ("remove_range 1 ..32", "ok"),
    ("remove_range 1 37..", "ok"),
    ("contains_all_in_range 1 32..37", "true"),
    ("contains_all_in_range 1 32..", "false"),
    ("contains_any_in_range 1 37..", "false"),
    ("set_range 1 5..9 true", "ok"),
    ("set_range 1 40..40 true", "ok"),
    ("ones 1 ffffffffff", "5 6 7 8 32 33 34 35 36 none"),
    ("set_range 1 6..34 false", "ok"),
    ("ones 1 fffff", "5 34 35 36 none"),
];

pub const TOGGLED_RANGES: [(&str, &str); 10] = [
    ("with_capacity 2 192", "ok"),
    ("insert_range 2 63..129", "ok"),
    ("count_ones 2 ..64", "1"),
    ("count_ones 2 64..128", "64"),
    ("count_ones 2 128..", "1"),
    ("count_zeroes 2 ..", "126"),
    ("toggle_range 2 ..", "ok"),
    ("count_zeroes 2 ..", "66"),
    ("remove_range 2 ..", "ok"),
    ("count_ones 2 ..", "0"),
];

/// With `=` a range ends behind its last position; behind the greatest number there is none.
pub const INCLUSIVE_RANGES: [(&str, &str); 19] = [
    ("with_capacity 1 10", "ok"),
    ("insert_range 1 ..", "ok"),
    ("count_ones 1 ..=4", "5"),
    ("count_ones 1 2..=2", "1"),
    ("count_ones 1 3..=2", "0"),
    ("count_ones 1 ..=9", "10"),
    ("count_ones 1 4..=2", "F3 range not valid"),
    ("count_ones 1 ..=10", "F3 range not valid"),
    ("count_ones 1 ..=18446744073709551615", "F3 range not valid"),
    ("range_is_valid 1 0..=18446744073709551615", "false"),
    ("range_is_valid 1 10..=9", "true"),
    ("range_is_valid 1 00..=09", "true"),
    ("remove_range 1 3..=5", "ok"),
    ("set_range 1 ..=0 false", "ok"),
    ("toggle_range 1 5..=6", "ok"),
    ("count_zeroes 1 ..=6", "4"),
    ("contains_all_in_range 1 1..=2", "true"),
    ("contains_any_in_range 1 3..=4", "false"),
    ("ones 1 ffffffff", "1 2 5 7 8 9 none none"),
];

/// No set comes before a range that isn't valid, and a refused command changes nothing.
pub const RANGES_NOT_VALID: [(&str, &str); 14] = [
    ("with_capacity 3 10", "ok"),
    ("count_ones 16 4..2", "F1 no such set"),
    ("count_ones 3 4..2", "F3 range not valid"),
    ("count_zeroes 3 ..11", "F3 range not valid"),
    ("insert_range 3 3..11", "F3 range not valid"),
    ("remove_range 3 11..", "F3 range not valid"),
    (
        "toggle_range 3 ..18446744073709551615",
        "F3 range not valid",
    ),
    ("set_range 3 9..8 true", "F3 range not valid"),
    ("contains_all_in_range 3 0..11", "F3 range not valid"),
    ("contains_any_in_range 3 5..4", "F3 range not valid"),
    ("range_is_valid 3 5..4", "false"),
    ("range_is_valid 3 10..10", "true"),
    ("range_is_valid 16 ..", "F1 no such set"),
    ("count_ones 3 ..", "0"),
];

pub const TWO_SETS: [(&str, &str); 16] = [
    ("with_capacity 0 83", "ok"),
    ("insert_range 0 47..79", "ok"),
    ("with_capacity 1 151", "ok"),
    ("insert_range 1 53..151", "ok"),
    ("union_count 0 1", "104"),
    ("intersection_count 0 1", "26"),
    ("difference_count 0 1", "6"),
    ("symmetric_difference_count 0 1", "78"),
    ("is_disjoint 0 1", "false"),
    ("is_subset 0 1", "false"),
    ("is_superset 0 1", "false"),
    ("bitand 2 0 1", "ok"),
    ("len 2", "83"),
    ("count_ones 2 ..", "26"),
    ("is_subset 2 0", "true"),
    ("is_superset 0 2", "true"),
];

pub const GROWN_BY_A_UNION: [(&str, &str); 11] = [
    ("grow 0 10", "ok"),
    ("insert 0 1", "ok"),
    ("grow 1 300", "ok"),
    ("insert 1 299", "ok"),
    ("union_with 0 1", "ok"),
    ("len 0", "300"),
    ("ones 0 fff", "1 299 none"),
    ("bitor 2 16 0", "F1 no such set"),
    ("bitxor 16 0 0", "F1 no such set"),
    ("union_with 0 16", "F1 no such set"),
    ("is_subset 16 0", "F1 no such set"),
];

pub const WITH_ITSELF: [(&str, &str); 23] = [
    ("grow 3 9", "ok"),
    ("insert 3 1", "ok"),
    ("insert 3 5", "ok"),
    ("bitand 3 3 3", "ok"),
    ("ones 3 fff", "1 5 none"),
    ("bitor 3 3 3", "ok"),
    ("ones 3 fff", "1 5 none"),
    ("union_count 3 3", "2"),
    ("intersection_count 3 3", "2"),
    ("difference_count 3 3", "0"),
    ("symmetric_difference_count 3 3", "0"),
    ("is_subset 3 3", "true"),
    ("is_superset 3 3", "true"),
    ("is_disjoint 3 3", "false"),
    ("eq 3 3", "true"),
    ("cmp 3 3", "equal"),
    ("union 3 3 fbf", "1 5 none"),
    ("intersection 3 3 bfb", "5 1 none"),
    ("difference 3 3 fb", "none none"),
    ("symmetric_difference 3 3 bf", "none none"),
    ("bitxor 3 3 3", "ok"),
    ("len 3", "9"),
    ("ones 3 f", "none"),
];

pub const NO_SUCH_SET: [(&str, &str); 7] = [
    ("with_capacity 16 1000001", "F1 no such set"),
    ("grow 16 1000001", "F1 no such set"),
    ("put 16 0", "F1 no such set"),
    ("put 0 0", "F2 position not below the length"),
    ("len 16", "F1 no such set"),
    ("contains 99 0", "F1 no such set"),
    ("ones 16 f", "F1 no such set"),
];

pub const LIMIT: [(&str, &str); 4] = [
    ("grow 3 1000000", "ok"),
    ("with_capacity 3 1000001", "F7 length above the limit"),
    ("grow 3 18446744073709551615", "F7 length above the limit"),
    ("len 3", "1000000"),
];

pub const LEADING_ZEROS: [(&str, &str); 4] = [
    ("len 00", "0"),
    ("grow 00 0007", "ok"),
    ("len 0", "7"),
    ("grow 0 018446744073709551615", "F7 length above the limit"),
];

/// Each is no command.
pub const NO_COMMANDS: &[&str] = &[
    " len 0",
    "len 0 ",
    "len  0",
    "len\t0",
    "len 0\r",
    "len",
    "len 0 0",
    "LEN 0",
    "insert 0",
    "insert 0 +3",
    "insert 0 -3",
    "insert 0 3x",
    "insert 0 18446744073709551616",
    "insert 0 99999999999999999999999999",
    "set 0 0",
    "set 0 0 True",
    "set 0 0 1",
    "grow 0 1 2",
    "ones 0 x",
    "count_ones 0",
    "count_ones 0 .",
    "count_ones 0 0",
    "count_ones 0 0...1",
    "count_ones 0 ...",
    "count_ones 0 0.. 1",
    "count_ones 0 +0..1",
    "count_ones 0 0..=",
    "count_ones 0 ..=",
    "count_ones 0 ..==1",
    "count_ones 0 ..= 1",
    "count_ones 0 =1",
    "count_ones 0 0=..1",
    "count_ones 0 0.=1",
    "count_ones 0 ..=+1",
    "count_ones 0 ..=1=",
    "count_ones 0 ..=18446744073709551616",
    "count_ones 0 ..18446744073709551616",
    "set_range 0 ..",
    "union_with 0",
    "bitand 0 1",
    "ones 0 fF",
    "ones 0 ",
    "ones 0 f f",
    "new",
    "é 0",
];
