//! Lines that walk over sets, with their replies.

/// From both ends; the walk may take the set, and then an empty one of length 0 is left.
pub const BOTH_ENDS: [(&str, &str); 20] = [
    ("with_capacity 1 10", "ok"),
    ("insert 1 2", "ok"),
    ("insert 1 3", "ok"),
    ("insert 1 6", "ok"),
    ("insert 1 8", "ok"),
    ("into_ones 1 bfb", "8 2 6"),
    ("len 1", "0"),
    ("ones 1 f", "none"),
    ("into_ones 1 bf", "none none"),
    ("into_ones 16 f", "F1 no such set"),
    ("with_capacity 4 64", "ok"),
    ("insert 4 5", "ok"),
    ("ones 4 bf", "5 none"),
    ("with_capacity 5 131", "ok"),
    ("insert 5 0", "ok"),
    ("insert_range 5 63..65", "ok"),
    ("insert 5 130", "ok"),
    ("ones 5 bfbffb", "130 0 64 63 none none"),
    ("ones 5 fffff", "0 63 64 130 none"),
    ("ones 9 b", "none"),
];

/// No zero is past the length or at a position that is set, also at the edges of words and from the back.
pub const ZEROES_FROM_BOTH_ENDS: [(&str, &str); 20] = [
    ("with_capacity 2 3", "ok"),
    ("insert 2 1", "ok"),
    ("zeroes 2 bfb", "2 0 none"),
    ("zeroes 2 ffbb", "0 2 none none"),
    ("with_capacity 3 131", "ok"),
    ("insert 3 0", "ok"),
    ("insert_range 3 63..=64", "ok"),
    ("insert 3 130", "ok"),
    ("zeroes 3 bfbf", "129 1 128 2"),
    ("with_capacity 4 70", "ok"),
    ("insert_range 4 64..=69", "ok"),
    ("zeroes 4 b", "63"),
    ("zeroes 4 bb", "63 62"),
    ("with_capacity 5 0", "ok"),
    ("zeroes 5 bf", "none none"),
    ("with_capacity 6 128", "ok"),
    ("zeroes 6 bfb", "127 0 126"),
    ("insert_range 6 1..=127", "ok"),
    ("zeroes 6 bbf", "0 none none"),
    ("zeroes 16 b", "F1 no such set"),
];

/// Where each position below the length is set there is no zero, also in the last word.
pub const ZEROES: [(&str, &str); 14] = [
    ("with_capacity 2 64", "ok"),
    ("insert_range 2 ..", "ok"),
    ("zeroes 2 ff", "none none"),
    ("with_capacity 3 65", "ok"),
    ("insert_range 3 ..64", "ok"),
    ("zeroes 3 ff", "64 none"),
    ("with_capacity 4 10", "ok"),
    ("insert_range 4 1..8", "ok"),
    ("zeroes 4 ffff", "0 8 9 none"),
    ("zeroes 5 f", "none"),
    ("zeroes 16 f", "F1 no such set"),
    ("with_capacity 6 3", "ok"),
    ("insert 6 1", "ok"),
    ("zeroes 6 ffff", "0 2 none none"),
];

/// The letters are `f` and `b`, at least one.
pub const NO_WALKS: [(&str, &str); 15] = [
    ("with_capacity 1 3", "ok"),
    ("insert 1 1", "ok"),
    ("zeroes 1 fb", "0 2"),
    ("zeroes 1 fbx", "F8 not a command"),
    ("zeroes 1 2", "F8 not a command"),
    ("zeroes 1", "F8 not a command"),
    ("ones 1", "F8 not a command"),
    ("ones 1 fx", "F8 not a command"),
    ("into_ones 1", "F8 not a command"),
    ("into_ones 1 f f", "F8 not a command"),
    ("union 1 f", "F8 not a command"),
    ("union 1 1", "F8 not a command"),
    ("difference 1 1 fB", "F8 not a command"),
    ("intersection 1 1 f b", "F8 not a command"),
    ("ones 1 fb", "1 none"),
];

/// The first set, and then the second without it; from the back the other way round.
pub const JOINED: [(&str, &str); 24] = [
    ("with_capacity 0 6", "ok"),
    ("insert 0 5", "ok"),
    ("with_capacity 1 6", "ok"),
    ("insert 1 1", "ok"),
    ("insert 1 5", "ok"),
    ("union 0 1 fff", "5 1 none"),
    ("union 0 1 bbb", "1 5 none"),
    ("union 1 0 ffb", "1 5 none"),
    ("with_capacity 2 6", "ok"),
    ("insert 2 0", "ok"),
    ("insert 2 5", "ok"),
    ("symmetric_difference 1 2 fff", "1 0 none"),
    ("symmetric_difference 1 2 bbb", "0 1 none"),
    ("intersection 1 2 ff", "5 none"),
    ("difference 1 2 bf", "1 none"),
    ("with_capacity 3 200", "ok"),
    ("insert 3 150", "ok"),
    ("with_capacity 4 10", "ok"),
    ("difference 3 4 ff", "150 none"),
    ("difference 4 3 f", "none"),
    ("union 16 0 f", "F1 no such set"),
    ("intersection 0 16 f", "F1 no such set"),
    ("difference 16 16 f", "F1 no such set"),
    ("symmetric_difference 0 16 b", "F1 no such set"),
];

/// Two sets of unlike lengths: the first and the last items of each walk.
pub const UNLIKE_LENGTHS: [(&str, &str); 20] = [
    ("with_capacity 0 173", "ok"),
    ("insert_range 0 139..173", "ok"),
    ("with_capacity 1 137", "ok"),
    ("insert_range 1 ..107", "ok"),
    ("union 0 1 ffbb", "139 140 106 105"),
    ("union_count 0 1", "141"),
    ("with_capacity 2 109", "ok"),
    ("insert_range 2 ..59", "ok"),
    ("with_capacity 3 109", "ok"),
    ("insert_range 3 23..109", "ok"),
    ("intersection 2 3 ffbb", "23 24 58 57"),
    ("with_capacity 4 83", "ok"),
    ("insert_range 4 ..79", "ok"),
    ("with_capacity 5 151", "ok"),
    ("insert_range 5 53..151", "ok"),
    ("difference 4 5 ffbb", "0 1 52 51"),
    ("remove_range 4 ..47", "ok"),
    (
        "symmetric_difference 4 5 ffffffff",
        "47 48 49 50 51 52 79 80",
    ),
    ("symmetric_difference 4 5 bb", "150 149"),
    ("symmetric_difference 5 4 fb", "79 52"),
];

/// A set named twice is as two equal sets.
pub const SAME_SET_TWICE: [(&str, &str); 8] = [
    ("with_capacity 7 9", "ok"),
    ("insert 7 1", "ok"),
    ("insert 7 5", "ok"),
    ("union 7 7 ffb", "1 5 none"),
    ("intersection 7 7 bff", "5 1 none"),
    ("difference 7 7 fb", "none none"),
    ("symmetric_difference 7 7 bf", "none none"),
    ("ones 7 ff", "1 5"),
];
