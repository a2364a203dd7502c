//! What a line says: its command, and the arguments by what they are.
use super::json::{self, Value};

/// Each command with its arguments: `k` a set, `p` a position, `b` a length, `x` the place of a word, `v` a word, `i*` positions,
/// `w*` words, `e` a truth value, `r` a range, `ends` letters, `json` all the rest.
pub const FORMS: [(&str, &str); 65] = [
    ("new", "k"),
    ("default", "k"),
    ("with_capacity", "k b"),
    ("with_capacity_and_blocks", "k b w*"),
    ("clone", "k k"),
    ("clone_from", "k k"),
    ("from_iter", "k i*"),
    ("from_value", "k json"),
    ("bitand", "k k k"),
    ("bitor", "k k k"),
    ("bitxor", "k k k"),
    ("len", "k"),
    ("is_empty", "k"),
    ("is_clear", "k"),
    ("is_full", "k"),
    ("minimum", "k"),
    ("maximum", "k"),
    ("as_slice", "k"),
    ("contains", "k p"),
    ("index", "k p"),
    ("text", "k"),
    ("to_value", "k"),
    ("clear", "k"),
    ("grow", "k b"),
    ("grow_and_insert", "k p"),
    ("insert", "k p"),
    ("remove", "k p"),
    ("toggle", "k p"),
    ("put", "k p"),
    ("set", "k p e"),
    ("copy_bit", "k p p"),
    ("set_block", "k x v"),
    ("extend", "k i*"),
    ("count_ones", "k r"),
    ("count_zeroes", "k r"),
    ("set_range", "k r e"),
    ("insert_range", "k r"),
    ("remove_range", "k r"),
    ("toggle_range", "k r"),
    ("contains_all_in_range", "k r"),
    ("contains_any_in_range", "k r"),
    ("range_is_valid", "k r"),
    ("union_with", "k k"),
    ("bitor_assign", "k k"),
    ("symmetric_difference_with", "k k"),
    ("bitxor_assign", "k k"),
    ("intersect_with", "k k"),
    ("bitand_assign", "k k"),
    ("difference_with", "k k"),
    ("union_count", "k k"),
    ("intersection_count", "k k"),
    ("difference_count", "k k"),
    ("symmetric_difference_count", "k k"),
    ("is_disjoint", "k k"),
    ("is_subset", "k k"),
    ("is_superset", "k k"),
    ("eq", "k k"),
    ("cmp", "k k"),
    ("ones", "k ends"),
    ("into_ones", "k ends"),
    ("zeroes", "k ends"),
    ("union", "k k ends"),
    ("intersection", "k k ends"),
    ("difference", "k k ends"),
    ("symmetric_difference", "k k ends"),
];

/// A command with its arguments. What its form has not is empty.
#[derive(Default)]
pub struct Line<'a> {
    pub name: &'a str,
    pub sets: Vec<u64>,
    pub numbers: Vec<u64>,
    pub flag: bool,
    pub start: Option<u64>,
    pub end: Option<u64>,
    pub ends: &'a str,
    pub value: Option<Value>,
}

/// The command that a line is, if it is one.
pub fn read(line: &[u8]) -> Option<Line<'_>> {
    let text = std::str::from_utf8(line).ok()?;
    let (name, mut rest) = first_word(text);
    let (_, form) = FORMS.iter().find(|it| it.0 == name)?;
    let mut found = Line {
        name,
        ..Line::default()
    };
    for argument in form.split(' ') {
        if argument == "json" {
            found.value = Some(json::read(rest.take()?.as_bytes())?);
        } else if argument.ends_with('*') {
            for word in rest.take().iter().flat_map(|it| it.split(' ')) {
                found.numbers.push(number(word)?);
            }
        } else {
            let (word, others) = first_word(rest?);
            take(&mut found, argument, word)?;
            rest = others;
        }
    }
    rest.is_none().then_some(found)
}

/// The text before the first space, and what is behind that, if there is one.
fn first_word(text: &str) -> (&str, Option<&str>) {
    match text.split_once(' ') {
        Some((word, rest)) => (word, Some(rest)),
        None => (text, None),
    }
}

/// Reads one word as this argument.
fn take<'a>(found: &mut Line<'a>, argument: &str, word: &'a str) -> Option<()> {
    match argument {
        "k" => found.sets.push(number(word)?),
        "e" => found.flag = truth(word)?,
        "r" => (found.start, found.end) = range(word)?,
        "ends" => found.ends = ends(word)?,
        _ => found.numbers.push(number(word)?),
    }
    Some(())
}

/// A number of at most 64 bits, by its digits alone.
fn number(word: &str) -> Option<u64> {
    let mut value: u64 = 0;
    for byte in word.bytes() {
        if !byte.is_ascii_digit() {
            return None;
        }
        value = value.checked_mul(10)?.checked_add(u64::from(byte - b'0'))?;
    }
    (!word.is_empty()).then_some(value)
}

fn truth(word: &str) -> Option<bool> {
    match word {
        "true" => Some(true),
        "false" => Some(false),
        _ => None,
    }
}

fn ends(word: &str) -> Option<&str> {
    (!word.is_empty() && word.bytes().all(|it| it == b'f' || it == b'b')).then_some(word)
}

/// Nothing, or a number.
fn bound(word: &str) -> Option<Option<u64>> {
    if word.is_empty() {
        Some(None)
    } else {
        number(word).map(Some)
    }
}

/// The start and the end of a range, where they are named. The end is the position behind the last one.
fn range(word: &str) -> Option<(Option<u64>, Option<u64>)> {
    let (start, rest) = word.split_once("..")?;
    let end = match rest.strip_prefix('=') {
        Some(last) => Some(number(last)?.saturating_add(1)),
        None => bound(rest)?,
    };
    Some((bound(start)?, end))
}
