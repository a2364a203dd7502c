//! Random numbers, and lines of commands made by them.
use super::lines::FORMS;
use super::{spaced, Model};

/// Random numbers from a number on, by splitmix64.
pub struct Chance(pub u64);

impl Chance {
    pub fn number(&mut self) -> u64 {
        self.0 = self.0.wrapping_add(0x9e37_79b9_7f4a_7c15);
        let first = (self.0 ^ (self.0 >> 30)).wrapping_mul(0xbf58_476d_1ce4_e5b9);
        let second = (first ^ (first >> 27)).wrapping_mul(0x94d0_49bb_1331_11eb);
        second ^ (second >> 31)
    }

    /// A number below the end, which is above 0.
    pub fn below(&mut self, end: usize) -> usize {
        (self.number() % end as u64) as usize
    }

    /// True once in as many times.
    pub fn once_in(&mut self, times: usize) -> bool {
        self.below(times) == 0
    }

    pub fn one_of<T: Copy>(&mut self, items: &[T]) -> T {
        items[self.below(items.len())]
    }
}

/// The number that a variable of the environment names, if it names one.
pub fn named(variable: &str) -> Option<u64> {
    std::env::var(variable).ok().map(|it| {
        it.parse()
            .unwrap_or_else(|_| panic!("{variable} is no number: {it}"))
    })
}

/// The number that they start from: that of BITS_START, or one from the clock.
pub fn start() -> u64 {
    let now = || {
        std::time::SystemTime::now()
            .duration_since(std::time::UNIX_EPOCH)
            .expect("a clock behind 1970")
            .as_nanos()
    };
    named("BITS_START").unwrap_or_else(|| now() as u64)
}

/// A line for sets as the model has them: most are commands that can be carried out.
pub fn line(chance: &mut Chance, model: &Model) -> Vec<u8> {
    let (name, form) = chance.one_of(&FORMS);
    let mut found = name.to_string();
    let mut length = 0;
    for letter in form.split(' ') {
        let text = argument(chance, letter, length);
        if letter == "k" {
            let number = text.parse().unwrap_or(usize::MAX);
            length = model.sets.get(number).map_or(0, Vec::len);
        }
        if !(text.is_empty() && letter.ends_with('*')) {
            found = found + " " + &text;
        }
    }
    if chance.once_in(40) {
        found = with_zeros(chance, &found);
    }
    if chance.once_in(14) {
        return broken(chance, found.into_bytes());
    }
    found.into_bytes()
}

/// An argument by its letter, for a set of this length.
fn argument(chance: &mut Chance, letter: &str, length: usize) -> String {
    match letter {
        "k" => set(chance).to_string(),
        "b" => self::length(chance).to_string(),
        "p" => position(chance, length).to_string(),
        "x" if chance.once_in(20) => greatest(chance).to_string(),
        "x" => chance.below(length / 64 + 2).to_string(),
        "v" => word(chance).to_string(),
        "i*" => list(chance, |it| position(it, length + 70)),
        "w*" => list(chance, word),
        "e" => chance.one_of(&["true", "false"]).to_string(),
        "r" => range(chance, length),
        "ends" => (0..=chance.below(12))
            .map(|_| chance.one_of(&['f', 'b']))
            .collect(),
        _ => json(chance),
    }
}

/// The number of a set. Most are the first few, so that commands meet.
fn set(chance: &mut Chance) -> u64 {
    match chance.below(100) {
        0 => chance.one_of(&[16, 17, 255, 1 << 32, u64::MAX]),
        1..=9 => chance.below(16) as u64,
        _ => chance.below(4) as u64,
    }
}

/// A length: around multiples of 64 and 256, small, and now and then near the limit or past it.
fn length(chance: &mut Chance) -> u64 {
    let near = chance.below(3) as u64;
    match chance.below(9000) {
        0..=1 => 999_998 + near,
        2..=40 => 1_000_001 + chance.below(3) as u64,
        41..=80 => greatest(chance),
        81..=200 => (256 * (1 + chance.below(20)) as u64 + near) - 1,
        201..=2500 => (64 * (1 + chance.below(10)) as u64 + near) - 1,
        2501..=4500 => (256 * (1 + chance.below(4)) as u64 + near) - 1,
        4501..=6500 => chance.below(700) as u64,
        _ => chance.below(90) as u64,
    }
}

/// A number that is too great for most that is asked.
fn greatest(chance: &mut Chance) -> u64 {
    let number = chance.one_of(&[
        1_000_000,
        1 << 31,
        1 << 32,
        (1 << 32) + 1,
        1 << 58,
        1 << 63,
        u64::MAX - 63,
        u64::MAX - 1,
        u64::MAX,
    ]);
    number - u64::from(chance.once_in(4))
}

/// A position, for a set of this length.
fn position(chance: &mut Chance, length: usize) -> u64 {
    match chance.below(200) {
        0 => greatest(chance),
        1 => u64::MAX,
        2..=20 => (length + chance.below(3)) as u64,
        21..=40 => (length as u64).saturating_sub(1 + chance.below(2) as u64),
        41..=70 => (64 * chance.below(length / 64 + 1) + chance.below(2)) as u64,
        _ => chance.below(length + 1) as u64,
    }
}

fn word(chance: &mut Chance) -> u64 {
    let number = chance.number();
    chance.one_of(&[
        0,
        1,
        u64::MAX,
        1 << 63,
        number,
        number,
        number >> 1 & number,
        number & 255,
    ])
}

fn list(chance: &mut Chance, item: impl Fn(&mut Chance) -> u64) -> String {
    let count = chance.one_of(&[0, 1, 1, 2, 3, 5, 9]);
    spaced((0..count).map(|_| item(chance)))
}

/// A range, for a set of this length. Most are valid.
fn range(chance: &mut Chance, length: usize) -> String {
    let (a, b) = (position(chance, length), position(chance, length));
    let (start, end) = if chance.once_in(12) {
        (a, b)
    } else {
        (a.min(b), a.max(b))
    };
    match chance.below(8) {
        0 => "..".to_string(),
        1 => format!("{start}.."),
        2 => format!("..{end}"),
        3 => format!("..={end}"),
        4 => format!("{start}..={end}"),
        _ => format!("{start}..{end}"),
    }
}

/// The line with zeros in front of its last digits.
fn with_zeros(chance: &mut Chance, line: &str) -> String {
    let digits = line.len() - line.trim_end_matches(|it: char| it.is_ascii_digit()).len();
    let (front, back) = line.split_at(line.len() - digits);
    front.to_string() + &"0".repeat(chance.below(30)) + back
}

/// The line with one fault, which most often is no command then.
fn broken(chance: &mut Chance, mut line: Vec<u8>) -> Vec<u8> {
    let at = chance.below(line.len() + 1);
    let space = line.iter().position(|it| *it == b' ').unwrap_or(0);
    match chance.below(12) {
        0 => line.insert(space, b' '),
        1 => line.push(chance.one_of(b" \r\t\0")),
        2 => line.insert(0, b' '),
        3 => line[space] = b'\t',
        4 => line[0].make_ascii_uppercase(),
        5 => line.truncate(at),
        6 => line.extend(b" 1"),
        7 => line.insert(
            at,
            chance.one_of(&[0, 9, 11, 13, 31, 33, 46, 61, 127, 128, 195, 255]),
        ),
        8 => drop(line.drain(at..line.len().min(at + 1))),
        9 => line.splice(at..at, [0xc3, 0xa9]).for_each(drop),
        10 => line.extend(b"184467440737095516160"),
        _ => line.clear(),
    }
    line
}

/// A text of JSON behind `from_value`: most often one in the form, or near it.
pub fn json(chance: &mut Chance) -> String {
    if chance.once_in(12) {
        return value(chance, 0);
    }
    let length = if chance.once_in(12) {
        value(chance, 3)
    } else {
        self::length(chance).to_string()
    };
    let data = data(chance);
    let mut members = vec![format!("\"length\":{length}"), format!("\"data\":{data}")];
    if chance.once_in(2) {
        members.reverse();
    }
    match chance.below(20) {
        0 => {
            let name = chance.one_of(&["data", "length", "Length", "", "\\u0064ata"]);
            members.push(format!("\"{name}\":{}", value(chance, 2)));
        }
        1 => drop(members.pop()),
        2 => {
            members[0] = members[0]
                .replacen("\"l", "\"\\u006c", 1)
                .replacen("\"d", "\"\\u0064", 1)
        }
        3..=6 => return with_spaces(chance, &format!("[{length},{data}]")),
        _ => {}
    }
    with_spaces(chance, &format!("{{{}}}", members.join(",")))
}

/// The bytes of a set, most of them right.
fn data(chance: &mut Chance) -> String {
    if chance.once_in(20) {
        return value(chance, 3);
    }
    let count = if chance.once_in(300) {
        1000
    } else {
        chance.below(24)
    };
    let byte = |_| {
        if chance.once_in(120) {
            value(chance, 3)
        } else {
            chance.below(256).to_string()
        }
    };
    format!("[{}]", (0..count).map(byte).collect::<Vec<_>>().join(","))
}

/// The text with spaces around some of its signs.
fn with_spaces(chance: &mut Chance, text: &str) -> String {
    let times = if chance.once_in(3) { 4 } else { 1 << 30 };
    let mut found = String::new();
    for letter in text.chars() {
        if ",:[]{}".contains(letter) && chance.once_in(times) {
            found += chance.one_of(&[" ", "  ", "\t", "\r", " \t "]);
        }
        found.push(letter);
    }
    found
}

/// Values, valid or nearly so.
const VALUES: &str = r#"0 255 256 -1 -0 3.0 1e2 0.5e-3 01 1. .5 +1 1e 1e400 1e-400 0e999 -1e400 18446744073709551615
    18446744073709551616 18446744073709551616.5 99999999999999999999999 null true false nul "" "data" "\n\u00e9\ud83d\ude00"
    "\ud800" "\udc00" "\x" "é" "a [] {} [,] [1,] {"a"} {"a":1,} {a:1} 'a' NaN"#;

/// Any value, valid or nearly so.
fn value(chance: &mut Chance, depth: usize) -> String {
    if depth < 3 && chance.once_in(2) {
        let items: Vec<String> = (0..chance.below(4))
            .map(|_| value(chance, depth + 1))
            .collect();
        if chance.once_in(2) {
            return format!("[{}]", items.join(","));
        }
        let member = |it: String| format!("\"{}\":{it}", chance.one_of(&["length", "data", "a"]));
        let members: Vec<String> = items.into_iter().map(member).collect();
        return format!("{{{}}}", members.join(","));
    }
    match chance.below(40) {
        0 => "[".repeat(126 + depth) + &"]".repeat(126 + depth),
        1 => "{\"a\":".repeat(127 - depth) + "1" + &"}".repeat(127 - depth),
        2 => "[".repeat(100_000),
        3 => "1".repeat(1 + chance.below(320)),
        4 => chance.number().to_string(),
        5 => String::new(),
        _ => {
            let values: Vec<&str> = VALUES.split_whitespace().collect();
            chance.one_of(&values).to_string()
        }
    }
}
