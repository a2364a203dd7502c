//! The forms of commands, as docs/COMMANDS.md has them.
use std::fmt::{self, Display, Formatter};

/// Each command: its name, and what its arguments stand for.
const FORMS: [&str; 65] = [
    "new d",
    "default d",
    "with_capacity d bits",
    "with_capacity_and_blocks d bits w*",
    "clone d s",
    "clone_from d s",
    "from_iter d i*",
    "from_value d JSON",
    "bitand d a b",
    "bitor d a b",
    "bitxor d a b",
    "len k",
    "is_empty k",
    "is_clear k",
    "is_full k",
    "minimum k",
    "maximum k",
    "as_slice k",
    "contains k p",
    "index k p",
    "text k",
    "to_value k",
    "clear k",
    "grow k bits",
    "grow_and_insert k p",
    "insert k p",
    "remove k p",
    "toggle k p",
    "put k p",
    "set k p e",
    "copy_bit k from to",
    "set_block k index value",
    "extend k i*",
    "count_ones k r",
    "count_zeroes k r",
    "set_range k r e",
    "insert_range k r",
    "remove_range k r",
    "toggle_range k r",
    "contains_all_in_range k r",
    "contains_any_in_range k r",
    "range_is_valid k r",
    "union_with a b",
    "bitor_assign a b",
    "symmetric_difference_with a b",
    "bitxor_assign a b",
    "intersect_with a b",
    "bitand_assign a b",
    "difference_with a b",
    "union_count a b",
    "intersection_count a b",
    "difference_count a b",
    "symmetric_difference_count a b",
    "is_disjoint a b",
    "is_subset a b",
    "is_superset a b",
    "eq a b",
    "cmp a b",
    "ones k ends",
    "into_ones k ends",
    "zeroes k ends",
    "union a b ends",
    "intersection a b ends",
    "difference a b ends",
    "symmetric_difference a b ends",
];

/// The form of one command.
#[derive(Clone, Copy, Debug, PartialEq)]
pub struct Form(&'static str);

/// What an argument has to be.
#[derive(Clone, Copy, Debug, PartialEq)]
pub enum Kind {
    Number,
    Truth,
    Range,
    Ends,
    Json,
}

/// An argument of a form.
#[derive(Clone, Copy, Debug, PartialEq)]
pub struct Argument {
    /// What the form calls it.
    pub name: &'static str,
    pub kind: Kind,
}

impl Form {
    fn name(self) -> &'static str {
        self.0.split(' ').next().unwrap_or_default()
    }

    /// Its arguments, in their order.
    pub fn arguments(self) -> impl Iterator<Item = Argument> {
        self.0.split(' ').skip(1).map(|name| Argument {
            name,
            kind: kind_of(name),
        })
    }

    /// Whether its last argument may be there any number of times.
    pub fn is_open(self) -> bool {
        self.0.ends_with('*')
    }

    pub fn has_json(self) -> bool {
        self.0.ends_with(" JSON")
    }
}

impl Display for Form {
    fn fmt(&self, f: &mut Formatter<'_>) -> fmt::Result {
        f.write_str(self.0)
    }
}

fn kind_of(name: &str) -> Kind {
    match name {
        "e" => Kind::Truth,
        "r" => Kind::Range,
        "ends" => Kind::Ends,
        "JSON" => Kind::Json,
        _ => Kind::Number,
    }
}

/// The form of the command with this name.
pub fn form_of(name: &str) -> Option<Form> {
    FORMS.into_iter().map(Form).find(|it| it.name() == name)
}

/// The command whose name is most like this word: the first that takes the fewest edits.
pub fn nearest(word: &str) -> &'static str {
    let word: Vec<char> = word.to_lowercase().chars().collect();
    FORMS
        .into_iter()
        .map(|it| Form(it).name())
        .min_by_key(|it| edits(&word, it))
        .unwrap_or_default()
}

/// How many characters have to be put in, taken out or replaced to make one word of the other.
fn edits(word: &[char], name: &str) -> usize {
    let mut row: Vec<usize> = (0..=word.len()).collect();
    for (above, letter) in name.chars().enumerate() {
        let mut beside = row[0];
        row[0] = above + 1;
        for at in 0..word.len() {
            let replaced = beside + usize::from(word[at] != letter);
            beside = row[at + 1];
            row[at + 1] = replaced.min(beside + 1).min(row[at] + 1);
        }
    }
    row[word.len()]
}

#[cfg(test)]
mod tests {
    use super::{edits, nearest, FORMS};
    use std::collections::BTreeSet;

    /// The forms in the first column of the tables of commands.
    fn documented() -> BTreeSet<String> {
        let page = include_str!("../../../docs/COMMANDS.md");
        let tables = page.split("\n| Line | Does |").skip(1);
        let rows = tables.flat_map(|it| it.lines().skip(1).take_while(|row| row.starts_with('|')));
        let cells = rows.filter_map(|row| row.split(" | ").next());
        cells
            .flat_map(|cell| cell.split('`').skip(1).step_by(2))
            .map(str::to_owned)
            .collect()
    }

    #[test]
    fn forms_are_those_of_the_page() {
        let forms: BTreeSet<String> = FORMS.into_iter().map(str::to_owned).collect();
        assert_eq!(forms, documented());
        assert_eq!(forms.len(), FORMS.len());
    }

    #[test]
    fn the_nearest_command() {
        for (word, name) in [
            ("inser", "insert"),
            ("INSERT", "insert"),
            ("insrt", "insert"),
            ("count_one", "count_ones"),
            ("contain", "contains"),
            ("union_whit", "union_with"),
            ("symetric_difference", "symmetric_difference"),
            ("lenght", "len"),
            ("cmp", "cmp"),
        ] {
            assert_eq!(nearest(word), name, "{word}");
        }
    }

    #[test]
    fn edits_are_counted() {
        for (one, other, count) in [
            ("", "", 0),
            ("", "len", 3),
            ("len", "len", 0),
            ("kitten", "sitting", 3),
            ("ab", "ba", 2),
        ] {
            let word: Vec<char> = one.chars().collect();
            assert_eq!(edits(&word, other), count, "{one} {other}");
        }
    }
}
