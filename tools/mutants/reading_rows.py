"""Rows of tools/mutants/check_edits on how Rattle is read."""
from wrong_bodies import rattle

SAMPLE = """//! A sample.

const LIMIT: u64 = 10;

/// One.
#[inline(always)]
#[tactic(auto)]
pub fn one(number: u64) -> u64
    ensures { result ≡ 1 }
{
    1
}

impl<'a, T: Copy> Cursor<'a, T> {
    pub(crate) fn new(words: &'a [T]) -> Cursor<'a, T> {
        Cursor { words }
    }
}

impl<'a, T: Copy> iter::Iterator for Cursor<'a, T> {
    const SIZE: usize = 1;

    fn next(&mut self) -> Option<T>
        ensures {
            result ≡ None
        }
    {
        if true {
            None
        }
    }
}

impl Steps for &Row {
    fn drop(&mut self) {
    }
}

pub trait Step {
    fn step(&self) -> u64;

    fn twice(&self) -> u64 {
        2
    }
}

fn again(number: u64) -> u64 {
    again(number)
}

fn main() {
    one(1)
}
"""
# Each function: its symbol in the file src/part.rt, the type whose own `impl` has it, whether it may have another name, the
# first line and the last with those of its attributes, and the lines of a body for which another may stand.
FUNCTIONS = [
    ("part::one", None, True, "6-12", ["    1"]),
    ("Cursor::new", "Cursor", True, "15-17", ["        Cursor { words }"]),
    ("CursorIterator::SIZE", None, False, "21-21", []),
    ("CursorIterator::next", None, False, "23-31", ["        if true {", "            None", "        }"]),
    ("RefRowSteps::drop", None, False, "35-36", []),
    ("Step::step", None, False, "40-40", []),
    ("Step::twice", None, False, "42-44", []),
    ("part::again", None, False, "47-49", []),
    ("part::main", None, False, "51-53", []),
]
# The headings of an `impl` as a check spells them.
HEADINGS = {
    "Cursor<'a> {": "Cursor",
    "<T: WordOp> Cursor<'a, T> {": "Cursor",
    "<'a> Iterator for Cursor<'a> {": "CursorIterator",
    "<T: Drop> From<AllocFailed<T>> for Fault {": "FaultFromAllocFailed",
    "IndexRange for RangeInclusive<usize> {": "RangeInclusiveUsizeIndexRange",
    "fmt::Debug for &Row {": "RefRowDebug",
}
DEFINITIONS = """use Rattle.std.specs.Prelude.{ℕ}

-- one
abbrev pub one : ℕ
one = 1

pub record Pair where
  pub left : ℕ
  right : ℕ
"""
# The definition that has each line of these.
OF_LINES = [None, None, None, "one", "one", "one", "Pair", "Pair", "Pair", "Pair"]
TEXTS = {
    "comments and empty lines go": ("src/lib.rt", "//! A.\n\nfn a() {} // b\n    /// C.\n", "fn a() {} // b"),
    "so do those of definitions": ("specs/A.antt", "-- one\n\none = 1 -- two\n-->◌ = 1\n", "one = 1 -- two\n-->◌ = 1"),
    "all stay where a quoted text goes on": ("src/lib.rt", '// A.\nlet a = "b\n// c";\n', '// A.\nlet a = "b\n// c";\n'),
    "all stay where a comment may go on": ("src/lib.rt", "// A.\n/* b\n// c */\n", "// A.\n/* b\n// c */\n"),
}


def check_reading(counts):
    found, lines = [], SAMPLE.split("\n")
    for it in rattle.functions_of("src/part.rt", SAMPLE):
        extent = f"{it.lines.start}-{it.lines.stop - 1}"
        found.append((it.symbol, it.owner, it.is_plain, extent, [lines[number] for number in it.body]))
    for wanted, it in zip(FUNCTIONS, found):
        counts.compare(f"{wanted[0]} is read", it, wanted)
    counts.compare("all functions are read", len(found), len(FUNCTIONS))
    counts.compare("headings are read", {it: rattle.symbol_of_impl(it) for it in HEADINGS}, HEADINGS)
    definitions = DEFINITIONS.split("\n")
    counts.compare("definitions are read", [rattle.definition_with(definitions, it) for it in range(len(definitions))], OF_LINES)
    for name, (path, text, wanted) in TEXTS.items():
        counts.compare(name, rattle.without_comments(path, text), wanted)
