"""A small project for tools/mutants/check_edits: crates of a few functions, with edits and what has to be said of each."""
import pathlib
import shutil

TOOLS = pathlib.Path(__file__).resolve().parent.parent

SOURCE = """//! A few functions to edit.
#![tactic(auto)]

ghost use Rattle.core.specs.Prelude.{◌≡◌, ◌+◌, ◌<◌, ◌^◌};

const LIMIT: u64 = 10;

/// The number after this one.
pub fn next(number: u64) -> u64
    requires { number < 2 ^ 63 }
    ensures { result ≡ number + 1 }
{
    number + 1
}

/// The number after the next one.
pub fn second(number: u64) -> u64
    requires { number < 2 ^ 62 }
    ensures { result ≡ number + 2 }
{
    next(next(number))
}

/// The number after this one, by another call.
pub fn again(number: u64) -> u64
    requires { number < 2 ^ 62 }
    ensures { result ≡ number + 1 }
{
    next(number)
}

/// Some digit.
pub fn digit() -> u64
    ensures { result < 10 }
{
    7
}

/// Ten.
pub fn limit() -> u64
    ensures { result ≡ 10 }
{
    LIMIT
}

ghost use Rattle.numbers.specs.Sizes.{IsLarge, IsSix, IsSmall};

/// Six.
pub fn six() -> u64
    ensures { IsSix result }
{
    6
}

/// Zero.
pub fn zero() -> u64
    ensures { IsSmall result }
{
    0
}

/// One.
pub fn one() -> u64
    ensures { IsSmall result }
{
    1
}

/// Ten.
pub fn ten() -> u64
    ensures { IsLarge result }
{
    10
}

/// Eleven.
pub fn eleven() -> u64
    ensures { IsLarge result }
{
    11
}
"""
SIZES = """-- Numbers by their size.
use Rattle.core.specs.Prelude.{◌≡◌, ◌+◌, ◌<◌, ℕ}

-- the least number
abbrev pub least : ℕ
least = 6

-- one function rests on it and on what it names
abbrev pub IsSix : ℕ → Type 0
IsSix n = n ≡ least

-- two functions rest on it
abbrev pub IsSmall : ℕ → Type 0
IsSmall n = n < 2

-- and two others on this
abbrev pub IsLarge : ℕ → Type 0
IsLarge n = 9 < n
"""
PART = """//! A part of a number.
#![tactic(auto)]

ghost use Rattle.core.specs.Prelude.{◌≡◌, ◌/◌};

/// The part.
pub fn part(number: u64) -> u64
    ensures { result ≡ number / 2 }
{
    number / 2
}
"""
# Two crates more, each with one such function, and an edit of it: the text for its `2`, the new text, and what has to be said.
PARTS = {
    "halves": ("2", "    number", "refused: src/lib.rt:7: "),
    "thirds": ("3", "    let third = number / 3; third", "NOT REFUSED"),
}
# The edits: a name, the old text, the new text, and what has to be said of it. A text of SIZES is one of its file.
EDITS = [
    ("next-stands", "    number + 1", "    number", "refused: src/lib.rt:9: "),
    ("next-turned_round", "    number + 1", "    1 + number", "NOT REFUSED"),
    ("next-of_no_text", "    number + 2", "    number", "BAD EDIT: a text behind 'old:'"),
    ("second-first", "    next(next(number))", "    next(number)", "refused: src/lib.rt:17: "),
    ("again-harmless", "    next(number)", "    let after = next(number); after", "NOT REFUSED"),
    ("digit-right_by_its_contract", "    7", "    8", "NOT REFUSED"),
    ("limit-eleven", "const LIMIT: u64 = 10;", "const LIMIT: u64 = 11;", "refused: "),
    ("six-five", "least = 6", "least = 5", "refused: src/lib.rt:49: "),
    ("six-of_the_same_meaning", "IsSix n = n ≡ least", "IsSix n = n + 1 ≡ least + 1", "NOT REFUSED"),
    ("six-of_another_sum", "    6", "    5 + 1", "NOT REFUSED"),
    ("one-none_so_small", "IsSmall n = n < 2", "IsSmall n = n < 1", "refused: "),
    ("small-none", "IsSmall n = n < 2", "IsSmall n = n < 0", "refused: "),
    ("ten-of_the_same_meaning", "IsLarge n = 9 < n", "IsLarge n = 9 + 1 < n + 1", "NOT REFUSED"),
]
# Two that stand in a folder of their own: the front end takes no round that has the second.
APART = [EDITS[0], ("next-of_another_name", "    number + 1", "    numbr + 1", "BAD EDIT: src/lib.rt:13:5: error[unknown-name]")]

# Controls of the same form. The last one is wrong.
CONTROLS = [
    ("next-turned_round", "    number + 1", "    1 + number", "proved\n"),
    ("again-local", "    next(number)", "    let after = next(number); after", "proved\n"),
    ("second-first", "    next(next(number))", "    next(number)", "refused: src/lib.rt:17: "),
]
# Goals that edits name: one that is open, one that there is not, and one that is not open.
GOALS = {"next-stands": "returns", "second-first": "nothing", "again-harmless": "returns"}


def write_project(top):
    """Writes a project of a few crates, with the script in it and the edits in a folder of their own, which it answers."""
    write(top / "crates.txt", "numbers:\nhalves:\nthirds:\n")
    write(top / "crates/numbers/src/lib.rt", SOURCE)
    write(top / "crates/numbers/specs/Lib.antt", "pub mod Sizes\n")
    write(top / "crates/numbers/specs/Sizes.antt", SIZES)
    for name, old, new, _ in EDITS:
        file = "specs/Sizes.antt" if old in SIZES else "src/lib.rt"
        write_edit(top / "edits", "numbers", name, file, old, new, GOALS.get(name))
    for name, old, new, _ in APART:
        write_edit(top / "apart", "numbers", name, "src/lib.rt", old, new)
    texts = [f"edit: {name}\nfile: src/lib.rt\nold: {old}\nnew: {new}\n" for name, old, new, _ in CONTROLS]
    write(top / "edits/crates/numbers/controls.edits", "\n".join(texts))
    for name, (divisor, new, _) in PARTS.items():
        write(top / "crates" / name / "src/lib.rt", PART.replace("2", divisor))
        write_edit(top / "edits", name, "part-other", "src/lib.rt", f"    number / {divisor}", new)
    for file in ("calls.py", "kept.py", "mutants/edits", "mutants/turns.py"):
        write(top / "tools" / file, (TOOLS / file).read_text())
    (top / "tools/mutants/edits").chmod(0o755)
    shutil.copytree(TOOLS / "mutants/wrong_bodies", top / "tools/mutants/wrong_bodies")
    return top / "edits"


def write(path, text):
    path.parent.mkdir(parents=True, exist_ok=True)
    path.write_text(text)


def write_edit(edits, crate, name, file, old, new, goal=None):
    text = f"file: {file}\nold: {old}\nnew: {new}\n" + (f"# goal: {goal}\n" if goal else "")
    write(edits / "crates" / crate / "must-fail" / f"{name}.edit", text)
