"""The random calls of `differ` that front/calls makes: each call of a set by its signature, where what it requires holds."""
import re

from calls_source import refuse
from calls_tests import FIRST, WALK

HEAD = FIRST.replace(" and front/calls.toml", "") + """// Each call of a set that takes and returns what both sides have, on a set by other sets, where what it requires holds.

type Calls = &'static [fn(&mut World, &mut FixedBitSet, &FixedBitSet, &FixedBitSet)];

#[rustfmt::skip]
const MADE: Calls = &[
"""
# The calls that world.rs has by hand, or not: they make a set, or take or return what a side does not have.
BY_HAND = {
    "with_capacity", "with_capacity_and_blocks", "clone_from", "from_bits", "as_slice", "len", "is_empty", "slice", "from_bytes", "to_bytes",
    "into_ones", "extend", "from_iter",
}
# What a parameter is given, by its name or its type: numbers near the length, or past it.
VALUES = {
    "bits": "w.length()", "count": "w.near(s.len() / 4)", "align": "w.near(9)", "width": "w.below(65).min(s.len().saturating_sub(start))",
    "usize": "w.near(s.len())", "bool": "w.below(2) == 1", "value: Block": "w.block()",
    "number: Block": "w.block() as u64", "&[usize]": "w.numbers(s.len())", "&mut [bool]": "vec![false; positions.len()]",
}
# What it is given instead, by a clause.
FITTING = {
    ("index < model.words_needed self.length",): ("index", "w.near(s.len().div_ceil(64))"),
    ("All (λ p. p < self.length) positions",): ("positions", "w.positions(s.len())"),
}
OTHERS = {"Bits<'_>", "Bits<'a>", "&Self"}
# What a call may be made on, by what it requires. (A set that grows does not grow without an end.)
ASKED = {
    ("bit < self.length",): "bit < s.len()",
    ("to < self.length",): "to < s.len()",
    ("All (λ p. p < self.length) positions",): "positions.iter().all(|it| *it < s.len())",
    ("index < model.words_needed self.length",): "index < s.len().div_ceil(64)",
    ("IsTrue (is_valid (value self) start end)",): "",
    ("start ≤ end", "end ≤ other.length"): "",
    ("at + (end - start) ≤ self.length",): "at <= s.len() && end - start <= s.len() - at",
    ("width ≤ 64", "start + width ≤ self.length"): "start + width <= s.len()",
    ("prelude.length positions ≡ prelude.length answers",): "",
    ("self.length + other.length < 2 ^ 64",): "s.len() + t.len() < 100_000",
    ("bits < 2 ^ 64 - 1",): "bits < 100_000",
}
# How a result is said, by its type.
SAID = {
    "": "{made};", "bool": "let told = {made}; w.say(told as u64);", "usize": "let told = {made}; w.say(told as u64);",
    "Block": "let told = {made}; w.say(told);", "Option<usize>": "let told = {made}; w.say_if(told);",
    "Result<(), AllocError>": "{made};", "Result<bool, AllocError>": "let told = {made}; w.say(told as u64);", "Runs<'a>": "w.walk_pairs({made});",
}


def given(method):
    """The lines that choose what a call is given, and the words of its parameters."""
    lines, words, sets = [], [], ["t", "u"]
    fitting = dict(FITTING[form] for form in method.forms if form in FITTING)
    for name, kind in method.pairs:
        if name == "range":
            of = "t" if ("start ≤ end", "end ≤ other.length") in method.forms else "s"
            lines.append(f"let (start, end) = w.range({of}.len());")
            words.append("start..end")
        elif kind in OTHERS and sets:
            words.append(sets.pop(0))
        elif kind == "usize" and name in VALUES or kind in VALUES:
            is_list, is_written = kind.startswith("&"), kind.startswith("&mut")
            value = fitting.get(name) or VALUES[name if kind == "usize" and name in VALUES else kind]
            lines.append(f"let {'mut ' * is_written}{name} = {value};")
            words.append(f"&{'mut ' * is_written}{name}" if is_list else name)
        else:
            refuse(f"{method.name}: no random call gives {name}: {kind}")
    return lines, words


def call(method):
    """The random call of a method."""
    lines, words = given(method)
    made = f"s.{method.name}({', '.join(words)})"
    if not WALK.fullmatch(method.result) and method.result not in SAID:
        refuse(f"{method.name}: no random call says the result {method.result}")
    said = f"w.walk({made});" if WALK.fullmatch(method.result) else SAID[method.result].format(made=made)
    if any(kind == "&mut [bool]" for _, kind in method.pairs):
        said += " answers.iter().for_each(|it| w.say(*it as u64));"
    if unknown := [form for form in method.forms if form not in ASKED]:
        refuse(f"{method.name}: no random call tests the clause {unknown[0][0]}")
    asked = " && ".join(ASKED[form] for form in method.forms if ASKED[form])
    body = " ".join([*lines, f"if {asked} {{ {said} }}" if asked else said])
    taken = ["w", "s", *(it if re.search(rf"\b{it}\b", body) else "_" for it in ("t", "u"))]
    taken[0] = "w" if re.search(r"\bw\b", body) else "_"
    return f"    |{', '.join(taken)}| {{ {body} }}, // {method.name}\n"


def texts(calls):
    """The file by its name."""
    rows = []
    for name, method in calls.items():
        if name not in BY_HAND and method.receiver not in ("&self", "&mut self"):
            refuse(f"{name}: no random call has the receiver {method.receiver or 'of no set'}")
        rows += [] if name in BY_HAND else [call(method)]
    if unused := BY_HAND - calls.keys():
        refuse(f"no call needs the entry {min(unused)}")
    return {"differ/made_world.rs": f"{HEAD}{''.join(rows)}];\n"}
