"""The tests in Rust that front/calls makes: the slow set, and the rows of its calls, by the calls of a set as front/publish reads them."""
import pathlib
import re
import runpy
import types

from calls_source import refuse

PUBLISH = types.SimpleNamespace(**runpy.run_path(str(pathlib.Path(__file__).resolve().parent / "publish")))
FIRST = "// Made by front/calls from crates/fixedbitset/src and front/calls.toml: change those, and not this.\n"
SLOW_HEAD = FIRST + """//! The calls of the slow set that one expression means.
use super::{walk, Set, Walk};
use std::ops::RangeBounds;

#[rustfmt::skip]
impl Set {
"""
ROWS_HEAD = FIRST + """//! The calls {whose} as a table, one row for each.
use super::calls::{{
    all, mixed, text,
    Call::{{self, Asks, Changes}},
}};

#[rustfmt::skip]
pub const {name}: &[(&str, Call)] = &[
"""
# The tables of rows: the file, the name, whose calls, and whether upstream lacks them.
TABLES = (("made_calls.rs", "MADE", "of upstream", False), ("made_beyond.rs", "MADE_BEYOND", "beyond upstream's", True))
# A parameter of a proved call in the slow set: its type, and what a row gives it, the first time and the second.
KINDS = {
    "usize": ("usize", ("n.p", "n.q")), "bool": ("bool", ("n.flag",)), "&[usize]": ("&[usize]", ()), "&mut [bool]": ("&mut [bool]", ()),
    "value: Block": ("usize", ()), "number: Block": ("u64", ()), "Bits<'_>": ("&Self", ("t", "t")), "Bits<'a>": ("&Self", ("t",)),
    "&Self": ("&Self", ("t", "t")),
}
DROPPED = {"steps: &mut Steps", "alloc: Global"}
RANGE = ("range", "impl RangeBounds<usize>", "n.p..n.q")
WALK = re.compile(r"Cursor<.*>|InTurn<.*>")
RESULTS = {
    "": "", "bool": "bool", "usize": "usize", "Option<usize>": "Option<usize>", "Block": "u64", "Result<(), AllocError>": "",
    "Result<bool, AllocError>": "bool",
}
# What the slow set tests, by what a call requires.
ASKED = {
    ("bit < self.length",): 'self.assert_below(bit, "{place}");',
    ("to < self.length",): 'self.assert_below(to, "copy to");',
    ("All (λ p. p < self.length) positions",): 'positions.iter().for_each(|bit| self.assert_below(*bit, "{place}"));',
    ("index < model.words_needed self.length",): 'self.assert_needed(index, "{place}");',
    ("IsTrue (is_valid (value self) start end)",): "let range = self.positions(range);",
    ("start ≤ end", "end ≤ other.length"): "let range = other.positions(range);",
    ("at + (end - start) ≤ self.length",): "self.assert_room(at, range.len());",
    ("width ≤ 64", "start + width ≤ self.length"): "self.assert_part(start, width);",
    ("prelude.length positions ≡ prelude.length answers",): "assert_eq!(positions.len(), answers.len());",
    ("self.length + other.length < 2 ^ 64",): "",
    ("bits < 2 ^ 64 - 1",): "",
}


class Method:
    """A call of a set: its name, receiver, parameters without those that go, clauses and result."""

    def __init__(self, call):
        view, self.name = call.view, call.name
        self.receiver = ("&mut self" if view.owner == "BitsMut" else "&self") if view else call.receiver
        self.result = view.result if view else call.result
        self.forms = view.forms if view else [(PUBLISH.clause_of(it),) for it in call.asked]
        pairs = list(zip(view.names, view.kinds)) if view else [it.split(": ") for it in call.parameters if it not in DROPPED]
        self.pairs = [(name, kind) for name, kind in pairs if kind not in DROPPED]
        if view and view.range is not None:
            self.pairs[view.range : view.range + 2] = [("range", "")]

    def is_walk(self):
        return bool(WALK.fullmatch(self.result))

    def kind_of(self, name, kind):
        """The type of a parameter, and what a row gives it."""
        if name == "range":
            return RANGE[1], (RANGE[2],)
        if kind not in KINDS:
            refuse(f"{self.name}: the slow set takes no {name}: {kind}")
        return KINDS[kind]

    def slow(self, meant):
        """The method of the slow set."""
        if self.receiver not in ("&self", "&mut self") or not self.is_walk() and self.result not in RESULTS:
            refuse(f"{self.name}: the slow set has no method on {self.receiver or 'nothing'} that returns {self.result}")
        result = "Walk" if self.is_walk() else RESULTS[self.result]
        place, lines = self.name.removesuffix("_all").replace("_", " ") + " at", []
        for form in self.forms:
            if form not in ASKED:
                refuse(f"{self.name}: the slow set tests no clause {form[0]}")
            lines += [ASKED[form].format(place=place)] if ASKED[form] else []
        lines.append(meant if result or meant[-1] in ";}" else f"{meant};")
        shown = ", ".join([self.receiver, *(f"{name}: {self.kind_of(name, kind)[0]}" for name, kind in self.pairs)])
        body = "".join(f"        {it}\n" for it in lines)
        return f"    pub fn {self.name}({shown}){f' -> {result}' if result else ''} {{\n{body}    }}\n"

    def row(self, given):
        """The row of the call, with what it is given, or by the kinds of its parameters."""
        if given is None:
            found = []
            for name, kind in self.pairs:
                values = [it for it in self.kind_of(name, kind)[1] if it not in found or it == "t"]
                if not values:
                    refuse(f"{self.name}: nothing is known to give for {name}, and its row has no `given`")
                found.append(values[0])
            given = ", ".join(found)
        made = f"s.{self.name}({given})"
        if self.is_walk():
            # (Upstream's `zeroes` goes from the front alone. A row of beyond.rs takes ours from both ends.)
            made = f"all({made})" + f" + &mixed({made}, n)" * (self.name != "zeroes")
        elif RESULTS[self.result]:
            made = f"text({made})"
        taken = ["s", *(it if re.search(rf"\b{it}\b", made.replace(self.name, "", 1)) else "_" for it in ("t", "n"))]
        kind = "Asks" if self.is_walk() or RESULTS[self.result] else "Changes"
        return f'    ("{self.name}", {kind}(|{", ".join(taken)}| {made})),\n'

    def rows(self, given):
        """The rows of the call. One that requires a position below the length has a second one, at the length."""
        row = self.row(given)
        at_length = row.replace(f'"{self.name}"', f'"{self.name} at the length"').replace("(n.p", "(s.len()")
        if "n." not in at_length:
            at_length = at_length.replace(", n|", ", _|")
        return row + at_length * (("bit < self.length",) in self.forms)


def signatures(folder):
    """The calls of views and of sets, those with the call of the view that the crate for Rust has in their place."""
    found = [it for it in PUBLISH.calls(folder) if isinstance(it, PUBLISH.Signature) and not isinstance(it, PUBLISH.Maker)]
    views = {it.name: it for it in found if isinstance(it, PUBLISH.Call)}
    for call in (it for it in found if isinstance(it, PUBLISH.SetCall)):
        call.view = views.get(call.name) if not call.result.startswith("Result<") else None
    return found


def methods(found):
    """The calls of a set by their names."""
    return {it.name: Method(it) for it in found if isinstance(it, PUBLISH.SetCall)}


def texts(calls, meant):
    """The files by their names, by what the rows of calls.toml say of calls that the slow set has."""
    if unknown := meant.keys() - calls.keys():
        refuse(f"calls.toml: a set has no call {min(unknown)}")
    slow = "\n".join(calls[name].slow(row["slow"]) for name, row in meant.items())
    made = {"made_slow.rs": f"{SLOW_HEAD}{slow}}}\n"}
    shown = {name: row for name, row in meant.items() if row.get("given") is not False}
    for file, name, whose, is_beyond in TABLES:
        rows = [calls[it].rows(row.get("given")) for it, row in shown.items() if row.get("beyond", False) == is_beyond]
        made[file] = ROWS_HEAD.format(whose=whose, name=name) + "".join(rows) + "];\n"
    return {f"rust/tests/differ/{name}": text for name, text in made.items()}
