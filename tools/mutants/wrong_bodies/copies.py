"""Makes the copy of a crate, or of several, that one check judges: with the wrong bodies in it, and without what it does not
judge."""
import dataclasses
import functools
import os
import re

from . import goals, rattle

HOLE = """use Rattle.{crate}.proofs.{place}.Statement.{{statement}}

pub {name}_spec : {{M : Type 1}} → statement M
{name}_spec = ?
"""
# A crate above those of a copy: below it a check judges each as a library.
EMPTY_TOP = {"top/src/lib.rt": "//! Nothing.\n#![tactic(auto)]\n"}


@dataclasses.dataclass
class Judge:
    """A function of a copy that judges an edit, and by how many lines it stands behind the one of the crate."""
    function: rattle.Function
    moved: int


@dataclasses.dataclass
class Copy:
    """Crates with other texts in place of some of their own, by their paths. A file whose text is None goes. A check of it
    reads only the functions `only`, if there are some. As source they stand below an empty crate."""
    texts: dict
    is_source: bool = False
    only: set = dataclasses.field(default_factory=set)
    judges: dict = dataclasses.field(default_factory=dict)

    @property
    def crates(self):
        return list(self.texts)

    @property
    def has_holes(self):
        texts = [text for changed in self.texts.values() for path, text in changed.items() if path.endswith(".antt")]
        return any(text and " = ?\n" in f"{text}\n" for text in texts)

    def files(self):
        """All files of the copy by their paths."""
        made = dict(EMPTY_TOP) if self.is_source else {}
        for crate, changed in self.texts.items():
            own = {**crate.sources, **changed}
            if self.is_source:
                own[crate.root] = without_main(crate.root, own[crate.root])
            folder = f"{crate.name}/" if self.is_source else ""
            made |= {folder + path: text for path, text in own.items() if text is not None}
        return made


def copy_of(edits, is_source=True, by_goal=()):
    """The copy in which these edits are judged together: those of `by_goal` by the goal that each names, the others by all."""
    crates = dict.fromkeys(edit.crate for edit in edits)
    copy = Copy({}, is_source)
    for crate in crates:
        own = [edit for edit in edits if edit.crate is crate]
        texts, judges = with_edits(own, by_goal)
        symbols = set().union(*(symbols_of(edit, judges) for edit in own))
        if all(edit.reach is not None for edit in own):
            reached = symbols.union(*(edit.reach for edit in own if not edit.stands_beside))
            texts = without_bodies(crate, texts, reached)
        copy.texts[crate] = texts
        copy.judges |= judges
        if len(crates) > 1:
            judging = [judge.function for edit in own for judge in judges[edit]]
            symbols = {f"{crate.name}::{crate.place_of(function)}" for function in judging}
        copy.only |= symbols
    return copy


def symbols_of(edit, judges):
    """The symbols of the functions of a copy that judge an edit."""
    return {judge.function.symbol for judge in judges[edit]} if edit.stands_beside else edit.symbols


def with_edits(edits, by_goal):
    """The texts of a crate with all these edits in them, and the judges of each."""
    texts, suffixes = {}, {}
    for edit in edits:
        if not edit.stands_beside:
            texts = edit.applied(texts)
    for number, edit in enumerate(edits):
        if edit.stands_beside:
            suffixes[edit] = f"_edit{number}"
            put_beside(edit, suffixes[edit], texts)
    for edit in edits:
        for judge in judges_of(edit, suffixes.get(edit, ""), texts) if edit in by_goal else ():
            goals.ask_alone(edit, judge.function, texts)
    return texts, {edit: judges_of(edit, suffixes.get(edit, ""), texts) for edit in edits}


def put_beside(edit, suffix, texts):
    """Puts a wrong body behind its function under a name of its own, with a copy of its proof, so that one check judges many
    of one function."""
    crate, function = edit.crate, edit.functions[0]
    text = texts.get(function.path, crate.sources[function.path])
    lines = text.split("\n")
    now = next(found for found in rattle.functions_of(function.path, text) if found.symbol == function.symbol)
    end = now.lines.stop - 1
    body = re.sub(rf"\bfn {function.name}\b", f"fn {function.name}{suffix}", edit.wrong_body, count=1)
    texts[function.path] = "\n".join([*lines[:end], "", body, *lines[end:]])
    for path in crate.proof_of(function):
        folder, file = os.path.split(path.removeprefix("proofs/"))
        module = f".proofs.{folder.replace('/', '.')}"
        proof = crate.sources[path].replace(f"{module}.", f"{module}{suffix}.")
        texts[f"proofs/{folder}{suffix}/{file}"] = proof


def judges_of(edit, suffix, texts):
    """The functions of these texts that judge an edit."""
    judges = []
    for function in edit.functions:
        text = texts.get(function.path, edit.crate.sources[function.path])
        for found in rattle.functions_of(function.path, text):
            if found.symbol == function.symbol + suffix:
                judges.append(Judge(found, found.lines.start - function.lines.start))
    return judges


def without_bodies(crate, texts, judging):
    """The texts with an endless loop in place of the body of each function that judges no edit, and a hole in place of its
    proof. So a check reads of it the contract alone, from which its callers are proved."""
    made = dict(texts)
    for path, text in {**crate.sources, **texts}.items():
        if path.endswith(".rt"):
            others = others_in(crate, path, text, judging)
            made[path] = with_loops(text, tuple(others))
            for function in others:
                put_hole(crate, function, made)
    return made


def others_in(crate, path, text, judging):
    """The functions of a file that judge no edit and whose body may be another, but for those within the body of one."""
    found, end = [], 0
    for function in rattle.functions_of(path, text):
        is_judging = judging & {crate.place_of(function), function.symbol}
        if function.body and not is_judging and function.body.start >= end:
            found.append(function)
            end = function.body.stop
    return found


@functools.lru_cache(maxsize=1024)
def with_loops(text, functions):
    """The text with an endless loop in place of the body of each of these functions, and no tactic for its proof. Each line
    stays where it was."""
    lines = text.split("\n")
    for function in functions:
        body = function.body
        lines[body.start : body.stop] = ["loop {}", *[""] * (len(body) - 1)]
        for number in range(function.lines.start - 1, body.start):
            if lines[number].lstrip().startswith("#[tactic("):
                lines[number] = ""
    return "\n".join(lines)


def put_hole(crate, function, texts):
    """Puts a hole in place of the proof of a function."""
    place = crate.place_of(function)
    folder = f"proofs/{place.replace('::', '/')}/"
    texts |= dict.fromkeys(crate.files_below(folder))
    texts[f"{folder}Proof.antt"] = HOLE.format(crate=crate.name, place=place.replace("::", "."), name=function.name)


def without_main(path, text):
    """The root of a program with empty lines in place of `main`: then it is a library."""
    lines = text.split("\n")
    for function in rattle.functions_of(path, text):
        if function.name == "main":
            lines[function.lines.start - 1 : function.lines.stop - 1] = [""] * len(function.lines)
    return "\n".join(lines)
