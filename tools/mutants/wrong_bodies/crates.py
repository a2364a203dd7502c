"""The crates of crates.txt with their texts, and the edits of each: what an edit changes, and what rests on that."""
import bisect
import functools
import os
import pathlib
import re
import subprocess

from . import goals, rattle, reach

PARTS = ("src", "specs", "proofs")
# A bound on the steps of a search, at its end.
BOUND = re.compile(r"(?<=[\w)]) steps \d+\b")
# The letter behind the slash: all names that begin with a folder's stand before the one that has it in place of the slash.
AFTER_SLASH = chr(ord("/") + 1)


class Project:
    """A checkout: its crates by their names, the lowest first. The edits stand in it, or below another folder: in `must-fail`
    of their crates, or in another folder there. Without bounds its proofs are read as if no search in them had one."""
    def __init__(self, top, edits_top=None, has_bounds=True, kind="must-fail"):
        self.top, self.edits_top, self.has_bounds, self.kind = top, edits_top or top, has_bounds, kind
        lines = (top / "crates.txt").read_text().splitlines()
        crates = [Crate(line, self) for line in lines if line.strip() and not line.startswith("#")]
        self.crates = {crate.name: crate for crate in crates}

    @functools.cached_property
    def kit(self):
        said = subprocess.run(["rt", "doc"], capture_output=True, text=True, check=True).stdout
        return pathlib.Path(said.strip()).parent

    @functools.cache
    def below(self, crate):
        """The crates that this one stands on."""
        found = set()
        for name in crate.deps:
            if name in self.crates:
                found |= {self.crates[name]} | self.below(self.crates[name])
        return frozenset(found)


class Crate:
    """A line of crates.txt."""
    def __init__(self, line, project):
        head, _, deps = line.partition(":")
        self.line, self.project, self.deps = line, project, deps.split()
        self.name, *kind = head.split()
        self.is_static = "staticlib" in kind
        self.folder = project.top / "crates" / self.name
        self.edits_folder = project.edits_top / "crates" / self.name / project.kind
        self.root = "src/main.rt" if (self.folder / "src/main.rt").is_file() else "src/lib.rt"
        self.is_library = self.root == "src/lib.rt" and not self.is_static
        self.rlib = self.folder / "out/rlib"

    @functools.cached_property
    def sources(self):
        """The texts of src/, specs/ and proofs/ by their paths, as they are read once."""
        files = [path for part in PARTS for path in sorted(self.folder.glob(f"{part}/**/*.*"))]
        texts = {str(path.relative_to(self.folder)): path.read_text() for path in files if path.is_file()}
        if self.project.has_bounds:
            return texts
        return {path: BOUND.sub("", text) if path.startswith("proofs/") else text for path, text in texts.items()}

    @functools.cached_property
    def names_std(self):
        """Whether a text of the crate names std. A check reads std for two seconds."""
        return any(re.search(r"\bstd\b", text) for text in self.sources.values())

    @functools.cached_property
    def functions(self):
        return [function for path, text in self.sources.items() for function in rattle.functions_of(path, text)]

    @functools.cached_property
    def proofs(self):
        """The files of each folder of proofs/, by the folder with a slash at its end."""
        found = {}
        for path in self.sources:
            if path.startswith("proofs/"):
                found.setdefault(os.path.dirname(path) + "/", []).append(path)
        return found

    @functools.cached_property
    def folders(self):
        return sorted(self.proofs)

    def proof_of(self, function):
        """The files of the folder of proofs/ that is the function's."""
        place = f"/{function.symbol.replace('::', '/')}/"
        return [path for folder, files in self.proofs.items() if place in folder for path in files]

    def files_below(self, folder):
        """The files of this folder of proofs/ and of those in it; its name ends with a slash."""
        first, end = (bisect.bisect_left(self.folders, name) for name in (folder, folder[:-1] + AFTER_SLASH))
        return [path for own in self.folders[first:end] for path in self.proofs[own]]

    @functools.cache
    def home_of(self, owner, module):
        """The module that has a type, or else this one."""
        head = re.compile(rf"(?m)^(?:pub(?:\(\w+\))? )?(?:struct|enum) {owner}\b")
        for path, text in self.sources.items():
            if path.endswith(".rt") and head.search(text):
                return rattle.module_of(path)
        return module

    def place_of(self, function):
        """The path of a function as a check prints it: by the module of its type, and else by that of its file."""
        module = function.module
        home = self.home_of(function.owner, module) if function.owner else module
        return f"{home}::{function.symbol.removeprefix(home + '::')}".removeprefix("::")

    def edits(self):
        """Its edits, each in a file of its own, or all in one: there each begins with a line that has its name."""
        file = self.edits_folder.with_suffix(".edits")
        if not file.is_file():
            return [Edit(self, it) for it in sorted(self.edits_folder.glob("*.edit"))]
        _, *parts = re.split(r"(?m)^edit: (.+)\n", file.read_text())
        return [Edit(self, file, *named) for named in zip(parts[::2], parts[1::2])]


class Edit:
    """An edit of a crate: its pairs of texts and what they change.

    goal, others  the goal that its file names, and others that it says are open
    answer      by which search its goal is tried, if its file says so
    functions   those that its texts stand in
    changes_several
                whether it changes more than one function: then it is judged by the function that its name names, if that
                rests on what it changes, and else by each that does
    symbols     the functions that judge it
    reach       the functions and the files of lemmas that rest on what it changes, or None where that is not known
    """
    def __init__(self, crate, file, name=None, text=None):
        self.crate, self.file, self.name = crate, file, name or file.name.removesuffix(".edit")
        text = file.read_text() if text is None else text
        self.pairs, (self.goal, self.others, self.own_answer) = pairs_of(text), goals.named_in(text)
        self.answer = self.own_answer if crate.project.has_bounds else None
        changes = []
        self.is_bad = self.applied({}, changes) is None
        self.functions = [function for change in changes for function in change.functions]
        self.changes_several = not all(change.is_of_one_function for change in changes)
        symbols = {function.symbol for function in self.functions}
        named = self.name.rpartition("-")[0].replace("-", "::")
        self.symbols = {named} if self.changes_several and named in symbols else symbols
        self.reach = None
        if all(change.reach is not None for change in changes):
            self.reach = symbols.union(*(change.reach for change in changes))

    @property
    def stands_beside(self):
        return self.wrong_body is not None

    @property
    def names_a_goal(self):
        """Whether its file names a goal of the one function that judges it."""
        return bool(self.goal) and not self.is_bad and not self.changes_several and len(self.functions) == len(self.symbols) == 1

    @functools.cached_property
    def wrong_body(self):
        """The function's text with this edit in it, where it can stand beside the function under another name, or None."""
        if self.changes_several or not self.functions or len(self.symbols) > 1:
            return None
        function = self.functions[0]
        folders = {os.path.dirname(path) for path in self.crate.proof_of(function)}
        if not function.is_plain or len(folders) > 1:
            return None
        text = function.text
        for path, old, new in self.pairs:
            if path != function.path or text.count(old) != 1:
                return None
            text = text.replace(old, new)
        return text

    @functools.cached_property
    def lines_of_stored(self):
        """The lines, from 1, of the answer that its crate stores for the goal that its file names; none where it has none."""
        function = self.functions[0]
        text = self.crate.sources.get(goals.path_of_answers(self.crate, function), "")
        own = goals.answers_in(text, goals.DECLARATION).get(self.goal, range(0))
        return range(own.start + 1, own.stop + 1) if own else own

    @functools.cached_property
    def lines_of_answer(self):
        """The lines of the answer of that goal in a copy that asks for it alone: of the stored one, or of the file's own."""
        own = goals.lines_of_own_answer(self) if self.answer else range(0)
        return self.lines_of_stored or own

    @property
    def is_at_a_bound(self):
        """Whether the goal that its file names has an answer by a search with a bound."""
        lines = self.lines_of_stored if self.names_a_goal else range(0)
        text = (self.crate.folder / goals.path_of_answers(self.crate, self.functions[0])).read_text() if lines else ""
        stored = "\n".join(text.split("\n")[lines.start - 1 : lines.stop - 1])
        return bool(BOUND.search(stored or self.own_answer or "")) and self.names_a_goal

    def applied(self, texts, changes=None):
        """The texts by their paths with this edit in them, or None where it cannot be applied. `changes` gets what it
        changes."""
        texts = dict(texts)
        for path, old, new in self.pairs:
            text = texts.get(path) or self.crate.sources.get(path, "")
            if not old or text.count(old) != 1:
                return None
            if changes is not None:
                changes.append(reach.change_at(self.crate, path, text, old))
            texts[path] = text.replace(old, new)
        return texts if self.pairs else None


def pairs_of(text):
    """The pairs of an edit: each a path, the text behind `old: ` and the one behind `new: `."""
    pairs, path, old = [], "", ""
    for line in text.split("\n"):
        if line.startswith("file: "):
            path = line.removeprefix("file: ").strip()
        elif line.startswith("old: "):
            old = line.removeprefix("old: ")
        elif line.startswith("new:"):
            pairs.append((path, old, line.removeprefix("new:").removeprefix(" ")))
    return pairs
