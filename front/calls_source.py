"""Reads what front/calls makes texts from: the exports of crates/bits_c/src, and the rows of front/calls.toml."""
import re
import sys
import tomllib

EXPORT = re.compile(
    r'((?:^///.*\n)+)(?:^#\[.*\]\n)*^pub extern "C" fn bits_(\w+)(<\'a>)?\(([^)]*)\)(?: -> (\w+))?\n((?: .*\n)+)\{\n', re.M)
# An import of a source, and a word and a sign of a clause.
IMPORT = re.compile(r"^ghost use Rattle\.([\w.]+?)(?: as (\w+)|\.\{([^}]*)\});$", re.M)
WORD = re.compile(r"(?<![\w.])[^\W\d]\w*(?:\.\w+)*")
SIGN = re.compile(r"[^\w\s().,\[\]]+")
# A row may have these.
KEYS = {"c", "beyond", "slow", "given", "docs", "view", "names"}
# What the number next to a slice is called in C, by the slice and whether it is written.
NUMBERS = {
    ("words", True): "count", ("words", False): "count", ("bytes", True): "count", ("bytes", False): "count",
    ("positions", False): "count", ("positions", True): "room", ("answers", True): "places", ("directory", True): "entries",
}


def refuse(what):
    sys.exit(f"calls: {what}")


class Names:
    """The names that the clauses of a source import."""

    def __init__(self, file, text):
        self.file, self.files, self.names, found = file, {}, {}, IMPORT.findall(text)
        if len(found) != len(re.findall(r"^ghost use\b", text, re.M)):
            sys.exit(f"{file} has an import of another form")
        for path, alias, names in found:
            for word in [alias] if alias else re.split(r",\s*", names.strip().rstrip(",")):
                table, meant = (self.files, path) if alias else (self.names, (path, word))
                if table.setdefault(word, meant) != meant:
                    sys.exit(f"{file} imports {word} of two files")

    def meant(self, word):
        """The file and the name that a word means, or nothing."""
        alias, _, name = word.partition(".")
        return (self.files[alias], name) if alias in self.files else self.names.get(word)

    def said(self, meant):
        """The word that means this name of a file."""
        if meant in self.names.values():
            return meant[1]
        alias = next((alias for alias, path in self.files.items() if path == meant[0]), None)
        return f"{alias}.{meant[1]}" if alias else refuse(f"{self.file} does not import Rattle.{'.'.join(meant)}")

    def files_of(self, sign):
        """The files of which it imports operators with this sign."""
        return {path for name, (path, _) in self.names.items() if sign in name.split("◌")}

    def signs(self, term):
        """The signs of a term that operators of other files have."""
        return [it for it in dict.fromkeys(SIGN.findall(term)) if self.files_of(it)]

    def has_sign(self, sign, files):
        """Refuses a sign that stands for another operator here than that of these files."""
        if self.files_of(sign) != files:
            refuse(f"{self.file} does not import Rattle.{min(files)}.{sign}")


class Parameter:
    """A parameter: its name, the mark of its pointer (`&`, `&mut ` or nothing), its type, and of a slice that of its items."""

    def __init__(self, text, call):
        self.name, kind = text.split(": ")
        self.pointer, inner = re.fullmatch(r"(&mut |&|)(.*)", re.sub(r"<'\w+>|'\w+ ", "", kind)).groups()
        self.is_slice, self.kind = inner.startswith("["), inner.strip("[]")
        self.number = NUMBERS.get((self.name, self.is_written())) if self.is_slice else None
        if self.is_slice and not self.number:
            refuse(f"bits_{call}: no name for the number of the slice {text}")

    def is_written(self):
        return self.pointer == "&mut "


class Export:
    """A call of crates/bits_c: its module, name, docs, parameters, result and clauses, with the names that these import."""

    def __init__(self, module, imported, docs, name, lifetime, parameters, result, clauses):
        self.module, self.name, self.result, self.clauses = module, name, result, " ".join(clauses.split())
        self.imported = imported
        self.keeps_pointers = bool(lifetime)
        self.docs = " ".join(re.sub(r"^///", "", docs, flags=re.M).split())
        self.parameters = [Parameter(it, name) for it in " ".join(parameters.split()).rstrip(", ").split(", ") if it]
        if "```" in self.docs:
            refuse(f"bits_{name}: an example in the docs, which bits.h has no place for")

    def may_be_ignored(self):
        """Whether the result may be: that of a call that returns false where it did nothing has to be read."""
        return self.result != "bool" or not re.search(r"\breturns `true`", self.docs, re.I)

    def has_pointer(self):
        return any(it.pointer for it in self.parameters)


def exports(folder):
    """The exports by their names without `bits_`."""
    found = {}
    for path in sorted((folder / "crates/bits_c/src").glob("*.rt")):
        text = path.read_text(encoding="utf-8")
        names = Names(str(path.relative_to(folder)), text)
        read = [Export("" if path.stem == "lib" else path.stem, names, *it) for it in EXPORT.findall(text)]
        lines = [line for line in text.splitlines() if 'extern "C"' in line]
        if len(read) != len(lines):
            names = {it.name for it in read}
            unread = next(line for line in lines if re.search(r"bits_(\w+)|$", line)[1] not in names)
            refuse(f"{path.name} has an export of a form that is not known: {unread}")
        found |= {it.name: it for it in read}
    return found


def closed(stored):
    """Refuses what calls.toml has and nobody reads."""
    known = [("calls.toml", {"tested", "part", "sets", "task"}, stored)]
    known += [("a part", {"heading", "told", "calls"}, it) for it in stored["part"]]
    for what, keys, found in known:
        if unknown := found.keys() - keys:
            refuse(f"{what} has {min(unknown)}, which is not known")
    tables = [*(part["calls"] for part in stored["part"]), stored["sets"]]
    for name, row in (it for table in tables for it in table.items()):
        if unknown := row.keys() - KEYS:
            refuse(f"calls.toml: {name} has {min(unknown)}, which is not known")
        if not row.get("slow", "given" not in row):
            refuse(f"calls.toml: {name} has `given` and no `slow`, or an empty one")
        if row.get("given") and not all(re.search(r"\bn\.|\bt\b", it) for it in row["given"].split(",")):
            refuse(f"calls.toml: {name} is always given the same: {row['given']}")
        if "c" in row and ("docs" in row or row["c"] not in (name.replace("_take", "_batch"), f"{name}_iter")):
            refuse(f"calls.toml: {name} has the name {row['c']} in C, which is not that of its symbol")
    named = [name for table in tables for name in table]
    if twice := {name for name in named if named.count(name) > 1}:
        refuse(f"calls.toml has two rows for {min(twice)}")
    return set(named) - stored["sets"].keys()


def stored_rows(folder):
    """What calls.toml has, and the names of the exports that have a row there."""
    stored = tomllib.loads((folder / "front/calls.toml").read_text(encoding="utf-8"))
    return stored, closed(stored)


def rows(folder):
    """What calls.toml has, and its parts: each heading, and its calls with what their rows say."""
    stored, named = stored_rows(folder)
    found, parts = exports(folder), []
    if other := named ^ found.keys():
        refuse(f"calls.toml and crates/bits_c differ in {min(other)}")
    for part in stored["part"]:
        unused = set(part.get("told", ()))
        for name, row in part["calls"].items():
            found[name].c = row.get("c", name)
            told = {it for it in part.get("told", ()) if found[name].c.endswith(f"_{it}")}
            found[name].is_told, unused = bool(told), unused - told
        if unused:
            refuse(f"calls.toml: no call ends in {min(unused)}")
        parts.append((" ".join(part["heading"].split()), [found[name] for name in part["calls"]]))
    if unused := NUMBERS.keys() - {(it.name, it.is_written()) for call in found.values() for it in call.parameters if it.is_slice}:
        refuse(f"no call needs the entry {min(unused)}")
    return stored, parts


def of_sets(stored, key):
    """The rows that say this of a call on a set, by their names."""
    tables = [*(part["calls"] for part in stored["part"]), stored["sets"]]
    return {name: row for table in tables for name, row in table.items() if key in row}
