"""The verdicts of earlier runs, and what a verdict rests on: its key is the sum of all that."""
import functools
import pathlib
import re
import sys

from . import copies, rattle

MUTANTS = pathlib.Path(__file__).resolve().parent.parent
sys.path.append(str(MUTANTS.parent))
import kept  # noqa: E402

# The lines of a library's `format` that change with each body, here or below, or with how and by which build of the kit it was
# made: sums of its files, and what it has of the libraries below it.
SUMS = re.compile(r"(?m)^(?:rattle-build|checked|sum|needs|over|carries|incremental)\b.*\n?")
# How many digits of a sum the checkout has.
SUM_DIGITS = 16


class Verdicts:
    """Keeps that an edit is refused, and nothing else: what is not refused, or not known, is tried again by each run.

    store     what earlier runs on this machine kept
    tracked   of edits that a round refused, by their names, the sum of what each verdict rests on, as the checkout has it
    refused   the same, of the edits that this run knows to be refused, if it `notes` them
    """
    def __init__(self, project, store, tracked=None, notes=False):
        self.project, self.store, self.tracked, self.notes, self.refused = project, store, tracked or {}, notes, {}

    def kept(self, edit):
        """What an earlier run on this machine said of the same edit, which was refused, or None."""
        if not self.store.is_usable:
            return None
        for key_of in (self.key_in_round, self.key_alone):
            key = key_of(edit)
            value = self.store.get(key) if key else None
            if value and value.get("edit") == name_of(edit):
                if key_of == self.key_in_round:
                    self.note(edit)
                return moved(edit, value["why"], first_line(edit) - value["first_line"])
        return None

    def is_tracked(self, edit):
        """Whether the checkout has the sum of what the verdict of this edit rests on: then it is refused."""
        own = self.tracked.get(name_of(edit))
        return own is not None and own == self.tracked_sum(edit) and self.note(edit)

    def keep(self, edit, why, is_alone=False):
        if not self.libraries_are_as_read(edit.crate):
            return
        if not is_alone:
            self.note(edit)
        key_of = self.key_alone if is_alone else self.key_in_round
        if self.store.is_usable and (key := key_of(edit)):
            self.store.put(key, {"edit": name_of(edit), "why": why, "first_line": first_line(edit)})

    def note(self, edit):
        """Notes that this run knows the edit to be refused. (Where a library below is not built, its sum is not known.)"""
        if self.notes and (sum := self.tracked_sum(edit)):
            self.refused[name_of(edit)] = sum
        return True

    @functools.cache
    def tracked_sum(self, edit):
        """The sum of what the verdict of this edit in a round rests on: the same over each build of the kit with this logic."""
        key = self.key("tracked", edit, self.texts_in_round(edit), library_read_above, kept.kit_logic())
        return key and key[:SUM_DIGITS]

    @functools.cache
    def key_in_round(self, edit):
        """The sum of what a round of this edit by itself rests on."""
        return self.key("in a round", edit, self.texts_in_round(edit), library_read_above, kept.kit_sum())

    @functools.cache
    def texts_in_round(self, edit):
        """The copy that a round of this edit by itself would check."""
        copy = copies.copy_of([edit])
        return [*sorted(copy.only), *(sum_of_text(path, text) for path, text in sorted(copy.files().items()))]

    @functools.cache
    def key_alone(self, edit):
        """The sum of the crate with this edit in it, and of all libraries below it as they are."""
        texts = {**edit.crate.sources, **edit.applied({})}
        parts = [part for path, text in sorted(texts.items()) for part in (path, text)]
        return self.key("alone", edit, parts, library_as_it_is, kept.kit_sum())

    def key(self, kind, edit, texts, read, kit):
        """The sum of these texts, of the kit, of all that a check reads beside them, and of this script. None where a library below
        the edit's crate is not built."""
        below = sorted(self.project.below(edit.crate), key=lambda crate: crate.name)
        libraries = [read(crate) for crate in below]
        if None in libraries:
            return None
        lines = [crate.line for crate in (edit.crate, *below)]
        judging = [edit.name, str(edit.changes_several), *sorted(edit.symbols), *sorted(edit.reach or ())]
        return kept.sum_of([kind, kit, sum_of_script(), *lines, *judging, *texts, *libraries])

    def libraries_are_as_read(self, crate):
        """Whether no library below was built anew since a key was made of it."""
        return all(format_of(library) == read_format(library) for library in self.project.below(crate))


def name_of(edit):
    return f"{edit.crate.name}/{edit.name}"


def first_line(edit):
    return edit.functions[0].lines.start if edit.functions else 0


def moved(edit, why, by):
    """What was said of an edit, with the line of a goal in its function where that stands now."""
    path = re.escape(edit.functions[0].path) if edit.functions else "none"
    return re.sub(rf"^(refused: {path}:)(\d+)", lambda found: found[1] + str(int(found[2]) + by), why)


@functools.lru_cache(maxsize=None)
def sum_of_text(path, text):
    return kept.sum_of([path, rattle.without_comments(path, text)])


@functools.cache
def sum_of_script():
    """A sum of this script's own sources."""
    package = sorted((MUTANTS / "wrong_bodies").glob("*.py"))
    texts = [path.read_bytes() for path in [MUTANTS / "edits", MUTANTS / "turns.py", MUTANTS.parent / "kept.py", *package]]
    return kept.sum_of(texts)


def library_of(crate):
    return crate.rlib / f"{crate.name}.rlib"


def read_format(crate):
    try:
        return (library_of(crate) / "format").read_text()
    except OSError:
        return None


@functools.cache
def format_of(crate):
    """The file of a library that has a sum of all its files."""
    return read_format(crate)


@functools.cache
def library_read_above(crate):
    """A sum of what a check of a crate above reads of a library: the signatures and clauses of its functions, which the kit
    wrote down without bodies and comments, its types and constants, its specs, and what its `format` says of each."""
    folder, said = library_of(crate), format_of(crate)
    if said is None:
        return None
    parts = [said_of_own(crate, said)]
    for part in ("interface/lang", "lang/src", "lang/antt/specs", "lang/antt/specs.antt"):
        for path in kept.files_below(folder / part):
            parts += [str(path.relative_to(folder)), path.read_bytes()]
    return kept.sum_of(parts)


def said_of_own(crate, said):
    """What a library's `format` says of its own functions and modules. What it passes on of others may be another build's."""
    of_others = re.compile(rf"(?m)^(?:free\S* Rattle[-.]|passes )(?!{crate.name}\b).*\n?")
    return of_others.sub("", SUMS.sub("", said))


def library_as_it_is(crate):
    return format_of(crate)
