"""Rows of tools/mutants/check_edits on kept verdicts, with a stand-in for the checks: what has an edit tried again, and what not."""
import contextlib
import io
import pathlib
import tempfile
from unittest import mock

from kept import Kept
from small_project import SIZES, SOURCE, write, write_edit
from wrong_bodies import crates, keys, rounds, tracked

# (LINE is where the wrong body of `next` stands in the copy.)
REFUSES = "note: src/lib.rt:LINE:1: it is not proved that what it ensures holds\nfn numbers::next_edit0: not proved\nonly=1\n"
SAYS_NOTHING, IS_PROVED, IS_NOT = "only=1", "logic=proved", "fn numbers::next: perhaps\nlogic=not-proved"
SOURCE_PATH, RLIB = "crates/numbers/src/lib.rt", "crates/ground/out/rlib/ground.rlib"
LOW = "pub fn low ( ) -> u64\n    ensures { result ≡ 1 } ;\n"
FILES = {
    "crates.txt": "ground:\nnumbers: ground\n",
    SOURCE_PATH: SOURCE,
    "crates/numbers/specs/Sizes.antt": SIZES,
    "crates/numbers/proofs/Lemmas.antt": "pub more : ℕ\n",
    "crates/numbers/proofs/next/Answers.antt": "pub answer : ℕ\n",
    "crates/numbers/proofs/second/Answers.antt": "pub other : ℕ\n",
    f"{RLIB}/format": "rattle-build one\ncrate ground\npasses std proofs.Low std\nfacts-alone ground::low\nchecked 1\nsum 1\n",
    f"{RLIB}/lang/src/lib.rt": LOW,
    f"{RLIB}/lang/antt/specs/LowFacts.antt": "pub low : ℕ\n",
    f"{RLIB}/lang/antt/proofs/Own.antt": "pub own : ℕ\n",
    f"{RLIB}/toolchain/checked.json": "1\n",
}
# Changes after which the edit of `next` is tried again: what changes, the file, the old text, and the new one.
TRIED_AGAIN = [
    ("a line of the judged function", SOURCE_PATH, "{\n    number + 1", "{\n    let _one = 1;\n    number + 1"),
    ("a clause of the judged function", SOURCE_PATH, "number < 2 ^ 63", "number < 2 ^ 61"),
    ("a clause of another function", SOURCE_PATH, "number + 2", "number + 1 + 1"),
    ("a constant", SOURCE_PATH, "u64 = 10;", "u64 = 9 + 1;"),
    ("an attribute of another function", SOURCE_PATH, "pub fn second(", "#[inline(always)]\npub fn second("),
    ("the tactic of the judged function", SOURCE_PATH, "pub fn next(", "#[tactic(auto, using(crate::proofs::Lemmas::more))]\npub fn next("),
    ("a proof file of the function", "crates/numbers/proofs/next/Answers.antt", "answer", "reply"),
    ("a file of lemmas", "crates/numbers/proofs/Lemmas.antt", "more", "less"),
    ("a definition", "crates/numbers/specs/Sizes.antt", "n < 2", "n < 1 + 1"),
    ("a clause in a crate below", f"{RLIB}/lang/src/lib.rt", "≡ 1", "≡ 1 + 0"),
    ("a lemma of the specs of a crate below", f"{RLIB}/lang/antt/specs/LowFacts.antt", "low", "high"),
    ("what a library says of a function", f"{RLIB}/format", "facts-alone", "facts-first"),
    ("the line of the crate in crates.txt", "crates.txt", "numbers: ground", "numbers: ground serde_json"),
    ("the edit", "edits/crates/numbers/must-fail/next-stands.edit", "new:     number", "new:     number + 0"),
]
# Changes after which it is not.
NOT_TRIED_AGAIN = [
    ("the body of another function", SOURCE_PATH, "    next(next(number))", "    let one = next(number);\n    next(one)"),
    ("the proof of another function", "crates/numbers/proofs/second/Answers.antt", "other", "another"),
    ("the tactic of another function", SOURCE_PATH, "pub fn second(", "#[tactic(auto, using(crate::proofs::Lemmas::more))]\npub fn second("),
    ("a comment and an empty line", SOURCE_PATH, "/// The number after the next one.", "\n// Two more.\n/// Two more than this one."),
    ("a body in a crate below", f"{RLIB}/format", "checked 1\nsum 1", "checked 2\nsum 2"),
    ("a proof in a crate below", f"{RLIB}/lang/antt/proofs/Own.antt", "own", "its_own"),
    ("the code of a crate below", f"{RLIB}/toolchain/checked.json", "1", "2"),
    ("the build of the kit that made a crate below", f"{RLIB}/format", "rattle-build one", "rattle-build two"),
    ("what a crate below passes on of the kit's libraries", f"{RLIB}/format", "std proofs.Low", "std proofs.High"),
    ("a sentence of the edit", "edits/crates/numbers/must-fail/next-stands.edit", "file:", "# It stands.\nfile:"),
]


class StandIn:
    """In place of the checks: they say these texts in turn."""
    def __init__(self, said):
        self.left, self.made = list(said), 0

    def room(self):
        return tempfile.TemporaryDirectory()

    def check(self, copy, *_given):
        self.made += 1
        said = self.left.pop(0) if self.left else "no text is left"
        return said.replace("LINE", line_with("fn next_edit0", copy))


def line_with(text, copy):
    """The number of the line of numbers' src/lib.rt that has this text, in a copy of it as source."""
    lines = copy.files().get("numbers/src/lib.rt", "").split("\n")
    return str(1 + next((at for at, line in enumerate(lines) if text in line), -1))


class Tries:
    """Runs on an edit of `next` in a project of its own, over one store."""
    def __init__(self, top):
        self.top, self.store = top, Kept(folder=top / "store")
        for path, text in FILES.items():
            write(top / path, text)
        write_edit(top / "edits", "numbers", "next-stands", "src/lib.rt", "    number + 1", "    number")

    def change(self, path, old, new):
        text = (self.top / path).read_text()
        assert text.count(old) == 1, (path, old)
        (self.top / path).write_text(text.replace(old, new))

    def run(self, *said, store=None, beside=None, sums=None, drawn=()):
        """How many checks a run made where they say these texts in turn, and what it told. It leaves the sums of what was refused."""
        for it in (keys.sum_of_text, keys.format_of, keys.library_read_above):
            it.cache_clear()
        project, checks = crates.Project(self.top, self.top / "edits"), StandIn(said)
        verdicts = keys.Verdicts(project, store or self.store, sums, notes=True)
        runner = rounds.Runner(checks, verdicts, 1, are_proved=True, beside=beside)
        runner.drawn = drawn
        with contextlib.redirect_stdout(io.StringIO()) as told:
            runner.try_all([project.crates["numbers"].edits()])
            runner.told.finish()
        self.sums = verdicts.refused
        return checks.made, told.getvalue()

    def run_tracked(self, *said, **how):
        """The same over the sums that the run before left, and over nothing that was kept."""
        return self.run(*said, store=Kept(anew=True), sums=dict(self.sums), **how)

    def entries(self):
        return [it for it in (self.top / "store").iterdir() if it.is_file()]


@contextlib.contextmanager
def tries(kept=True):
    """A project whose edit was tried once, and its verdict kept."""
    with tempfile.TemporaryDirectory(prefix="check-kept-") as folder:
        found = Tries(pathlib.Path(folder))
        if kept:
            found.run(REFUSES)
        yield found


def check_kept(counts):
    check_changes(counts)
    check_stubs(counts)
    check_tracked(counts)
    check_file(counts)
    check_what_is_not_kept(counts)
    check_entries(counts)
    check_store(counts)
    check_runs_over_kept(counts)


def check_changes(counts):
    for name, path, old, new in TRIED_AGAIN:
        with tries() as it:
            it.change(path, old, new)
            counts.compare(f"tried again: {name}", [it.run_tracked(REFUSES)[0], it.run(REFUSES)[0]], [1, 1])
    for name, path, old, new in NOT_TRIED_AGAIN:
        with tries() as it:
            it.change(path, old, new)
            counts.compare(f"not tried again: {name}", [it.run_tracked(REFUSES)[0], it.run(REFUSES)[0]], [0, 0])


def check_stubs(counts):
    """What no small project has of its own: the kit, and this script."""
    with tries() as it:
        with mock.patch("kept.kit_sum", lambda: "another kit"):
            counts.compare("tried again: the kit", it.run(REFUSES)[0], 1)
            counts.compare("not tried again: a build of the kit, by the sums of the checkout", it.run_tracked()[0], 0)
        with mock.patch("kept.kit_logic", lambda: "another logic"):
            counts.compare("tried again: the logic of the kit", it.run_tracked(REFUSES)[0], 1)
        with mock.patch.object(keys, "sum_of_script", lambda: "another script"):
            counts.compare("tried again: the script", [it.run_tracked(REFUSES)[0], it.run(REFUSES)[0]], [1, 1])


def check_tracked(counts):
    """Runs over the sums that the checkout has."""
    with tries() as it:
        wanted = f"numbers/next-stands: {rounds.TRACKED}\nkept: 0 of 1 verdicts, tracked: 1, tried in this run: 0\n1 passed, 0 failed\n"
        counts.compare("a tracked verdict", it.run_tracked(), (0, wanted))
        counts.compare("it is tracked again", sorted(it.sums), ["numbers/next-stands"])
        made, told = it.run_tracked(SAYS_NOTHING, IS_PROVED, drawn=["numbers/next-stands"])
        counts.compare("a tracked edit that is drawn is tried", made, 2)
        counts.report("and one that is proved is told", "" if "next-stands: NOT REFUSED" in told else told)
        counts.compare("and no longer tracked", it.sums, {})
    with tries(kept=False) as it:
        it.run(SAYS_NOTHING, "note: src/lib.rt:9:1: it is not proved that it holds\nlogic=not-proved")
        counts.compare("an edit that is refused alone is not tracked", it.sums, {})
        it.run()
        counts.compare("nor where that is kept", it.sums, {})
    with tries(kept=False) as it:
        (it.top / RLIB / "format").unlink()
        it.run(REFUSES)
        counts.compare("nothing is tracked where a library is not built", it.sums, {})


def check_file(counts):
    """The file of the sums, and what is drawn of it."""
    sums = {"halves/a": "1", "numbers/b": "2", "numbers/c": "3"}
    text = tracked.text_with(sums, {"numbers"}, {"numbers/c": "4"})
    counts.compare("of other crates the sums stay", text, "halves/a: 1\nnumbers/c: 4\n")
    with tempfile.TemporaryDirectory() as folder:
        top = pathlib.Path(folder)
        made, own = top / "made", top / tracked.FILE
        counts.compare("no file has no sums", tracked.read(mock.Mock(top=top)), {})
        write(made, text)
        counts.report("new sums are told", "" if tracked.told_where_new(top, made) else "nothing is told")
        counts.compare("and stand in out/", (top / tracked.NEW).read_text(), text)
        write(own, text)
        counts.compare("the file is read", tracked.read(mock.Mock(top=top)), {"halves/a": "1", "numbers/c": "4"})
        counts.compare("the same sums are not told", tracked.told_where_new(top, made), "")
        counts.compare("nothing is told where no run made any", tracked.told_where_new(top, top / "none"), "")
    many = {str(it): "" for it in range(200)}
    counts.compare("so many are drawn", len(tracked.drawn(many, 1)), tracked.DRAWN)
    counts.compare("the same start draws the same", tracked.drawn(many, 7), tracked.drawn(many, 7))


def check_what_is_not_kept(counts):
    said = {"NOT REFUSED": (SAYS_NOTHING, IS_PROVED), "UNCLEAR": (SAYS_NOTHING, IS_NOT), "BAD EDIT": (SAYS_NOTHING, "no verdict")}
    for name, texts in said.items():
        with tries(kept=False) as it:
            _, told = it.run(*texts)
            counts.report(f"it says {name}", "" if f"numbers/next-stands: {name}" in told else told)
            counts.compare(f"{name} is not kept", len(it.entries()), 0)
    with tries(kept=False) as it:
        it.run(SAYS_NOTHING, "note: src/lib.rt:9:1: it is not proved that it holds\nlogic=not-proved")
        counts.compare("an edit that is refused alone is kept", it.run()[0], 0)
        it.change(SOURCE_PATH, "    next(next(number))", "    next(next(number + 0))")
        counts.compare("then each change of its crate has it tried again", it.run(REFUSES)[0], 1)
    with tries(kept=False) as it:
        (it.top / RLIB / "format").unlink()
        it.run(REFUSES)
        counts.compare("nothing is kept where a library is not built", len(it.entries()), 0)


def check_entries(counts):
    damages = {
        "cut off": lambda text: text[:-9],
        "changed": lambda text: text.replace("src/lib.rt:9", "src/lib.rt:8"),
        "of another name": lambda text: text.replace('"key": "', '"key": "0'),
        "no object": lambda text: "[]",
    }
    for name, damage in damages.items():
        with tries() as it:
            (entry,) = it.entries()
            entry.write_text(damage(entry.read_text()))
            counts.compare(f"an entry that is {name} counts as none", it.run(REFUSES)[0], 1)
            counts.compare(f"an entry that is {name} is written anew", it.run()[0], 0)


def check_store(counts):
    with tries() as it:
        counts.compare("the store is its owner's alone", f"{(it.top / 'store').stat().st_mode & 0o777:o}", "700")
        with mock.patch("kept.LEFT_ON_DISK", 1 << 60):
            it.store.put("full", {})
        counts.compare("nothing is kept where the disk is full", it.store.get("full"), None)
        with mock.patch("kept.MOST_ENTRIES", 1):
            it.store.put("later", {})
            it.store.shrink()
        left = [path.name for path in it.entries()]
        counts.compare("the entry longest unused goes where they are too many", left, ["later"])
    with tempfile.TemporaryDirectory() as folder:
        pathlib.Path(folder, "store").write_text("")
        store = Kept(folder=pathlib.Path(folder, "store"))
        store.put("key", {})
        counts.compare("a store that cannot be used keeps nothing", store.get("key"), None)


def check_runs_over_kept(counts):
    with tries(kept=False) as it:
        counts.compare("--anew keeps nothing", (it.run(REFUSES, store=Kept(anew=True))[0], len(it.entries())), (1, 0))
        it.run(REFUSES)
        counts.compare("--anew takes nothing", it.run(REFUSES, store=Kept(anew=True))[0], 1)
    with tries() as it:
        wanted = "numbers/next-stands: refused: src/lib.rt:9: it is not proved that what it ensures holds\n"
        counts.compare("a kept verdict", it.run(), (0, wanted + "kept: 1 of 1 verdicts, tracked: 0, tried in this run: 0\n1 passed, 0 failed\n"))
        it.change(SOURCE_PATH, "//! A few functions to edit.", "//! A few functions\n//! to edit.")
        told = it.run()[1]
        counts.report("its goal has the line where it stands now", "" if "src/lib.rt:10: " in told else told)
        for name, said, wanted in ("not proved", "rt: numbers NOT PROVED\n", "UNCLEAR: "), ("proved", "rt: numbers proved\n", "refused: "):
            (it.top / "log").write_text(said)
            made, told = it.run(beside=rounds.Beside(it.top / "log"))
            counts.report(f"a kept verdict of a crate that is {name}", "" if f"stands: {wanted}" in told and not made else told)
