"""The quick look of ./test --quick: what may differ from main, in place, within five minutes."""
import os
import pathlib
import re
import signal
import subprocess
import tempfile
import time

from groups import Groups
from plan import Plan
from wrong_bodies import crates as crates_of

SECONDS = 300
LAST = "This is not the gate: ./test is."


def git(top, *words):
    return subprocess.run(["git", *words], cwd=top, stdout=subprocess.PIPE, text=True, check=True).stdout


def base_of(top):
    """What is compared with: the branch main, and on it the last commit."""
    is_main = git(top, "branch", "--show-current").strip() == "main"
    has_main = git(top, "branch", "--list", "main").strip()
    return "HEAD" if is_main or not has_main else git(top, "merge-base", "main", "HEAD").strip()


def changed_files(top, base):
    new = git(top, "ls-files", "--others", "--exclude-standard").splitlines()
    return sorted({*git(top, "diff", "--name-only", base).splitlines(), *new})


def crates_in(files, crates):
    """The crates with a file of src/, specs/ or proofs/ among these."""
    own = {it.split("/")[1] for it in files if re.match(r"crates/\w+/(src|specs|proofs)/", it)}
    return [it for it in crates if it in own]


def edits_to_try(top, base, files):
    """The wrong bodies that differ, and those whose function, or a file of its proof, does."""
    with tempfile.TemporaryDirectory(prefix="quick-") as folder:
        archive = subprocess.run(["git", "archive", base, "crates", "crates.txt"], cwd=top, stdout=subprocess.PIPE, check=True)
        subprocess.run(["tar", "-xf", "-", "-C", folder], input=archive.stdout, check=True)
        before, now = crates_of.Project(pathlib.Path(folder)), crates_of.Project(top)
        found = []
        for crate in now.crates.values():
            old = {it.symbol: it.text for it in before.crates[crate.name].functions} if crate.name in before.crates else {}
            for edit in crate.edits():
                path = f"crates/{crate.name}/must-fail/{edit.name}.edit"
                proofs = [f"crates/{crate.name}/{it}" for function in edit.functions for it in crate.proof_of(function)]
                if {path, *proofs} & set(files) or any(old.get(it.symbol) != it.text for it in edit.functions):
                    found.append(path)
    return found


def tests_to_run(top, files, crates):
    """The folders of tests that differ, or that use one of the crates."""
    libraries = (top / "tests/libraries.txt").read_text()
    uses = {name: set(names.split()) for name, names in re.findall(r"(?m)^(\w+): (.*)$", libraries)}
    own = {it.split("/")[1] for it in files if it.startswith("tests/") and it.count("/") > 1}
    return [it for it in uses if it in own or uses[it] & set(crates)]


class Quick:
    """The steps that were made, until the time is up."""
    def __init__(self, top):
        self.top, self.ends = top, time.monotonic() + SECONDS
        self.passed, self.failed, self.not_reached = 0, 0, []
        self.groups = Groups()
        self.groups.end_on_signals()

    def step(self, name, words, folder="."):
        """Runs a command; a status other than 0 is a failure. What takes longer than is left is ended, and told."""
        left = self.ends - time.monotonic()
        if left < 1:
            return self.not_reached.append(name)
        print(f"== {name}", flush=True)
        process = self.groups.begin(words, cwd=self.top / folder, stdin=subprocess.DEVNULL)
        try:
            status = process.wait(timeout=left)
        except subprocess.TimeoutExpired:
            os.killpg(process.pid, signal.SIGTERM)
            process.wait()
            return self.not_reached.append(name)
        print(f"== {name}: {'ok' if status == 0 else 'FAILED'}", flush=True)
        self.passed += status == 0
        self.failed += status != 0

    def finish(self):
        if self.not_reached:
            print(f"not reached within {SECONDS} seconds: {', '.join(self.not_reached)}")
        print(f"{self.passed} passed, {self.failed} failed. {LAST}")
        return 1 if self.failed or self.not_reached else 0


def run(top):
    base = base_of(top)
    files = changed_files(top, base)
    crates = crates_in(files, Plan(top).crates)
    print(f"{len(files)} files differ from {base:.12}, in the crates: {' '.join(crates) or 'none'}", flush=True)
    quick = Quick(top)
    quick.step("texts", ["tools/gate/texts"])
    for name in crates:
        quick.step(f"check of {name}", ["rt", "check"], f"crates/{name}")
    edits = edits_to_try(top, base, files)
    if edits:
        quick.step(f"{len(edits)} wrong bodies", ["tools/mutants/edits", "--those", *edits])
    tests = tests_to_run(top, files, crates)
    if tests:
        quick.step("tests of values", ["tools/run_tests", *tests])
    return quick.finish()
