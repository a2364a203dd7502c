"""Checks crates over the work that the kit keeps of them, and builds and runs their programs and tests.

`rt` keeps the work of a check in the crate's out/, and one command at a time works in a checkout's crates. So there is a tree
for each lane, which stays on the machine: a copy of the crates in which `rt` runs. What one tree built the others take from it.
"""
import concurrent.futures
import contextlib
import fcntl
import filecmp
import os
import re
import shutil
import subprocess

import kept
from plan import below
from running import arguments
from wrong_bodies.checks import link_or_copy

# What a program is run on, and what it has to answer, as the kit has it.
SECONDS = 120


def lay_out(top, room, names):
    """Makes a folder one of the repository with these crates alone. What is kept in their out/ stays."""
    lines = (top / "crates.txt").read_text().splitlines(keepends=True)
    own = [it for it in lines if it.partition(":")[0].split()[:1] and it.partition(":")[0].split()[0] in names]
    (room / "crates.txt").write_text("".join(own))
    shutil.copy(top / "HANDLES", room / "HANDLES")
    for crate in [*(room / "crates").glob("*")]:
        if crate.name not in names:
            shutil.rmtree(crate)
    for name in names:
        copy_sources(top / "crates" / name, room / "crates" / name)


def copy_sources(of, to):
    """Makes the files of a crate those of another, but for its out/. A file that is as it should be stays as it is."""
    wanted = {str(it.relative_to(of)) for it in of.rglob("*") if it.is_file() and it.relative_to(of).parts[0] != "out"}
    for path in [it for it in to.rglob("*") if it.is_file() and it.relative_to(to).parts[0] != "out"]:
        if str(path.relative_to(to)) not in wanted:
            path.unlink()
    for path in wanted:
        if not (to / path).is_file() or not filecmp.cmp(of / path, to / path, shallow=False):
            (to / path).parent.mkdir(parents=True, exist_ok=True)
            shutil.copy2(of / path, to / path)


def take(of, to):
    """Gives a crate's out/ what was built in another, by a second name for each file: the kit never writes into a file that
    it built. It is newer than each source then."""
    for name in ("rlib", "incremental"):
        if (of / name).is_dir():
            shutil.rmtree(to / name, ignore_errors=True)
            shutil.copytree(of / name, to / name, copy_function=link_or_copy)
            for at, _, _ in os.walk(to / name):
                os.utime(at)
    for file in of.glob("*"):
        if file.is_file() and os.access(file, os.X_OK):
            (to / file.name).unlink(missing_ok=True)
            to.mkdir(parents=True, exist_ok=True)
            shutil.copyfile(file, to / file.name)
            (to / file.name).chmod(0o755)


class Trees:
    """The trees on this machine, for the crates of a record."""
    def __init__(self, record):
        self.top, self.crates, self.own = record.top, record.crates, record.own
        self.folder = kept.place() / "trees"
        self.lanes = len(os.sched_getaffinity(0))
        self.free, self.told = [], []

    def check(self):
        """Checks all crates, each once those below it are, and builds and runs what they have. Answers how many passed and
        how many did not."""
        os.makedirs(self.folder, 0o700, exist_ok=True)
        with open(self.folder / "lock", "w") as lock, concurrent.futures.ThreadPoolExecutor(self.lanes) as pool:
            fcntl.flock(lock, fcntl.LOCK_EX)
            self.free = [self.folder / str(number) for number in range(self.lanes)]
            for tree in self.free:
                (tree / "crates").mkdir(parents=True, exist_ok=True)
                lay_out(self.top, tree, self.crates)
            self.run_in_order(pool)
        passed = sum(is_well for _, is_well in self.told)
        return passed, len(self.crates) - passed

    def run_in_order(self, pool):
        """Begins each crate once those below it have passed; one that has a failed one below it fails."""
        left, running, well = dict(self.crates), {}, set()
        while left or running:
            ready = [it for it in left if below(self.crates, it) <= well and self.free]
            for name in ready[: len(self.free)]:
                del left[name]
                tree = self.tree_for(name)
                self.free.remove(tree)
                running[pool.submit(self.crate, name, tree)] = (name, tree)
            if not running:
                break
            ended, _ = concurrent.futures.wait(running, return_when=concurrent.futures.FIRST_COMPLETED)
            for it in ended:
                name, tree = running.pop(it)
                self.free.append(tree)
                is_well, said = it.result()
                well |= {name} if is_well else set()
                self.tell(name, tree, is_well, said)

    def tree_for(self, name):
        """A free tree: the one that has work of the crate, if there is one."""
        places = ("out/passed", "out/incremental")
        return next((it for place in places for it in self.free if (it / "crates" / name / place).exists()), self.free[0])

    def tell(self, name, tree, is_well, said):
        self.told.append((name, is_well))
        if is_well:
            take(tree / "crates" / name / "out", self.top / "crates" / name / "out")
            print(f"rt: {name} is kept: proved from nothing by an earlier run or this one, and checked again over that", flush=True)
        else:
            print(f"{said[-3000:]}\nrt: {name} NOT PROVED", flush=True)

    def crate(self, name, tree):
        """Checks a crate in a tree, and builds and runs what it has, unless that was done of the same files. Answers whether all
        went well, and what was said."""
        folder = tree / "crates" / name
        done, sums = folder / "out/passed", self.sums(name)
        if done.is_file() and done.read_text() == sums:
            return True, ""
        done.unlink(missing_ok=True)
        is_well, said = self.check_crate(name, folder)
        if is_well:
            done.write_text(sums)
        return is_well, said

    def sums(self, name):
        """The sums of a crate and of those below it."""
        return "\n".join(f"{it} {self.own[it]}" for it in [name, *sorted(below(self.crates, name))])

    def check_crate(self, name, folder):
        is_program = (folder / "src/main.rt").is_file()
        is_static = re.search(rf"(?m)^{name} staticlib:", (self.top / "crates.txt").read_text())
        if is_program:
            return self.program(name, folder)
        is_well, said = rt(folder, "check" if is_static else "lib")
        if is_well and has_tests(folder):
            is_well, said = rt(folder, "test")
        return is_well, said

    def program(self, name, folder):
        """Builds a program by each of the kit's compilers, and has it answer what is stored."""
        program = folder / "out" / name
        for words, to in ((["--backend", "rattle"], f"{name}.by-rattle"), ([], name)):
            is_well, said = rt(folder, "run", *words, "--", *arguments(folder))
            if not is_well:
                return False, said
            if to != name:
                shutil.copyfile(program, folder / "out" / to)
                (folder / "out" / to).chmod(0o755)
            if not answers(folder, folder / "out" / to):
                return False, f"{to} does not write what is stored"
        return True, said


def has_tests(folder):
    return any(re.search(r"#\[test\]", it.read_text()) for it in folder.glob("src/**/*.rt"))


def rt(folder, *words):
    """Whether a command of the kit in a crate's folder ends well, and what it says."""
    stored = folder / "stdin"
    with open(stored if stored.is_file() else os.devnull, "rb") as given:
        ran = subprocess.run(["rt", *words], cwd=folder, stdin=given, stdout=subprocess.PIPE, stderr=subprocess.STDOUT)
    return ran.returncode == status_of(folder, words), ran.stdout.decode(errors="replace")


def status_of(folder, words):
    """The status that a command has to end with: that of the program which it runs, or 0."""
    stored = folder / "status"
    return int(stored.read_text()) if words[0] == "run" and stored.is_file() else 0


def answers(folder, program):
    """Whether a program writes what is stored beside its crate, and ends as it should."""
    stored = {it: (folder / it).read_bytes() for it in ("stdin", "stdout") if (folder / it).is_file()}
    with contextlib.suppress(subprocess.TimeoutExpired):
        ran = subprocess.run([program, *arguments(folder)], input=stored.get("stdin", b""), stdout=subprocess.PIPE, timeout=SECONDS)
        return ran.stdout == stored.get("stdout", b"") and ran.returncode == status_of(folder, ["run"])
    return False
