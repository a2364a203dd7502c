"""What the scripts in the folders here share: counts of checks, and programs that are built and run with memory refused."""
import os
import pathlib
import subprocess
import sys
import time

TOP = pathlib.Path(__file__).resolve().parent.parent


class Counts:
    """The checks that passed and failed."""
    def __init__(self, subject):
        self.subject, self.passed, self.failed = subject, 0, 0

    def report(self, name, fault):
        """Counts and prints a check, which passes where there is no fault."""
        if fault:
            self.failed += 1
        else:
            self.passed += 1
        print(f"{self.subject}: {name}: " + (f"FAILED: {fault}" if fault else "ok"), flush=True)

    def compare(self, name, found, *wanted):
        self.report(name, "" if found in wanted else f"wanted {' or '.join(map(str, wanted))}, found {found}")

    def finish(self):
        """Prints the counts, and answers the exit status."""
        print(f"{self.passed} passed, {self.failed} failed")
        return 1 if self.failed else 0


def arguments(crate):
    """The words that the program of a crate is given with its stored input: the lines of its file args, if it has one."""
    stored = crate / "args"
    return stored.read_text().splitlines() if stored.is_file() else []


def built(name):
    """The program of a crate, or None where it cannot be built. Its time is that of the start, as under ./bits, so a source
    that is edited meanwhile is newer."""
    crate, began = TOP / "crates" / name, time.time_ns()
    program, text = crate / "out" / name, crate / "stdin"
    sources = [TOP / "crates.txt", *(it for part in ("src", "specs", "proofs") for it in TOP.glob(f"crates/*/{part}/**/*.*"))]
    if not program.exists() or max(it.stat().st_mtime for it in sources) > program.stat().st_mtime:
        with open(text if text.exists() else os.devnull, "rb") as given:
            words = ["rt", "run", "--", *arguments(crate)]
            made = subprocess.run(words, cwd=crate, stdin=given, stdout=subprocess.PIPE, stderr=subprocess.STDOUT)
        if made.returncode != 0:
            sys.stdout.buffer.write(made.stdout[-3000:])
            return None
        os.utime(program, ns=(began, began))
    return program


def refuser(counts, folder):
    """The library that refuses requests for memory, or None where it cannot be compiled."""
    library = f"{folder}/refuse.so"
    compiled = subprocess.run(["cc", "-shared", "-fPIC", "-O1", "-o", library, TOP / "tools/memory/refuse.c"]).returncode == 0
    counts.report("a C compiler", "" if compiled else "cc does not compile tools/memory/refuse.c")
    return library if compiled else None


def refusing(library, which, number, report):
    """The environment in which request `number` is refused (`which` is AT), or each one from it on (FROM)."""
    return {"LD_PRELOAD": library, f"REFUSE_{which}": str(number), "REFUSE_REPORT": report}
