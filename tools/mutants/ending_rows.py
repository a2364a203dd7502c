"""Rows of tools/mutants/check_edits on runs that are told to end, with a stand-in for the kit whose checks take a minute."""
import os
import pathlib
import signal
import subprocess
import tempfile
import time

from small_project import write

CHECK = "#!/bin/sh\necho $$ >>{top}/checks\nexec sleep 60\n"


def check_endings(counts, edits, script):
    """Runs on these edits, of a script in a project of their own."""
    with tempfile.TemporaryDirectory(prefix="check-ends-") as folder:
        top = pathlib.Path(folder)
        write_kit(top)
        words = [script, "--anew", "--proved", "--from", edits]
        process = begin(top, words)
        wait_for(lambda: pids(top))
        process.send_signal(signal.SIGTERM)
        counts.compare("a run that is told to end", process.wait(), 128 + signal.SIGTERM)
        wait_for(lambda: not running(pids(top)))
        counts.compare("none of its checks is left", running(pids(top)), [])
        counts.compare("none of its files is left", [it.name for it in top.glob("files/*")], [])
        write(top / "log", "rt: halves proved\n")
        shell = '"$@" & echo $! >run; until [ -e files/* ]; do sleep 0.1; done'
        begin(top, ["sh", "-c", shell, "sh", *words, "--beside", top / "log"]).wait()
        run = [int((top / "run").read_text())]
        wait_for(lambda: not running(run))
        counts.compare("a run beside another ends with what began it", running(run), [])


def write_kit(top):
    write(top / "kit/bin/rt", f"#!/bin/sh\necho {top}/kit/rattle\n")
    write(top / "kit/bin/rattle", CHECK.format(top=top))
    for name in ("rt", "rattle"):
        (top / "kit/bin" / name).chmod(0o755)
    (top / "files").mkdir()


def begin(top, words):
    environment = {**os.environ, "PATH": f"{top}/kit/bin:{os.environ['PATH']}", "TMPDIR": f"{top}/files"}
    return subprocess.Popen(words, cwd=top, env=environment, stdout=subprocess.DEVNULL)


def pids(top):
    file = top / "checks"
    return [int(it) for it in file.read_text().split()] if file.exists() else []


def running(numbers):
    """Those of these processes that have not ended."""
    found = []
    for number in numbers:
        try:
            stat = pathlib.Path(f"/proc/{number}/stat").read_text()
        except OSError:
            continue
        if stat.rpartition(")")[2].split()[0] != "Z":
            found.append(number)
    return found


def wait_for(has_come):
    """Waits until this has come, at most some seconds."""
    end = time.monotonic() + 30
    while not has_come() and time.monotonic() < end:
        time.sleep(0.1)
