"""Stages of the gate: commands whose last line is 'N passed, M failed', some of them beside others."""
import os
import re
import shutil
import subprocess
import sys
import threading
import time
from dataclasses import dataclass

from groups import Groups

# What a stage may need that is no command: the crates that front/program names.
CRATES = "crates for cargo"
NO_COMMANDS = (CRATES,)
COUNTS = re.compile(r"(\d+) passed, (\d+) failed")
# What a script says of what it leaves out, since this machine lacks a tool for it.
LEFT_OUT = re.compile(r"not here, so not tried: (.*)")
# What a line has that tells of a failure, unless it ends with 'ok'.
FAILURE = re.compile(r"(?!.*: ok$).*(?:FAILED|NOT PROVED|NOT REFUSED|BAD EDIT|UNCLEAR)")


@dataclass(frozen=True)
class Stage:
    """A command, and all that it reads, where that is files.

    inputs   the files and folders that it reads, from the top: where a run that read the same has passed, it is kept.
             With none it runs each time
    tools    the commands of this machine that it calls
    blocks   the pages of which it reads the blocks of code alone
    keeps    whether the command keeps what it found by itself, and so takes --anew
    needs    what it can't try anything without: it is not begun where one of these is not here
    """
    name: str
    command: tuple
    inputs: tuple = ()
    tools: tuple = ()
    blocks: tuple = ()
    keeps: bool = False
    needs: tuple = ()

    def words(self, anew):
        """The command to run, which takes a kept run of the same inputs in its place where it has some."""
        flag = ["--anew"] if anew else []
        if self.keeps:
            return [*self.command, *flag]
        if not self.inputs:
            return [*self.command]
        more = [word for it in self.blocks for word in ("--blocks", it)]
        more += [word for it in self.tools for word in ("--tool", it)]
        return ["tools/gate/kept_stage", *flag, self.name, "--inputs", *self.inputs, *more, "--", *self.command]


class Run:
    """A stage that was begun in a folder. Its lines are shown as they come, or else when it is joined."""
    def __init__(self, stage, folder, gate, is_beside, nice=False, log=None):
        self.stage, self.gate, self.is_beside, self.log = stage, gate, is_beside, log
        self.lines, self.status, self.began = [], None, time.monotonic()
        words = (["nice"] if nice else []) + stage.words(gate.anew)
        pipes = {"stdin": subprocess.DEVNULL, "stdout": subprocess.PIPE, "stderr": subprocess.STDOUT}
        self.process = gate.groups.begin(words, cwd=folder, text=True, errors="replace", **pipes)
        self.reading = threading.Thread(target=self.read)
        self.reading.start()

    def read(self):
        for line in self.process.stdout:
            self.lines.append(line)
            if self.log:
                with open(self.log, "a") as log:
                    log.write(line)
            if not self.is_beside:
                self.gate.print(line)
            if FAILURE.match(line):
                self.gate.tell_failure(self.stage.name, line)
        _, status, used = os.wait4(self.process.pid, 0)
        self.status = self.process.returncode = os.waitstatus_to_exitcode(status)
        self.seconds = round(time.monotonic() - self.began)
        self.minutes = (used.ru_utime + used.ru_stime) / 60

    def join(self):
        """Waits for the end, and adds the counts of the last line. A status that is not 0 is a failure."""
        if self.is_beside:
            self.gate.print(f"== {self.stage.name}\n")
        self.reading.join()
        if self.is_beside:
            self.gate.print("".join(self.lines))
        found = COUNTS.fullmatch(self.lines[-1].strip()) if self.lines else None
        passed, failed = map(int, found.groups()) if found else (0, 1)
        if self.status != 0 and failed == 0:
            failed = 1
        left_out = ", ".join(dict.fromkeys(it[1].strip() for it in map(LEFT_OUT.match, self.lines) if it))
        if left_out:
            failed += self.gate.leave_out(self.stage.name, left_out, is_whole=passed + failed == 0)
        elif passed + failed == 0:
            self.lines.append("it tried nothing")
            failed = 1
        if failed:
            self.gate.tell_failure(self.stage.name, self.lines[-1] if self.lines else "it said nothing")
        is_kept = any(it.startswith("kept: an earlier run") for it in self.lines[-2:])
        kept = "kept" if is_kept else f"{self.seconds} seconds, {self.minutes:.1f} processor minutes"
        beside = ", beside others" if self.is_beside else ""
        self.gate.print(f"== {self.stage.name}: {kept}{beside}, {passed} passed, {failed} failed\n")
        self.gate.passed += passed
        self.gate.failed += failed


class Gate:
    """The counts of all stages, the first failure, and what is not tried: `lacks` has what this machine lacks that is no command."""
    def __init__(self, anew=False, lacks=()):
        self.anew, self.passed, self.failed, self.first = anew, 0, 0, None
        self.lacks, self.left_out = lacks, []
        self.printing, self.began, self.groups = threading.Lock(), time.monotonic(), Groups()

    def print(self, text):
        with self.printing:
            sys.stdout.write(text)
            sys.stdout.flush()

    def tell_failure(self, name, line):
        """The first failure of all stages is told at once, and again at the end."""
        if self.first is None:
            self.first = f"{name}: {line.strip():.300}"
            self.print(f"FIRST FAILURE: {self.first}\n")

    def leave_out(self, name, lacking, is_whole):
        """Says of a stage, or of a part of it, that it is not tried. The failures that this is: one in CI, and else none."""
        what = f"{name}: not tried{'' if is_whole else ' in part'}: no {lacking}"
        self.left_out.append(what)
        self.print(f"== {what}\n")
        if os.environ.get("CI") != "true":
            return 0
        self.tell_failure(name, f"not tried: no {lacking}")
        return 1

    def can_try(self, stage):
        """Whether a stage has what it can't try anything without."""
        lacking = [it for it in stage.needs if it in self.lacks or it not in NO_COMMANDS and not shutil.which(it)]
        if lacking:
            self.failed += self.leave_out(stage.name, ", ".join(lacking), is_whole=True)
        return not lacking

    def run(self, stage, folder):
        if self.can_try(stage):
            self.print(f"== {stage.name}\n")
            Run(stage, folder, self, is_beside=False).join()

    def begin(self, stages, folder, nice=False, log=None):
        """Begins stages beside others. What they say goes into the log too, where there is one."""
        return [Run(it, folder, self, is_beside=True, nice=nice, log=log) for it in stages if it and self.can_try(it)]

    def finish(self, note=""):
        """Prints the minutes and the counts, and answers the exit status."""
        if self.left_out:
            self.print("".join(f"{it}\n" for it in [f"not tried: {len(self.left_out)}", *self.left_out]))
        if self.first:
            self.print(f"FIRST FAILURE: {self.first}\n")
        used = os.times()
        minutes = (used.children_user + used.children_system) / 60
        clock = (time.monotonic() - self.began) / 60
        self.print(f"{minutes:.1f} processor minutes, {clock:.1f} minutes by the clock{note}\n")
        self.print(f"{self.passed} passed, {self.failed} failed\n")
        return 1 if self.failed or not self.passed else 0
