"""Commands that end with the process that began them."""
import contextlib
import os
import pathlib
import signal
import subprocess
import sys
import threading
import time

# How long what is told to end has for that, as a server that a test began. Then it is killed.
SECONDS = 20


class Groups:
    """What this process begins, each command in a group of its own. (With sessions in place of groups, Linux would share out the
    processors among these, and `nice` would do nothing.)"""
    def __init__(self):
        self.beginning, self.is_ending = threading.RLock(), False

    def begin(self, words, **how):
        with self.beginning:
            if self.is_ending:
                sys.exit(1)
            return subprocess.Popen(words, process_group=0, **how)

    def end_on_signals(self):
        for number in (signal.SIGTERM, signal.SIGINT, signal.SIGHUP):
            if signal.getsignal(number) != signal.SIG_IGN:  # (as under `nohup`)
                signal.signal(number, lambda received, _: self.end_all(128 + received))

    def end_all(self, status):
        """Ends all that runs below this process, and this process. No other begins meanwhile."""
        with self.beginning:
            if self.is_ending:
                return
            self.is_ending = True
        groups, told, killed_from = set(), set(), time.monotonic() + SECONDS
        while left := in_groups(groups):
            is_late = time.monotonic() > killed_from
            for number in left if is_late else left - told:
                with contextlib.suppress(OSError):
                    os.kill(number, signal.SIGKILL if is_late else signal.SIGTERM)
            told |= left
            time.sleep(0.1)
        sys.exit(status)


def in_groups(groups):
    """The processes that run in these groups, to which those of the processes below this one are added: what a command began may
    have another, as under `timeout`, and may be left where the command is gone."""
    found = dict(processes())
    below = {os.getpid()}
    while more := {it for it, (parent, _) in found.items() if parent in below} - below:
        below |= more
    groups |= {found[it][1] for it in below if it in found} - {os.getpgrp()}
    return {it for it, (_, group) in found.items() if group in groups}


def processes():
    """The processes that have not ended, each with its parent and its group."""
    for file in pathlib.Path("/proc").glob("[0-9]*/stat"):
        with contextlib.suppress(OSError):
            state, parent, group = file.read_text(errors="replace").rpartition(")")[2].split()[:3]
            if state != "Z":
                yield int(file.parent.name), (int(parent), int(group))
