"""The checks that a run of edits begins, and how they give way to others on this machine: all would take longer side by side
than one after another.

tools/mutants/edits stands on it.
"""
import atexit
import contextlib
import glob
import os
import shutil
import signal
import subprocess
import tempfile
import threading
import time

# The seconds between two looks at what runs here. A look reads a file for each thread, and takes some 20 ms of a processor.
SECONDS = 8


class Processes:
    """The processes that run for us, and the folder that has all their files. Neither is left where we are told to end."""
    def __init__(self):
        self.ours, self.folder = [], tempfile.mkdtemp(prefix="edits-")
        self.beginning = threading.RLock()
        atexit.register(shutil.rmtree, self.folder, ignore_errors=True)

    def room(self):
        """A folder for some files."""
        return tempfile.TemporaryDirectory(dir=self.folder)

    def run(self, words, folder):
        """Runs a command in a folder, and answers what it printed."""
        process = self.begin(words, folder)
        said = process.communicate()[0]
        self.ours.remove(process)
        return said.decode(errors="replace")

    def begin(self, words, folder):
        how = {"stdin": subprocess.DEVNULL, "stdout": subprocess.PIPE, "stderr": subprocess.STDOUT}
        with self.beginning:
            process = subprocess.Popen(words, cwd=folder, **how)
            self.ours.append(process)
        return process

    def end_all(self, status):
        """Ends all of them, and this process. No other begins meanwhile."""
        self.beginning.acquire()
        for process in list(self.ours):
            process.kill()
        # (renamed first, so that no thread goes on in it)
        with contextlib.suppress(OSError):
            os.rename(self.folder, f"{self.folder}-gone")
        for folder in (f"{self.folder}-gone", self.folder):
            shutil.rmtree(folder, ignore_errors=True)
        os._exit(status)

    def end_on_signals(self):
        for number in (signal.SIGTERM, signal.SIGINT, signal.SIGHUP):
            signal.signal(number, lambda received, _: self.end_all(128 + received))


class Turns(Processes):
    """Our processes beside those of others. One begins once a processor is free, and those begun last stand still while more
    want to run than there are processors. They end with the process that began us, for then nobody waits for an answer."""
    def __init__(self):
        self.parent = os.getppid()
        super().__init__()
        self.starting, self.processors = threading.Lock(), os.sched_getaffinity(0)
        threading.Thread(target=self.give_way, daemon=True).start()

    def begin(self, words, folder):
        with self.starting:
            while self.free() <= len(self.ours):
                time.sleep(SECONDS)
            return super().begin(words, folder)

    def free(self):
        """How many processors others leave."""
        return len(self.processors) - threads_that_run({os.getpid(), *(process.pid for process in self.ours)}, self.processors)

    def give_way(self):
        while os.getppid() == self.parent:
            time.sleep(SECONDS)
            free = self.free() if self.ours else 0
            for place, process in enumerate(list(self.ours)):
                process.send_signal(signal.SIGCONT if place < free else signal.SIGSTOP)
        self.end_all(1)


def threads_that_run(but, processors):
    """How many threads run or want to on these processors, but for those of these processes."""
    found = 0
    for file in glob.iglob("/proc/[0-9]*/task/[0-9]*/stat"):
        if int(file.split("/")[2]) not in but:
            try:
                with open(file, encoding="utf-8", errors="replace") as stat:
                    fields = stat.read().rpartition(")")[2].split()
                found += fields[0] == "R" and int(fields[36]) in processors
            except OSError:
                pass  # (it has ended)
    return found
