"""How the scripts in the folders here answer a call that they do not know: one sentence on standard error, and status 2."""
import argparse
import contextlib
import os
import sys


def stop(script, sentence):
    """Ends a script that cannot be called like this."""
    print(f"{script}: {sentence}", file=sys.stderr)
    sys.exit(2)


def answer_help(words, text):
    """Prints the text at the head of a script and ends it, where that is asked for."""
    if "--help" in words or "-h" in words:
        with contextlib.suppress(BrokenPipeError):
            print(text.strip(), flush=True)
        os._exit(0)


class Parser(argparse.ArgumentParser):
    """The words of a call. `--help` prints the text at the head of the script."""
    def __init__(self, script, text):
        super().__init__(prog=script, add_help=False, allow_abbrev=False)
        self.script, self.text = script, text
        self.add_argument("--help", "-h", action="store_true")

    def error(self, message):
        stop(self.script, f"{message}; {self.script} --help says how it is called")

    def parse_args(self, words=None):
        answer_help(words, self.text)
        return super().parse_args(words)


def no_words(script, words, text):
    """For a script that takes none but `--help`."""
    answer_help(words, text)
    if words:
        stop(script, f"it takes no word, and {words[0]} was given")
