"""Tries wrong bodies without the stored answer that refuses them.

An answer that is stored for a goal was written for the present body. Where it refuses a wrong body, the goal may be false, or
only this answer may not fit. So the goal is left to the tactics here. The other stored answers of the function have a hole, for
the goal is judged by itself. Where the tactics prove the goal, the body is right, or a contract is weak, or another goal refuses
it; a reader has to look at each.
"""
import collections
import random
import re
import threading
from concurrent.futures import ThreadPoolExecutor

from turns import Processes

from . import copies, goals, verdicts

FALSE, OPEN, AT_BOUND, TOO_LONG, OTHER, PROVED, UNKNOWN = KINDS = (
    "false at some values",
    "the search ends without a proof",
    "the search stops at a bound",
    "the search takes too long",
    "proved, and another goal is open",
    "proved",
    "not judged",
)
# What the kit adds to its note on a goal that its tactics leave open.
SAID_OF_A_GOAL = {FALSE: "allow values at which this goal is false", AT_BOUND: "gave up at one of its limits"}
# A function of which no goal is open: its proof has no hole, or those of the other goals and of what it calls.
IN_ORDER = re.compile(r"(?m)^fn (\S+?): (?:proved|no holes|depends on a hole in .*)$")


class Limited(Processes):
    """Processes that end after so many seconds."""
    def __init__(self, seconds):
        super().__init__()
        self.seconds = seconds

    def begin(self, words, folder):
        return super().begin(["timeout", str(self.seconds), *words], folder)


def drawn(crates, count, start):
    """So many of the edits of these crates that name a goal with a stored answer, drawn by chance."""
    edits = [edit for crate in crates for edit in crate.edits() if has_answer(edit)]
    return random.Random(start).sample(edits, min(count, len(edits))), len(edits)


def has_answer(edit):
    """Whether the edit names a goal, and not a lemma, that its crate stores an answer for."""
    if not edit.names_a_goal:
        return False
    text = edit.crate.sources.get(goals.path_of_answers(edit.crate, edit.functions[0]), "")
    return edit.goal in goals.answers_in(text)


def copy_of(edit):
    """A copy in which the tactics are asked for the goal that the edit names, and no answer is stored for it."""
    copy = copies.copy_of([edit])
    function, texts = copy.judges[edit][0].function, copy.texts[edit.crate]
    path = goals.path_of_answers(edit.crate, function)
    text = texts.get(path) or edit.crate.sources[path]
    answers = goals.answers_in(text)
    own, lines = answers.pop(edit.goal), text.split("\n")
    lines[own.start : own.stop] = [""] * len(own)
    texts[path] = goals.with_holes("\n".join(lines), answers, edit.others)
    return copy


def judged(edit, judge, said):
    """What becomes of the goal, by what a check says: one of the kinds, and what was said."""
    if not verdicts.is_taken(said):
        return (UNKNOWN, said.strip()[-200:]) if "error" in said else (TOO_LONG, "")
    own = [it for it in verdicts.unproved_in(said) if it.is_of(judge.function)]
    notes = [goal.text for it in own for goal in it.goals]
    # (Where an answer was for all clauses, the tactics try each by itself, and it has a goal of its own.)
    of_goal = [it for it in notes if f"(`{edit.goal}`)" in it or f"(`{edit.goal}-" in it]
    if of_goal:
        return next((kind for kind, text in SAID_OF_A_GOAL.items() if text in of_goal[0]), OPEN), of_goal[0]
    if notes:
        return OTHER, notes[0]
    # (Of a goal of an invariant it tells so.)
    if left := [it.why for it in own if f"did not prove `{edit.goal}`" in it.why]:
        return OPEN, left[0]
    is_proved = any(found.rpartition("::")[2] == judge.function.symbol.rpartition("::")[2] for found in IN_ORDER.findall(said))
    return (PROVED, "") if is_proved else (UNKNOWN, "; ".join(it.why for it in own)[:200])


class Runner:
    """Tries some edits, of which at most so many at once."""
    def __init__(self, checks, lanes):
        self.checks, self.lanes, self.kinds, self.lock = checks, lanes, collections.Counter(), threading.Lock()

    def try_all(self, edits):
        with ThreadPoolExecutor(self.lanes) as pool:
            for _ in pool.map(self.try_one, edits):
                pass

    def try_one(self, edit):
        copy = copy_of(edit)
        said = verdicts.in_whole_lines(self.checks.check(copy))
        kind, why = judged(edit, copy.judges[edit][0], verdicts.said_of(edit.crate, said))
        with self.lock:
            self.kinds[kind] += 1
            print(f"{edit.crate.name}/{edit.name}: {kind}{': ' * bool(why)}{why}", flush=True)

    def finish(self):
        """Prints the counts, and answers the exit status."""
        print(", ".join(f"{self.kinds[kind]} {kind}" for kind in KINDS))
        return 1 if self.kinds[UNKNOWN] else 0
