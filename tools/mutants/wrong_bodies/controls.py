"""Judges controls: bodies that are right, and written otherwise than those of the crates.

They stand in rounds as wrong bodies do, each by all goals of its function. A control that is refused is refused for its proof
alone: an answer that is stored for the present body does not fit it, or the tactics do not find a proof of a goal.
"""
import collections
import re

from . import rounds, verdicts

FOLDER = "controls"
# What a check says of a function that it proved. Where others have a hole it says `no holes`, or that the function rests on the
# proofs of those that it calls: of these a round has the contracts alone.
CALLED = r"`\S+\.Proof\.\w+_spec`"
PROVED_FUNCTION = re.compile(rf"(?m)^fn (\S+?): (?:proved|no holes|depends on a hole in {CALLED}(?:, {CALLED})*)$")
# How the errors in a proof refuse a control: of several, the one that comes first here. The last one only says that a name is
# gone, and refuses no wrong body.
HOW = NO_FIT, AT_BOUND, BY_NAME = "", " at a bound", " by a name"
# The kinds of refusals, each by how its verdict begins.
KINDS = {
    "at a bound": re.compile("refused at a bound: "),
    "by a name that is gone": re.compile("refused by a name: "),
    "by a stored answer": re.compile("refused(?: alone)?: proofs/"),
    "by an open goal": re.compile("refused"),
}


class Runner(rounds.Runner):
    """Tries controls, each by all goals."""
    def __init__(self, *given, **how):
        super().__init__(*given, **(how | {"by_goal": False}))
        self.told = Told()

    def judged(self, edit, judges, said, is_by_itself):
        return judged(judges, verdicts.in_whole_lines(said))


class Told(rounds.Told):
    """What was told of the controls."""
    def __init__(self):
        super().__init__()
        self.kinds = collections.Counter()

    def tell(self, edit, is_refused, why, is_kept=False, is_tried=False):
        why = "proved" if why.startswith("NOT REFUSED") else why
        kind = next((kind for kind, begins in KINDS.items() if begins.match(why)), why)
        with self.lock:
            self.kinds[kind] += 1
        super().tell(edit, is_refused, why, is_kept, is_tried)

    def finish(self):
        """Prints the counts, and answers the exit status."""
        proved = self.kinds["proved"]
        if self.others > proved:
            print(f"not judged: {self.others - proved}")
        by_kind = ", ".join(f"{self.kinds[kind]} {kind}" for kind in reversed(KINDS))
        print(f"{proved} proved, {self.refused} refused: {by_kind}")
        return 1 if self.others > proved else 0


def judged(judges, said):
    """What a round says of a control, by what it says of its judges and their closures: proved, refused, waits or unclear,
    and why."""
    unproved = [it for it in verdicts.unproved_in(said) if any(it.is_of(judge.function) for judge in judges)]
    proved = set(PROVED_FUNCTION.findall(said))
    left = [it for it in unproved if it.name not in proved]
    if not left and any(f"::{judge.function.symbol}\n" in f"{name}\n" for name in proved for judge in judges):
        return verdicts.PROVED, "proved"
    for it in left:
        for judge in judges:
            if place := verdicts.open_in(it, judge):
                return verdicts.REFUSED, f"refused: {place}"
    errors = [error for it in left for error in verdicts.all_errors_in_proofs(said) if error.is_below(it.folder)]
    if errors:
        error = min(errors, key=lambda error: HOW.index(how_it_refuses(said, error)))
        return verdicts.REFUSED, f"refused{how_it_refuses(said, error)}: {verdicts.without_number(error)}"
    waits = left and all("it calls" in it.why for it in left)
    return (verdicts.WAITS if waits else verdicts.UNCLEAR), ""


def how_it_refuses(said, error):
    """How an error in the proof of a control refuses it."""
    if verdicts.NAMES.search(error.text):
        return BY_NAME
    return AT_BOUND if verdicts.broke_off(said, error) else NO_FIT
