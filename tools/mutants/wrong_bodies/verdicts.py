"""Judges by what a check says. A round says megabytes, of which each of its edits is judged, so they are read once."""
import dataclasses
import functools
import re

from . import goals

# An error that says only that a proof file names what the edit took away.
NAMES = re.compile(r"has no field|is not a field of|is not in scope|has no `|was not admitted")
# Where such an error goes on in a second line.
WRAPPED = re.compile(r"\n +(?=has no |is not a field|not a field|a field of|field of)")
OPEN_GOAL = re.compile(r"(?m)^(?:note: |\./)?(\S+:\d+:\d+: it is not proved .*|proofs/\S+: error: .*)")
ERROR_IN_PROOF = re.compile(r"(?m)^(?:\./)?(proofs/\S+?\.antt):(\d+):\d+: error: (.*)")
# What is said of a place, with the lines that go on with it.
BLOCK = re.compile(r"(?m)^(?:\./)?(\S+?):(\d+):.*(?:\n .*)*")
NOTE = re.compile(r"note: (\S+?):(\d+):\d+: (it is not proved .*)")
NOT_PROVED = re.compile(r"fn (\S+?): (?!proved)(.*)")
# The line that a check ends with once the front end has taken the text.
TAKEN = re.compile(r"(?m)^(?:logic|only)=")
# A text that cannot be read. (Where an edit makes a statement false, the error begins with the statement's name.)
UNREAD = re.compile(r"(?m)^(?:\./)?(?:src|specs)/\S+: error: (?:(?!`[^`]*`: ).*|.*(?:is not in scope|has no field|is not a field of).*)")

REFUSED, PROVED, WAITS, UNCLEAR = "refused", "proved", "waits", "unclear"


@dataclasses.dataclass
class Place:
    """A line of a file, from 1, and what a check says of it."""
    path: str
    line: int
    text: str

    def __str__(self):
        return f"{self.path}:{self.line}: {self.text:.160}"

    def is_below(self, folder):
        return self.path.rpartition("/")[0] == folder


@dataclasses.dataclass
class Unproved:
    """A function that a check did not prove: its whole path, why, and the places of its open goals."""
    name: str
    why: str
    goals: list

    @property
    def folder(self):
        """The folder of its proof."""
        return f"proofs/{self.name.partition('::')[2].replace('::', '/')}"

    def is_of(self, function):
        """Whether it is this function or a closure in it."""
        return f"::{function.symbol}::" in f"{self.name}::"


@functools.lru_cache(maxsize=16)
def in_whole_lines(said):
    """What a check says, with each error in one line that only says that a name is gone."""
    return WRAPPED.sub(" ", said)


@functools.lru_cache(maxsize=16)
def unproved_in(said):
    """The functions that a check did not prove. The notes of a function stand above its line."""
    found, goals = [], []
    for line in said.split("\n"):
        if note := NOTE.match(line):
            goals.append(Place(note[1], int(note[2]), note[3]))
        if head := NOT_PROVED.match(line):
            found.append(Unproved(head[1], head[2], goals))
        if line.startswith("fn "):
            goals = []
    return found


@functools.lru_cache(maxsize=16)
def all_errors_in_proofs(said):
    """The places of the errors in proofs."""
    return [Place(path, int(line), text) for path, line, text in ERROR_IN_PROOF.findall(said)]


@functools.lru_cache(maxsize=16)
def errors_in_proofs(said):
    """The places of the errors in proofs, but for those that say only that a name is gone."""
    return [place for place in all_errors_in_proofs(said) if not NAMES.search(place.text)]


def open_goal(said):
    """The first goal that is open anywhere, as a check says it, or None."""
    return next((f"{found:.200}" for found in open_goals(said) if not NAMES.search(found)), None)


def open_goals(said):
    return OPEN_GOAL.findall(in_whole_lines(said))


def judged(edit, judges, said, is_by_itself):
    """What a round says of an edit, by what it says of its judges and their closures: refused, waits or unclear, and why.
    Where an edit that changes more than a function is by itself, any open goal refuses it."""
    said = in_whole_lines(said)
    if edit.changes_several and is_by_itself:
        goal = open_goal(said)
        return (REFUSED, f"refused: {goal}") if goal else (UNCLEAR, "")
    errors = errors_in_proofs(said)
    if edit.changes_several:
        for error in errors:
            if error.path in edit.reach:
                return REFUSED, f"refused: {error}"
    causes = []
    for unproved in unproved_in(said):
        for judge in judges:
            if unproved.is_of(judge.function):
                if place := place_of_refusal(unproved, judge, errors):
                    return REFUSED, f"refused: {place}"
                causes.append(unproved.why)
    waits = causes and all("it calls" in cause for cause in causes)
    return (WAITS if waits else UNCLEAR), ""


def judged_by_goal(edit, judge, said):
    """What a round says of an edit that it judges by the goal that its file names: refused, or unclear."""
    said, function = in_whole_lines(said), judge.function
    path = goals.path_of_answers(edit.crate, function)
    for error in errors_in_proofs(said):
        if error.path == path and error.line in edit.lines_of_answer:
            where = " at a bound" if broke_off(said, error) else ""
            return REFUSED, f"refused{where}: {without_number(error)}"
    if not edit.lines_of_answer:
        for unproved in unproved_in(said):
            if unproved.is_of(function) and (place := open_in(unproved, judge)):
                return REFUSED, f"refused: {place}"
    return UNCLEAR, ""


def broke_off(said, error):
    """Whether the search at the place of an error ended before it had tried every way."""
    return (error.path, error.line) in places_broken_off(said)


@functools.lru_cache(maxsize=16)
def places_broken_off(said):
    return {(block[1], int(block[2])) for block in BLOCK.finditer(said) if "broke off" in block[0]}


def place_of_refusal(unproved, judge, errors):
    """The first goal that is open in the function, by its line in the crate, or else the first error in its proof."""
    if place := open_in(unproved, judge):
        return place
    for error in errors:
        if error.is_below(unproved.folder):
            return without_number(error)
    return None


def open_in(unproved, judge):
    """The first goal that is open in the function, by its line in the crate, or None."""
    function = judge.function
    for goal in unproved.goals:
        if goal.path == function.path and goal.line in function.lines:
            return Place(goal.path, goal.line - judge.moved, goal.text)
    return None


def without_number(error):
    """An error with the path that its file has in the crate."""
    return re.sub(r"(_edit\d+)(?=/)", "", str(error))


def judged_alone(said):
    """Whether a check of the whole crate refuses an edit, and what to say."""
    last = re.search(r"(?m)^logic=(proved|not-proved)", said)
    unread = UNREAD.search(said)
    if unread or not last:
        why = unread or re.search("(?m)^.*error.*|$", said)
        return False, f"BAD EDIT: {why[0]:.300}"
    if last[1] == "proved":
        return False, "NOT REFUSED: the crate is still proved with this edit"
    goal = open_goal(said)
    if goal:
        return True, f"refused alone: {goal}"
    gone = next(iter(open_goals(said)), None)
    return False, f"A NAME IS GONE: {gone:.200}" if gone else f"UNCLEAR: {said.strip()[-300:]}"


def is_proved(said):
    return bool(re.search(r"(?m)^logic=proved", said))


def is_taken(said):
    """Whether the front end took the text that was checked."""
    return bool(TAKEN.search(said))


@functools.lru_cache(maxsize=16)
def said_of(crate, said):
    """What a check of several crates says of one, with its paths as they stand in the crate."""
    own = re.sub(rf"(?m)^((?:note: )?(?:\./)?){crate.name}/", r"\1", said)
    return re.sub(rf"(?m)^fn (?!{crate.name}::).*", "fn of another crate", own)
