"""Right bodies under a search with a bound, and which such search may judge an edit.

The file of an edit may say by which search with a bound its goal is tried. That it proves nothing about the wrong body says
something only where it proves the goal of the right body. So beside the wrong bodies of a run some of their functions stand as
they are, drawn by chance, and the goal of each has to be proved within half the bound. `--bounds` finds such a search for each
edit that names a goal without an answer, and writes it into the file.
"""
import random
import re
from concurrent.futures import ThreadPoolExecutor

from . import copies, goals, together, verdicts

# How many right bodies a run tries.
MOST = 20
STEPS = re.compile(r"(?<= steps )\d+\b")
# What a check tells of a function, proved or not.
OF_FUNCTION = re.compile(r"(?m)^fn (\S+?): ")
# What is tried for an edit, in this order: for a goal of a plain function, and for one of a function with type parameters.
CANDIDATES = [
    f"{binders} = {tactic}"
    for tactic in ("search (rules, using) steps 300000", "grind (arith, common_steps, using) steps 100000")
    for binders in ("c", "g c")
]
# The most of them that one check tries.
TOGETHER = 40


class Right:
    """The function of an edit as it stands, asked for the same goal by the same search within half its bound."""
    is_bad = changes_several = False
    names_a_goal, pairs = True, ()

    def __init__(self, edit, answer):
        self.edit, self.crate, self.name, self.goal, self.others = edit, edit.crate, edit.name, edit.goal, edit.others
        self.functions, self.symbols, self.reach, self.stands_beside = edit.functions, edit.symbols, edit.reach, edit.stands_beside
        self.answer = STEPS.sub(lambda found: str(int(found[0]) // 2), answer)
        self.wrong_body = edit.functions[0].text if edit.stands_beside else None
        self.lines_of_answer = goals.lines_of_own_answer(self)

    @property
    def key(self):
        return self.crate.name, self.functions[0].symbol, self.goal, self.answer

    def applied(self, texts, _changes=None):
        return dict(texts)


class Wrong:
    """An edit asked for its goal by this search."""
    def __init__(self, edit, answer):
        self.edit, self.answer = edit, answer
        self.lines_of_answer = goals.lines_of_own_answer(self)

    def __getattr__(self, name):
        return getattr(self.edit, name)


def rights_of(edits):
    """The right bodies for those of these edits whose file has such a search, each once."""
    found = [Right(edit, edit.answer) for edit in edits if edit.names_a_goal and edit.answer and not edit.lines_of_stored]
    return list({it.key: it for it in found}.values())


def drawn(edits, start):
    """Some of the right bodies for these edits, by chance, and of how many."""
    found = rights_of(edits)
    return random.Random(start).sample(found, min(MOST, len(found))), len(found)


def judged(right, judge, said):
    """Whether a check proves the goal of a right body: it tells of the function, and of no error in that answer's file."""
    path, symbol = goals.path_of_answers(right.crate, judge.function), judge.function.symbol
    errors = [it for it in verdicts.all_errors_in_proofs(verdicts.in_whole_lines(said)) if it.path == path]
    if errors:
        return verdicts.REFUSED, verdicts.without_number(errors[0])
    is_told = any(f"::{name}".endswith(f"::{symbol}") for name in OF_FUNCTION.findall(said))
    return (verdicts.PROVED, "") if is_told else (verdicts.REFUSED, "the check does not tell of it")


class Finder:
    """Finds a search for each of some edits, and writes it into their files."""
    def __init__(self, checks, lanes):
        self.checks, self.lanes, self.found, self.left = checks, lanes, 0, []

    def find_all(self, edits):
        self.left = [it for it in edits if it.names_a_goal and not it.answer and not it.lines_of_stored]
        for candidate in CANDIDATES:
            crates = dict.fromkeys(it.crate for it in self.left)
            own = [[it for it in self.left if it.crate is crate] for crate in crates]
            parts = [them[at : at + TOGETHER] for them in own for at in range(0, len(them), TOGETHER)]
            with ThreadPoolExecutor(self.lanes) as pool:
                written = {it for part in pool.map(lambda part: self.try_part(part, candidate), parts) for it in part}
            self.left = [it for it in self.left if it not in written]
            self.found += len(written)

    def try_part(self, edits, candidate):
        """Those of these edits of a crate whose files got this search: it proves the right body, and not the wrong one."""
        rights = {it: Right(it, candidate) for it in edits}
        one_each = {it.key: it for it in rights.values()}
        proved = {it.key for it, verdict in self.tried([*one_each.values()]) if verdict == verdicts.PROVED}
        wrong = [Wrong(it, candidate) for it in edits if rights[it].key in proved]
        refused = [it.edit for it, verdict in self.tried(wrong) if verdict == verdicts.REFUSED]
        for edit in refused:
            text = edit.file.read_text()
            edit.file.write_text(f"{text.rstrip()}\n# answer: {candidate}\n")
            print(f"{edit.crate.name}/{edit.name}: {candidate}", flush=True)
        return refused

    def tried(self, bodies):
        """What checks say of the goal of each of these bodies."""
        left = list(bodies)
        while left:
            now = together.taken_together(left, len(left))
            left = [it for it in left if it not in now]
            yield from self.round(now)

    def round(self, bodies):
        copy = copies.copy_of(bodies, by_goal=bodies)
        kept = bodies[0].crate.folder / "out/incremental"
        said = self.checks.check(copy, kept if kept.is_dir() else None)
        if not verdicts.is_taken(said):
            halves = [bodies[::2], bodies[1::2]] if len(bodies) > 1 else []
            return [found for half in halves for found in self.round(half)]
        said = verdicts.said_of(bodies[0].crate, said)
        return [(it, verdict_of(it, copy.judges[it][0], said)) for it in bodies]

    def finish(self):
        print(f"found for {self.found}, for {len(self.left)} none")
        return 0


def verdict_of(body, judge, said):
    return (judged if isinstance(body, Right) else verdicts.judged_by_goal)(body, judge, said)[0]
