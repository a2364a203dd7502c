"""Tries the edits in rounds, in lanes."""
import re
import threading
import time
from concurrent.futures import FIRST_COMPLETED, ThreadPoolExecutor, wait

from . import bounded, copies, keys, naming, together, verdicts

BAD = "BAD EDIT: a text behind 'old:' is not in its file exactly once"
TRACKED = "refused, as tools/mutants/refused has it"
# The most edits of a round.
MOST = 200
# A crate that `rt ci` has proved is checked once more where it has more edits that each have a round of their own.
ROUNDS_THAT_GAIN = 2


class Told:
    """What was told of the edits."""
    def __init__(self):
        self.refused, self.others, self.kept, self.tracked, self.tried, self.at_bounds, self.rights = 0, 0, 0, 0, 0, 0, 0
        self.lock = threading.Lock()

    def tell(self, edit, is_refused, why, is_kept=False, is_tried=False):
        with self.lock:
            self.refused += is_refused
            self.others += not is_refused
            self.kept += is_kept and why != TRACKED
            self.tracked += why == TRACKED
            self.tried += is_tried
            self.at_bounds += why.startswith("refused at a bound")
            print(f"{edit.crate.name}/{edit.name}: {why}", flush=True)

    def tell_right(self, right, is_proved, why):
        """Tells of a right body, which the search in the file of an edit has to prove within half its bound."""
        with self.lock:
            self.rights += is_proved
            self.others += not is_proved
            said = "the right body is proved within half the bound" if is_proved else f"THE RIGHT BODY IS NOT PROVED: {why}"
            print(f"{right.crate.name}/{right.name}: {said}", flush=True)

    def finish(self):
        """Prints the counts, and answers the exit status."""
        count = self.refused + self.others
        if self.at_bounds:
            print(f"refused at a bound: {self.at_bounds}")
        print(f"kept: {self.kept} of {count} verdicts, tracked: {self.tracked}, tried in this run: {self.tried}")
        print(f"{self.refused + self.rights} passed, {self.others} failed")
        return 1 if self.others else 0


class Beside:
    """The log of an `rt ci` that runs beside this."""
    def __init__(self, log):
        self.log = log

    def says(self, crate):
        """Whether it has proved the crate or kept it proved; None where neither that nor its end is told yet."""
        ended = re.compile(rf"(?m)^rt: {crate.name} (proved$|is kept: |NOT PROVED)|^\d+ passed, \d+ failed$")
        said = self.log.read_text() if self.log.exists() else ""
        found = ended.search(said)
        return found[1] in ("proved", "is kept: ") if found else None

    def has_told_of(self, crates):
        """Whether it has told of all these, so that nothing is left to give way to."""
        return all(self.says(crate) is not None for crate in crates)

    def proves(self, crate):
        """Waits until it has told of the crate, or has ended, and answers whether the crate is proved."""
        while (said := self.says(crate)) is None:
            time.sleep(4)
        return said


class Rounds:
    """Rounds of edits of a crate, or of several, over a folder of work: each edit by the goal that it names, or by all goals.

    by_goal  the edits that are still to be tried by that goal alone
    """
    def __init__(self, runner, work, most, is_source, by_goal):
        self.runner, self.work, self.most, self.is_source, self.by_goal = runner, work, most, is_source, set(by_goal)
        self.alone = []

    def run(self, left, has_work):
        """Tries these edits in rounds side by side. One that its goal does not refuse is tried again, by all goals."""
        running = set()
        while left or running:
            while left and (has_work or not running):
                now = together.taken_together(left, self.most)
                left = [edit for edit in left if edit not in now]
                running.add(self.submit(now, fills=not has_work))
            ended, running = wait(running, return_when=FIRST_COMPLETED)
            has_work = True
            for found, halves in (ran.result() for ran in ended):
                running |= {self.submit(half) for half in halves}
                over, waiting = self.settle(found)
                if over or len(waiting) < len(found):
                    left.extend([*over, *waiting])
                else:
                    running |= {self.submit([edit]) for edit in waiting}  # (each may wait for another of them)
        for ran in self.alone:
            ran.result()

    def submit(self, edits, fills=False):
        return self.runner.pool.submit(self.round, edits, fills)

    def settle(self, found):
        """Tells of the edits that a round refuses, and has those tried alone of which one by all goals says nothing. Answers
        those that their goals did not refuse, and those that wait for another round."""
        over, waiting = [], []
        for edit, verdict, why in found:
            if isinstance(edit, bounded.Right):
                self.runner.told.tell_right(edit, verdict == verdicts.PROVED, why)
            elif verdict == verdicts.REFUSED:
                self.runner.told.tell(edit, True, why, is_tried=True)
                self.runner.kept.keep(edit, why)
            elif verdict == verdicts.PROVED:
                self.runner.told.tell(edit, False, why, is_tried=True)
            elif edit in self.by_goal:
                over.append(edit)
            elif verdict == verdicts.WAITS and len(found) > 1:
                waiting.append(edit)
            else:
                self.alone.append(self.runner.pool.submit(self.runner.alone, edit))
        self.by_goal.difference_update(over)
        return over, waiting

    def round(self, edits, fills):
        """What a round says of each edit, and the rounds to try instead where the front end does not take all together."""
        by_goal = self.by_goal.intersection(edits)
        copy = copies.copy_of(edits, self.is_source, by_goal)
        said = self.runner.checks.check(copy, self.work, fills)
        if len(edits) > 1 and not verdicts.is_taken(said):
            return [], [edits[::2], edits[1::2]]
        is_by_itself = len(edits) == 1
        found = [(edit, *self.judged(edit, copy.judges[edit], said, is_by_itself)) for edit in edits]
        return found, []

    def judged(self, edit, judges, said, is_by_itself):
        own = verdicts.said_of(edit.crate, said)
        if isinstance(edit, bounded.Right):
            return bounded.judged(edit, judges[0], own)
        if edit in self.by_goal:
            return verdicts.judged_by_goal(edit, judges[0], own)
        return self.runner.judged(edit, judges, own, is_by_itself)


class Runner:
    """Tries edits, by checks of which at most so many run at once.

    by_goal  whether an edit is first tried by the goal alone that its file names
    names    whether each file gets the name of the goal that refuses its edit
    rights   the right bodies to try beside the edits that they are for
    drawn    the names of the edits to try though the checkout has their verdicts
    """
    def __init__(self, checks, kept, lanes, are_proved=False, beside=None, by_goal=True, names=False):
        self.checks, self.kept, self.are_proved, self.beside = checks, kept, are_proved, beside
        self.by_goal, self.names, self.rights, self.drawn = by_goal, names, [], ()
        self.pool, self.told = ThreadPoolExecutor(lanes), Told()

    def try_all(self, groups, most=MOST):
        """Tries the edits of each of these groups, one group beside another."""
        with ThreadPoolExecutor(max(len(groups), 1)) as by_group:
            for _ in by_group.map(lambda group: self.try_group(group, most), groups):
                pass

    def try_group(self, edits, most):
        """Tries these edits of a crate, or of several, and tells of each."""
        edits = self.those_to_judge(edits)
        known = self.known(edits)
        left = [edit for edit in edits if edit not in known]
        with self.checks.room() as work:
            keeps = False
            if self.wants_first_check(left):
                keeps, said = self.first_check(left, work)
                if not verdicts.is_proved(said):
                    return self.tell_unproved(edits, said.strip()[-200:])
            self.tell_known(known)
            rights = [right for right in self.rights if right.edit in edits and known.get(right.edit, TRACKED) == TRACKED]
            return self.try_in_rounds([*left, *rights], work, most, keeps)

    def those_to_judge(self, edits):
        """Those that can be applied and whose crate `rt ci` has proved. It tells of the others."""
        for crate in dict.fromkeys(edit.crate for edit in edits):
            if self.beside and not self.beside.proves(crate):
                self.tell_unproved([edit for edit in edits if edit.crate is crate and not edit.is_bad], "rt ci says so")
                edits = [edit for edit in edits if edit.crate is not crate or edit.is_bad]
        for edit in edits:
            if edit.is_bad:
                self.told.tell(edit, False, BAD)
        return [edit for edit in edits if not edit.is_bad]

    def known(self, edits):
        """What earlier runs said of those of these edits that they refused, here or as the checkout has it."""
        return {edit: why for edit in edits if (why := self.kept.kept(edit) or self.tracked(edit))}

    def tracked(self, edit):
        """What is said of an edit whose verdict the checkout has, or None where that is tried anyway."""
        return TRACKED if keys.name_of(edit) not in self.drawn and self.kept.is_tracked(edit) else None

    def tell_known(self, known):
        for edit, why in known.items():
            self.told.tell(edit, True, why, is_kept=True)

    def tell_unproved(self, edits, why):
        names = " or ".join(dict.fromkeys(edit.crate.name for edit in edits))
        for edit in edits:
            self.told.tell(edit, False, f"UNCLEAR: {names} itself is not proved: {why}")

    def wants_first_check(self, left):
        """Whether the crate of these edits, or their crates, have to be checked as they stand."""
        is_one_crate = len({edit.crate for edit in left}) == 1
        rounds = sum(not edit.symbols for edit in left)
        return bool(left) and (not self.are_proved or (is_one_crate and rounds > ROUNDS_THAT_GAIN))

    def first_check(self, left, work):
        """Whether a check of the crates as they stand left its work for the rounds, and what it says. A program and a static
        library are checked as they are, which is of no use to a round."""
        crates = list(dict.fromkeys(edit.crate for edit in left))
        as_source = len(crates) > 1 or crates[0].is_library
        copy = copies.Copy({crate: {} for crate in crates}, is_source=as_source)
        given = (work, True) if as_source else ()
        return as_source, self.pool.submit(self.checks.check, copy, *given).result()

    def try_in_rounds(self, left, work, most, has_work, is_source=True):
        """Tries edits in rounds, each by the goal that its file names, or by all goals where that does not refuse it or it names
        none. Where no check has left its work for them, the first round does."""
        by_goal = (edit for edit in left if self.by_goal and edit.names_a_goal)
        Rounds(self, work, most, is_source, by_goal).run(left, has_work)

    def judged(self, edit, judges, said, is_by_itself):
        """What a round by all goals says of an edit."""
        if self.names:
            naming.write_goal(edit, judges, said)
        return verdicts.judged(edit, judges, said, is_by_itself)

    def alone(self, edit):
        """Tries an edit by a check of the whole crate, from nothing, and tells of it."""
        said = self.checks.check(copies.Copy({edit.crate: edit.applied({})}))
        is_refused, why = verdicts.judged_alone(said)
        self.told.tell(edit, is_refused, why, is_tried=True)
        if is_refused:
            self.kept.keep(edit, why, is_alone=True)

    def try_over_checks(self, edits, most=MOST):
        """Tries these edits of some crates in rounds, each over what `rt check` kept of its crate."""
        edits = self.those_to_judge(edits)
        known = self.known(edits)
        self.tell_known(known)
        left = [edit for edit in edits if edit not in known]
        for crate in dict.fromkeys(edit.crate for edit in left):
            own, kept = [edit for edit in left if edit.crate is crate], crate.folder / "out/incremental"
            if kept.is_dir():
                self.try_in_rounds(own, kept, most, has_work=True, is_source=crate.is_library)
            else:
                with self.checks.room() as work:
                    self.try_in_rounds(own, work, most, has_work=False)
