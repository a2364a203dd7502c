"""Rows of tools/mutants/check_edits on controls: with a stand-in for the checks, what is told of one, how all are counted, and
with real checks, what the script says of some."""
import contextlib
import io

from goal_rows import ANSWERS, BROKE_OFF, FALSE, NEXT, NOTHING, edit_of_next, stored
from kept_rows import StandIn
from small_project import CONTROLS

FILE = "proofs/next/Answers.antt"
NO_HOLES, PROVED = "fn numbers::next: no holes\nonly=1", "fn numbers::next: proved\nonly=1"
ON_A_CALL = "fn numbers::next: depends on a hole in `Rattle.proofs.a.Proof.a_spec`, `Rattle.proofs.b.c.Proof.c_spec`\nonly=1"
ON_A_LEMMA = ON_A_CALL.replace("b.c.Proof.c_spec", "Lemmas.small")
# An answer that names what the body does not have, as two lines say.
MISSING = """proofs/next/Answers.antt:9:6: error: `returns`: record `C` (nearest: .args)
  has no field `call`
fn numbers::next: not proved
only=1"""
NO_FIELD = FALSE.format(9, "returns").replace("the goal fails", "`call` is not a field of record `C`")
BOTH = BROKE_OFF + "\n" + FALSE.format(14, "overflow")
NAME_FIRST = MISSING + "\n" + BROKE_OFF
CLOSURE = NO_HOLES + "\nfn numbers::next::closure: not proved"
# What the checks of a control say in turn, what has to be told, how it is counted, and the exit status.
SAID = [
    ("it has no hole", [NO_HOLES], "proved\n", "1 proved, 0 refused: 0 by an open goal, 0 by a stored answer, 0 by a name", 0),
    ("it is proved", [PROVED], "proved\n", "1 proved, 0 refused: ", 0),
    ("it rests on the contracts of two others", [ON_A_CALL], "proved\n", "1 proved, 0 refused: ", 0),
    ("it rests on a lemma with a hole", [ON_A_LEMMA, "logic=not-proved"], "UNCLEAR: ", "not judged: 1\n0 proved, 0 refused: ", 1),
    ("nothing is said, and all is proved", [NOTHING, "logic=proved"], "proved\n", "1 proved, 0 refused: ", 0),
    ("a closure in it is not proved", [CLOSURE, "logic=proved"], "proved\n", "1 proved, 0 refused: ", 0),
    ("a goal is open", [NEXT], "refused: src/lib.rt:9: ", "0 proved, 1 refused: 1 by an open goal, 0 by a", 0),
    ("an answer does not fit", [FALSE.format(10, "returns")], f"refused: {FILE}:10: ", "1 by a stored answer, 0 by a name", 0),
    ("an answer names what is gone", [MISSING], f"refused by a name: {FILE}:9: ", "0 by a stored answer, 1 by a name", 0),
    ("a record has no such field", [NO_FIELD], f"refused by a name: {FILE}:9: ", "0 by a stored answer, 1 by a name", 0),
    ("a search broke off", [BROKE_OFF], f"refused at a bound: {FILE}:10: ", "0 by a name that is gone, 1 at a bound", 0),
    ("one broke off, another answer does not fit", [BOTH], f"refused: {FILE}:14: ", "1 by a stored answer, 0 by a name", 0),
    ("one names what is gone, another broke off", [NAME_FIRST], f"refused at a bound: {FILE}:10: ", "gone, 1 at a bound", 0),
    ("an open goal of the whole crate", [NOTHING, f"{NEXT}\nlogic=not-proved"], "refused alone: src/lib.rt:9:1: ", "1 by an open goal, 0 by", 0),
    ("it does not compile", ["error: a name", "no verdict"], "BAD EDIT: ", "not judged: 1\n0 proved, 0 refused: ", 1),
    ("it is not known", [NOTHING, "logic=not-proved"], "UNCLEAR: ", "not judged: 1\n0 proved, 0 refused: ", 1),
]


def check_controls(counts, project, runner_of, ran):
    """Rows on a control of `next`, for which `runner_of` gives a runner with a stand-in, and on a run of the script."""
    for row in SAID:
        check_said(counts, project.crates["numbers"], runner_of, *row)
    told = ran("--controls", "--proved", "numbers")
    for name, _, _, wanted in CONTROLS:
        counts.report(f"the control {name}", "" if f"numbers/{name}: {wanted}" in told.stdout else f"found {told.stdout}")
    wanted = "2 proved, 1 refused: 1 by an open goal, 0 by a stored answer, 0 by a name that is gone, 0 at a bound\n"
    counts.report("the last line has the counts of controls", "" if told.stdout.endswith(wanted) else f"found {told.stdout}")
    counts.compare("it passes where each control is judged", told.returncode, 0)


def check_said(counts, crate, runner_of, name, said, line, count, status):
    with stored(crate, ANSWERS), contextlib.redirect_stdout(io.StringIO()) as told:
        checks = StandIn(["logic=proved", *said])
        runner = runner_of(checks)
        runner.try_group([edit_of_next(crate)], 100)
        found = runner.told.finish()
    text = told.getvalue()
    is_told = f"next-stands: {line}" in text and count in text and not checks.left
    counts.report(f"a control: {name}", "" if is_told and found == status else f"status {found}, {text}, {checks.left}")
