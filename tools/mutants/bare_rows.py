"""Rows of tools/mutants/check_edits on edits without their stored answer: which are drawn, what is checked of one, and what is said
of its goal."""
from goal_rows import ANSWERS, NEXT, NOTHING, OPEN, edit_of_next, stored
from kept_rows import StandIn
from wrong_bodies import bare, goals

LEFT = """use Rattle.numbers.proofs.next.Goals as goal

-- A lemma.
small : 1 ≤ 2
small = omega arith






-- src/lib.rt:9:1
pub overflow : goal.overflow
overflow = ?
"""
FALSE, CUT = (NEXT.replace(OPEN, f"{OPEN[:-1]}; {text}\n") for text in bare.SAID_OF_A_GOAL.values())
# What a check says, and what becomes of the goal `returns` by that.
SAID = [
    ("it is open", NEXT, bare.OPEN),
    ("it is false", FALSE, bare.FALSE),
    ("the search gave up", CUT, bare.AT_BOUND),
    ("the check was ended", "", bare.TOO_LONG),
    ("nothing is open", "fn numbers::next: no holes\nonly=1", bare.PROVED),
    ("a clause of it is open", NEXT.replace("`returns`", "`returns-clause-value`"), bare.OPEN),
    ("another goal is open", NEXT.replace("`returns`", "`overflow`"), bare.OTHER),
    ("a goal of an invariant is open", "fn numbers::next: no proof: `search` did not prove `returns`\nonly=1", bare.OPEN),
    ("something else is said", NOTHING, bare.UNKNOWN),
    ("it does not compile", "error: a name", bare.UNKNOWN),
]


def check_bare(counts, crate):
    """Rows on an edit of `next` in this crate."""
    edit = edit_of_next(crate)
    counts.compare("none has a stored answer", bare.drawn([crate], 9, 1), ([], 0))
    with stored(crate, ANSWERS):
        found, count = bare.drawn([crate], 9, 1)
        counts.compare("one has a stored answer", ([it.name for it in found], count), (["next-stands"], 1))
        copy = bare.copy_of(edit)
        function = copy.judges[edit][0].function
        counts.compare("its goal has no answer", copy.texts[crate][goals.path_of_answers(crate, function)], LEFT)
        for name, said, wanted in SAID:
            runner = bare.Runner(StandIn([said]), 1)
            runner.try_all([edit])
            counts.compare(f"without its answer: {name}", dict(runner.kinds), {wanted: 1})
