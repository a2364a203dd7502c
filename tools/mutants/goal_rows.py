"""Rows of tools/mutants/check_edits on edits that name a goal: how their files and copies are read, and with a stand-in for the checks,
what is told of them."""
import contextlib
import dataclasses
import io

from kept_rows import StandIn
from wrong_bodies import bounded, crates, goals, naming, verdicts
from wrong_bodies.copies import Judge

ANSWERS = """use Rattle.numbers.proofs.next.Goals as goal

-- A lemma.
small : 1 ≤ 2
small = omega arith

pub returns : goal.returns
unfolding small
returns c =
    grind arith

-- src/lib.rt:9:1
pub overflow : goal.overflow
overflow c = small
"""
ONE_ANSWER = """use Rattle.numbers.proofs.next.Goals as goal

-- A lemma.
small : 1 ≤ 2
small = omega arith






-- src/lib.rt:9:1
pub overflow : goal.overflow
overflow c = small
"""
HOLES = """use Rattle.numbers.proofs.next.Goals as goal

-- A lemma.
small : 1 ≤ 2
small = omega arith

pub returns : goal.returns
returns = ?



-- src/lib.rt:9:1
pub overflow : goal.overflow
overflow = ?

pub other : goal.other
other = ?"""
OPEN = "note: src/lib.rt:9:1: it is not proved that what it ensures holds (`returns`)\n"
NEXT = OPEN + "fn numbers::next: no proof: `search` did not prove `returns`\nonly=1"
# What a check says where the answer that stands for `returns`, or the other, is false, in which lines.
FALSE = "proofs/next/Answers.antt:{}:5: error: `{}`: the goal fails\nfn numbers::next: not proved\nonly=1"
BROKE_OFF = FALSE.format(10, "returns").replace("\n", "\n  `search` broke off: more than 300000 steps\n", 1)
GONE = FALSE.format(10, "returns").replace("the goal fails", "`call` is not a field of record `C`")
NOTHING = "fn numbers::next: perhaps\nonly=1"
USING = "#[tactic(auto, using(crate::proofs::Lemmas::more))]\n"
OWN_ANSWER = """use Rattle.std.proofs.Common.{rules}
use Rattle.numbers.proofs.Lemmas as used0
use Rattle.numbers.proofs.next.Goals as goal

pub returns : goal.returns
returns c = search (rules, used0.more) steps 9
"""
# What a check says of a right body, in the fourth line of its answer's file or of it, and what that comes to.
SAID_OF_RIGHT = [
    ("no error in its answer", NEXT, "the right body is proved within half the bound"),
    ("an error in its answer", FALSE.format(4, "returns"), "THE RIGHT BODY IS NOT PROVED: proofs/next/Answers.antt:4: "),
    ("nothing of the function", "only=1", "THE RIGHT BODY IS NOT PROVED: the check does not tell of it"),
]
# A goal and the answers that are stored, what the checks of an edit say in turn, and what has to be told.
SAID = [
    ("the goal that it names is open", "returns", "", [NEXT], "refused: src/lib.rt:9: "),
    ("it names a goal that there is not", "nothing", "", [NOTHING, NEXT], "refused: src/lib.rt:9: "),
    ("no goal of it is open", "returns", "", [NOTHING, NOTHING, "logic=proved"], "NOT REFUSED"),
    ("the answer of its goal is false", "returns", ANSWERS, [FALSE.format(10, "returns")], "refused: proofs/next/Answers.antt:10: "),
    ("the search for the answer broke off", "returns", ANSWERS, [BROKE_OFF], "refused at a bound: proofs/next/Answers.antt:10: "),
    ("its answer names what is gone", "returns", ANSWERS, [GONE, GONE, f"{GONE}\nlogic=not-proved"], "A NAME IS GONE: "),
    ("a goal that no tactic was asked for is open", "returns", ANSWERS, [NEXT, NEXT], "refused: src/lib.rt:9: "),
    ("the answer of another goal is false", "returns", ANSWERS, [FALSE.format(14, "overflow"), NEXT], "refused: src/lib.rt:9: "),
]


def check_goals(counts, project, runner_of):
    """Rows on the texts, and on an edit of `next` in a project, which `runner_of` gives a runner with a stand-in."""
    answers = goals.answers_in(ANSWERS)
    counts.compare("answers in a proof file", answers, {"returns": range(6, 10), "overflow": range(12, 14)})
    counts.compare("one answer is left", goals.with_answer(ANSWERS, answers, "overflow"), ONE_ANSWER)
    counts.compare("holes in place of answers", goals.with_holes(ANSWERS, answers, ["other", "returns"]), HOLES)
    counts.compare("an edit names a goal", goals.named_in("file: a\n# goal: b-c\n# open: d e\n"), ("b-c", ["d", "e"], None))
    counts.compare("an edit names none", goals.named_in("file: a\nold: # goal: b\n"), (None, [], None))
    counts.compare("an edit has a search", goals.named_in("# goal: b\n# answer: c = d\n"), ("b", [], "c = d"))
    crate = project.crates["numbers"]
    function = next(it for it in crate.functions if it.name == "next")
    text = goals.without_tactic(crate.sources[function.path], function)
    counts.compare("no tactic is asked for", text.count("#[tactic(none)]\npub fn next("), 1)
    counts.compare("no tactic stands twice", goals.without_tactic(text, function), text)
    bounds = crates.BOUND.sub("", "search rules steps 300000\n) steps 9; steps 7; steps\n")
    counts.compare("an answer without its bound", bounds, "search rules\n); steps 7; steps\n")
    for row in SAID:
        check_said(counts, crate, runner_of, *row)
    check_names(counts, crate)
    check_searches(counts, crate, runner_of)


def check_searches(counts, crate, runner_of):
    """The search that the file of an edit has: the text that is made of it, what it comes to, and the right body by half of it."""
    edit = edit_of_next(crate)
    edit.goal, edit.answer = "returns", "c = search (rules, using) steps 9"
    plain = edit.functions
    edit.functions = [dataclasses.replace(plain[0], text=USING + plain[0].text)]
    counts.compare("the search of an edit", goals.with_own_answer(edit, plain[0]), OWN_ANSWER)
    counts.compare("its lines", goals.lines_of_own_answer(edit), range(5, 7))
    edit.functions = plain
    counts.compare("half of the bound", bounded.Right(edit, edit.answer).answer, "c = search (rules, using) steps 4")
    counts.compare("one right body for two edits", len(bounded.rights_of([edit, edit])), 1)
    for name, said, wanted in SAID_OF_RIGHT:
        with contextlib.redirect_stdout(io.StringIO()) as told:
            runner = runner_of(StandIn(["logic=proved", FALSE.format(4, "returns"), said]))
            runner.rights, _ = bounded.drawn([edit], 1)
            runner.try_group([edit], 100)
        both = f"next-stands: {wanted}" in told.getvalue() and "next-stands: refused: proofs/next/Answers.antt:4: " in told.getvalue()
        counts.report(f"a right body: {name}", "" if both else told.getvalue())
    found = verdicts.judged_by_goal(edit, Judge(plain[0], 0), BROKE_OFF.replace(":10:", ":4:"))
    counts.compare("the search breaks off", found[1][:18], "refused at a bound")
    check_finding(counts, crate)


def check_finding(counts, crate):
    """What is written into the file of an edit: the first search that proves the right body, and not the wrong one."""
    no, yes, second = FALSE.format(4, "returns"), NEXT, bounded.CANDIDATES[1]
    for name, said, wanted in [
        ("the first search does not prove the right body", [no, yes, no], f"# answer: {second}"),
        ("the first search proves both", [yes, yes, yes, no], f"# answer: {second}"),
        ("no search proves the right body", [no] * 4, "# goal: returns"),
    ]:
        edit = edit_of_next(crate)
        edit.answer, own = None, edit.file.read_text()
        with contextlib.redirect_stdout(io.StringIO()):
            finder = bounded.Finder(StandIn(said), 1)
            finder.find_all([edit])
        counts.compare(f"a search is found: {name}", edit.file.read_text().split("\n")[-2], wanted)
        counts.compare(f"so many are found: {name}", finder.found, int(wanted.startswith("# answer")))
        edit.file.write_text(own)


def edit_of_next(crate):
    edit = next(it for it in crate.edits() if it.name == "next-stands")
    edit.wrong_body = None  # (it stands in its function's place, as one of a trait's method does)
    return edit


def check_said(counts, crate, runner_of, name, goal, answers, said, wanted):
    with stored(crate, answers), contextlib.redirect_stdout(io.StringIO()) as told:
        edit, checks = edit_of_next(crate), StandIn(["logic=proved", *said])
        edit.goal = goal
        runner_of(checks).try_group([edit], 100)
    counts.report(name, "" if f"next-stands: {wanted}" in told.getvalue() and not checks.left else f"{told.getvalue()}, {checks.left}")


def check_names(counts, crate):
    """The goal that is found for the file of an edit, by what a check says."""
    edit = edit_of_next(crate)
    judge = Judge(edit.functions[0], 0)
    both = OPEN + OPEN.replace("`returns`", "`overflow`") + "fn numbers::next: no proof\n"
    with stored(crate, ANSWERS):
        found = naming.goal_found(edit, judge, FALSE.format(14, "overflow"))
        counts.compare("the goal of an answer that is false", found, ("overflow", []))
    counts.compare("the goals that are open", naming.goal_found(edit, judge, both), ("returns", ["overflow"]))
    counts.compare("no goal is open", naming.goal_found(edit, judge, NOTHING), None)


@contextlib.contextmanager
def stored(crate, answers):
    """These answers of `next` stand in the crate."""
    path = "proofs/next/Answers.antt"
    if answers:
        crate.sources[path] = answers
    [crate.__dict__.pop(name, None) for name in ("proofs", "folders")]
    try:
        yield
    finally:
        crate.sources.pop(path, None)
        [crate.__dict__.pop(name, None) for name in ("proofs", "folders")]
