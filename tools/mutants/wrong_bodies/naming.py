"""Writes into the file of an edit which goal of its function refuses it."""
import re

from . import goals, verdicts

# A note on a goal that the tactics leave open ends with its name.
NAME = re.compile(r"\(`(\S+)`\)")


def write_goal(edit, judges, said):
    """Names the goal in the file, by what a check of all goals says of the function; without one the file names none."""
    text = goals.LINES.sub("", edit.file.read_text())
    found = goal_found(edit, judges[0], said) if len(judges) == 1 and not edit.changes_several else None
    if found:
        goal, others = found
        lines = [f"# goal: {goal}", *([f"# open: {' '.join(others)}"] if others else [])]
        lines += [f"# answer: {edit.own_answer}"] if edit.own_answer and goal == edit.goal else []
        text = "\n".join([text.rstrip("\n"), *lines, ""])
    edit.file.write_text(text)


def goal_found(edit, judge, said):
    """A goal with a stored answer that is false, or a lemma beside these, or else a goal that the tactics leave open, with the
    others of these; or None."""
    said, function = verdicts.in_whole_lines(said), judge.function
    path = goals.path_of_answers(edit.crate, function)
    text = edit.crate.sources.get(goals.path_of_answers(edit.crate, edit.functions[0]), "")
    answers = goals.answers_in(text, goals.DECLARATION)
    for error in verdicts.errors_in_proofs(said):
        for name, lines in answers.items():
            if error.path == path and error.line - 1 in lines:
                return name, []
    open_goals = [it for unproved in verdicts.unproved_in(said) if unproved.is_of(function) for it in unproved.goals]
    names = {found[1]: it for it in open_goals if (found := NAME.search(it.text))}
    own = [name for name, it in names.items() if it.path == function.path and it.line in function.lines]
    return (own[0], [name for name in names if name != own[0]]) if own else None
