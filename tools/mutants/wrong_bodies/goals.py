"""The goal that the file of an edit names, and copies that ask for this goal alone.

A wrong body leaves some goals of its function open. One is enough to refuse it, but a check tries each of them with all its
tactics before it says so, and checks each answer that is stored. So the file of an edit names a goal that refuses it,
`# goal: NAME`, and behind `# open: NAME ..` the others that the tactics leave open. `tools/mutants/edits --name` writes both lines.

Where the crate stores an answer for the goal, a copy has no other answer of this function, and no tactic. So an error in the
answer refuses the edit. A lemma that stands beside the answers may be named too. Else the tactics are asked for this goal, and
the others that they leave open, or that have a stored answer, have a hole. A goal has the same statement in both, and no goal
rests on the answer of another. So what refuses an edit in such a copy refuses it in one with all goals. Where the named goal
does not, the edit is tried with all of them, so a line that fits no longer costs time, and changes no verdict.

The tactics look for seconds, some for half a minute, before they leave a false goal open; a search with a bound of 300,000
steps fails in less than one. So a file may say by which search its goal is tried, `# answer: c = search (rules, using) steps
300000`, where `using` stands for the lemmas that the function names for its tactics. Then the copy has this answer, and no other
and no tactic. Such a search says something only where it proves the goal of the right body: within half the bound, as
bounded.py tries. Where the crate stores an answer for the goal, that one is taken.
"""
import re

from . import rattle

GOAL = re.compile(r"(?m)^# goal: (\S+)$")
OPEN = re.compile(r"(?m)^# open: (.+)$")
OWN_ANSWER = re.compile(r"(?m)^# answer: (.+)$")
LINES = re.compile(r"(?m)^# (?:goal|open|answer): .*\n?")
# The modules of the sets of lemmas that such an answer may name, and the word that stands for those of the function.
SETS = {"rules": "Rattle.std.proofs.Common", "arith": "Rattle.std.proofs.Common", "common_steps": "Rattle.std.proofs.lemmas.Grind"}
USING = re.compile(r", using\b")
# The line of Answers.antt that begins the answer of a goal, and that of any declaration.
ANSWER = re.compile(r"pub (\S+) : goal\.\S+$")
DECLARATION = re.compile(r"(?:pub )?(\S+) : ")


def named_in(text):
    """The goal that the text of an edit names, or None, the others that it says are open, and the answer that it has, or None."""
    goal, others, answer = (it.search(text) for it in (GOAL, OPEN, OWN_ANSWER))
    return goal and goal[1], others[1].split() if others else [], answer and answer[1]


def answers_in(text, begins_one=ANSWER):
    """The lines, from 0, of each answer in a text of Answers.antt, by the name of its goal, or of each declaration."""
    found, name = {}, None
    lines = text.split("\n")
    for number, line in enumerate(lines):
        if begins := begins_one.match(line):
            name = begins[1]
            found[name] = range(number, number + 1)
        elif name and line.startswith((" ", ")", "]", "}", "unfolding ", f"{name} ")):
            found[name] = range(found[name].start, number + 1)
        elif line:
            name = None
    return found


def path_of_answers(crate, function):
    return f"proofs/{crate.place_of(function).replace('::', '/')}/Answers.antt"


def ask_alone(edit, function, texts):
    """Changes the texts of a copy so that a check of them asks of this function for the goal alone that the edit names."""
    path = path_of_answers(edit.crate, function)
    text = texts.get(path) or edit.crate.sources.get(path) or header(edit.crate, function)
    answers = answers_in(text)
    if edit.goal in answers_in(text, DECLARATION):
        texts[path] = with_answer(text, answers, edit.goal)
    elif edit.answer:
        texts[path] = with_own_answer(edit, function)
    else:
        texts[path] = with_holes(text, answers, edit.others)
        return
    texts[function.path] = without_tactic(texts.get(function.path) or edit.crate.sources[function.path], function)


def header(crate, function):
    """The head of an Answers.antt."""
    return f"use Rattle.{crate.name}.proofs.{crate.place_of(function).replace('::', '.')}.Goals as goal\n"


def with_own_answer(edit, function):
    """An Answers.antt of the function that has nothing but the answer in the file of the edit."""
    lemmas = rattle.lemmas_of(edit.functions[0].text)
    modules = [it.rpartition("::")[0].replace("crate::", f"{edit.crate.name}::").replace("::", ".") for it in lemmas]
    names = "".join(f", used{at}.{it.rpartition('::')[2]}" for at, it in enumerate(lemmas))
    sets = [f"use {module}.{{{name}}}\n" for name, module in SETS.items() if re.search(rf"\b{name}\b", edit.answer)]
    used = [f"use Rattle.{module} as used{at}\n" for at, module in enumerate(modules)]
    answer = re.sub(r"\((\w+)\)", r"\1", USING.sub(names, edit.answer))
    return "".join([*sets, *used, header(edit.crate, function), f"\npub {edit.goal} : goal.{edit.goal}\n{edit.goal} {answer}\n"])


def lines_of_own_answer(edit):
    """The lines, from 1, of that answer."""
    end = with_own_answer(edit, edit.functions[0]).count("\n")
    return range(end - 1, end + 1)


def with_answer(text, answers, goal):
    """The text with empty lines in place of all answers but one."""
    lines = text.split("\n")
    for name, own in answers.items():
        if name != goal:
            lines[own.start : own.stop] = [""] * len(own)
    return "\n".join(lines)


def with_holes(text, answers, others):
    """The text with a hole for each goal that it answers, and for these others."""
    lines = text.split("\n")
    for name, own in answers.items():
        lines[own.start + 1 : own.stop] = [f"{name} = ?", *[""] * (len(own) - 2)]
    return "\n".join([*lines, *(f"pub {name} : goal.{name}\n{name} = ?" for name in others if name not in answers)])


def without_tactic(text, function):
    """The text of a file where no tactic is asked for any goal of the function."""
    lines = text.split("\n")
    now = next(it for it in rattle.functions_of(function.path, text) if it.symbol == function.symbol)
    own = lines[now.lines.start - 1 : now.lines.stop - 1]
    head = next(at for at, line in enumerate(own) if rattle.HEAD.match(line))
    attributes = [line for line in own[:head] if not line.lstrip().startswith("#[tactic(")]
    own = [f"{rattle.HEAD.match(own[head])[1]}#[tactic(none)]", *attributes, *own[head:]]
    return "\n".join([*lines[: now.lines.start - 1], *own, *lines[now.lines.stop - 1 :]])
