"""The verdicts that each checkout has: the names of edits, and of each the sum of what its verdict rests on (keys.py)."""
import random
import shutil

FILE, NEW = "tools/mutants/refused", "out/refused"
# How many of them a run of all edits tries.
DRAWN = 60


def read(project):
    """The sums by the names."""
    file = project.top / FILE
    return dict(line.split(": ") for line in file.read_text().splitlines()) if file.is_file() else {}


def drawn(sums, start):
    """The names of some, by chance."""
    return set(random.Random(start).sample(sorted(sums), min(DRAWN, len(sums))))


def text_with(sums, crates, refused):
    """The text of the file after a run over these crates: of the others it has what it had."""
    left = {name: sum for name, sum in sums.items() if name.partition("/")[0] not in crates} | refused
    return "".join(f"{name}: {sum}\n" for name, sum in sorted(left.items()))


def told_where_new(top, made):
    """What a run tells that made this file: nothing where the checkout has the same sums, and else where it put the new ones."""
    own = top / FILE
    if not made.is_file() or own.is_file() and own.read_text() == made.read_text():
        return ""
    (top / NEW).parent.mkdir(exist_ok=True)
    shutil.copy(made, top / NEW)
    return f"test: {FILE} is not as this run leaves it: cp {NEW} {FILE}\n"
