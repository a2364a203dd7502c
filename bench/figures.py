"""The figures of the runs, as the files in results/ have them, and the kinds that calls and lines are shown by."""
import csv
import math
import pathlib
import re
from collections import namedtuple

TOP = pathlib.Path(__file__).resolve().parent.parent
TIMES = "front/bench/results/times.csv"
LINES = "bench/results/lines.csv"
LIMITS = "bench/results/limits.csv"
PETGRAPH = "front/bench/results/petgraph.csv"
FLOWS = "front/bench/results/dataflow.csv"
OTHERS = "bench/results/others.csv"
QUESTIONS = "front/postgres/times/questions.csv"
PIECES = "front/postgres/times/pieces.csv"
# From so many bits on a set is long.
LONG = 10_000
KINDS = [
    ("programs", r"program"),
    ("runs, gaps, `ones_in`", r"ones_in|runs|first_gap|first_lacking"),
    ("shifts, slices, `append`", r"shift_|union_with_(shifted|own_shift)|slice|append"),
    ("rank and select", r"rank|select"),
    ("bit matrices", r"union_rows|close"),
    ("`count` of an iterator", r"count of"),
    ("iterators over a set", r"ones|zeroes|into_ones"),
    ("iterators over two sets", r"(union|intersection|difference|symmetric_difference)\b"),
    ("counts of two sets", r"\w+_count\b"),
    ("`union_of` and the like", r"\w+_of\b"),
    ("`union_with` and the like", r"\w+_with\b"),
    ("the same, which report a change", r"\w+_with_(change|difference)"),
    ("`next_one`", r"next_one"),
    ("ranges", r"\w+\("),
    ("new sets, copies, growth", r"bit|clone|with_capacity|extend|from_iter|grow by"),
    ("comparisons, `minimum`, `maximum`", r"is_|==|cmp|minimum|maximum"),
    ("`hash`, text", r"hash|to_string"),
    ("single positions, `clear`", r""),
]
# The calls that upstream does not have: there its side is a loop of front/bench/theirs.rs. Below, what that is for each kind.
BESIDE = {
    "programs": "the same over upstream's sets",
    "runs, gaps, `ones_in`": "`ones`, item by item; `difference(..).next()` for `first_lacking`",
    "shifts, slices, `append`": "a loop over the words",
    "rank and select": "a count for each eighth word; `count_ones(..p)`",
    "bit matrices": "a set for each row",
    "`union_of` and the like": "`clone_from`, then `union_with`",
    "the same, which report a change": "`is_subset`, then `union_with`",
    "`next_one`": "upstream's `ones` (for a loop of `next_one`), or a loop over the words",
    "single positions, `clear`": "a loop of `remove`; words by masks",
}
BEYOND = re.compile(
    r"program|append|close|first_gap|first_lacking|load|next_one|ones_in|rank|remove_all|runs|select|shift_|slice|store"
    r"|\w+_of\b(?! )|union_rows|\w+_with_(?:change|difference|shifted|own_shift)")
# The kinds of upstream's own calls, in the order of use.
KINDS_IN_USE = [
    ("insert, contains, remove, set, toggle", r"(insert|contains|remove|set|toggle|put|grow_and_insert)$"),
    ("iterate: ones, zeroes, into_ones", r"ones|zeroes|into_ones"),
    ("count_ones, count_zeroes", r"count_"),
    ("a range: insert_range and others; clear", r"\w+_range\b|contains_a|clear"),
    ("in place: union_with and others", r"\w+_with\b"),
    ("count two sets: union_count and others", r"\w+_count\b"),
    ("==, cmp, is_subset, minimum, hash", r"==|cmp|is_|minimum|maximum|hash"),
    ("iterate over two: union and others", r"(union|intersection|difference|symmetric_difference)\b"),
    ("an iterator's count()", r"count of"),
    ("new, clone, grow, collect, bitor, text", r"with_capacity|clone|grow by|extend|from_iter|bit|to_string"),
]
KINDS_OF_LINES = [
    ("`text`, `as_slice`", r"text|as_slice"),
    ("`to_value`", r"to_value"),
    ("`from_value`", r"from_value"),
    ("`ones`, 8 positions", r"ones, 8"),
    ("`insert`, `contains`", r"insert|contains"),
    ("`count_ones`, `union_with`, `with_capacity`", r""),
]
KINDS_OF_QUESTIONS = [
    ("union of all rows", r"union"),
    ("each row counted", r"each counted, "),
    ("each row counted with one set", r"each counted with"),
    ("rows that contain three positions", r"contain three"),
    ("rows that contain one position", r"contain one"),
    ("each row read, for its last position", r"each read"),
    ("unlike sets, hashed", r"unlike"),
    ("`count(*)`", r""),
]

# A ratio of two times: ours / theirs. The size is a count of bits, or of lines; lines have no processor.
Ratio = namedtuple("Ratio", "processor call size value")


def rows(name):
    """Each row of a file, by the names of its columns. The lines above them, which begin with `# `, say what was run."""
    with open(TOP / name, encoding="utf-8", newline="") as file:
        return list(csv.DictReader(line for line in file if not line.startswith("# ")))


def rounded(ours, theirs):
    """The ratio of two times to two digits, as it is shown. A time that is rounded to 0 has none."""
    return round(float(ours) / float(theirs), 2) if float(theirs) else None


def ratios_of_calls():
    """The ratios of the crate for Rust to upstream's."""
    return [Ratio(it["processor"], it["call"], int(it["bits"]), rounded(it["ours"], it["upstream"])) for it in rows(TIMES)]


def ratios_of_own_calls(processor):
    """The ratios of upstream's own calls on a processor, not rounded, by kind in the order of use."""
    taken = {kind: [] for kind, _ in KINDS_IN_USE}
    for row in rows(TIMES):
        if row["processor"] == processor and not is_beyond(row["call"]):
            taken[kind_of(row["call"], KINDS_IN_USE)].append(float(row["ours"]) / float(row["upstream"]))
    return taken


def mean(ratios):
    """The geometric mean."""
    return math.exp(sum(map(math.log, ratios)) / len(ratios))


def ratios_of_lines():
    """The ratios of the program to the lean one."""
    return [Ratio("", it["call"], int(it["lines"]), rounded(it["bits_program"], it["lean"])) for it in rows(LINES)]


def is_beyond(call):
    """Whether upstream has no such call."""
    return bool(BEYOND.match(call))


def kind_of(call, kinds):
    return next(name for name, form in kinds if re.match(form, call))


def reach(sizes):
    """The greatest of the short sizes and the least of the long ones."""
    return max((it for it in sizes if it < LONG), default=0), min((it for it in sizes if it >= LONG), default=0)
