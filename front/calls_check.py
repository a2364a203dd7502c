"""The checked calls of bits_check.h that front/calls makes: of each parameter what the preconditions say, and from level 2 on what the
clauses say of a call that does its work."""
import re

from calls_c import STRUCTS, VALUES, parameter
from calls_source import WORD, refuse
from publish_tables import BITS, MEANT, PRELUDE

SETS = {"Bits": "SET", "BitsMut": "SET", "Room": "ROOM"}
WIDTH = 125
# The calls that ask of numbers what level 2 would ask.
QUESTIONS = {"range_is_valid"}
# What level 2 asks, by what a clause says of the result, in the order in which it is asked.
LEVEL_2 = (
    (r"length words\.old == model\.storage_words length", "BITS_ASK_EQUAL(count, bits_words(length))"),
    (r"length words\.old == rows \* storage_words columns", "BITS_ASK_EQUAL(count, bits_rows_words(rows, columns))"),
    (r"nat_le (kept) (length)", r"BITS_ASK_AT_MOST(\1, \2)"),
    (r"nat_lt (\w+) (\w+)\.(?:old|now)\.(length|rows|columns)", r"BITS_ASK_BELOW(\1, \2->\3)"),
    (r"nat_lt (\w+) \(model\.words_needed (\w+)\.old\.length\)", r"BITS_ASK_BELOW(\1, bits_blocks(\2->length))"),
    (r"All \(λ p\. p < (\w+)\.old\.length\) (\w+)\.now", r"fixedbitset_ask_each_below(here, \2, count, \1->length);"),
    (r"length positions\.now == length answers\.old", "BITS_ASK_EQUAL(places, count)"),
    (r"nat_le width 64", "BITS_ASK_BELOW(width, 65)"),
    (r"nat_le \(start \+ width\) (\w+)\.\w+\.length", r"BITS_ASK_RANGE(start, start + width, \1->length)"),
    (r"is_valid \(\w+ (\w+)\.\w+\) start end(?= (?:&&|then)|$)", r"BITS_ASK_RANGE(start, end, \1->length)"),
    (r"nat_le start end && nat_le end (\w+)\.now\.length", r"BITS_ASK_RANGE(start, end, \1->length)"),
    (r"nat_le \(at \+ \(end - start\)\) (\w+)\.old\.length", r"BITS_ASK_RANGE(at, at + (end - start), \1->length)"),
    (r"part\.old\.length == end - start", "BITS_ASK_EQUAL(part->length, end - start)"),
    (r"nat_le (\w+)\.now\.length (\w+)\.old\.length", r"BITS_ASK_NO_LONGER(\1, \2)"),
    (r"to\.old\.length == max (\w+)\.now\.length (\w+)\.now\.length",
     r"BITS_ASK_EQUAL(to->length, \1->length < \2->length ? \2->length : \1->length)"),
    (r"to\.old\.length == min (\w+)\.now\.length (\w+)\.now\.length",
     r"BITS_ASK_EQUAL(to->length, \1->length < \2->length ? \1->length : \2->length)"),
    (r"to\.old\.length == (\w+)\.now\.length", r"BITS_ASK_EQUAL(to->length, \1->length)"),
    (r"length to\.old\.words\.now == storage_words to\.old\.length", "BITS_ASK_EQUAL(to->count, bits_words(to->length))"),
    (r"length bytes\.old == 8 \* words_needed (\w+)\.now\.length", r"BITS_ASK_EQUAL(count, bits_bytes(\1->length))"),
    (r"length directory\.old == model\.entries \(storage_words (\w+)\.now\.length\)",
     r"BITS_ASK_EQUAL(entries, bits_ranks_entries(\1->length))"),
)
# Where the names of these are defined.
KNOWN = MEANT | {"nat_le": PRELUDE, "nat_lt": PRELUDE, "model.storage_words": BITS, "model.entries": "bitranks.specs.Ranks"}


def pointers(call):
    """What is asked of each pointer, those of places that are written last."""
    asked, places = [], []
    for it in call.parameters:
        kind = STRUCTS.get(it.kind, "").removeprefix("bits_")
        if it is call.parameters[0] and call.keeps_pointers:
            asked.append(f"BITS_ASK_PLACE({it.name})")
        elif it.is_slice:
            asked.append(f"BITS_ASK_LIST({it.name}, {it.number})")
        elif it.kind in SETS:
            asked.append(f"BITS_ASK_{SETS[it.kind]}({it.name})")
        elif it.kind in VALUES and it.pointer:
            places.append(f"BITS_ASK_PLACE({it.name})")
        elif kind:
            asked.append(f"fixedbitset_ask_{kind}(here, {it.name});")
    return asked + rows_of(call) + apart(call) + places


def rows_of(call):
    """What is asked of the rows of a table that a call reads."""
    if not any(it.kind in ("Rows", "RowsMut") for it in call.parameters):
        return []
    named = [it.name for it in call.parameters if it.name in ("row", "from", "into")]
    return [f"fixedbitset_ask_row(here, rows, {it});" for it in named] or ["fixedbitset_ask_each_row(here, rows);"]


def apart(call):
    """What is written does not overlap what else the call takes. (A begin keeps what it takes.)"""
    sets = [it for it in call.parameters if it.kind in SETS and not it.is_slice]
    lists = [it for it in call.parameters if it.is_slice]
    asked = [f"BITS_ASK_APART({sets[0].name}, {it.name})" for it in sets[1:] if sets[0].is_written()]
    for it in (it for it in lists if sets):
        if it.is_written() or sets[0].is_written():
            asked.append(f"BITS_ASK_LIST_APART({it.name}, {it.number}, {sets[0].name}->words, {sets[0].name}->count)")
        for other in (other for other in lists if it.is_written() and other is not it):
            asked.append(f"BITS_ASK_LIST_APART({it.name}, {it.number}, {other.name}, {other.number})")
    return asked


def check_names(call, text):
    """Refuses a part of a clause that another definition gives its meaning than that of the table."""
    for word in (it for it in WORD.findall(text) if it not in {it.name for it in call.parameters}):
        meant = call.imported.meant(word)
        if (meant or word in KNOWN) and meant != (KNOWN.get(word), word.rpartition(".")[2]):
            refuse(f"bits_{call.name}: `{word}` is not that of {KNOWN.get(word, 'a file that is known')}")
    if sign := next((it for it in call.imported.signs(text) if call.imported.files_of(it) != {PRELUDE}), None):
        refuse(f"bits_{call.name}: `{sign}` is not that of {PRELUDE}")


def level_2(call):
    """What is asked from level 2 on. What a refusal depends on has to be known as a whole."""
    clauses = [] if call.name in QUESTIONS else [it.strip().rstrip(" }") for it in re.split(r"\bensures\b", call.clauses)]
    found = [(it, text) for pattern, text in LEVEL_2 for clause in clauses for it in re.finditer(pattern, clause)]
    asked = [it.expand(text) for it, text in found]
    for it, _ in found:
        check_names(call, it[0])
    answer = next((it for it in clauses if it.startswith("answer {")), "")
    left = re.sub("|".join(pattern for pattern, _ in LEVEL_2), "", answer)
    left = re.sub(r"answer \{|IsTrue|result|prelude\.|[≡↔()& ]", "", left)
    if not call.may_be_ignored() and (left or not answer):
        refuse(f"bits_{call.name}: no check is known for a refusal by {left or 'no clause'}")
    return list(dict.fromkeys(asked))


def checked(call):
    """The row of a call."""
    parameters = ", ".join(parameter(it, call) for it in call.parameters)
    given = ", ".join(name for it in call.parameters for name in (it.name, it.number) if name)
    head = f"BITS_TESTED({VALUES[call.result]}, " if call.result else "BITS_TESTED_VOID("
    head = head if call.may_be_ignored() else "BITS_TESTED_DONE("
    asked = pointers(call) + level_2(call)
    if not asked:
        refuse(f"bits_{call.name}: nothing is asked of its pointers")
    parts = [f"{head}{call.c}, ({parameters}),", f"({given}),", *asked]
    lines = [parts[0]]
    for part in parts[1:]:
        if len(lines[-1]) + len(part) < WIDTH - 1:
            lines[-1] += f" {part}"
        else:
            lines.append(f"    {part}")
    return "\n".join(lines) + ")\n"


def step(call):
    """0 for a call that is no step of an iterator, else 1, and 2 for a step over runs."""
    first = call.parameters[0]
    is_step = STRUCTS.get(first.kind, "").endswith(("walk", "sieve", "pair")) and not call.keeps_pointers
    return is_step + (is_step and first.kind == "Runs")


def rows(parts):
    """The rows of all calls that take a pointer, the steps of iterators behind the others."""
    calls = [call for _, them in parts for call in them if call.has_pointer()]
    clauses = " ".join(call.clauses for call in calls)
    if unused := next((pattern for pattern, _ in LEVEL_2 if not re.search(pattern, clauses)), None):
        refuse(f"no call needs the entry {unused}")
    return "".join(checked(call) for call in sorted(calls, key=step))
