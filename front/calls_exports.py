"""The exports of crates/bits_c that front/calls makes, each of its row in calls.toml and of the method of `Bits` or `BitsMut` that it calls."""
import dataclasses
import textwrap

from calls_source import refuse, stored_rows
from calls_views import BECOMES, PUBLISH, WIDTH, Names, functions, of_views, on_lines, remade


@dataclasses.dataclass(frozen=True)
class Test:
    """What an export tests: the clause of its answer, the test, and when it is refused, which the docs of a row may say themselves. A
    tuple of tests are those of what is refused, one after the other."""

    answer: str
    test: str | tuple
    refused: str = ""

    def asked(self):
        return self.answer.removeprefix("result ≡ ")


PLACE, VALID, LONGER = "the position is out of range", "the range is not valid", "is longer than the first"
PART = "result ≡ (nat_le width 64 && nat_le (start + width) set.{}.length)"
# By the type of the method, and what it requires.
TESTS = {
    ("BitsMut", "bit < self.length"): Test("result ≡ nat_lt bit set.old.length", "bit < set.length", PLACE),
    ("BitsMut", "index < model.words_needed self.length"): Test(
        "result ≡ nat_lt index (model.words_needed set.old.length)", "index < bits_blocks(set.length)", "the length needs no such word"),
    ("BitsMut", "All (λ p. p < self.length) positions"): Test(
        "IsTrue result ↔ All (λ p. p < set.old.length) positions.now", "all_below(positions, set.length)", "a position is out of range"),
    ("BitsMut", "IsTrue (is_valid (value self) start end)"): Test(
        "result ≡ is_valid (held set.old) start end", "set.as_bits().range_is_valid(start, end)", VALID),
    ("Bits", "IsTrue (is_valid (value self) start end)"): Test(
        "result ≡ is_valid (value set.now) start end", "bits_range_is_valid(set, start, end)", VALID),
    ("BitsMut", "other.length ≤ self.length"): Test(
        "result ≡ nat_le other.now.length set.old.length", "other.length <= set.length", f"the second set {LONGER}"),
    ("BitsMut", "gens.length ≤ self.length"): Test(
        "result ≡ nat_le gens.now.length set.old.length", "gens.length <= set.length", f"`gens` {LONGER} set"),
    ("BitsMut", "width ≤ 64", "start + width ≤ self.length"): Test(PART.format("old"), "is_part(set.length, start, width)"),
    ("Bits", "width ≤ 64", "start + width ≤ self.length"): Test(PART.format("now"), "is_part(set.length, start, width)"),
    ("BitsMut", "start ≤ end", "end ≤ other.length", "at + (end - start) ≤ self.length"): Test(
        "result ≡ (nat_le start end && nat_le end other.now.length && nat_le (at + (end - start)) set.old.length)",
        ("start > end || end > other.length", "at > set.length || end - start > set.length - at")),
    ("Bits", "prelude.length positions ≡ prelude.length answers"): Test(
        "result ≡ (length positions.now == length answers.old)", ("positions.len() != answers.len()",)),
    ("Bits", "prelude.length made ≡ 8 * words_needed self.length"): Test(
        "result ≡ (length bytes.old == 8 * words_needed set.now.length)", "bytes.len() == bits_bytes(set.length)"),
}
# The same of what a set that is written to `to` requires: its length, how that is tested, and what length it is.
LENGTHS = {
    ("BitsMut", "self.length ≡ max one.length other.length"): (
        "max set.now.length other.now.length", "set.length.max(other.length)", "the greater of the two lengths"),
    ("BitsMut", "self.length ≡ min one.length other.length"): (
        "min set.now.length other.now.length", "set.length.min(other.length)", "the smaller of the two lengths"),
    ("BitsMut", "self.length ≡ one.length"): ("set.now.length", "set.length", "the length of the first"),
}
# The results of a question: what it returns where it is refused, and as the docs say that.
PAST = {"bool": ("false", "`false`"), "usize": ("0", "0"), "Option<usize>": ("NONE", "`NONE`")}
# The parameters of the methods: those of an export, and what it hands over for them.
PARAMETERS = {
    "usize": ("usize", "{}"), "bool": ("bool", "{}"), "Block": ("Block", "{}"), "Bits<'_>": ("&Bits<'_>", "*{}"),
    "&[usize]": ("&[usize]", "{}"), "&[u8]": ("&[u8]", "{}"), "&mut [bool]": ("&mut [bool]", "{}"), "&mut [u8]": ("&mut [u8]", "{}"),
    "&mut Steps": ("", "&mut Steps::new()"),
}
SETS = {"Bits": "set: &Bits<'_>", "BitsMut": "set: &mut BitsMut<'_>"}
NONE_PAST = "#[tactic(auto, using(crate::proofs::Sets::none_past))]\n"
SAME = "{0}.new.words.ghost_name ≡ {0}.old.words.ghost_name"


class Export:
    """An export that is made: its method and its row, and what these say."""

    def __init__(self, name, row, view, target):
        self.name, self.view, self.target, self.test = name, view, target, TESTS.get((view.owner, *view.form))
        self.docs, self.renamed = " ".join(row["docs"].split()), {"self": "set", **row.get("names", {})}
        if unknown := self.renamed.keys() - {"self", *(it for it, _ in view.pairs)}:
            refuse(f"bits_{name}: the method has no parameter {min(unknown)}")
        if unknown := next((kind for _, kind in view.pairs if kind not in PARAMETERS), None):
            refuse(f"bits_{name}: an export takes no {unknown}")
        pairs = [(self.renamed.get(it, it), *PARAMETERS[kind]) for it, kind in view.pairs]
        self.parameters = [SETS[view.owner], *(f"{it}: {kind}" for it, kind, _ in pairs if kind)]
        self.call = f"set.{view.name}({', '.join(handed.format(it) for it, _, handed in pairs)})"
        self.becomes = next((found[1] or found[2] for _, term in view.ensured() if (found := BECOMES.fullmatch(term))), None)
        self.ensures = [(it, self.said(term)) for it, term in view.ensured() if not BECOMES.fullmatch(term)]

    def said(self, term):
        """A term of the method, as the export says it."""
        return self.view.named(term, self.target, self.renamed).replace(".entry", ".now")

    def ensured(self, begin):
        """The name of the one clause of the method that begins so, and what it says behind that."""
        if len(self.ensures) != 1 or not self.ensures[0][1].startswith(begin):
            refuse(f"bits_{self.name}: the method has no clause that begins with {begin.strip()}, or further ones")
        return self.ensures[0][0], self.ensures[0][1].removeprefix(begin)

    def branches(self, done, otherwise):
        return [f"if {self.test.test} {{", *(f"    {it}" for it in done), "} else {", f"    {otherwise}", "}"]

    def tested(self, done):
        """The body that does this where the test holds, and returns whether it does."""
        if isinstance(self.test.test, tuple):
            return [line for it in self.test.test for line in (f"if {it} {{", "    return false;", "}")] + [done, "true"]
        return self.branches([done, "true"], "false")

    def text(self, result, clauses, body, tail="", attribute=""):
        """The text of the export. The docs have this at their end, where they have no full stop."""
        docs = self.docs if self.docs.endswith(".") else self.docs + tail
        if not docs.endswith("."):
            refuse(f"bits_{self.name}: its docs have no full stop, and nothing follows them")
        lines = textwrap.wrap(docs, WIDTH - 4, break_long_words=False, break_on_hyphens=False)
        clauses = [("ensures", name, term) for name, term in clauses]
        head = on_lines(f'pub extern "C" fn bits_{self.name}', self.parameters, f" -> {result}" if result else "", clauses)
        body = "".join(f"    {it}\n" for it in body)
        return "".join(f"/// {it}\n" for it in lines) + f"{attribute}#[unsafe(no_mangle)]\n{head}{{\n{body}}}\n"


def question(it):
    """A question to a set. It returns what PAST says where the method may not be asked."""
    (_, answer), (past, shown), result, call = it.ensured("result ≡ "), PAST[it.view.result], it.view.result, it.call
    if result == "Option<usize>":
        answer, call, result = f"unwrap_or ({answer}) NONE", f"{call}.unwrap_or(NONE)", "usize"
    if not it.test:
        return it.text(result, [("", f"result ≡ {answer}")], [call])
    tail = f"; {shown} if {it.test.refused}."
    if result == "bool":
        return it.text(result, [("", f"result ≡ ({it.test.asked()} && {answer})")], [f"{it.test.test} && {call}"], tail)
    clause = f"result ≡ (if {it.test.asked()} then {answer} else {past})"
    return it.text(result, [("", clause)], it.branches([call], past), tail)


def written(it):
    """A question whose answer is written to a parameter, where it may be asked."""
    if it.view.result:
        name, to, (_, answer), call = "value", "number", it.ensured("result ≡ "), f"*number = {it.call};"
        it.parameters.append("number: &mut Block")
    else:
        to = name = next(given.partition(":")[0] for given in it.parameters if ": &mut " in given)
        (_, answer), call = it.ensured(f"{to}.new ≡ "), f"{it.call};"
    return it.text("bool", [("answer", it.test.answer), (name, f"{to}.new ≡ (if result then {answer} else {to}.old)")], it.tested(call))


def change(it):
    """A change. Where the method may not be called, nothing changes."""
    if not it.becomes or len(it.ensures) != bool(it.view.result):
        refuse(f"bits_{it.name}: the method does not say what the set becomes, or more")
    value, same = it.said(it.becomes), ("same", SAME.format("set"))
    name, answer = it.ensured("result ≡ ") if it.view.result else ("", "")
    if not it.test:
        changed = [(name, f"result ≡ {answer}")] * bool(answer)
        return it.text(it.view.result, [("value", f"held set.new ≡ {value}"), *changed, same], [it.call + ";" * (not answer)])
    value = f"held set.new ≡ (if {{}} then {value} else held set.old)"
    if name == "before":
        clauses = [("answer", f"result ≡ {answer}"), ("value", value.format(it.test.asked())), same]
        tail = f"; returns `false` and changes nothing if {it.test.refused}."
        return it.text("bool", clauses, it.branches([it.call], "false"), tail, NONE_PAST)
    clauses = [("answer", it.test.answer), ("value", value.format("result"))]
    if name == "changed":
        it.parameters.append("changed: &mut bool")
        changed = (name, f"changed.new ≡ (if result then {answer} else changed.old)")
        tail = ", writes to `changed` whether the first set changed, and returns `true`. Returns `false`, changes nothing, and writes " \
               f"nothing to `changed`, if {it.test.refused}."
        return it.text("bool", [*clauses, changed, same], it.tested(f"*changed = {it.call};"), tail)
    tail = f"{',' * (',' in it.docs)} and returns `true`; returns `false` and changes nothing if {it.test.refused}."
    return it.text("bool", [*clauses, same], it.tested(f"{it.call};"), tail)


def to_room(it):
    """Two sets joined, and written to `to`."""
    length, tested, which = LENGTHS[it.view.owner, *it.view.form]
    it.renamed["one"], it.parameters = "set", ["to: &mut Room<'_>", "set: &Bits<'_>", "other: &Bits<'_>"]
    clauses = [
        ("answer", f"result ≡ (length to.old.words.now == storage_words to.old.length && to.old.length == {length})"),
        ("clean", "result ≡ true → IsClean to.new.length to.new.words.now"),
        ("value", f"result ≡ true → written to.new ≡ {it.said(it.becomes)}"),
        ("stays", "result ≡ false → to.new.words.now ≡ to.old.words.now"),
        ("length", "to.new.length ≡ to.old.length"),
        ("same", SAME.format("to")),
    ]
    it.test = Test("", f"to.words.len() == bits_words(to.length) && to.length == {tested}")
    tail = f" to `to`, and returns `true`. Returns `false` and changes nothing if the length of `to` is not {which}, or its words are " \
           "not `bits_words` of that length."
    return it.text("bool", clauses, it.tested(f"set.{it.view.name.removesuffix('_of')}_to(*other, to.words);"), tail)


def export(it):
    """The text of an export."""
    owner, result, form = it.view.owner, it.view.result, it.view.form
    if (owner, *form) in LENGTHS:
        return to_room(it)
    if form and not it.test:
        refuse(f"bits_{it.name}: an export tests no {form[0]} of {owner}")
    if owner == "BitsMut" and result in ("", "bool"):
        return change(it)
    if owner == "Bits" and result in PAST:
        return question(it)
    if owner == "Bits" and result in ("", "Block") and form:
        return written(it)
    refuse(f"bits_{it.name}: no export has the result {result} of {owner}, or none that may always be called")


def texts(folder):
    """The sources of crates/bits_c with what is made in them, by their paths."""
    rows = {name: row for part in stored_rows(folder)[0]["part"] for name, row in part["calls"].items() if "docs" in row}
    views, made, there = functions(folder, PUBLISH.MODULES), {}, {}
    for path in sorted((folder / "crates/bits_c/src").glob("*.rt")):
        text, file = path.read_text(encoding="utf-8"), str(path.relative_to(folder))

        def make(name, _, target=Names(file, text)):
            name = name.removeprefix("bits_")
            row = rows.get(name) or refuse(f"bits_{name} stands between marks, and its row has no `docs`")
            view = row.get("view", name)
            there[name] = of_views(views, view)
            is_named = {("Bits", name), ("BitsMut", name)} & views.keys()
            if view != name and (is_named or not set(name.split("_")) & set(view.split("_"))):
                refuse(f"bits_{name} is not the method {view} by its name")
            return export(Export(name, row, there[name], target))

        made[file] = remade(file, text, make)
    if lost := rows.keys() - there.keys():
        refuse(f"no source has bits_{min(lost)} between marks, and its row has `docs`")
    needed = {(it.owner, *it.form) for it in there.values()} | {kind for it in there.values() for _, kind in it.pairs}
    if unused := next((it for it in (*TESTS, *LENGTHS, *PARAMETERS) if it not in needed), None):
        refuse(f"no export needs the entry {unused}")
    return made
