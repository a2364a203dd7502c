"""The methods of `FixedBitSet`, and the functions of its module `counted`, that front/calls makes, each of the function that it hands over
to: a method of a view, with no steps where it counts none, or for a method the function of `counted` with its name. The docs and `#[inline]`
of each stand in its source."""
import re

from calls_source import refuse
from calls_views import BECOMES, PUBLISH, Names, functions, functions_of, of_views, on_lines, remade

# The parameters of the methods of views: those of a function, and what it hands over for them.
PARAMETERS = {
    "usize": ("usize", "{}"), "bool": ("bool", "{}"), "Block": ("Block", "{}"), "Bits<'_>": ("&FixedBitSet", "{}.as_bits()"),
    "&[usize]": ("&[usize]", "{}"), "&mut [bool]": ("&mut [bool]", "{}"), "&mut Steps": ("&mut Steps", "{}"),
}
RESULTS = {"", "bool", "usize", "Block", "Option<usize>"}
STEPS = "&mut Steps::new()"
# What a view says of the value of a set, and of it for a range.
VALUE = re.compile(r"\((?:value|held) (\w+\.\w+)\)")
RANGED = re.compile(r"((?:[\w.]+ )*[\w.]+) \((?:value|held) self(?:\.\w+)?\) start end")
RANGE, GENERICS, ENDS = "range: R", "<R: IndexRange<usize> + Drop>", "(R.start_of range) (R.end_of range)"
LENGTH = "crate::proofs::Words::viewed_length"
CHANGED = f"crate::proofs::Words::given_back, {LENGTH}"


def is_ranged(method):
    """Whether it requires that a range is valid."""
    return any(kind == "requires" and RANGED.search(term) for kind, _, term in method.clauses)


def of_set(view, term):
    """A term of the method of a view as a set says it, which is `self`: of its value, and of a range for `start` and `end`."""
    at = f"self.{'old' if view.owner == 'BitsMut' else 'now'} {ENDS}"
    if is_ranged(view):
        term = RANGED.sub(lambda it: f"over {f'({it[1]})' if ' ' in it[1] else it[1]} {at}", term)
        term = re.sub(r"(\w+) start end\b", rf"over (λ _. \1) {at}", term)
    term = BECOMES.sub(lambda it: f"self.new ≡ {it[1] or it[2]}", VALUE.sub(r"\1", term)).replace(".entry", ".now")
    lent = "|".join(["self", *(name for name, kind in view.pairs if kind == "Bits<'_>")])
    term = re.sub(rf"\b({lent})\.length", r"\1.now.length", term)
    return refuse(f"{view.name}: no set says {term}") if re.search(r"\.(?:old|new|now)\.(?!length\b)", term) else term


def clauses(method, said, is_counted):
    """The clauses of what is handed over to, said so. A single one has no name."""
    kept = [it for it in method.clauses if is_counted or "steps" not in it[2]]
    ensured = [name for kind, name, _ in kept if kind == "ensures"]
    after = {"value": "after"} if "before" in ensured else {}
    named = [after.get(name, name) if kind == "requires" or len(ensured) > 1 else "" for kind, name, _ in kept]
    return [(kind, name, said(term)) for (kind, _, term), name in zip(kept, named)]


def written(name, generics, parameters, result, its_clauses, tactic, body, is_counted):
    """The text of a function behind its docs."""
    if not is_counted:
        parameters = [re.sub(r"^set: (&|&mut )FixedBitSet$", r"\1self", it) for it in parameters if not it.endswith("&mut Steps")]
        parameters, result = [it.replace("FixedBitSet", "Self") for it in parameters], result.replace("FixedBitSet", "Self")
    indent = "" if is_counted else "    "
    head = on_lines(f"pub fn {name}{generics}", parameters, f" -> {result}" if result else "", its_clauses, indent)
    attribute = f"{indent}#[tactic(auto, using({tactic}))]\n" if tactic else ""
    body = "".join(f"{indent}    {it}\n" for it in [*body[:-1], body[-1] + ";" * (not result)])
    return f"{attribute}{head}{indent}{{\n{body}{indent}}}\n"


def of_view(name, view, target, is_counted, hop):
    """A function that hands over to the method of a view, or to the other method of the set that does."""
    if unknown := next((kind for _, kind in view.pairs if kind not in PARAMETERS), ""):
        refuse(f"{name}: no set hands over {unknown}")
    if view.result not in RESULTS:
        refuse(f"{name}: no set returns {view.result} of a view")
    if any(it == "end" for it, _ in view.pairs) != is_ranged(view):
        refuse(f"{name}: a range of which no clause says that it is valid")
    of, is_change = "set" if is_counted else "self", view.owner == "BitsMut"
    parameters = [f"set: &{'mut ' * is_change}FixedBitSet", *(f"{it}: {PARAMETERS[kind][0]}" for it, kind in view.pairs)]
    if is_ranged(view):
        at = parameters.index("start: usize")
        parameters[at : at + 2] = [RANGE]
    said = clauses(view, lambda term: view.named(of_set(view, term), target, {"self": of}), is_counted)
    handed = [STEPS if kind == "&mut Steps" and not is_counted else PARAMETERS[kind][1].format(it) for it, kind in view.pairs]
    call, tactic = f"{hop or view.name}({', '.join(handed)})", ""
    body = ["let start = range.start().unwrap_or(0);", f"let end = range.end().unwrap_or({of}.len());"] * is_ranged(view)
    if hop:
        body = [f"self.{call}"]
    elif is_change:
        words = f"let (words, length) = (&mut *{of}.words.as_mut_slice(), {of}.length);"
        tactic, body = CHANGED, [*body, words, f"BitsMut {{ words, length }}.{call}"]
    else:
        tactic = LENGTH * any(kind == "requires" and "self.length" in term for kind, _, term in view.clauses)
        body.append(f"{of}.as_bits().{call}")
    return written(name, GENERICS * is_ranged(view), parameters, view.result, said, tactic, body, is_counted)


def of_counted(name, counted, target):
    """A method that hands over to the function of `counted`."""
    said = clauses(counted, lambda term: counted.named(term, target, {"set": "self", "new": "set"}), False)
    handed = ["self", *(STEPS if kind == "&mut Steps" else it for it, kind in counted.pairs[1:])]
    body = [f"counted::{name}({', '.join(handed)})"]
    return written(name, counted.generics, counted.parameters, counted.result, said, "", body, False)


def texts(folder):
    """The sources of crates/fixedbitset with what is made in them, by their paths. Those of `counted` come first, since methods hand over to
    what is made in them."""
    views, counted, made, needed = functions(folder, PUBLISH.MODULES), {}, {}, set()
    for path in sorted((folder / "crates/fixedbitset/src").glob("**/*.rt"), key=lambda it: (it.parent.name != "counted", it)):
        text, file, is_counted = path.read_text(encoding="utf-8"), str(path.relative_to(folder)), path.parent.name == "counted"

        def make(name, block, text=text, target=Names(file, text), is_counted=is_counted):
            docs = re.match(r"(?: *(?:///|#\[inline).*\n)*", block)[0]
            if not is_counted and ("", name) in counted:
                return docs + of_counted(name, counted["", name], target)
            view = of_views(views, name if ("Bits", name) in views else name.removesuffix("_unchecked"))
            needed.update({view.result, *(kind for _, kind in view.pairs)})
            hop = f"{name}_unchecked" * bool(re.search(rf"(?:fn|//) {name}_unchecked\b", text))
            return docs + of_view(name, view, target, is_counted, hop)

        made[file] = remade(file, text, make)
        counted |= functions_of(file, made[file]) if is_counted else {}
    if unused := next((it for it in (*PARAMETERS, *RESULTS) if it not in needed), None):
        refuse(f"no function of a set needs the entry {unused}")
    return made
