"""What a walk knows of a value: a term, built in the same way of what was proved and of what rustc compiles.

A term is a tuple that begins with its kind. Places (what an assignment names, and what a reference is of) are terms too.
"""
import functools
import operator

UNDEFINED = ("undefined",)
SIZE = ("op", "SizeOf")
WRAP = 2**64


def number(value):
    return ("number", value)


def aggregate(parts):
    """A value of these parts; the two parts of one pair are the pair."""
    parts = tuple(parts)
    is_pair = len(parts) == 2 and all(it[0] == "field" and it[2] == at for at, it in enumerate(parts))
    return parts[0][1] if is_pair and parts[0][1] == parts[1][1] else ("aggregate", parts)


UNIT = aggregate(())


def is_empty(term):
    """Whether a value has no bits, as a type with no fields."""
    return term[0] == "aggregate" and all(map(is_empty, term[1]))


def field(term, at):
    if term[0] == "aggregate":
        return term[1][at] if at < len(term[1]) else UNDEFINED
    if term[0] == "updated":
        return term[3] if term[2] == at else field(term[1], at)
    return ("field", term, at)


def is_part(term, whole):
    """Whether a value is another, or a field of it."""
    while term != whole and term[0] == "field":
        term = term[1]
    return term == whole


def element(term, at):
    return term[2] if term[:2] == ("op", "repeat") else ("element", term, at)


def reference(place):
    return place[1] if place[0] == "target" else ("reference", place)


def target(pointer, kind=""):
    """The place that a pointer leads to; the kind tells four words, read at once, from the first of them."""
    if not kind and pointer[0] == "reference":
        return pointer[1]
    return ("target", pointer, kind)


def offset(pointer, count):
    """A pointer, so many items on."""
    if pointer[0] == "reference":
        return ("reference", ("item of", pointer[1], count))
    return pointer if count == number(0) else ("offset", pointer, count)


def cast(bits, term):
    """A number in so many bits. All are unsigned, and none has more than 64."""
    is_same = bits == 64 or term[0] == "number" and term[1] < 2**bits
    return term if is_same else ("op", "cast", bits, term)


FOLDED = {
    "Add": lambda a, b: (a + b) % WRAP, "Sub": lambda a, b: (a - b) % WRAP, "Mul": lambda a, b: a * b % WRAP,
    "Div": operator.floordiv, "Rem": operator.mod, "Shl": lambda a, b: (a << b) % WRAP, "Shr": operator.rshift,
    "And": operator.and_, "Or": operator.or_, "Xor": operator.xor,
    "Lt": operator.lt, "Eq": operator.eq, "Ne": operator.ne,
}


def operation(name, *terms):
    """An operation on numbers. Of comparisons Lt and Eq are left."""
    if name in ("Le", "Ge"):
        return operation("Not", operation("Lt" if name == "Ge" else "Gt", *terms))
    if name == "Gt":
        name, terms = "Lt", terms[::-1]
    is_known = name in FOLDED and all(it[0] == "number" for it in terms)
    if is_known and not (name in ("Div", "Rem") and terms[1] == number(0)):
        return number(int(FOLDED[name](terms[0][1], terms[1][1])))
    if name == "Ne":
        return operation("Not", operation("Eq", *terms))
    if name == "Eq" and terms[0][0] == "number":
        terms = terms[::-1]
    if name == "Not" and terms[0] in (number(0), number(1)):
        return number(1 - terms[0][1])
    if name == "Not" and terms[0][:2] == ("op", "Not"):
        return terms[0][2]
    return ("op", name, *terms)


def base(place):
    """The place that a place is a part of."""
    while place[0] in ("field of", "item of"):
        place = place[1]
    return place


def local_of(place):
    """The local variable that a place is a part of, or None."""
    whole = base(place)
    return whole[1] if whole[0] == "local" else None


def part(whole, place):
    """What stands in a place, where its base has this value."""
    if place[0] == "field of":
        return field(part(whole, place[1]), place[2])
    return element(part(whole, place[1]), place[2]) if place[0] == "item of" else whole


def read(store, epoch, place):
    """What stands in a place: of a local variable, of a constant, or of memory, as it is since the last change."""
    whole = base(place)
    if whole[0] == "local":
        return part(store.get(whole[1], UNDEFINED), place)
    return part(whole[1] if whole[0] == "constant" else ("load", whole, epoch), place)


def write(store, place, value):
    """Puts a value into a place of a local variable."""
    at = local_of(place)
    whole = store.get(at, UNDEFINED)
    while place[0] != "local":
        old, at_part = part(whole, place[1]), place[2]
        if place[0] == "field of" and old[0] == "aggregate" and at_part < len(old[1]):
            value = aggregate((*old[1][:at_part], value, *old[1][at_part + 1 :]))
        else:
            value = ("updated" if place[0] == "field of" else "set", old, at_part, value)
        place = place[1]
    store[at] = value


def plain_switch(value, cases, other):
    """A branch without negation: on what is compared with a number, where it is on that comparison."""
    while value[:2] == ("op", "Not") and set(cases) <= {0, 1}:
        cases, value = {1 - key: to for key, to in cases.items()}, value[2]
    if value[:2] == ("op", "Eq") and value[3][0] == "number" and set(cases) <= {0, 1}:
        return value[2], {value[3][1]: cases.get(1, other)}, cases.get(0, other)
    return value, dict(cases), other


def decided(facts, value, cases, other):
    """Where a branch leads, if what is known of the value says so, else None."""
    value, cases, other = plain_switch(value, cases, other)
    if value[0] == "number":
        return cases.get(value[1], other)
    if value not in facts:
        return None
    is_one, shown_to_be = facts[value]
    if is_one:
        return cases.get(shown_to_be, other)
    left = [to for key, to in cases.items() if key not in shown_to_be]
    return other if not left else left[0] if len(left) == 1 and other is None else None


def known(facts, term):
    """The number that a branch has shown a term to be, else the term."""
    inner = term[2] if term[:2] == ("op", "Not") else term
    is_known, value = facts.get(inner, (False, None))
    return number(value if inner is term else 1 - value) if is_known else term


@functools.lru_cache(maxsize=None)
def locals_in(term):
    """The local variables that a term names, in order."""
    if not isinstance(term, tuple):
        return ()
    if term[:1] == ("local",):
        return (term[1],)
    return tuple(it for inner in term for it in locals_in(inner))


def shown(term, depth=0):
    """A term as a text, of so many levels at most."""
    if not isinstance(term, tuple):
        return str(term)
    if depth > 5:
        return ".."
    return str(term[1]) if term[:1] == ("number",) else "(" + " ".join(shown(it, depth + 1) for it in term) + ")"
