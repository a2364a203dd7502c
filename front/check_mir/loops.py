"""At the head of a loop: which variables of both sides are equal at each round.

The variables that the loop changes, field by field, begin in classes by their values before it. A round is walked with one new
term for each class; what has another value behind it than others of its class gets a class of its own, and the round is walked
again, until no class is parted (partition refinement). Then what a class has in common is shown by induction over the rounds.
"""
from terms import UNDEFINED, field

MOST_ROUNDS = 12


def difference(walk, state, kit, rust):
    """Where the bodies differ from this loop on, or nothing."""
    loop = kit, rust[0]
    if loop in state.open_loops:
        state.open_loops[loop].append(state)
        return ""
    leaves = [(body.side, leaf) for body, at in ((walk.kit, kit), (walk.rust, rust)) for leaf in leaves_of(body, state, at)]
    before = {it: value_of(state, it) for it in leaves}
    classes, name, memory = {}, walk.new(), walk.new()
    for _ in range(MOST_ROUNDS):
        inside = state.copy()
        rounds = inside.open_loops[loop] = []
        inside.entered, inside.memory = rust[0], ("loop", memory)
        heads = dict(before)
        for it in classes:
            heads[it] = ("each round", name, classes[it])
            put(inside, it, heads[it])
        fault = walk.walk(inside, walk.kit.nodes[kit].then, rust[0])
        parted = refined(classes, before, heads, {it: tuple(value_of(end, it) for end in rounds) for it in leaves})
        if len(parted) == len(classes) and len(set(parted.values())) == len(set(classes.values())):
            return fault
        classes = parted
    return "a loop whose variables find no classes" + fault


def refined(classes, before, heads, after):
    """The classes of what a round changes: by the class before, and by the values behind each round."""
    numbers = {}
    changed = [it for it in before if it in classes or any(value != heads[it] for value in after[it])]
    keys = {it: (classes.get(it, ("before", before[it])), after[it] if it in classes else None) for it in changed}
    return {it: numbers.setdefault(keys[it], f"class {len(numbers)}") for it in changed}


def leaves_of(body, state, head):
    """The local variables that a loop changes, each part of a value of several by itself."""
    store = getattr(state, body.side)
    for at in sorted(body.changed_in(head)):
        value = store.get(at, UNDEFINED)
        is_slice = body.is_slice(at) and value[0] != "aggregate"
        yield from ((at, path) for path in ([(0,), (1,)] if is_slice else paths(value, ())))


def paths(value, path):
    if len(path) < 3 and value[0] == "aggregate" and 0 < len(value[1]) < 9:
        return [it for at, inner in enumerate(value[1]) for it in paths(inner, (*path, at))]
    return [path]


def value_of(state, leaf):
    side, (at, path) = leaf
    value = getattr(state, side).get(at, UNDEFINED)
    for step in path:
        value = part(value, step)
    return value


def part(value, at):
    return value if value == UNDEFINED else field(value, at)


def put(state, leaf, new):
    """Puts a value into a part of a local variable."""
    side, (at, path) = leaf

    def with_new(value, path):
        if not path:
            return new
        count = len(value[1]) if value[0] == "aggregate" else 2
        parts = [with_new(part(value, it), path[1:]) if it == path[0] else part(value, it) for it in range(count)]
        return ("aggregate", tuple(parts))
    store = getattr(state, side)
    store[at] = with_new(store.get(at, UNDEFINED), path)
