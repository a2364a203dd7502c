"""The proved code: the kit's mir.json of a library, and a body of it as a graph whose steps a walk takes."""
import dataclasses
import json

from rules import KIT_CALLS, Call, of_call
from state import Event, Unknown, reached, reaching
from terms import (
    SIZE, UNIT, aggregate, cast, decided, local_of, number, offset, operation, read, reference, target, write,
)


@dataclasses.dataclass
class Node:
    """A step of a body: what it reads (`value`, `arguments`), what it assigns (`place`), and where it leads."""

    kind: str
    then: int = None
    value: object = None
    place: dict = None
    arguments: list = ()
    cases: dict = dataclasses.field(default_factory=dict)
    other: int = None

    def successors(self):
        return [it for it in (self.then, *self.cases.values(), self.other) if it is not None]


# The kit's names of operations on one number.
NUMBERS = {"CountOnes": "count_ones", "LeadingZeros": "leading_zeros", "TrailingZeros": "trailing_zeros"}


def only(entry):
    """The name and the value of a form: a word alone, or an object of one entry."""
    return (entry, None) if isinstance(entry, str) else next(iter(entry.items()))


class Kit:
    """The bodies of the crates that are compared, and the methods of all traits by their numbers."""

    def __init__(self, libraries, of_traits):
        self.bodies, self.methods = {}, {}
        for path in (*of_traits, *libraries):
            for name, entry in json.loads(path.read_text(encoding="utf-8")):
                of = entry["generics"]["method_of"]
                if name.endswith("+decl"):
                    self.methods |= {tuple(of["Trait"]): name.removesuffix("+decl")} if of and "Trait" in of else {}
                elif path in libraries:
                    self.bodies[name] = entry


class Graph:
    """The nodes of a body, which the kit writes as a list of words in prefix order."""

    def __init__(self, words):
        self.words, self.nodes = iter(words), {}
        self.entry = self.add(self.parsed(), self.new(Node("end")), ())

    def new(self, node):
        self.nodes[len(self.nodes)] = node
        return len(self.nodes) - 1

    def parsed(self):
        """The next form of the list, with the forms in it."""
        name, value = only(next(self.words))
        if name == "Switch":
            return name, value, [self.parsed() for _ in range(len(value[1]) + bool(value[2]))]
        return name, value, [self.parsed() for _ in range({"Seq": 2, "If": 2, "Block": 1, "Loop": 1}.get(name, 0))]

    def add(self, form, then, exits):
        """Adds the nodes of a form that leads to `then`, within blocks with these exits; returns its first node."""
        name, value, inner = form
        if name == "Seq":
            return self.add(inner[0], self.add(inner[1], then, exits), exits)
        if name == "Block":
            return self.add(inner[0], then, (*exits, then))
        if name == "Loop":
            head = self.new(Node("loop"))
            self.nodes[head].then = self.add(inner[0], head, (*exits, head))
            return head
        if name == "If":
            yes, no = (self.add(it, then, exits) for it in inner)
            return self.new(Node("switch", value=value, cases={1: yes}, other=no))
        if name == "Switch":
            branches = [self.add(it, then, exits) for it in inner]
            cases = {key: branches[at] for at, keys in enumerate(value[1]) for key in keys}
            return self.new(Node("switch", value=value[0], cases=cases, other=branches[-1] if value[2] else None))
        if name == "Exit":
            return exits[-1 - value]
        return then if name == "Skip" else self.plain(name, value, then)

    def plain(self, name, value, then):
        """Adds the node of a form that has no others in it."""
        if name == "Return":
            return self.new(Node("return"))
        if name == "Assign":
            return self.new(Node("assign", then, value[1], value[0]))
        if name == "Call":
            return self.new(Node("call", then, value[0], value[2], value[1]))
        if name == "LendStatic":
            return self.new(Node("static", then, value[2], value[0]))
        raise Unknown(f"the kit's {name}")


def type_words(kind):
    """A type as a flat list of words, as `type_words` of names.py gives it too."""
    name, value = only(kind)
    if name == "Int":
        return [{64: "usize", 8: "u8", 32: "u32"}.get(value, str(value))]
    if name == "Named":
        own = value[0]["name"].rpartition("::")[2]
        is_silent = own in ("Global", "(,)", "(_,)") or "map" in own
        return [*([] if is_silent else [own]), *(it for inner in value[1] for it in type_words(inner))]
    if name == "Struct":
        return ["str"] if value[0] == "&str" else [it for inner in value[1][:1] for it in type_words(inner)]
    if name in ("Ref", "Array"):
        return type_words(value[2 if name == "Ref" else 0])
    if name in ("Unit", "Lit", "Const", "NumOf", "Num"):
        return []
    if name == "Param":
        return [f"*{value}"]
    return ["u64x4"] if name == "Vector" else ["?"] if value else [name.lower()]


class KitBody:
    """A body of the kit, of which `step` runs what is silent up to the next event."""

    side = "kit"

    def __init__(self, kit, name):
        self.kit, self.name, self.body, self.seen = kit, name, kit.bodies[name], set()
        self.graph = Graph(self.body["body"])
        self.nodes, self.entry = self.graph.nodes, self.graph.entry

    def successors(self, at):
        return self.nodes[at].successors()

    def unseen(self):
        """The kinds of the nodes that no walk has reached, but those that drop what a value would have as another variant."""
        nodes = [self.nodes[at] for at in reached(self.successors, self.entry) - self.seen if self.nodes[at].kind != "end"]
        is_dropping = all(it.kind in ("assign", "switch") or self.is_drop(it) for it in nodes)
        return [] if is_dropping and any(map(self.is_drop, nodes)) else [it.kind for it in nodes]

    def is_slice(self, at):
        """Whether a local variable is a reference of a slice."""
        return only(self.body["locals"][at]["ty"])[0] == "Struct" and self.body["locals"][at]["ty"]["Struct"][0] == "&[]"

    def changed_in(self, head):
        """The local variables that the loop with this head changes."""
        found = set()
        for at in reaching(self.successors, self.nodes, head):
            node = self.nodes[at]
            if node.place:
                found.add(node.place["local"])
            if node.kind == "assign" and "AddrOf" in node.value:
                found.add(node.value["AddrOf"]["local"])
        return found

    def place(self, state, path):
        """The place that a path leads to."""
        place = ("local", path["local"])
        for step in path["steps"]:
            name, value = only(step)
            if name == "Field":
                place = ("field of", place, value)
            elif name == "Deref":
                pointer = self.in_items(read(state.kit, state.memory, place), self.size(value))
                is_local = pointer[0] == "reference" and pointer[1][0] == "local"
                place = target(pointer, "vector" if only(value)[0] == "Vector" and not is_local else "")
            elif name != "Variant":
                raise Unknown(f"the kit's step {name}")
        return place

    def size(self, kind):
        """The bytes that a value of a type takes, or None."""
        name, value = only(kind)
        if name == "Int":
            return value // 8
        if name == "Array" and "Lit" in value[1]:
            size = self.size(value[0])
            return size and size * value[1]["Lit"]
        if name != "Named":
            return {"Bool": 1, "Vector": 8, "Ptr": 8, "Ref": 8, "Struct": 16}.get(name)
        shape = next((it["shape"] for it in self.body["types"] if it["name"] == value[0]["name"]), {})
        if "Variants" in shape:
            return None if any(shape["Variants"]) else 1
        sizes = [self.size(value[1][it["Param"]] if only(it)[0] == "Param" else it) for it in shape.get("Fields", [None])]
        return None if None in sizes else sum(-(-it // 8) * 8 for it in sizes)

    def in_items(self, pointer, size):
        """A pointer that is so many bytes on, as one that is so many items on."""
        if pointer[0] != "bytes on":
            return pointer
        _, start, count = pointer
        if count == number(0):
            return offset(start, count)
        if count[0] == "number" and size:
            return offset(start, number(count[1] // size))
        if size == 1:
            return offset(start, count)
        if count[:2] == ("op", "Mul") and (size is None or count[3] in (SIZE, number(size))):
            return offset(start, count[2])
        raise Unknown(f"an offset of {count}")

    def operand(self, state, entry):
        """The value of an operand: of a place, or a constant."""
        name, value = only(entry)
        if name in ("Copy", "Move"):
            return read(state.kit, state.memory, self.place(state, value))
        if name == "Int":
            return number(value["value"])
        known = {"True": number(1), "False": number(0), "Unit": UNIT, "SizeOf": SIZE, "NumOf": ("const", "N", "")}
        if name not in known:
            raise Unknown(f"the kit's operand {name}")
        return known[name]

    def value(self, state, entry):
        """What an assignment assigns."""
        name, inner = only(entry)
        if name == "Opd":
            return self.operand(state, inner)
        if name == "AddrOf":
            return reference(self.place(state, inner))
        if name == "Aggregate":
            return aggregate(self.operand(state, it) for it in inner)
        if name == "Repeat":
            return ("op", "repeat", self.operand(state, inner[0] if isinstance(inner, list) else inner))
        if name not in ("Op1", "Op2", "Vec1", "Vec2"):
            raise Unknown(f"the kit's value {name}")
        return self.operation(name, inner[0], [self.operand(state, it) for it in inner[1:]])

    def operation(self, name, which, terms):
        """An operation on numbers, or on four words at once."""
        kind, inner = only(which)
        if name == "Op1" and kind == "Cast":
            return cast(inner[2], *terms)
        if name == "Op2" and kind == "Offset":
            return ("bytes on", *terms)
        if name in ("Op1", "Op2"):
            return SIZE if kind == "SizeOf" else operation(NUMBERS.get(kind, kind), *terms)
        if kind == "Bitmask":
            return ("op", "bitmask", *terms)
        return ("op", ("vector " if kind == "Map" else kind) + only(inner)[0], *terms)

    def callee(self, function):
        """The name of what is called, its type arguments as words, and the parameter whose method it is."""
        name, value = only(function)
        if name == "Fn":
            return value[0], [it for kind in value[1]["types"] for it in type_words(kind)], None
        if name != "Method":
            raise Unknown(f"the kit's call of {name}")
        bound = self.body["generics"]["bounds"][value[0]["Given"]]
        types = [it for kind in value[2]["types"] for it in type_words(kind)]
        if bound["of"] == "core::marker::Destruct":
            return "core::marker::Destruct::drop", types, bound["types"][0]
        return self.kit.methods[bound["of"], value[1]], types, bound["types"][0]

    def step(self, state, at):
        """Runs what is silent, and returns the next event."""
        while True:
            node = self.nodes[at]
            self.seen.add(at)
            if node.kind == "loop":
                return Event("loop", at)
            if node.kind == "return":
                return Event("return", value=state.kit.get(0, UNIT))
            found = getattr(self, node.kind)(state, node)
            if isinstance(found, Event):
                return found
            at = found

    def assign(self, state, node):
        value, place = self.value(state, node.value), self.place(state, node.place)
        if local_of(place) is None:
            return Event("store", node.then, value, place)
        write(state.kit, place, value)
        return node.then

    def static(self, state, node):
        write(state.kit, ("local", node.place["local"]), reference(("static", json.dumps(node.value))))
        return node.then

    def call(self, state, node):
        """A call: what a rule says of it, or an event."""
        name, types, of = self.callee(node.value)
        arguments = [self.operand(state, it) for it in node.arguments]
        place = self.place(state, node.place)
        if self.is_drop(node):
            state.kit_drops += ((name, arguments[0]),)
        found = of_call(KIT_CALLS, name, Call(state, arguments, of))
        if isinstance(found, Event):
            name, arguments = found.name, found.arguments
        elif found is not None:
            write(state.kit, place, found)
            return node.then
        return Event("call", node.then, place=place, name=name, types=types, of=of, arguments=arguments)

    def switch(self, state, node):
        is_place = "local" in node.value
        value = read(state.kit, state.memory, self.place(state, node.value)) if is_place else self.operand(state, node.value)
        then = decided(state.facts, value, node.cases, node.other)
        return Event("switch", value=value, cases=node.cases, other=node.other) if then is None else then

    def is_drop(self, node):
        return node.kind == "call" and len(node.arguments) == 1 and self.callee(node.value)[0].endswith("::drop")
