"""What rustc compiles: the text of its MIR of a crate, and a body of it whose steps a walk takes."""
import ast
import functools
import re

from rules import RUST_CALLS, Branch, Call, of_call
from state import Event, State, Unknown, reached, reaching
from terms import (
    UNIT, aggregate, cast, decided, field, local_of, number, offset, operation, read, reference, target, write,
)

BITS = {"u8": 8, "u32": 32, "u64": 64, "usize": 64, "char": 32}
OF_RUST = {"Option": ["None", "Some"], "Result": ["Ok", "Err"], "ControlFlow": ["Continue", "Break"],
           "Ordering": ["Less", "Equal", "Greater"]}
SILENT = re.compile(r"(Storage|nop|Retag|FakeRead|PlaceMention|AscribeUserType|Coverage|ConstEvalCounter|BackwardIncompatible)")


def split(text, mark=","):
    """The parts of a text between marks outside brackets and quotes."""
    parts, depth, begun = [], 0, 0
    for found in re.finditer(r'"(?:[^"\\]|\\.)*"|[-=]>|.', text, re.S):
        depth += (found[0] in "([{<") - (found[0] in ")]}>")
        if found[0] == mark and depth == 0:
            parts.append(text[begun : found.start()].strip())
            begun = found.end()
    return [*parts, *([text[begun:].strip()] if text[begun:].strip() else [])]


def opened_at(text):
    """The place of the parenthesis that the last mark of a text closes."""
    depth = 0
    for at in range(len(text) - 1, -1, -1):
        depth += (text[at] == ")") - (text[at] == "(")
        if depth == 0:
            return at
    raise Unknown(f"the parentheses of {text}")


@functools.lru_cache(maxsize=None)
def parsed_place(text):
    """The form of a place: its kind, the place that it is a part of, and which part."""
    if found := re.fullmatch(r"_(\d+)", text):
        return "local", int(found[1])
    if found := re.fullmatch(r"(.*)\[([^\[\]]*)\]", text):
        return "index", parsed_place(found[1]), found[2]
    inner, depth = text[1:-1], 0
    if text[0] != "(":
        raise Unknown(f"the place {text}")
    if inner[0] == "*":
        return "deref", parsed_place(inner[1:])
    for at, mark in enumerate(inner):
        depth += (mark in "([{") - (mark in ")]}")
        if depth == 0 and inner.startswith(" as ", at):
            return "variant", parsed_place(inner[:at])
        if depth == 0 and (found := re.match(r"\.(\d+): (.*)", inner[at:])):
            return "field", parsed_place(inner[:at]), int(found[1]), found[2]
    raise Unknown(f"the place {text}")


class Crate:
    """The bodies and constants of a crate by their paths, and the variants of enums, in order, from its sources."""

    def __init__(self, text, folder, sources, tops):
        self.folder, self.tops, self.bodies, self.constants, self.variants, self.homes = folder, tops, {}, {}, dict(OF_RUST), {}
        for path in sources:
            self.read_source(path)
        for head, body in re.findall(r"(?ms)^fn (.*?) \{$(.*?)^\}", text):
            path = head[: re.search(r"\((_1:|\))", head).start()]
            if re.search(rf"\b({tops})::", path.split("<impl at")[0]):
                self.bodies.setdefault(path, []).append((head, body))
        for pattern, body in ((r"(?ms)^(?:const|static) ([^\n]*): [^\n]*? = \{$(.*?)^\}", "{}"),
                              (r"(?m)^const (.*?): \w+ = const (.*);$", "_0 = const {};")):
            self.constants |= {name: body.format(inner) for name, inner in re.findall(pattern, text)}
        self.statics = dict(re.findall(r"(?m)^(alloc\d+) \(static: \w[\w:]*, size: 1, align: 1\) \{\n +(\w\w) ", text))

    def read_source(self, path):
        """Takes in the variants of the enums of a source, and the modules of its types."""
        source = path.read_text(encoding="utf-8")
        enums = r"(?ms)^ *(?:pub(?:\(\w+\))? )?enum (\w+)[^{]*\{(.*?)^ *\}$|enum (\w+) \{([^{}\n]*)\}"
        for name, body, short, line in re.findall(enums, source):
            parts = split(re.sub(r"(?m)//.*$|#\[[^\]]*\]", "", body or line))
            self.variants[name or short] = [re.match(r"\w+", it)[0] for it in parts]
        module = re.search(rf"\b(?:{self.tops})/(.*?)(/mod)?\.rs$", str(path))
        for name in re.findall(r"(?m)^ *(?:pub(?:\([^)]*\))? )?(?:struct|enum) (\w+)", source) if module else ():
            self.homes[module[1].split("/")[0], name] = module[1].replace("/", "::")

    def variant(self, path):
        """The number of the variant that a path names, or None."""
        found = re.search(r"(\w+)(?:::<.*>)?::(\w+)$", path)
        known = self.variants.get(found[1], ()) if found else ()
        return known.index(found[2]) if found and found[2] in known else None

    def constant(self, text):
        """The value of a constant."""
        if found := re.fullmatch(r"(-?\d+)_\w+", text):
            return number(int(found[1]))
        if text in ("true", "false") or text[0] == "'":
            return number(int(text == "true") if text[0] != "'" else ord(ast.literal_eval(text)))
        if text == "()" or re.fullmatch(r"[\w:]*(AllocError|Global)", text):
            return UNIT
        if found := re.fullmatch(r"(?:core::num::<impl (\w+)>|(usize|u64|u32|u8))::(MAX|BITS|MIN)", text):
            bits = BITS[found[1] or found[2]]
            return number({"MAX": 2**bits - 1, "BITS": bits, "MIN": 0}[found[3]])
        if text in self.constants:
            return self.evaluated(text)
        if (found := re.fullmatch(r"\{(alloc\d+): &bool\}", text)) and found[1] in self.statics:
            return reference(("constant", number(int(self.statics[found[1]], 16))))
        if found := re.fullmatch(r"<(.*) as (.*)>::(\w+)", text):
            name = re.sub(r"^\w+::", "", found[2].split("<")[0]) + "::" + found[3] if re.match(self.tops, found[2]) else text
            return ("const", name, "Param" if re.fullmatch(r"\w+", found[1]) else found[1])
        return ("text", text) if text[0] in '"b' else ("const", text, "")

    def evaluated(self, name):
        """The value that the body of a constant returns; of what it borrows, the value itself."""
        body = self.constants[name]
        if "bb0" not in body:
            return self.constant(re.search(r"const (.*?);", body)[1])
        state, body = State(), RustBody(self, None, name, ("", body))
        value = body.step(state, "0").value
        if value[0] == "reference" and local_of(value[1]) is not None:
            return reference(("constant", read(state.rust, 0, value[1])))
        return value


class RustBody:
    """A body of rustc's MIR, of which `step` runs what is silent up to the next event."""

    side = "rust"

    def __init__(self, crate, names, path, text):
        self.crate, self.names, self.path, (head, body) = crate, names, path, text
        self.blocks = {label: [it.strip() for it in inner.strip().split("\n") if it.strip() and not SILENT.match(it.strip())]
                       for label, inner in re.findall(r"(?ms)^    bb(\d+)(?: \(cleanup\))?: \{$(.*?)^    \}", body)}
        self.types = {int(at): kind for at, kind in (*re.findall(r"(?m)^ *let (?:mut )?_(\d+): (.*);$", body),
                                                     *re.findall(r"_(\d+): ((?:[^,()]|\([^()]*\))*)", head))}
        self.entry, self.seen, self.heads = "0", set(), self.loop_heads()

    def successors(self, label):
        last = self.blocks[label][-1]
        return re.findall(r"bb(\d+)", last.rpartition(" -> ")[2]) if " -> " in last else []

    def unseen(self):
        """The blocks that no walk has reached."""
        return [f"bb{it}" for it in reached(self.successors, "0") - self.seen if self.blocks[it] != ["unreachable;"]]

    def loop_heads(self):
        """The blocks that a block leads back to, by a search in depth."""
        heads, open_blocks, left = set(), {"0": True}, [("0", iter(self.successors("0")))]
        while left:
            label, after = left[-1]
            then = next(after, None)
            if then is None:
                open_blocks[label] = False
                left.pop()
            elif then not in open_blocks:
                open_blocks[then] = True
                left.append((then, iter(self.successors(then))))
            elif open_blocks[then]:
                heads.add(then)
        return heads

    def is_slice(self, at):
        """Whether a local variable is a reference of a slice."""
        return bool(re.match(r"&(?:'\w+ )?(?:mut )?\[[^;]*\]$", self.types.get(at, "")))

    def changed_in(self, head):
        """The local variables that the loop with this head changes."""
        statements = [it for label in reaching(self.successors, self.blocks, head[0]) for it in self.blocks[label]]
        assigned = [re.match(r"[^=]*?_(\d+)[^=]*? = ", it) for it in statements]
        return {int(it[1]) for it in assigned if it} | {int(at) for it in statements for at in re.findall(r"&mut \(*_(\d+)", it)}

    def type_of(self, form):
        """The type of a place, as far as its text has it."""
        return self.types.get(form[1], "") if form[0] == "local" else form[3] if form[0] == "field" else ""

    def place(self, state, text):
        return self.place_of(state, parsed_place(text.strip()))

    def place_of(self, state, form):
        """The place that this form means."""
        kind, inner = form[:2]
        if kind == "local":
            return ("local", inner)
        if kind == "deref":
            return target(self.read(state, self.place_of(state, inner)))
        whole = self.place_of(state, inner)
        if kind == "field":
            return ("field of", whole, form[2] + (inner[0] == "variant"))
        if kind == "variant":
            return whole
        fixed = re.match(r"(\d+) of \d+$", form[2])
        index = number(int(fixed[1])) if fixed else self.read(state, self.place(state, form[2]))
        if whole[0] != "target":
            return ("item of", whole, index)
        is_array = "; " in self.type_of(inner[1])
        return target(offset(whole[1] if is_array else field(whole[1], 0), index))

    def read(self, state, place):
        return read(state.rust, state.memory, place)

    def operand(self, state, text):
        """The value of an operand: of a place, or a constant."""
        text = text.strip()
        if text.startswith(("copy ", "move ")):
            return self.read(state, self.place(state, text[5:]))
        if found := re.search(r"promoted\[\d+\]$", text):
            return self.crate.constant(f"{self.path}::{found[0]}")
        if not text.startswith("const "):
            raise Unknown(f"the operand {text}")
        return self.crate.constant(text[6:])

    def operands(self, state, text):
        return [self.operand(state, it) for it in split(text)]

    def value(self, state, text):
        """What an assignment assigns."""
        for pattern, read_form in VALUES:
            if found := pattern.fullmatch(text):
                return read_form(self, state, found)
        raise Unknown(f"the value {text}")

    def borrowed(self, state, found):
        place = self.place(state, found[2])
        if found[1] and local_of(place) is not None:
            state.lent.add(local_of(place))
        return reference(place)

    def converted(self, state, found):
        """A number in other bits, or a reference of an array as one of a slice."""
        value, kind = self.operand(state, found[1]), found[3]
        if kind == "IntToInt":
            return cast(BITS[found[2]], value)
        source = re.fullmatch(r"(?:move|copy) _(\d+)", found[1])
        length = re.search(r"; (\d+)\]", self.types.get(int(source[1]), "") if source else found[1])
        if kind != "PointerCoercion" or "Unsize" not in (found[4] or "") or not length:
            raise Unknown(found[0])
        return aggregate([value, number(int(length[1]))])

    def length(self, state, found):
        place = self.place(state, found[1])
        return field(place[1], 1) if place[0] == "target" else ("length", place)

    def metadata(self, state, found):
        value = self.operand(state, found[1])
        return field(value[1] if value[0] == "raw" else value, 1)

    def constructed(self, state, found):
        """A value of a struct or of a variant, with its fields by name or in their order."""
        parts = [it.split(": ", 1)[1] if found.re.pattern.endswith(r"\}") else it for it in split(found[2] or "")]
        values, variant = [self.operand(state, it) for it in parts], self.crate.variant(found[1])
        return aggregate(values if variant is None else [number(variant), *values])

    def step(self, state, at):
        """Runs what is silent, and returns the next event."""
        label, place = at if isinstance(at, tuple) else (at, 0)
        while True:
            if place == 0 and label in self.heads and state.entered != label:
                return Event("loop", (label, 0))
            state.entered = None if place == 0 else state.entered
            self.seen.add(label)
            found = self.taken(state, label, place)
            if isinstance(found, Event):
                return found
            label, place = found if isinstance(found, tuple) else (found, 0)

    def taken(self, state, label, place):
        """Takes one statement: returns an event, or where it goes on."""
        text = self.blocks[label][place]
        for pattern, take in STATEMENTS:
            if found := pattern.fullmatch(text):
                return take(self, state, found, (label, place + 1))
        raise Unknown(f"the statement {text}")

    def assigned(self, state, found, then):
        value, place = self.value(state, found[2]), self.place(state, found[1])
        if local_of(place) is None:
            return Event("store", then, value, place)
        write(state.rust, place, value)
        return then

    def switch(self, state, found, then):
        """A branch; the numbers of an `Ordering` are those of its variants, as the kit has them."""
        value, cases = self.operand(state, found[1]), dict(it.split(": bb") for it in found[2].split(", "))
        other = cases.pop("otherwise", None)
        cases = {int(key): label for key, label in cases.items()}
        before = self.blocks[then[0]][-2:][0]
        is_ordering = re.search(r"= discriminant\(_(\d+)\);", before)
        if is_ordering and self.types.get(int(is_ordering[1])) == "core::cmp::Ordering":
            cases = {{255: 0, -1: 0, 0: 1, 1: 2}[key]: label for key, label in cases.items()}
        if other and self.blocks[other] == ["unreachable;"]:
            other = None
        known = decided(state.facts, value, cases, other)
        return known or Event("switch", value=value, cases=cases, other=other)

    def called(self, state, found, _):
        """A call: what a rule says of it, or an event."""
        destination, call, then = found[1], found[2], found[3]
        opened = opened_at(call)
        name, texts = call[:opened], split(call[opened + 1 : -1])
        arguments = [self.operand(state, it) for it in texts]
        said = of_call(RUST_CALLS, name, Call(state, arguments))
        if isinstance(said, Branch):
            return self.branched(state, said, destination, then)
        if isinstance(said, Event) and said.kind == "store":
            said.then = (then, 0)
            return said
        if isinstance(said, Event):
            name, arguments = said.name, said.arguments
        elif said is not None:
            write(state.rust, self.place(state, destination), said)
            return then
        path, types, of = self.names.callee(name)
        place, changes = self.place(state, destination), not all(map(self.is_harmless, texts))
        result = UNIT if self.types.get(place[1]) == "()" else None
        return Event("call", (then, 0), result, place, path, types, of, arguments, changes_memory=changes)

    def dropped(self, state, found, _):
        state.rust_drops += ((self.type_of(parsed_place(found[1])), self.read(state, self.place(state, found[1]))),)
        return found[2]

    def branched(self, state, said, destination, then):
        """The two ways on from a step of an iterator, each with what it writes."""
        def some(state):
            write(state.rust, said.place, said.left)
            write(state.rust, self.place(state, destination), aggregate([number(1), said.item]))

        def none(state):
            write(state.rust, self.place(state, destination), aggregate([number(0)]))
        known = decided(state.facts, said.condition, {1: some}, none)
        if known is None:
            return Event("switch", value=said.condition, cases={1: (then, some)}, other=(then, none))
        known(state)
        return then

    def is_harmless(self, text):
        """Whether an argument lends nothing that the call may change."""
        found = re.match(r"(?:move|copy) _(\d+)$", text)
        kind = self.types.get(int(found[1]), "mut") if found else "" if text.startswith("const") else "mut"
        return "mut" not in kind.lower() and bool(re.match(r"(&[^?]*|usize|u64|u8|bool|)$", kind))


# The forms of what is assigned, each read by the first row that fits.
VALUES = [(re.compile(rf"(?:no_retag )?{pattern}", re.S), read_form) for pattern, read_form in (
    (r"&raw (?:const|mut) (?:\(fake\) )?(.*)", lambda body, state, it: ("raw", reference(body.place(state, it[1])))),
    (r"&(mut )?(?:two_phase )?(.*)", RustBody.borrowed),
    (r"((?:copy|move|const) .*) as (.*) \((\w+)(?:\((.*)\))?\)", RustBody.converted),
    (r"((?:copy|move|const) .*)", lambda body, state, it: body.operand(state, it[1])),
    (r"deref_copy (.*)", lambda body, state, it: body.read(state, body.place(state, it[1]))),
    (r"discriminant\((.*)\)", lambda body, state, it: field(body.read(state, body.place(state, it[1])), 0)),
    (r"PtrMetadata\((.*)\)", RustBody.metadata),
    (r"Len\((.*)\)", RustBody.length),
    (r"(?:Bit)?(Add|Sub|Mul|Div|Rem|And|Or|Xor|Shl|Shr|Lt|Le|Gt|Ge|Eq|Ne|Not)\((.*)\)",
     lambda body, state, it: operation(it[1], *body.operands(state, it[2]))),
    (r"(Add|Sub|Mul)WithOverflow\((.*)\)",
     lambda body, state, it: aggregate([operation(it[1], *body.operands(state, it[2])), number(0)])),
    (r"\[(.*); (\d+)\]", lambda body, state, it: ("op", "repeat", body.operand(state, it[1]))),
    (r"[\[(](.*)[\])]", lambda body, state, it: aggregate(body.operands(state, it[1]))),
    (r"(.*?) \{ (.*) \}", RustBody.constructed),
    (r"(.*?)\(((?:move|copy|const) .*)\)", RustBody.constructed),
    (r"((?:\w+::)*\w+(?:::<.*>)?(?:::\w+)?|\{closure@[^{}]*\})()", RustBody.constructed),
)]
# The same of statements and of what ends a block.
STATEMENTS = [(re.compile(pattern, re.S), take) for pattern, take in (
    (r"return;", lambda body, state, it, then: Event("return", value=state.rust.get(0, UNIT))),
    (r"unreachable;", lambda body, state, it, then: Event("unreachable")),
    (r"goto -> bb(\d+);", lambda body, state, it, then: it[1]),
    (r"drop\((.*)\) -> (?:\[return: )?bb(\d+).*", RustBody.dropped),
    (r"(?:assert\(.*\)|falseUnwind|falseEdge).* -> (?:\[(?:success|return|real): )?bb(\d+).*",
     lambda body, state, it, then: it[1]),
    (r"switchInt\((.*)\) -> \[(.*)\];", RustBody.switch),
    (r"(.*?) = (.*) -> (?:\[return: bb(\d+).*\]|unwind.*);", RustBody.called),
    (r"(.*?) = (.*);", RustBody.assigned),
)]
