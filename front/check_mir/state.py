"""Where a walk stands: what both sides have in their variables, what a branch has shown, and what a step has to match."""
import dataclasses


class Unknown(Exception):
    """A form that this does not know."""


@dataclasses.dataclass
class Event:
    """A step that has to come on both sides: a call, a store, a branch, the head of a loop, or the end."""

    kind: str
    then: object = None
    value: tuple = None
    place: tuple = None
    name: str = ""
    types: list = None
    of: object = None
    arguments: list = ()
    cases: dict = None
    other: object = None
    changes_memory: bool = True


@dataclasses.dataclass
class State:
    """What is known at a point of both sides."""

    kit: dict = dataclasses.field(default_factory=dict)
    rust: dict = dataclasses.field(default_factory=dict)
    facts: dict = dataclasses.field(default_factory=dict)
    partners: dict = dataclasses.field(default_factory=dict)
    lent: set = dataclasses.field(default_factory=set)
    open_loops: dict = dataclasses.field(default_factory=dict)
    memory: object = 0
    entered: str = None
    kit_drops: tuple = ()
    rust_drops: tuple = ()

    def copy(self):
        parts = {it.name: getattr(self, it.name) for it in dataclasses.fields(self)}
        return State(**{name: part.copy() if isinstance(part, (dict, set)) else part for name, part in parts.items()})


def reaching(successors, nodes, head):
    """The nodes of the loop with this head: those that it reaches and that reach it."""
    before = {}
    for node in nodes:
        for after in successors(node):
            before.setdefault(after, []).append(node)
    back = reached(lambda node: before.get(node, ()), head)
    return back & reached(successors, head)


def reached(successors, *starts):
    """The nodes that these lead to, with these."""
    found, left = set(), list(starts)
    while left:
        node = left.pop()
        if node not in found:
            found.add(node)
            left += successors(node)
    return found
