"""Runs two bodies step by step together: each event has to come on both sides, with equal terms."""

import loops
from rules import ARGUMENTS, EQUAL_TERMS, KIT_DROPS, LATER_DROPS, RUST_DROPS, of_terms
from state import State, Unknown
from terms import UNDEFINED, is_part, known, local_of, locals_in, plain_switch, shown, write

MOST_STEPS = 6000


class Walk:
    """A body of the kit and one of rustc's, walked from their beginnings."""

    def __init__(self, kit, rust, listed):
        self.kit, self.rust, self.listed = kit, rust, listed
        self.steps, self.newest, self.parameters = 0, 0, {}

    def difference(self):
        """Where the bodies differ, as a text, or nothing."""
        state = State()
        for at in range(1, self.kit.body["params"] + 1):
            state.kit[at] = state.rust[at] = ("parameter", at)
        return self.walk(state, self.kit.entry, self.rust.entry)

    def new(self):
        self.newest += 1
        return self.newest

    def equal(self, state, kit, rust, compared=()):
        """Whether two terms are equal. The local variables that references lead to are paired, and their contents compared."""
        said = of_terms(EQUAL_TERMS, self, state, kit, rust)
        if said is not None:
            return said
        if kit[0] == "local" or rust[0] == "local":
            return kit[0] == rust[0] and self.equal_locals(state, kit[1], rust[1], compared)
        return self.equal_parts(state, known(state.facts, kit), known(state.facts, rust), compared)

    def equal_parts(self, state, kit, rust, compared):
        """Whether two terms have equal parts, each compared as a term, or as a list of terms."""
        if len(kit) != len(rust):
            return False
        for one, other in zip(kit, rust):
            if not isinstance(one, tuple) or not isinstance(other, tuple):
                is_equal = one == other
            elif one and other and isinstance(one[0], str) and isinstance(other[0], str):
                is_equal = self.equal(state, one, other, compared)
            else:
                is_equal = self.equal_parts(state, one, other, compared)
            if not is_equal:
                return False
        return True

    def equal_locals(self, state, kit, rust, compared):
        """Whether two local variables stand for each other: they are paired, or have equal contents. One that is lent to change
        has one partner."""
        partner = state.partners.get(kit, rust)
        if partner != rust and rust in state.lent and partner in state.lent and not compared:
            return False
        state.partners.setdefault(kit, rust)
        contents = state.kit.get(kit, UNDEFINED), state.rust.get(rust, UNDEFINED)
        return (kit, rust) in compared or self.equal(state, *contents, (*compared, (kit, rust)))

    def walk(self, state, kit, rust, other=None):
        """Walks on from these places to the end of all ways, where rustc's side has come to an event already or not."""
        while True:
            self.steps += 1
            if self.steps > MOST_STEPS:
                raise Unknown("more steps than a walk may take")
            one, other = self.kit.step(state, kit), other or self.rust.step(state, rust)
            if other.kind == "unreachable":
                return ""
            if one.kind == "switch" and other.kind != "switch":
                return self.fork(state, one, other)
            if one.kind != other.kind:
                return f"{one.kind} {one.name}{shown(one.value or ())} | {other.kind} {other.name}{shown(other.value or ())}"
            fault = self.other_drops(state, other) or getattr(self, "at_" + one.kind)(state, one, other)
            if fault or one.kind in ("loop", "return", "switch"):
                return fault
            kit, rust, other = one.then, other.then, None

    def fork(self, state, one, other):
        """Walks each way of a branch of the kit alone, as one that drops the parts of a value: all come to the same event."""
        value, cases, otherwise = plain_switch(one.value, one.cases, one.other)
        ways = [((True, key), to) for key, to in cases.items()] + [((False, frozenset(cases)), otherwise)]
        for shows, to in ways:
            after = state.copy()
            after.facts[value] = shows
            if fault := to is not None and self.walk(after, to, None, other):
                return fault
        return ""

    def other_drops(self, state, event):
        """Where values are dropped otherwise before an event, or nothing. The kit drops the parts of a value one by one where
        rustc drops the whole. What a store replaces is left for the next event."""
        at, left = 0, list(state.rust_drops)
        for name, part in state.kit_drops:
            whole = next((it for it in range(at, len(state.rust_drops)) if is_part(part, state.rust_drops[it][1])), None)
            if whole is None and not of_terms(KIT_DROPS, self.listed, name):
                return f"drops {shown(part)} | {shown(state.rust_drops)}"
            at = at if whole is None else whole
            left[at : at + 1] = left[at : at + 1] if whole is None else [None]
        # (What is known to be a variant may have no part to drop.)
        left = [it for it in left if it and ("field", it[1], 0) not in state.facts and not of_terms(RUST_DROPS, it[0])]
        state.kit_drops, state.rust_drops = (), tuple(it for it in left if of_terms(LATER_DROPS, state, event, it[1]))
        return "".join(f"drops nothing | {shown(it)}" for it in left if it not in state.rust_drops)

    def both(self, state, what, kit, rust):
        return "" if self.equal(state, kit, rust) else f"{what}: {shown(kit)} | {shown(rust)}"

    def at_loop(self, state, one, other):
        return loops.difference(self, state, one.then, other.then)

    def at_return(self, state, one, other):
        return self.both(state, "returns", one.value, other.value)

    def at_store(self, state, one, other):
        fault = self.both(state, "stores at", one.place, other.place) or self.both(state, "stores", one.value, other.value)
        state.memory = self.new()
        return fault

    def at_call(self, state, one, other):
        """Where two calls differ: in the function, or in an argument; else both have one result."""
        is_listed = self.listed.is_pair(one.name, other.name)
        if fault := self.other_function(one, other, is_listed):
            return fault
        if len(one.arguments) != len(other.arguments):
            return f"arguments of {one.name}: {len(one.arguments)} | {len(other.arguments)}"
        for at, (kit, rust) in enumerate(zip(one.arguments, other.arguments)):
            kit = is_listed and of_terms(ARGUMENTS, state, kit, rust) or kit
            if fault := self.both(state, f"argument {at} of {one.name}", kit, rust):
                return fault
        self.change(state, one, other)
        if local_of(one.place) is None or local_of(other.place) is None:
            return "stores a result"
        result = other.value or ("result", self.newest)
        write(state.kit, one.place, result)
        write(state.rust, other.place, result)
        return ""

    def other_function(self, one, other, is_listed):
        """Why a call is of another function than the other, or nothing."""
        if not is_listed and (one.name != other.name or not self.equal_types(one.types, other.types)):
            return f"calls {one.name} {one.types} | {other.name} {other.types}"
        if one.of and other.of and "Param" in one.of and not self.is_parameter(f"*{one.of['Param']}", f"*{other.of}"):
            return f"another parameter: {one.name}: {one.of} | {other.of}"
        return ""

    def is_parameter(self, kit, rust):
        """Whether a parameter of the kit's is this one of rustc's. Each has one partner, but an associated type, which the kit
        has as a parameter of its own, may be any."""
        rust = "*X" if rust.startswith("*<") else rust
        back = self.parameters.setdefault(("of", rust), kit) == kit
        return self.parameters.setdefault(kit, rust) == rust and (back or rust == "*X")

    def equal_types(self, kit, rust):
        """Whether type arguments are the same, where each parameter has one partner. The kit may have more: associated types."""
        for one, other in zip(kit, rust or ()):
            if not (self.is_parameter(one, other) if one[0] == other[0] == "*" else one == other):
                return False
        if rust is None or len(kit) < len(rust):
            return False
        more = kit[len(rust) :]
        return all(it[0] == "*" for it in more) or kit == rust * 2

    def change(self, state, one, other):
        """What a call may change: memory, and what is lent to it."""
        after = self.new()
        if other.changes_memory:
            state.memory = after
        lent = {it: state.partners.get(it) for it in locals_in(tuple(one.arguments))}
        for kit, rust in lent.items():
            if rust in state.lent:
                state.kit[kit] = state.rust[rust] = ("after", after, rust)
        for rust in locals_in(tuple(other.arguments)):
            if rust in state.lent and rust not in state.partners.values():
                state.rust[rust] = ("after", after, rust)

    def at_switch(self, state, one, other):
        """Walks each way of a branch, with what it shows."""
        kit, kit_cases, kit_other = plain_switch(one.value, one.cases, one.other)
        rust, rust_cases, rust_other = plain_switch(other.value, other.cases, other.other)
        if fault := self.both(state, "branches on", kit, rust):
            return fault
        keys = sorted(set(kit_cases) | set(rust_cases))
        ways = [((True, key), kit_cases.get(key, kit_other), rust_cases.get(key, rust_other)) for key in keys]
        is_flag = kit[:2] in (("op", "Lt"), ("op", "Eq")) or set(keys) == {0, 1} and len(kit_cases) == len(rust_cases) == 1
        if kit_other is not None and rust_other is not None and not (is_flag and set(keys) >= {0, 1}):
            ways.append(((False, frozenset(keys)), kit_other, rust_other))
        for shows, to_kit, to_rust in ways:
            if to_kit is None or to_rust is None:
                continue
            after = state.copy()
            after.facts |= {kit: shows, rust: shows}
            if isinstance(to_rust, tuple) and callable(to_rust[1]):
                to_rust[1](after)
                to_rust = to_rust[0]
            if fault := self.walk(after, to_kit, to_rust):
                return fault
        return ""
