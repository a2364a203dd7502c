"""Compares all bodies of a target, and says which agree, which differ and which one side alone has."""
import dataclasses
import os
import pathlib
import re
import subprocess
import tempfile

from kit import KitBody
from names import Names
from rustc import Crate, RustBody
from state import State, Unknown
from terms import aggregate, field, number, read, target, write
from walk import Walk

# The trait methods of the kit's own libraries are declared there.
OF_KIT = ("core", "std")
FLAGS = ("--emit=mir", "-Ztrim-diagnostic-paths=no", "-Zmir-opt-level=0", "-Coverflow-checks=no", "-Cdebug-assertions=no",
         "-Cpanic=abort")


@dataclasses.dataclass
class Target:
    """A crate that rustc compiles: its folder, those with its sources, the modules that front/erase makes, and the crates by
    their modules that it holds."""

    name: str
    folder: str
    sources: tuple
    tops: str
    modules: dict

    def has(self, name):
        """Whether a function of the kit is of a module of this target."""
        crate, *path = name.split("::")
        return any(path[: len(it)] == it for it in (module.split("/") for module in self.modules.get(crate, ())))

    def mir(self, top, rustc):
        """The text of rustc's MIR of it. (The flags are for an unstable compiler, and this call alone may have them.)"""
        environment = {**os.environ, "RUSTC_BOOTSTRAP": "1", "RUSTC": rustc}
        with tempfile.TemporaryDirectory() as room:
            if self.name == "rust":
                words = [rustc, "--edition", "2021", "--crate-type", "lib", "--cap-lints", "allow", "--out-dir", room, *FLAGS]
                words, folder = [*words, f"{self.folder}/src/lib.rs"], top
            else:
                words, folder = ["cargo", "rustc", "--quiet", "--lib", "--target-dir", room, "--", *FLAGS], top / self.folder
            ran = subprocess.run(words, cwd=folder, env=environment, stderr=subprocess.PIPE, text=True)
            found = [it for it in pathlib.Path(room).rglob("*.mir") if re.match(r"lib|bits", it.name)]
            if ran.returncode or len(found) != 1:
                raise SystemExit(f"front/check_mir: {rustc} does not compile {self.folder}:\n{ran.stderr}")
            return found[0].read_text(encoding="utf-8")


class Comparison:
    """The bodies of a target, compared one by one: how many agree, and what is wrong with others."""

    def __init__(self, target, kit, text, top, listed):
        folder = top if target.name == "rust" else top / target.folder
        sources = [it for part in target.sources for it in (top / part).rglob("*.rs")]
        self.target, self.kit, self.listed = target, kit, listed
        self.crate = Crate(text.replace("shim::of_sets::", "shim::"), folder, sources, target.tops)
        self.names = Names(self.crate, kit)
        self.agree, self.faults, self.explained, self.compared = [], {}, [], set()

    def run(self):
        """Compares all bodies, and looks at those that the kit alone has."""
        for path, name in self.names.bodies.items():
            self.compare(path, name)
        for name in set(filter(self.target.has, self.kit.bodies)) - self.compared:
            if not self.listed.has("only the kit", name) and not self.listed.has(f"only the kit, not {self.target.name}", name):
                self.faults[name] = "only the kit has it"
        return self

    def report(self, name, fault):
        """Counts a body that agrees, or that differs as the list says, and keeps any other difference."""
        if fault and self.listed.explains(name, fault):
            self.explained.append(name)
        elif fault:
            self.faults[name] = fault
        else:
            self.agree.append(name)

    def compare(self, path, name):
        """Compares one body of rustc with the kit's of this name."""
        if name in self.kit.bodies:
            self.compared.add(name)
            for text in self.crate.bodies.get(path, [None]):
                self.report(name, self.difference(path, name, text))
        elif not all(self.is_constructor(path, text) or self.is_copy(path, text) for text in self.crate.bodies[path]):
            self.faults[name] = "only rustc has it"

    def difference(self, path, name, text):
        """How a body differs from the kit's, or nothing."""
        try:
            kit = KitBody(self.kit, name)
            if text is None:
                proved, compiled = kit.step(State(), kit.entry).value, self.crate.constant(path)
                return "" if proved == compiled else f"the constant {proved} | {compiled}"
            rust = RustBody(self.crate, self.names, path, text)
            fault = Walk(kit, rust, self.listed).difference()
            unseen = [] if fault else [*kit.unseen(), *rust.unseen()]
            return fault or (f"no walk reached {', '.join(unseen[:9])}" if unseen else "")
        except (Unknown, AttributeError, LookupError, RecursionError, TypeError, ValueError) as form:
            return f"unknown: {form if isinstance(form, Unknown) else repr(form)}"

    def is_constructor(self, path, text):
        """Whether a body only makes a variant of its parameters, as rustc writes a function for each variant."""
        variant = self.crate.variant(path)
        if variant is None:
            return False
        state, count = State(), len(re.findall(r"\b_\d+: ", text[0]))
        state.rust = {at: ("parameter", at) for at in range(1, count + 1)}
        made = RustBody(self.crate, self.names, path, text).step(state, "0").value
        return made == aggregate([number(variant), *(state.rust[at] for at in range(1, count + 1))])

    def is_copy(self, path, text):
        """Whether a body, which a derive of Rust's writes, only copies or clones a value field by field."""
        body, state, event = RustBody(self.crate, self.names, path, text), State(rust={1: ("parameter", 1)}), None
        while event is None or event.kind == "call" and event.name.endswith(" as core::clone::Clone>::clone"):
            if event:
                write(state.rust, event.place, read({}, 0, target(event.arguments[0])))
            event = body.step(state, event.then if event else "0")
        whole, made = read({}, 0, target(("parameter", 1))), event.value or ()
        fields = [field(whole, at) for at in range(len(made[1]))] if made[:1] == ("aggregate",) else []
        return path in self.names.derived and event.kind == "return" and made in (whole, aggregate(fields))
