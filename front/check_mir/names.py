"""Which body of the kit is which of rustc's, and how rustc's text names what is called, in the kit's words."""
import collections
import re

from rustc import split

# Where an impl stands in its file.
IMPL = r"(?:::<impl at (\S+?):(\d+):(\d+): (\d+):(\d+)>)?"


def joined(text):
    """The words of a type, each with a capital, as the kit names impls by them."""
    return "".join(it[:1].upper() + it[1:] for it in re.findall(r"\w+", re.sub(r"'\w+", "", text)))


def last(path):
    return path.rpartition("::")[2]


def head(kind):
    """A type without its arguments."""
    return kind.split("<")[0]


def without_arguments(path):
    """A path without type arguments, and these."""
    made, arguments, at = "", [], 0
    while at < len(path):
        if path.startswith("::<", at) and not path.startswith("::<impl ", at):
            end = closed_at(path, at + 3)
            arguments += split(path[at + 3 : end])
            at = end + 1
        else:
            made, at = made + path[at], at + 1
    return made, arguments


def closed_at(text, at):
    """The place of the `>` that closes the `<` before a place."""
    depth = 1
    for found in re.finditer(r"[-=]>|[<>]", text[at:]):
        depth += {"<": 1, ">": -1}.get(found[0], 0)
        if depth == 0:
            return at + found.start()
    return len(text)


def of_trait(path):
    """The type, the trait and the rest of `<TYPE as TRAIT>::REST`, or None."""
    end = closed_at(path, 1)
    parts = split(path[1:end].replace(" as ", "\0"), "\0") if path.startswith("<") else []
    return (parts[0], parts[1].replace("\0", " as "), path[end + 3 :]) if len(parts) == 2 else None


def type_words(kind):
    """A type as a flat list of words, as `type_words` of kit.py gives it too."""
    kind = re.sub(r"<\w as [^<>]*>::\w+", "X", re.sub(r"\{closure@[^}]*\}|dyn ", "", kind))
    kind = re.sub(r"; \w+\]", "]", re.sub(r"\balloc::vec::", "", re.sub(r"'\w+", "", kind)))
    words = [last(it) for it in re.findall(r"[A-Za-z_][\w:]*", kind)]
    return [f"*{it}" if re.fullmatch(r"[A-Z]", it) else it for it in words if it not in ("mut", "const", "Global")]


def plain(path):
    """A path of rustc's without type arguments; of a method of a trait with the type that has it."""
    def bare(kind):
        if of_trait(kind):
            return "_"
        return without_arguments(re.sub(r"^&(?:'\w+ )?(?:mut )?", "&", re.sub(r"<(?!impl).*", "", kind.split("::<")[0])))[0]
    if found := of_trait(path):
        kind = re.sub(r"\[.*\]", "[T]", bare(found[0]))
        return f"<{kind} as {bare(found[1])}>::{re.match(r'[A-Za-z_0-9]+', found[2])[0]}"
    return re.sub(r"<impl \[.*\]>", "<impl [T]>", without_arguments(path)[0])


class Names:
    """The bodies of rustc by the names of the kit's, and the impls that a call may name by their types."""

    def __init__(self, crate, kit):
        self.crate, self.kit, self.bodies, self.derived = crate, kit, {}, set()
        self.impls = collections.defaultdict(list)
        self.own = re.compile(rf"(?:\w+::)*?(?:{crate.tops}|proved)::")
        of_impls = re.compile(rf"(?:\w+::)*?(?:{crate.tops})::(?:\w+::)*<impl at [^>]*>::[A-Z_]+")
        for path in (*crate.bodies, *filter(of_impls.fullmatch, crate.constants)):
            self.declare(path)

    def declare(self, path):
        """Takes in a body of rustc: a function, a method of an impl, a closure or what a derive writes."""
        found = re.fullmatch(rf".*?\b(?:{self.crate.tops})::(.*?){IMPL}(?:::[A-Z]\w*)?::(\w+)(?:::\{{closure#(\d+)\}})?", path)
        if not found:
            self.bodies[path] = path
            return
        module, file, *places, function, closure = found.groups()
        if closure:
            names = [it for it in self.kit.bodies if "::fn::" in it and "+" not in it and it.split("::")[-2] == function]
            names = [it for it in names if it.split("::")[0] == module.split("::")[0]]
            self.bodies[path] = names[min(int(closure), len(names) - 1)] if names else path
        elif not file:
            self.bodies[path] = f"{module}::{function}"
        else:
            line, begun, end, ended = map(int, places)
            lines = (self.crate.folder / file).read_text(encoding="utf-8").split("\n")[line - 1 : end]
            title = re.sub(r"\s+", " ", " ".join(lines)).split("{")[0].strip()
            if title.startswith("impl"):
                title = re.sub(r"^impl(<(?:[^<>]|<[^<>]*>)*>)? ", "", title).split(" where ")[0].strip()
                self.declare_method(path, module, title, function)
            else:
                kind = re.search(r"\(_1: &(?:\w+::)*(\w+)", self.crate.bodies[path][0][0][len(path) :])[1]
                self.bodies[path] = f"{module}::{kind}{lines[0][begun - 1 : ended - 1]}::{function}"
                self.derived.add(path)

    def declare_method(self, path, module, title, function):
        """Takes in a method of an impl, which the kit names by the words of its type and trait."""
        trait, _, kind = title.rpartition(" for ")
        own = last(head(kind))
        if not trait:
            self.bodies[path] = f"{self.crate.homes.get((module.split('::')[0], head(kind)), module)}::{head(kind)}::{function}"
            return
        trait = re.sub(r"^\w+::", "", trait)
        names = [joined(own) + joined(trait.replace("&", "Ref ")), joined(own) + joined(head(trait)), joined(kind) + joined(trait),
                 joined(kind) + "Global" + joined(trait), "Ref" + joined(own.lstrip("&")) + joined(head(trait))]
        known = [it for it in names if f"{module}::{it}::{function}" in self.kit.bodies]
        self.bodies[path] = f"{module}::{(known or names)[0]}::{function}"
        self.impls[joined(own), last(head(trait)), function].append((kind, self.bodies[path]))

    def in_kit(self, path):
        return self.own.sub("", path, count=1)

    def callee(self, path):
        """The name of what is called in the kit's words, or as rustc has it where it is none of these crates'; its type arguments
        as words, or None of others; and the type whose method it is, where no impl is known."""
        if found := of_trait(path):
            return self.method(path, *found)
        found = re.fullmatch(r"((?:\w+::)*)<impl (.*?)>::(\w+)(::<.*>)?", path)
        if found and self.own.match(found[1]):
            kind = re.match(r"((?:\w+::)*)(\w+)(?:<(.*)>)?$", found[2])
            arguments = [*split(kind[3] or ""), *without_arguments(found[3] + (found[4] or ""))[1]]
            return f"{self.in_kit(kind[1])}{kind[2]}::{found[3]}", [it for kind in arguments for it in type_words(kind)], None
        bare, arguments = without_arguments(path)
        if self.own.match(bare):
            return self.in_kit(bare), [it for kind in arguments for it in type_words(kind)], None
        return path, None, None

    def method(self, path, kind, trait, rest):
        """The same of a method of a trait: of a parameter the trait's, else that of the impl for this type."""
        function, arguments = without_arguments(rest)
        arguments = [it for kind in arguments for it in type_words(kind)]
        is_own = self.own.match(head(trait))
        of_trait = f"{self.in_kit(head(trait))}::{function}" if is_own else path
        if is_own and re.fullmatch(r"[A-Z]\w*", kind) or re.fullmatch(r"[A-Z]", kind):
            return of_trait, arguments, kind
        impls = self.impls.get((joined(last(head(kind))), last(head(trait)), function))
        if not impls:
            return of_trait, arguments, kind
        its_type, name = next((it for it in impls if type_words(it[0])[1:] == type_words(kind)[1:]), impls[0])
        inner = [split(whole.partition("<")[2].removesuffix(">")) for whole in (its_type, kind)]
        parameters, given = ([it for it in words if it[0] != "'"] for words in inner)
        types = [it for parameter, its in zip(parameters, given) if re.fullmatch(r"[A-Z]", parameter) for it in type_words(its)]
        return name, types + arguments, None
