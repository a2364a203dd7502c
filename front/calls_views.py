"""What front/calls makes functions in sources of crates with: it reads the methods of the views, says a clause in the names that another
source imports, breaks a function into lines, and puts functions between marks."""
import functools
import re

from calls_source import WORD, Names, refuse
from calls_tests import PUBLISH

WIDTH = 100
# Parentheses with at most three pairs in each other.
GROUP = r"\(((?:[^()]|\((?:[^()]|\((?:[^()]|\([^()]*\))*\))*\))*)\)"
BECOMES = re.compile(rf"Becomes self\.old self\.new (?:{GROUP}|(self\.old))")
MARKS = re.compile(r"^( *(?:/\*|//) made by front/calls.*\n)([\s\S]*?)(^ *(?:/\*|//) end of what front/calls makes.*\n)", re.M)
# A function that stands between marks, or the name of one that is not there yet.
FUNCTION = re.compile(r'^ *(?:pub (?:extern "C" )?fn |// )(\w+)', re.M)


class Method(PUBLISH.Signature):
    """A proved function, and the names that its clauses import."""

    def __init__(self, owner, item, names):
        super().__init__(owner, item, names)
        self.pairs = [it.split(": ", 1) for it in self.parameters]

    def look_up(self):
        """What it asks, as the tables have it."""
        self.form = tuple(PUBLISH.clause_of(it) for it in self.asked)

    def ensured(self):
        """What it ensures, but of steps."""
        return [(name, term) for kind, name, term in self.clauses if kind == "ensures" and "steps" not in term]

    def named(self, term, target, renamed=None):
        """A term in the names of another source, with the parameters that have another name there."""
        locals_ = {"self": "self", **{name: name for name, _ in self.pairs}, **(renamed or {})}

        def in_target(word):
            first, dot, rest = word[0].partition(".")
            if first in locals_:
                return locals_[first] + dot + rest
            meant = self.imported.meant(word[0])
            return target.said(meant) if meant else word[0]

        for sign in self.imported.signs(term):
            target.has_sign(sign, self.imported.files_of(sign))
        return WORD.sub(in_target, term)


@functools.cache
def functions_of(file, text):
    """The public functions of a source by their owner, if it is an `impl`, and their name."""
    names, found = Names(file, text), {}
    for item in PUBLISH.ERASE.items(PUBLISH.ERASE.Source(file, text).tokens())[0]:
        owner = re.match(r"impl (?:< 'a > )?(\w+)|", " ".join(item.words))[1] or ""
        for it in item.inner if item.keyword == "impl" else [item]:
            if PUBLISH.ERASE.words_of(it.tokens)[:2] == ["pub", "fn"]:
                found[owner, it.words[1]] = Method(owner, it, names)
    return found


def functions(folder, modules):
    """The public functions of modules of crates/fixedbitset."""
    sources = [PUBLISH.ERASE.source_of(folder, "fixedbitset", module) for module in modules]
    return {key: it for source in sources for key, it in functions_of(*source).items()}


def of_views(views, name):
    """The method of this name of the one type of views that has it."""
    found = [views[owner, name] for owner in ("Bits", "BitsMut") if (owner, name) in views]
    return found[0] if len(found) == 1 else refuse(f"{name}: {len(found)} types of views have such a method")


def broken(text, indent):
    """A clause on lines of at most WIDTH columns: broken once, before what follows or what is equal, or else where a line is full."""
    for mark in (" → ", " ≡ "):
        one, _, two = text.partition(mark)
        lines = [f"{indent}    {one}", f"{indent}       {mark}{two}"]
        if two and max(map(len, lines)) <= WIDTH < len(indent) + 4 + len(text):
            return lines
    first, *parts = re.split(r" (?=(?:≡|→|then|else|&&|\+) |\()", text)
    lines = [f"{indent}    {first}"]
    for part in parts:
        if len(lines[-1]) + len(part) < WIDTH:
            lines[-1] += f" {part}"
        else:
            lines.append(f"{indent}        {part}")
    return lines


def on_lines(head, parameters, result, clauses, indent=""):
    """The head of a function with its clauses, on lines of at most WIDTH columns."""
    one = f"{indent}{head}({', '.join(parameters)}){result}"
    many = f"{indent}{head}(\n" + "".join(f"{indent}    {it},\n" for it in parameters) + f"{indent}){result}"
    lines = [one if len(one) <= WIDTH else many]
    for kind, name, term in clauses:
        lines += broken(f"{kind} {name and name + ' '}{{ {term} }}", indent)
    return "\n".join(lines) + "\n"


def words(text):
    """The words of a function, however they stand on lines."""
    return re.findall(r"\w+|[^\w\s]", re.sub(r",(?=\s*\))|^ *///", "", text, flags=re.M))


def remade(file, text, make):
    """A source with each function between its marks made anew. One that has the words of what is made keeps its lines."""
    def run(it):
        blocks = it[2].strip("\n").split("\n\n")
        for at, block in enumerate(blocks):
            name = FUNCTION.search(block) or refuse(f"{file} has between its marks what is no function: {block}")
            made = make(name[1], block)
            blocks[at] = block if words(block) == words(made) else made.rstrip("\n")
        return it[1] + "\n\n".join(blocks) + "\n" + it[3]

    marks = text.count("made by front/calls") + text.count("end of what front/calls makes")
    return MARKS.sub(run, text) if marks == 2 * len(MARKS.findall(text)) else refuse(f"{file} has a mark that is in no pair")
