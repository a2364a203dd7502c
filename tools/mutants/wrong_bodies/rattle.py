"""Reads Rattle in rt fmt's layout: the functions of a file of src/, and the definitions of a file of specs/."""
import dataclasses
import functools
import re

# The head of a function, or the line of a constant in an `impl`, which a check proves as it does a function.
HEAD = re.compile(r"( *)(?:pub(?:\(\w+\))? )?(?:(?:const |unsafe |extern \"C\" )*fn|(?<= {4})const(?=.*;)) (\w+)")
HEADING = re.compile(r"(?:pub )?(?:unsafe )?(?:impl|trait)\b ?(.*)")
# A line that ends the signature and the clauses of a function, or the whole of a constant.
OPENS = re.compile(r"(?:;|\{|\{\})(?: //.*)?$")
DEFINITION = re.compile(
    r"(?P<indent> *)(?P<words>(?:pub |abbrev |unfoldable |opaque )*)(?P<kind>(?:record |data )?)(?P<name>\S*)(?P<rest>.*)"
)
# The lemmas that a function names for its tactics.
USING = re.compile(r"#\[tactic\(.*?\busing\((.*?)\)\)\]", re.S)
# A line of specs/ that defines nothing of its own.
OTHER_ITEMS = ("use", "mod", "module", "open", "syntax")
COMMENT = {".rt": re.compile(r" *//"), ".antt": re.compile(r" *--(?: |$)")}


@dataclasses.dataclass(frozen=True)
class Function:
    """A function of a file: its name, the end of its path as a check prints it, the type whose own `impl` has it, if one
    does, its lines from 1 with those of its attributes, and their text."""
    path: str
    name: str
    symbol: str
    owner: str | None
    lines: range
    text: str
    # Whether it may have another name: it is no method of a trait, and does not call itself.
    is_plain: bool
    # The lines of its body, from 0. There are none where no other body may take its place.
    body: range

    @property
    def module(self):
        return module_of(self.path)


class Heading:
    """The line of an `impl` or a `trait` above a function."""
    def __init__(self, line, behind):
        self.symbol = symbol_of_impl(behind)
        self.declares_trait = "trait" in line.split()[:2]
        self.is_of_trait = self.declares_trait or " for " in line


def heading_above(lines, at):
    """The heading above a line that is indented, if it has one."""
    for line in reversed(lines[: at + 1]):
        if found := HEADING.match(line):
            return Heading(line, found[1])
    return None


def symbol_of_impl(heading):
    """How a check spells an `impl`: the words of its type and then of its trait, without the parameters."""
    parameters = re.match(r"<.*?>(?= )|", heading)[0]
    own = re.findall(r"[<,]\s*(?:const )?(\w+)(?=[:,>])", parameters)
    plain = re.split(r" where |[ {]*$", heading[len(parameters) :])[0]
    *traits, type_name = plain.split(" for ")
    spelled = " ".join([type_name, *(re.sub(r"\w+::", "", name) for name in traits)])
    symbol = ""
    for word in re.findall(r"'\w+|&|\w+", spelled):
        if word == "&":
            symbol += "Ref"
        elif word[0] != "'" and word not in own:
            symbol += word[0].upper() + word[1:]
    return symbol


def module_of(path):
    names = path.removesuffix(".rt").split("/")[1:]
    return "::".join(name for name in names if name not in ("lib", "main", "mod"))


def first_line(lines, start, is_wanted, otherwise):
    """The number of the first line from `start` on that is wanted."""
    for number in range(start, len(lines)):
        if is_wanted(lines[number]):
            return number
    return otherwise


def function_at(path, lines, at):
    """The function whose head is this line."""
    indent, name = HEAD.match(lines[at]).groups()
    first, opens, last = extent_of(lines, at)
    text = "\n".join(lines[first : last + 1])
    heading = heading_above(lines, at) if indent else None
    place = heading.symbol if heading else module_of(path)
    is_of_trait = bool(indent) and (not heading or heading.is_of_trait)
    is_alone = not calls_itself(name, text)
    may_change = is_alone and not (heading and heading.declares_trait)
    return Function(
        path=path,
        name=name,
        symbol=f"{place}::{name}".removeprefix("::"),
        owner=place if indent and not is_of_trait else None,
        lines=range(first + 1, last + 2),
        text=text,
        is_plain=not is_of_trait and name != "main" and is_alone,
        body=body_of(lines, at, opens, last) if may_change else range(0),
    )


def extent_of(lines, at):
    """The numbers from 0 of the first line of a function, with those of its attributes, of the line that ends its signature,
    and of its last: the first brace with its own indent."""
    indent = HEAD.match(lines[at])[1]
    opens = first_line(lines, at, OPENS.search, at)
    ends = {indent + "}", indent + "{}"}
    if lines[opens][-1] not in "{}":
        ends.add(lines[opens])
    last = first_line(lines, opens, lambda line: line in ends, at)
    first = at
    while first > 0 and lines[first - 1].startswith(indent + "#["):
        first -= 1
    return first, opens, last


def calls_itself(name, text):
    """Whether a function calls itself, or is one of a cycle or a test, so that it has to keep its name and its body."""
    return bool(re.search(rf"(?<!fn )(?<![\w:.]){name}\(|\b[sS]elf(\.|::){name}\(|#\[(?:cycle|test)\b", text))


def body_of(lines, at, opens, last):
    """The lines of a body for which another may stand. A clause may end with a brace too, so the body begins at the brace that
    is a line of its own, if there is one."""
    indent, name = HEAD.match(lines[at]).groups()
    has_braces = lines[opens].endswith("{") and lines[last] == indent + "}"
    if not has_braces or name in ("main", "drop"):
        return range(0)
    begins = next((number for number in range(at, last) if lines[number] == indent + "{"), opens)
    return range(begins + 1, last)


@functools.lru_cache(maxsize=2048)
def functions_of(path, text):
    """The functions of a file, in their order."""
    if not path.endswith(".rt"):
        return ()
    lines = text.split("\n")
    return tuple(function_at(path, lines, at) for at, line in enumerate(lines) if HEAD.match(line))


def function_with(path, text, number):
    """The function that has this line, counted from 0: the last that begins before it, unless that has ended there."""
    lines = text.split("\n")
    if not path.endswith(".rt"):
        return None
    heads = [head for head in range(number + 1) if HEAD.match(lines[head])]
    found = function_at(path, lines, heads[-1]) if heads else None
    return found if found and number + 1 in found.lines else None


def lemmas_of(text):
    """The paths of the lemmas that the text of a function names for its tactics."""
    found = USING.search(text)
    return [it.strip() for it in found[1].split(",") if it.strip()] if found else []


def definition_with(lines, number):
    """The name of the definition that has this line of a file of specs/, if it has a plain one. It begins at the last line
    that has a word of a definition, or a name before a colon and no indent. A field is one of its record."""
    has_field = False
    for line in reversed(lines[: number + 1]):
        found = DEFINITION.match(line)
        if found["name"] in OTHER_ITEMS:
            return None
        is_top = not found["indent"] and (found["words"] or found["rest"].startswith(" : "))
        if found["kind"] or found["words"] not in ("", "pub ") or is_top:
            is_plain = re.fullmatch(r"\w+", found["name"]) and (found["kind"] or not has_field)
            return found["name"] if is_plain else None
        has_field = has_field or bool(found["words"])
    return None


def only_brings_a_name(line):
    """Whether a line is a comment, or brings a name into a file: then it does not rest on what the name stands for."""
    return bool(re.match(r" *(?:(?:pub |ghost )*use\b|//|--)", line))


def without_comments(path, text):
    """The lines of a text that a check reads: no comments and no empty lines. A text keeps all where a quoted one may go on
    in a second line."""
    comment = COMMENT.get(path[path.rindex(".") :])
    if comment is None or "/*" in text or "{-" in text:
        return text
    code = [line for line in text.split("\n") if line.strip() and not comment.match(line)]
    has_open_quote = any(line.count('"') % 2 for line in code)
    return text if has_open_quote else "\n".join(code)
