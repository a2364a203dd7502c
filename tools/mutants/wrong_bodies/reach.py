"""What a change of a text reaches: the function that has it, or all that rests on a definition of specs/."""
import dataclasses
import os
import re

from . import rattle


@dataclasses.dataclass
class Change:
    """A change of a text: the functions that judge it, whether it is one function and nothing else, and the symbols of all
    functions and the files of lemmas that rest on what it changes, or None where that is not known."""
    functions: list
    is_of_one_function: bool
    reach: set | None


def change_at(crate, path, text, old):
    """What a change of the old text changes. Nothing rests on a line of specs/ that only brings names."""
    number = text[: text.index(old)].count("\n")
    if not path.startswith("specs/"):
        function = rattle.function_with(path, text, number)
        return Change([function], True, {function.symbol}) if function else Change([], False, None)
    if old.startswith("use "):
        return Change([], True, set())
    return change_of_definition(crate, text, number)


def change_of_definition(crate, text, number):
    """What rests on the definition with this line: the functions whose lines name it, or one that names it. One function
    alone rests on it where no other file names these but specs/ and its own proof."""
    name = rattle.definition_with(text.split("\n"), number)
    users = users_of_definitions(crate, name)
    if users is None:
        return Change([], False, None)
    functions = {user.symbol: user for user in users if isinstance(user, rattle.Function)}
    others = {user for user in users if not isinstance(user, rattle.Function)}
    is_own = len(functions) == 1 and others <= set(functions)
    reach = with_callers(crate, with_users_of_lemmas(crate, {symbol_of(user) for user in users}))
    return Change(list(functions.values()), is_own, reach)


def users_of_definitions(crate, name):
    """What names this definition, or one that rests on it: functions, symbols of functions by their proofs, and files of
    lemmas. None where it is not known, since one of the definitions has no plain name."""
    users, names, looked = [], {name}, set()
    while names - looked:
        if None in names:
            return None
        left, looked = names - looked, set(names)
        for path, number, line in lines_of(crate):
            if not left & set(re.findall(r"\w+", line)) or rattle.only_brings_a_name(line):
                continue
            if path.startswith("specs/"):
                names.add(rattle.definition_with(crate.sources[path].split("\n"), number))
            else:
                users.append(user_at(crate, path, number))
    return users


def lines_of(crate):
    """Each line of the crate's sources: its file, its number from 0, and the line."""
    for path, text in crate.sources.items():
        for number, line in enumerate(text.split("\n")):
            yield path, number, line


def user_at(crate, path, number):
    """The function whose line this is, or the symbol of the one whose proof this is, or else the file."""
    if not path.startswith("proofs/"):
        functions = rattle.functions_of(path, crate.sources[path])
        return next((function for function in functions if number + 1 in function.lines), path)
    is_of_a_function = path.count("/") > 1
    return os.path.dirname(path).removeprefix("proofs/").replace("/", "::") if is_of_a_function else path


def symbol_of(user):
    return user.symbol if isinstance(user, rattle.Function) else user


def with_users_of_lemmas(crate, reach):
    """These, and what cites a file of lemmas among them, or among what that adds."""
    reach, looked = set(reach), set()
    while left := {user for user in reach if user.endswith(".antt")} - looked:
        looked |= left
        names = "|".join(os.path.basename(path).removesuffix(".antt") for path in left)
        cites = re.compile(rf"\bproofs\b.*\b(?:{names})\b")
        for path, number, line in lines_of(crate):
            if cites.search(line) and not path.startswith("specs/"):
                reach.add(symbol_of(user_at(crate, path, number)))
    return reach


def with_callers(crate, reach):
    """These, and each function that calls one of them, or of what that adds."""
    reach, looked = set(reach), set()
    while left := {user.rpartition("::")[2] for user in reach if not user.endswith(".antt")} - looked:
        looked |= left
        calls = re.compile(rf"\b(?:{'|'.join(left)})\b")
        reach |= {function.symbol for function in crate.functions if calls.search(function.text)}
    return reach
