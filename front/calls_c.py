"""The texts of the headers for C that front/calls makes."""
import re
import textwrap

from calls_source import refuse

# A type of crates/bits_c in C: a value, and a struct.
VALUES = {"usize": "size_t", "Block": "uint64_t", "bool": "bool", "isize": "ptrdiff_t", "u32": "uint32_t", "u8": "uint8_t"}
STRUCTS = {
    "Bits": "bits", "BitsMut": "bits", "Room": "bits", "Ones": "bits_walk", "Zeroes": "bits_walk", "Runs": "bits_run_walk",
    "Sieve": "bits_sieve", "Pair": "bits_pair", "Ranks": "bits_ranks", "Rows": "bits_rows", "RowsMut": "bits_rows",
}
# What the docs of crates/bits_c name otherwise than bits.h.
WORDS = {"NONE": "BITS_NONE", "usize": "size_t"}
WIDTH, MOST = 125, 128
NAMES_HEAD = """/* Made by front/calls from bits.h and bits_own.h: change those, and not this.
 *
 * bits.h and bits_own.h include this file if BITS_NO_SHORT_NAMES is defined, before and after their declarations: between
 * the two includes each name in lowercase letters has the prefix fixedbitset_. */
#ifndef BITS_NAMES_ARE_LONG
#define BITS_NAMES_ARE_LONG

"""


def parameter(it, call):
    """A parameter in C. A slice is a pointer and a number."""
    const = "const " if it.pointer == "&" else ""
    if it.is_slice and it.kind in VALUES:
        return f"{const}{VALUES[it.kind]} *{it.name}, size_t {it.number}"
    if not it.pointer and it.kind in VALUES:
        return f"{VALUES[it.kind]} {it.name}"
    if it.pointer == "&mut " and it.kind in VALUES or it.pointer and it.kind in STRUCTS:
        return f"{const}{(VALUES | STRUCTS)[it.kind]} *{it.name}"
    refuse(f"bits_{call.name}: no type of C for {it.name}: {it.pointer}{it.kind}")


def comment(text, indent=" * "):
    """A comment of C, wrapped. (Its end stands next to its last word.)"""
    wrapped = textwrap.wrap(f"/* {text}\0*/", WIDTH, subsequent_indent=indent, break_long_words=False, break_on_hyphens=False)
    return "\n".join(wrapped).replace("\0", " ") + "\n"


def said(call, names, quoted):
    """The docs of a call as bits.h has them: with the names that C has, and backquotes for parameters alone."""
    def in_c(code):
        if code[1] in quoted:
            return code[0]
        return re.sub(r"\w+", lambda word: WORDS.get(word[0], names.get(word[0], word[0])), code[1])

    return re.sub(r"`([^`]*)`", in_c, call.docs)


def declaration(call, names, quoted):
    if call.result and call.result not in VALUES:
        refuse(f"bits_{call.name}: no type of C for the result {call.result}")
    read = "" if call.may_be_ignored() else "BITS_NODISCARD "
    result = VALUES[call.result] if call.result else "void"
    parameters = ", ".join(parameter(it, call) for it in call.parameters)
    head, symbol = f"{read}{result} bits_{call.c}({parameters})", f"BITS_SYMBOL(bits_{call.name});\n"
    space = " " if len(head) + len(symbol) <= MOST else "\n    "
    return ("" if call.is_told else comment(said(call, names, quoted))) + head + space + symbol


def declarations(parts):
    """The declarations of bits.h."""
    names = {f"bits_{call.name}": f"bits_{call.c}" for _, calls in parts for call in calls}
    quoted = {name for _, calls in parts for call in calls for it in call.parameters for name in (it.name, it.number)}
    texts = [(heading, [declaration(call, names, quoted) for call in calls]) for heading, calls in parts]
    return "\n".join(comment(f"---- {heading}", " *      ") + "\n" + "".join(made) for heading, made in texts)


def untested(parts):
    """The calls that bits_check.h does not test, since they take no pointer."""
    return sorted(call.c for _, calls in parts for call in calls if not call.has_pointer())


def usings(parts):
    """Their names in C++, where BITS_CHECK puts the calls of the archive into a namespace."""
    return "".join(f"using fixedbitset_untested::bits_{name};\n" for name in untested(parts))


def tested(stored, parts):
    """The macros of bits_check.h, under both names."""
    names = [*stored["tested"], *(call.c for _, calls in parts for call in calls if call.has_pointer())]
    row = "#define {}bits_{name}(...) BITS_CALL({name}, __VA_ARGS__)\n"
    long, short = ("".join(row.format(prefix, name=name) for name in names) for prefix in ("fixedbitset_", ""))
    return f"#ifdef BITS_NO_SHORT_NAMES\n{long}#else\n{short}#endif\n"


def names(header, own):
    """The text of bits_names.h: the types and then the functions of both headers, in their order."""
    types = [name for text in (header, own) for name in re.findall(r"^typedef (?:struct|enum) (bits\w*) \{", text, re.M)]
    function = re.compile(r"^(?:BITS_NODISCARD )?(?:static inline )?(?:const )?\w+ \*?(bits_\w+)\(", re.M)
    functions = [name for text in (header, own) for name in function.findall(text)]
    found = [*types, *functions]
    if twice := {name for name in found if found.count(name) > 1}:
        refuse(f"the headers declare {min(twice)} twice")
    given = "".join(f"#define {name} fixedbitset_{name}\n" for name in found)
    taken = "".join(f"#undef {name}\n" for name in found)
    return f"{NAMES_HEAD}{given}\n#else\n#undef BITS_NAMES_ARE_LONG\n\n{taken}\n#endif\n"
