#!/usr/bin/env python3
"""Compares the declarations of differ/declared.rs and c/bits.h, the exports of c/source, and the structs of all three, with the
exports of crates/bits_c and the views that cross.

usage: front/declarations.py

Compared are names, parameters, results and the fields of structs, each with its name and its kind. A slice crosses as a
pointer and a number, whose name is free. A declaration of bits.h gives the symbol of its name, but where an export has another
name there, and bits_check.h has a test for each that takes a pointer. A wrong declaration is undefined behaviour, and no
compiler sees it. It prints each that is wrong, and what was compared in the last line. The status is 0 only where none is
wrong.
"""
import pathlib
import re
import sys

TOP = pathlib.Path(__file__).resolve().parent.parent
# What a value is where it crosses, by its type in crates/bits_c, in declared.rs and in bits.h.
KINDS = {
    "usize": "word", "Block": "word", "size_t": "word", "uint64_t": "word",
    "isize": "signed", "ptrdiff_t": "signed",
    "bool": "bool", "&mut bool": "bool*", "bool *": "bool*", "&mut [bool]": "bool* word", "NonNull<bool>": "bool*", "": "none", "void": "none",
    "&mut usize": "word*", "&mut Block": "word*", "uint64_t *": "word*", "size_t *": "word*",
    "&mut [Block]": "word* word", "&[Block]": "const word* word",
    "&mut [usize]": "word* word", "&[usize]": "const word* word", "const size_t *": "const word*",
    "NonNull<usize>": "word*", "*const usize": "const word*", "const uint64_t *": "const word*",
    "&Bits": "const set*", "&Lent": "const set*", "const bits *": "const set*",
    "&mut BitsMut": "set*", "&mut Room": "set*", "&mut Lent": "set*", "bits *": "set*",
    "&mut Ones": "walk*", "&mut Zeroes": "walk*", "&mut Walk": "walk*", "bits_walk *": "walk*",
    "&mut Runs": "runs*", "bits_run_walk *": "runs*",
    "&mut Sieve": "sieve*", "bits_sieve *": "sieve*",
    "&mut Pair": "pair*", "bits_pair *": "pair*",
    "&[u8]": "const byte* word", "*const u8": "const byte*", "const uint8_t *": "const byte*",
    "&mut [u8]": "byte* word", "NonNull<u8>": "byte*", "uint8_t *": "byte*", "&mut [u32]": "half* word", "NonNull<u32>": "half*", "uint32_t *": "half*",
    "&mut RowsMut": "rows*", "&mut Rows": "rows*", "bits_rows *": "rows*", "&Rows": "const rows*", "const bits_rows *": "const rows*",
    "&mut Ranks": "ranks*", "&mut LentRanks": "ranks*", "bits_ranks *": "ranks*", "&LentRanks": "const ranks*",
    "&Ranks": "const ranks*", "const bits_ranks *": "const ranks*",
    "*mut Block": "word*", "*const Block": "const word*", "*mut usize": "word*", "*mut bool": "bool*", "*mut u8": "byte*", "*mut u32": "half*",
    "*mut CSet": "set*", "*const CSet": "const set*", "*mut CRows": "rows*", "*const CRows": "const rows*",
    "*mut CRanks": "ranks*", "*const CRanks": "const ranks*", "*mut CWalk": "walk*", "*mut CRuns": "runs*",
    "*mut CSieve": "sieve*", "*mut CPair": "pair*",
}
# The struct that each has, by its name in bits.h: the sources, declared.rs and c/source/crossing.rs.
STRUCTS = {
    "bits": ("BitsMut", "Lent", "CSet"),
    "bits_view": ("Bits", "Lent", "CSet"),
    "bits_walk": ("Ones", "Walk", "CWalk"),
    "bits_run_walk": ("Runs", "Runs", "CRuns"),
    "bits_sieve": ("Sieve", "Sieve", "CSieve"),
    "bits_pair": ("Pair", "Pair", "CPair"),
    "bits_ranks": ("Ranks", "LentRanks", "CRanks"),
    "bits_rows": ("RowsMut", "Rows", "CRows"),
}


def plain(kind):
    """A type of Rust without lifetimes."""
    return re.sub(r"<'\w+>|'\w+ ", "", kind).strip()


def crossing(pairs):
    """What crosses for these names and kinds: a slice is a pointer and a number, whose name is free."""
    found = []
    for name, kind in pairs:
        pointer, is_slice, _ = kind.partition("* word")
        found += [(name, pointer + "*"), (None, "word")] if is_slice else [(name, kind)]
    return found


def agree(exported, declared):
    """Whether both have the same kinds in the same order, and the same names where a name is not free."""
    both = list(zip(exported, declared))
    return len(exported) == len(declared) and all(one[1] == two[1] and one[0] in (None, two[0]) for one, two in both)


def of_rust(text):
    """The functions that a text of Rust or Rattle exports or declares: their parameters and their kinds of results."""
    head = r"^ *(?:pub )?(?:safe )?(?:extern \"C\" )?fn (bits_\w+)(?:<[^>]*>)?\(([^)]*)\)(?: -> (\w+))?(?=;|\s)"
    found = {}
    for name, parameters, result in re.findall(head, text, re.M):
        pairs = [it.split(":", 1) for it in parameters.split(",") if it.strip()]
        found[name] = [*crossing((word.strip(), KINDS[plain(kind)]) for word, kind in pairs), ("", KINDS[result])]
    return found


def in_c(name):
    """The name of an export in bits.h: `take` clears a bit there, and bits_union is nobody's."""
    two = "intersection|difference|union|symmetric_difference"
    return re.sub(rf"^(bits_(?:{two}|ones|zeroes))_take", r"\1_batch", re.sub(rf"^(bits_(?:{two}))$", r"\1_iter", name))


def of_c(text):
    """The functions that the header declares, by the exports that their symbols are."""
    found = {}
    for result, named, parameters, name in re.findall(
        r"^(?:BITS_NODISCARD )?(\w+) (bits_\w+)\(([^)]*)\)\s+BITS_SYMBOL\((\w+)\);", text, re.M
    ):
        if named != in_c(name):
            continue
        pairs = [re.match(r"\s*((?:const )?\w+ \*|\w+) ?(\w+)$", it).groups() for it in parameters.split(",")]
        found[name] = [*((word, KINDS[kind]) for kind, word in pairs), ("", KINDS[result])]
    return found


def fields_of(text, name):
    """The fields of a struct as what crosses, with those of the structs in it."""
    body = re.search(rf"struct {name}\b[^{{;]*\{{(.*?)\n\}}", text, re.S)[1]
    rust = [it for it in re.findall(r"^ +(?:pub )?(\w+): ([^{,]+),", body, re.M) if "PhantomData" not in it[1]]
    fields = rust or [(it[1], it[0]) for it in re.findall(r"^ +((?:const )?\w+ \*|\w+ )(\w+);", body, re.M)]
    found = []
    for field, kind in fields:
        known = KINDS.get(plain(kind), "").removeprefix("const ")
        inner = [] if known.startswith(("word", "bool")) else fields_of(text, re.match(r"\w+", kind)[0])
        found += [(it and f"{field}.{it}", what) for it, what in inner] or crossing([(field, known)])
    return found


def wrong_calls(exported, archive, header, made):
    """What is wrong with the declarations of calls."""
    named = made.replace("unsafe extern", "extern").replace("fn fixedbitset_", "fn ")
    for side, declared in (("declared.rs", of_rust(archive)), ("bits.h", of_c(header)), ("exports.rs", of_rust(named))):
        for it in sorted(exported.keys() | declared.keys()):
            if not agree(exported.get(it, []), declared.get(it, [])):
                yield f"{side}: {it} is {exported.get(it)}, and declared {declared.get(it)}"


def wrong_structs(sources, archive, header, crossing):
    """What is wrong with the declarations of structs."""
    for name, (of_sources, of_archive, of_crossing) in STRUCTS.items():
        exported = fields_of(sources, of_sources)
        declared = {"declared.rs": (archive, of_archive), "bits.h": (header, name), "crossing.rs": (crossing, of_crossing)}
        for side, (text, struct) in declared.items():
            if not agree(exported, fields_of(text, struct)):
                yield f"{side}: the struct {name} is {exported}, and declared {fields_of(text, struct)}"
    for one, other, name in (("Ones", "Zeroes", "bits_walk"), ("Bits", "BitsMut", "bits"), ("BitsMut", "Room", "bits"), ("Rows", "RowsMut", "bits_rows")):
        if fields_of(sources, one) != fields_of(sources, other):
            yield f"the structs {one} and {other} differ, and {name} stands for both"


def wrong_tests(exported, header, tests):
    """The calls that take a pointer, and that bits_check.h does not test, or tests under another name. (Of the functions of the
    header those are tested that stand between the calls.)"""
    tested = {f"bits_{name}" for name in re.findall(r"^#define bits_(\w+)\(\.\.\.\) BITS_CALL\(\1, __VA_ARGS__\)$", tests, re.M)}
    asking = {in_c(name) for name, parameters in exported.items() if any(kind.endswith("*") for _, kind in parameters)}
    calls = header[header.index("namespace fixedbitset_untested {"):header.index("using fixedbitset_untested::")]
    asking |= set(re.findall(r"^static inline \w+ (bits_\w+)\(", calls, re.M))
    return (f"bits_check.h: {it} is not tested as it should be" for it in sorted(tested ^ asking))


def main():
    if sys.argv[1:] == ["--help"]:
        sys.exit(print(__doc__.strip()))
    views = [TOP / "crates" / it / "src/views.rt" for it in ("fixedbitset", "bitrows")]
    sources = "\n".join(it.read_text() for it in [*views, *sorted((TOP / "crates/bits_c/src").rglob("*.rt"))])
    files = ("differ/declared.rs", "c/bits.h", "c/bits_check.h", "c/source/exports.rs", "c/source/crossing.rs")
    archive, header, tests, made, crossing = ((TOP / "front" / it).read_text() for it in files)
    exported = of_rust(sources)
    wrong = [*wrong_calls(exported, archive, header, made), *wrong_structs(sources, archive, header, crossing), *wrong_tests(exported, header, tests)]
    print("\n".join([*wrong, f"{len(exported)} exports and {len(STRUCTS)} structs, {len(wrong)} wrong declarations"]))
    return bool(wrong)


sys.exit(main())
