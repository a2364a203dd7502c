"""The list of names that front/calls makes: each call of a set, of `Bits` and of `BitsMut` in the crate for Rust, with its type."""
import textwrap

from calls_source import refuse
from calls_tests import DROPPED, FIRST, PUBLISH

WIDTH = 120
HEAD = FIRST + """//! The calls of sets and of borrowed words as values of their types, as the proved calls give them.
use fixedbitset::{
    AllocError, Bits, BitsMut, Block, Difference, ExtendFault, FixedBitSet as Set, Intersection,
    IntoOnes, Ones, Runs, SymmetricDifference, Union, Zeroes,
};
use std::ops::Range;
"""
# A parameter of a proved call by its type, or by its name too. `SET` is what the call takes for another set.
KINDS = {
    "usize": "usize", "bool": "bool", "&[usize]": "&[usize]", "&[u8]": "&[u8]", "&mut [bool]": "&mut [bool]", "value: Block": "Block",
    "number: Block": "u64", "Bits<'_>": "SET", "Bits<'a>": "SET", "&Self": "&Set", "bits: Bits<'_>": "Bits<'static>",
    "range: R": "Range<usize>", "blocks: I": "Vec<Block>", "items: I": "Vec<usize>",
}
RESULTS = {
    "": "", "bool": "bool", "usize": "usize", "Option<usize>": "Option<usize>", "Block": "u64", "&'a [Block]": "&LIFE [Block]",
    "Cursor<Plain<'a>>": "Ones<LIFE>", "Cursor<Inverted<'a>>": "Zeroes<LIFE>", "Cursor<Beside<'a, And>>": "Intersection<LIFE>",
    "Cursor<Beside<'a, AndNot>>": "Difference<LIFE>", "Runs<'a>": "Runs<LIFE>", "IntoOnes": "IntoOnes",
    "InTurn<Cursor<Plain<'a>>, Cursor<Beside<'a, AndNot>>>": "Union<LIFE>",
    "InTurn<Cursor<Beside<'a, AndNot>>, Cursor<Beside<'a, AndNot>>>": "SymmetricDifference<LIFE>",
    "Result<(), AllocError>": "", "Result<bool, AllocError>": "bool", "Result<Self, AllocError>": "Set",
    "Result<Vec<u8>, AllocError>": "Vec<u8>", "Result<(), ExtendFault>": "", "Result<Self, ExtendFault>": "Set",
}
# The functions of the list by the types of the sources.
GROUPS = (
    ("FixedBitSet", "set_calls", "sets"), ("Bits", "view_calls", "borrowed words"),
    ("BitsMut", "change_calls", "borrowed words that it changes"),
)
# The receivers by the types and the marks that they have in the sources.
RECEIVERS = {
    ("Bits", "self"): "Bits<'static>", ("Bits", "&self"): "Bits<'static>", ("BitsMut", "&mut self"): "&mut BitsMut<'static>",
    ("FixedBitSet", ""): "", ("FixedBitSet", "self"): "Set", ("FixedBitSet", "&self"): "&Set", ("FixedBitSet", "&mut self"): "&mut Set",
}


def typed(call, receiver, parameters, result, is_set):
    """The type of a call as a function."""
    kinds = []
    for it in parameters:
        kind = it if it in KINDS else it.split(": ")[1]
        if kind not in KINDS:
            refuse(f"{call.name}: the list of names has no type for {it}")
        kinds.append(KINDS[kind])
    if result not in RESULTS:
        refuse(f"{call.name}: the list of names has no type for the result {result}")
    others, answer = kinds.count("SET"), RESULTS[result]
    life = ("'a" if others else "'_") if is_set else "'static"
    answer = answer.replace("&LIFE ", "&" if is_set else "&'static ").replace("LIFE", life)
    is_lent = is_set and others and "'a" in answer
    shown = [it for it in (receiver, *(kind.replace("SET", "&Set" if is_set else "Bits<'static>") for kind in kinds)) if it]
    if is_lent:
        shown = [it.replace("&Set", "&'a Set") for it in shown]
    return "for<'a> " * bool(is_lent) + f"fn({', '.join(shown)})" + (f" -> {answer}" if answer else "")


def ranged(call):
    """The parameters of a call of a view, with a range in place of its ends."""
    pairs = [it for it in call.parameters if it not in DROPPED]
    if call.range is not None:
        pairs[call.range : call.range + 2] = ["range: R"]
    return pairs


def rows_of(call):
    """The rows of a call as its name, its path and its type, those that say where memory is refused behind them."""
    if isinstance(call, PUBLISH.Call):
        kind = typed(call, RECEIVERS[call.owner, call.receiver], ranged(call), call.result, False)
        return [f'"{call.name}" is {call.owner}::{call.name}, {kind};']
    view, parameters = call.view, [it for it in call.parameters if it not in DROPPED]
    if view:
        receiver = "&mut Set" if view.owner == "BitsMut" else "&Set"
        return [f'"{call.name}" is Set::{call.name}, {typed(call, receiver, ranged(view), view.result, True)};']
    kind = typed(call, RECEIVERS["FixedBitSet", call.receiver], parameters, call.result, True)
    made = [] if call.name in PUBLISH.TRIED else [f'"{call.name}" is Set::{call.name}, {kind};']
    if call.result.startswith("Result<"):
        tried = kind.partition(" -> ")[0] + " -> " + call.result.replace("Self", "Set")
        made.append(f'"try_{call.name}" is Set::try_{call.name}, {tried};')
    return made


def texts(found):
    """The file by its name."""
    made = HEAD
    for owner, name, what in GROUPS:
        rows = "".join(f"        {row}\n" for call in found if call.owner == owner for row in rows_of(call))
        made += f"\n/// The calls of {what}.\n#[rustfmt::skip]\npub fn {name}() -> Vec<&'static str> {{\n"
        made += f"    typed! {{\n{rows}    }}\n}}\n"
    return {"rust/tests/names/made.rs": made}


def shadowing(calls, beyond):
    """The lines of lib.rs with the names beyond upstream's."""
    if unknown := beyond.keys() - calls.keys():
        refuse(f"calls.toml: a set has no call {min(unknown)}")
    text = " ".join(f"`{name}`," for name in beyond)
    return "".join(f"//! {line}\n" for line in textwrap.wrap(text, WIDTH, break_long_words=False, break_on_hyphens=False))
