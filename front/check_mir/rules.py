"""What stands for something else, by rows with a reason each: without a row some body no longer agrees (front/check_mir/test).

A row of calls is read where its pattern is the whole name of what is called, and says of the call: a value, where it is silent; an
event; or a branch. A row of terms says whether two of them are equal where that is no comparison of their parts, or nothing.
"""
import ast
import dataclasses
import json
import re
import typing

from state import Event
from terms import UNDEFINED, UNIT, aggregate, field, is_empty, local_of, number, offset, operation, read, target

NUMBER = r"(?:usize|u64|u32|u8)"
RANGE = rf"core::(ops::Range|iter::Rev<core::ops::Range)<{NUMBER}>>?"
# What copies itself by Rust's `Clone` alone: numbers, what is borrowed, and types with no more than these.
COPIED = rf"{NUMBER}|bool|&.*|core::marker::PhantomData<\w+>|.*::counter::Steps"
# How the two sides ask a row for its items.
KIT_SLICE = r"std_alloc::vec::(Vec::as_(mut_)?slice|derefs::VecDerefSlice::deref|lends::VecDerefSliceMut::deref_mut)"
RUST_SLICE = r"<alloc::vec::Vec<.*> as core::ops::Deref(Mut)?>::deref(_mut)?|alloc::vec::Vec::<.*>::as_(mut_)?slice"
SLICE_OF_RANGE = r"<\[(.*)\] as core::ops::Index(?:Mut)?<core::ops::(Range|RangeFrom|RangeTo)<usize>>>::index(?:_mut)?"
DISPLAY = r"core::fmt::rt::Argument::<'_>::new_display"
WALKED = ("items of a slice",)


@dataclasses.dataclass
class Rule:
    name: str
    pattern: str
    why: str
    does: typing.Callable
    is_out: bool = False


@dataclasses.dataclass
class Call:
    """A call: the state, the arguments, of the kit the parameter whose method it is, and what a row's pattern found."""

    state: object
    given: list
    of: object = None
    found: re.Match = None

    def read(self, place):
        return read(self.state.rust, self.state.memory, place)


@dataclasses.dataclass
class Branch:
    """A step of an iterator: where the condition holds, an item, and what is left in the iterator's place."""

    condition: tuple
    place: tuple
    left: tuple
    item: tuple


def of_call(rules, name, call):
    """What the first rule says that reads this name, or None."""
    for rule in (it for it in rules if not it.is_out):
        call.found = re.fullmatch(rule.pattern, name)
        if call.found and (said := rule.does(call)):
            return said
    return None


def of_terms(rules, *given):
    """What the first rule of terms says that has something to say, or None."""
    said = (rule.does(*given) for rule in rules if not rule.is_out)
    return next((it for it in said if it is not None), None)


def lent(call):
    return ("op", "slice", call.given[0], ("at", call.state.memory))


def first(call):
    return call.given[0]


def copied(call):
    return call.read(target(call.given[0]))


def named(name):
    """An operation of this name on the arguments."""
    return lambda call: ("op", name, *call.given)


KIT_CALLS = [
    Rule("drops", r".*::drop", "they are compared by themselves, in their order between two events",
         lambda call: UNIT if len(call.given) == 1 else None),
    Rule("slices of rows", KIT_SLICE, "a slice of a row is its items until memory changes, however it is asked for", lent),
    Rule("copies into rows", r"std_alloc::vec::Vec::copy_from_slice", "the kit's rows have this method of slices by themselves",
         lambda call: Event("call", name="core::slice::copy_from_slice", arguments=[lent(call), *call.given[1:]])),
    Rule("constants", r".*::([A-Z_]+)", "the kit reads a constant by a call with no argument",
         lambda call: None if call.given else ("const", call.found[0], "Param" if call.of else "")),
]


def part_of_slice(call):
    """A slice from a start on, up to an end, or both."""
    whole, (start, end) = call.given[0], (field(call.given[1], at) for at in (0, 1))
    length = re.search(r"; (\d+)$", call.found[1])
    pointer, count = (whole, number(int(length[1]))) if length else (field(whole, 0), field(whole, 1))
    if call.found[2] == "RangeTo":
        return aggregate([pointer, start])
    return aggregate([offset(pointer, start), operation("Sub", count if call.found[2] == "RangeFrom" else end, start)])


def fields_in(call, count):
    """The place of an iterator that is a local variable, and its fields."""
    reference = call.given[0]
    is_local = reference[0] == "reference" and local_of(reference[1]) is not None
    return (reference[1], [field(call.read(reference[1]), at) for at in range(count)]) if is_local else (None, ())


def next_number(call):
    """The next number of a range, from its start or from its end."""
    place, ends = fields_in(call, 2)
    if place is None:
        return None
    low, high = ends
    less, more = operation("Sub", high, number(1)), operation("Add", low, number(1))
    left, item = ((low, less), less) if "Rev" in call.found[1] else ((more, high), low)
    return Branch(operation("Lt", low, high), place, aggregate(left), item)


def next_item(call):
    """The next item of a slice that a `for` walks."""
    place, fields = fields_in(call, 3)
    if place is None or fields[0] != WALKED:
        return None
    _, items, at = fields
    left = aggregate([WALKED, items, operation("Add", at, number(1))])
    return Branch(operation("Lt", at, field(items, 1)), place, left, offset(field(items, 0), at))


def eq_of_values(call):
    given = [call.read(target(it)) for it in call.given]
    return Event("call", name="<usize as core::cmp::PartialEq>::eq", arguments=given)


def pieces(call):
    """The values of a format that has nothing but values, each written as it is by itself."""
    template, values = call.given
    if template[0] == "text":
        is_plain = re.fullmatch(r'b"(\\xc0)*\\x00"', template[1])
    else:
        is_plain = template[0] == "reference" and all(it == ("text", '""') for it in template[1][1][1])
    return aggregate([call.read(target(values))]) if is_plain else None


RUST_CALLS = [
    Rule("lengths", r"core::slice::<impl \[.*\]>::len", "a slice is its pointer and its length on both sides",
         lambda call: field(call.given[0], 1)),
    Rule("parts of slices", SLICE_OF_RANGE, "the kit makes the pointer and the length of a part where it stands", part_of_slice),
    Rule("ranges", rf"<{RANGE} as core::iter::(IntoIterator>::into_iter|Iterator>::rev)",
         "the kit counts in variables where Rust asks a range, which is its ends; one that is reversed counts down", first),
    Rule("next numbers", rf"<{RANGE} as core::iter::Iterator>::next", "it compares the ends and moves one", next_number),
    Rule("items", r"<&\[.*\] as core::iter::IntoIterator>::into_iter", "the kit counts up to the length of the slice",
         lambda call: aggregate([WALKED, call.given[0], number(0)])),
    Rule("next items", r"<core::slice::Iter<.*> as core::iter::Iterator>::next", "it compares and counts", next_item),
    Rule("bits of a number", r"core::num::<impl (?:usize|u64|u32)>::(count_ones|leading_zeros|trailing_zeros)",
         "the kit has these as operations", lambda call: operation(call.found[1], call.given[0])),
    Rule("wrapping", r"core::num::<impl usize>::wrapping_(add|sub)", "the kit has these as operations",
         lambda call: operation("Wrap" + call.found[1].title(), *call.given)),
    Rule("copies", rf"<({COPIED}) as core::clone::Clone>::clone", "a copy of what copies itself is a read in the kit", copied),
    Rule("numbers borrowed twice", r"<&usize as core::cmp::PartialEq>::eq", "rustc's derive borrows twice", eq_of_values),
    Rule("displayed references", rf"{DISPLAY}::<&.*>", "the kit keeps the reference itself", copied),
    Rule("displayed values", rf"{DISPLAY}::<[^&]*>", "the kit keeps a reference of the value", first),
    Rule("formats", r"core::fmt::Arguments::<'_>::new(_v1)?::<.*>", "the kit keeps the pieces as a list", pieces),
    Rule("operators of four words", r"<shim::u64x4 as core::ops::(?:Bit)?(And|Or|Xor|Not|Shl|Shr)>::\w+",
         "the kit has these as operations", lambda call: ("op", "vector " + call.found[1], *call.given)),
    Rule("four words", r"shim::(?:u64x4|u8x32)::from_slice", "the kit reads four words at once through a pointer",
         lambda call: call.read(target(field(call.given[0], 0), "vector"))),
    Rule("stores of four words", r"shim::u64x4::copy_to_slice", "the kit stores four words at once through a pointer",
         lambda call: Event("store", value=call.given[0], place=target(field(call.given[1], 0), "vector"))),
    Rule("one word four times", r"shim::(?:u64x4|u8x32)::splat", "the kit has this as an operation", named("repeat")),
    Rule("equal bytes", r"(?:shim::)?(?:u8x32|Alike)::simd_eq", "the kit has this as an operation", named("MaskEq")),
    Rule("bits of a mask", r"(?:shim::)?(?:u8x32|Alike)::to_bitmask", "the kit has this as an operation", named("bitmask")),
    Rule("four words as an array", r"shim::u64x4::(?:to|from)_array", "four words are one value, as an array or not", first),
    Rule("or of four words", r"shim::u64x4::reduce_or", "the kit has this as an operation",
         lambda call: ("op", "FoldOr", number(0), call.given[0])),
    Rule("slices of Rust's rows", RUST_SLICE, "a slice of a row is its items until memory changes, however it is asked for", lent),
    Rule("the shim's rows", r"<shim::row::Vec<.*> as core::ops::Deref(Mut)?>::deref(_mut)?", "they are rows of Rust", first),
]


def promoted(walk, state, kit, rust):
    if rust[0] != "constant" or kit[0] not in ("local", "static"):
        return None
    is_static = kit[0] == "static"
    value = number(int(json.loads(kit[1]).get("Bool", 2))) if is_static else state.kit.get(kit[1], UNDEFINED)
    return walk.equal(state, value, rust[1])


def lent_whole(walk, state, kit, rust):
    if kit[:2] == rust[:2] or ("op", "slice") not in (kit[:2], rust[:2]):
        return None
    return walk.equal(state, *(it[2] if it[:2] == ("op", "slice") else it for it in (kit, rust)))


def same_text(walk, state, kit, rust):
    """Whether the bytes of a text of the kit are those of a literal."""
    if rust[0] != "text":
        return None
    literal, bytes_of = rust[1].removeprefix("b"), kit[1][0] if kit[0] == "aggregate" and kit[1] else kit
    if bytes_of[0] != "reference" or bytes_of[1][0] != "static":
        return False
    wanted = ast.literal_eval("b" + literal) if literal.isascii() else literal[1:-1].encode()
    return list(wanted) == json.loads(bytes_of[1][1]).get("Ints", {}).get("values")


EQUAL_TERMS = [
    Rule("promoted constants", None, "rustc keeps a borrowed constant apart, and the kit in a variable or a static", promoted),
    Rule("rows lent whole", None, "the shim lends the items of a row of JSON where the kit lends the row", lent_whole),
    Rule("texts", None, "a text is a literal in rustc's MIR, and its bytes in the kit's", same_text),
    Rule("empty values", None, "values of no bits are equal, however many parts of no bits they have",
         lambda walk, state, kit, rust: is_empty(kit) and is_empty(rust) or None),
]


def lent_number(state, kit, rust):
    is_lent = kit[0] == "reference" and kit[1][0] == "local"
    return state.kit.get(kit[1][1]) if is_lent and not (rust[0] == "reference" and rust[1][0] in ("local", "constant")) else None


# What stands for an argument of a listed function of std.
ARGUMENTS = [Rule("lent numbers", None, "some functions of the kit's std borrow what Rust's take by value", lent_number)]
# What the kit alone may drop, what rustc alone may, and what rustc drops earlier.
KIT_DROPS = [
    Rule("snapshots", None, "they are for proofs alone", lambda listed, name: name == "core::snapshot::Snapshot::drop" or None),
    Rule("drops for the prover", None, "such an `impl Drop` takes a value apart, which may have no memory",
         lambda listed, name: listed.has("only the kit", name) or None),
]
RUST_DROPS = [
    Rule("errors of JSON", None, "they have no memory in the kit", lambda kind: kind == "serde_json::Error" or None),
]
LATER_DROPS = [
    Rule("replaced values", None, "Rust drops what an assignment replaces before it stores, and the kit after that",
         lambda state, event, whole: event.kind == "store" and whole == read({}, state.memory, event.place) or None),
]
RULES = [*KIT_CALLS, *RUST_CALLS, *EQUAL_TERMS, *ARGUMENTS, *KIT_DROPS, *RUST_DROPS, *LATER_DROPS]
