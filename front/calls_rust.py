"""The texts in Rust that front/calls makes: the functions of c/source that C calls, and of `differ` what declares and makes the calls."""
import re

from calls_source import refuse

EXPORTS_HEAD = """// Made by front/calls from crates/bits_c/src: change that, and not this.
//! A function for each call, under the symbol that `bits.h` gives it. It asks of its caller what `bits.h` says.

use crate::bits_c;
use crate::bits_c::structs::{Ones, Pair, Ranks, Room, Runs, Sieve, Zeroes};
use crate::crossing::*;
use crate::proved::bitlanes::Block;
use crate::proved::bitrows::{Rows, RowsMut};
use crate::proved::fixedbitset::views::{Bits, BitsMut};
"""
NUMBERS = {"usize", "bool", "Block"}
ITEMS = {"usize", "bool", "Block", "u8", "u32"}
# The structs of C by the values of Rust in c/source: those that only lend words, and those that a call changes.
LENT = {"Bits": "CSet", "BitsMut": "CSet", "Room": "CSet", "Rows": "CRows", "RowsMut": "CRows"}
KEPT = {"Ones": "CWalk", "Zeroes": "CWalk", "Runs": "CRuns", "Sieve": "CSieve", "Pair": "CPair", "Ranks": "CRanks"}
# The structs of `differ` by the same values. A word is a `usize` there.
DECLARED = {
    "Bits": "Lent", "BitsMut": "Lent", "Room": "Lent", "Ones": "Walk", "Zeroes": "Walk", "Runs": "Runs", "Sieve": "Sieve",
    "Pair": "Pair", "Ranks": "LentRanks", "Rows": "Rows", "RowsMut": "Rows", "Block": "usize",
}
# The calls that archive.rs has by hand, since they are a trait's there, or take and return other values; and one that it has not.
BY_HAND = {"equal", "compare", "from_bytes", "to_bytes", "range_is_valid"}
WALKS = {"Ones", "Zeroes", "Sieve", "Pair"}
# A value that a call writes: its type in the crate, what it is before, and how it is returned.
WRITTEN = {"bool": ("bool", "false", "{}"), "Block": ("u64", "0", "{} as u64")}


def crossed(it, call):
    """A parameter in c/source: the parameters of C, what it is in the call, and what stands before the call and behind it."""
    pointer = "*mut" if it.is_written() else "*const"
    if it.is_slice and it.kind in ITEMS:
        lend = "lent_mut" if it.is_written() else "lent"
        return f"{it.name}: {pointer} {it.kind}, {it.name}_count: usize", f"{lend}({it.name}, {it.name}_count)", "", ""
    if it.kind in NUMBERS and it.pointer != "&":
        return (f"{it.name}: *mut {it.kind}", f"&mut *{it.name}", "", "") if it.pointer else (f"{it.name}: {it.kind}", it.name, "", "")
    if it.kind in KEPT and it.is_written():
        begun = f"{it.kind}::nothing()" if call.keeps_pointers else f"{it.kind}::read({it.name})"
        return f"{it.name}: *mut {KEPT[it.kind]}", "&mut kept", f"    let mut kept = {begun};\n", f"    *{it.name} = kept.kept();\n"
    if it.kind in LENT | KEPT and it.pointer:
        return f"{it.name}: {pointer} {(LENT | KEPT)[it.kind]}", f"{it.pointer}{it.kind}::read({it.name})", "", ""
    refuse(f"bits_{call.name}: nothing crosses as {it.name}: {it.pointer}{it.kind}")


def exported(call):
    """The function of exports.rs for a call."""
    taken, words, before, behind = ([part[at] for part in (crossed(it, call) for it in call.parameters)] for at in range(4))
    made = f"bits_c::{call.module}{'::' * bool(call.module)}bits_{call.name}({', '.join(words)})"
    lines = [f"    {made}\n"]
    if any(behind):
        lines = [*before, f"    let answer = {made};\n", *behind, "    answer\n"] if call.result else [*before, f"    {made};\n", *behind]
    safety = "unsafe " if any("*" in it for it in taken) else ""
    answer = f" -> {call.result}" if call.result else ""
    head = f'pub {safety}extern "C" fn fixedbitset_bits_{call.name}({", ".join(taken)}){answer}'
    return f"\n#[no_mangle]\n{head} {{\n{''.join(lines)}}}\n"


def exports(parts):
    return EXPORTS_HEAD + "".join(exported(call) for _, calls in parts for call in calls)


def declared(it):
    """A parameter as declared.rs has it. A slice is a pointer and a number."""
    kind = DECLARED.get(it.kind, it.kind)
    if it.is_slice:
        return f"{it.name}: {f'NonNull<{kind}>' if it.is_written() else f'*const {kind}'}, {it.number}: usize"
    return f"{it.name}: {it.pointer}{kind}"


def declarations(parts):
    lines = []
    for call in (call for _, calls in parts for call in calls):
        answer = f" -> {call.result}" if call.result else ""
        lines.append(f"    pub fn bits_{call.name}({', '.join(map(declared, call.parameters))}){answer};\n")
    return f"of_archive! {{\n{''.join(lines)}}}\n"


def handed(it, is_ranged, call):
    """A parameter of a method of archive.rs, and what is handed on to the call."""
    if is_ranged and it.name in ("start", "end"):
        return "range: Range<usize>" * (it.name == "start"), f"range.{it.name}"
    if it.is_slice and it.is_written():
        return f"{it.name}: &mut [{it.kind}]", f"NonNull::from(&mut *{it.name}).cast(), {it.name}.len()"
    if it.is_slice:
        return f"{it.name}: &[{it.kind}]", f"{it.name}.as_ptr(), {it.name}.len()"
    if it.kind == "Bits":
        return f"{it.name}: &Self", f"&{it.name}.lent()"
    if it.kind in WRITTEN and it.is_written():
        return "", f"&mut {it.name}"
    if not it.pointer:
        kind = "u64" if it.name == "number" else DECLARED.get(it.kind, it.kind)
        return f"{it.name}: {kind}", f"{it.name} as usize" if kind == "u64" else it.name
    refuse(f"bits_{call.name}: no method hands on {it.name}: {it.pointer}{it.kind}")


def returned(call, made):
    """The result of a method, and the lines that make the call. One that has to be done is asserted."""
    if not call.may_be_ignored():
        written = next((it for it in call.parameters if it.kind in WRITTEN and it.is_written() and not it.is_slice), None)
        if not written:
            return "", [f"assert!({made});"]
        kind, before, answer = WRITTEN[written.kind]
        return f" -> {kind}", [f"let mut {written.name} = {before};", f"assert!({made});", answer.format(written.name)]
    if re.search(r"\bNONE\b", call.clauses):
        return " -> Option<usize>", [f"position({made})"]
    return (f" -> {call.result}", [made]) if call.result else ("", [f"{made};"])


def method(call):
    """A method of archive.rs on a set. Where another set has to be no longer, the set grows first."""
    first, others = call.parameters[0], call.parameters[1:]
    is_ranged = {"start", "end"} <= {it.name for it in others}
    shown, words = zip(*(handed(it, is_ranged, call) for it in others)) if others else ((), ())
    is_change = first.kind == "BitsMut"
    receiver, lent = ("&mut self", "&mut self.lent_mut()") if is_change else ("&self", "&self.lent()")
    result, lines = returned(call, f"unsafe {{ bits_{call.name}({', '.join([lent, *words])}) }}")
    longer = re.findall(r"nat_le (\w+)\.now\.length set\.old\.length", call.clauses) if is_change and not is_ranged else []
    return headed(call, [receiver, *shown], result, [*(f"self.grow({it}.length);" for it in longer), *lines])


def headed(call, shown, result, lines, generics=""):
    """A method of these parameters, result and lines."""
    body = "".join(f"        {line}\n" for line in lines)
    return f"    pub fn {call.name}{generics}({', '.join(it for it in shown if it)}){result} {{\n{body}    }}\n"


def walk(call):
    """A method of archive.rs that begins a walk."""
    kind, others = DECLARED[call.parameters[0].kind], call.parameters[2:]
    is_ranged = bool(others) and others[-1].name == "end"
    shown, words = zip(*(handed(it, is_ranged, call) for it in others)) if others else ((), ())
    made = f"unsafe {{ bits_{call.name}({', '.join(['&mut walk', '&self.lent()', *words])}) }}"
    begun = f"assert!({made});" if call.result else f"{made};"
    if call.parameters[0].kind not in WALKS:
        return headed(call, ["&self", *shown], f" -> {kind}", [f"let mut walk = {kind}::NONE;", begun, "walk"])
    steps = f"bits_{call.name.removesuffix('_in')}_next"
    given = f"Walked {{ walk, next: {steps}, next_back: {steps}_back, words: {kind}::words, lent: PhantomData }}"
    shown = ["&'a self", *(it.replace("&Self", "&'a Self") for it in shown)]
    return headed(call, shown, f" -> Walked<'a, {kind}>", [f"let mut walk = {kind}::NONE;", begun, given], "<'a>")


def methods(parts):
    """The methods of archive.rs on sets."""
    made, left = [], set(BY_HAND)
    for call in (call for _, calls in parts for call in calls):
        kinds = [it.kind for it in call.parameters if it.pointer]
        if call.name in BY_HAND:
            left.remove(call.name)
        elif call.parameters[0].name == "set":
            made.append(method(call))
        elif call.keeps_pointers and kinds[1] == "Bits" and kinds[0] != "Ranks":
            made.append(walk(call))
    if left:
        refuse(f"no call needs the entry {min(left)}")
    return "\n".join(made)
