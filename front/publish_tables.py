"""The tables of front/publish: what the calls that it makes ask, take and answer. They are closed: what they do not name is
refused, and so is an entry that no call needs. The lines of Rust in them count as lines of glue, which are written by hand.
"""
import dataclasses


@dataclasses.dataclass(frozen=True)
class Owner:
    """A type of calls: their file, what stands there before the calls, and where a view has its set to be read. Of a type that has no
    view: the crate and the modules of its calls, its fields, the last of them the proved value, what the docs call it, and when a
    new one panics."""

    file: str
    head: str
    bits: str = ""
    crate: str = "fixedbitset"
    modules: tuple = ()
    fields: str = "set"
    value: str = "set"
    panics: str = ""

    def own(self):
        """The field of the proved value."""
        return self.fields.split(", ")[-1]

    def module(self):
        """The module of the proved type."""
        return self.modules[0] if self.modules else "views"


@dataclasses.dataclass(frozen=True)
class Form:
    """What a call does where the proved one asks this: the line that tests it, and when that panics, as the docs say it."""

    test: str
    panics: str


@dataclasses.dataclass(frozen=True)
class Result:
    """What a call answers: its type, how that is made of the proved answer, and what the docs call it; and of the call that says where
    memory is refused its type, how that is made, what the docs say of it, and what then holds of a set that it changes."""

    kind: str
    made: str
    said: str = "the result"
    tried: str = ""
    try_made: str = "{}"
    told: str = "which returns an error if an allocation fails"
    left: str = "The set is then as it was."

    def name(self):
        """The name of the type."""
        return self.kind.partition("<")[0]


OWNERS = {
    "Bits": Owner("published_reads.rs", """\
//! The calls of the views that read a set over borrowed words.
use crate::proved::bitlanes::Steps;
use crate::proved::fixedbitset::views;
use crate::{
    Bits, Block, Difference, IndexRange, Intersection, Ones, Runs, SymmetricDifference, Union,
    Zeroes,
};

impl<'a> Bits<'a> {
""", "self", fields="view"),
    "BitsMut": Owner("published_changes.rs", """\
//! The calls of the views that change a set over borrowed words.
use crate::proved::bitlanes::Steps;
use crate::proved::fixedbitset::views;
use crate::{panics, storage_words, Bits, BitsMut, Block, IndexRange};

impl<'a> BitsMut<'a> {
""", "self.as_bits()", fields="view"),
    "FixedBitSet": Owner(
        "published_sets.rs", """\
//! The calls of a set, by those of views and by its own.
use crate::memory::OrAbort;
use crate::proved::bitlanes::Steps;
use crate::proved::fixedbitset::set;
use crate::shim::alloc::Global;
use crate::{
    AllocError, Bits, Block, Difference, ExtendFault, FixedBitSet, IndexRange, Intersection, IntoOnes, Ones, Runs,
    SymmetricDifference, Union, Zeroes,
};
use alloc::vec::Vec;

impl FixedBitSet {
""", modules=("set", "bits", "ranges", "questions", "whole", "of_two", "parts", "shifts", "neighbours", "walks", "pairs", "extend")),
    "ArrayBitSet": Owner("published_arrays.rs", """\
//! The calls of a set in an array, by those of views.
use crate::proved::bitlanes::Steps;
use crate::{ArrayBitSet, Block, Difference, IndexRange, Intersection, Ones, Zeroes};

impl<const WORDS: usize> ArrayBitSet<WORDS> {
"""),
    "Ranks": Owner(
        "published_structures.rs", """\
//! The calls of ranks, slots and tables.
use crate::memory::OrAbort;
use crate::proved::{bitranks::ranks, bitrows::table, bitslots::slots};
use crate::shim::alloc::Global;
use crate::{AllocError, BitRows, Bits, FixedBitSet, Ranks, RowsMut, Slots};

impl<'a> Ranks<'a> {
""", crate="bitranks", modules=("ranks",), fields="set, ranks"),
    "Slots": Owner("published_structures.rs", "\n#[allow(clippy::len_without_is_empty)]\nimpl Slots {\n", crate="bitslots",
                   modules=("slots",), fields="slots", value="slots"),
    "BitRows": Owner("published_structures.rs", "\nimpl BitRows {\n", crate="bitrows", modules=("table",), fields="table", value="table",
                     panics="its words would be more than a vector can have"),
    "RowsMut": Owner("published_structures.rs", "\nimpl RowsMut<'_> {\n", crate="bitrows", fields="table", value="table"),
}

# The lines of a call, and its one call, which `made` of its result and `handed` of its parameters stand in.
METHOD = """\
{inline}{must}{track}    pub fn {name}{generics}({parameters}){result} {{
{tests}        {made}
    }}
"""
INLINE = "    #[inline]\n"
# The calls of views that rustc would leave out of line, though in line they are shorter: what they call for long rows counts as theirs.
ALWAYS = {"count_ones", "count_zeroes"}
ALWAYS_INLINE = "    #[inline(always)]\n"
TRACK = "    #[track_caller]\n"
MUST = "    #[must_use]\n"
CALL = "self.view.{name}({handed})"
# A call of a set by its own, on a set and on none, and what stands before one of a view that changes a range.
SET, OF_SETS = "self.{own}.", "{module}::{owner}::"
DIRECT = "        let (start, end) = self.as_bits().part(&range);\n"

OF_RESULT = "the length is not that of the result"
# What a call asks, by the clauses `requires` that stand next to each other. They speak of the values before the call alone, so
# `.old` and `.now` do not stand here, and `value` stands for `held` too. A range takes the place of `start` and `end`.
FORMS = {
    ("bit < self.length",): Form('self.assert_below("{place}", bit);', "it is at or past the length"),
    ("to < self.length",): Form('self.assert_below("copy to", to);', "`to` is at or past the length"),
    ("All (λ p. p < self.length) positions",): Form(
        'self.assert_all_below("{place}", positions);',
        "one is at or past the length, with the first that is; then nothing changes"),
    ("index < model.words_needed self.length",): Form(
        'self.assert_needed("{place}", index);', "the length needs no word of this index"),
    ("IsTrue (is_valid (value self) start end)",): Form("let (start, end) = {bits}.part(&range);", "the range is not valid"),
    ("start ≤ end", "end ≤ other.length"): Form("let (start, end) = other.part(&range);", "the range is not valid in `other`"),
    ("at + (end - start) ≤ self.length",): Form(
        "self.assert_room(at, end - start);", "from `at` on it does not end within this set"),
    ("width ≤ 64", "start + width ≤ self.length"): Form(
        "{bits}.assert_part(start, width);", "the width is over 64, and where the positions are not all below the length"),
    ("other.length ≤ self.length",): Form("self.assert_no_longer(other);", "`other` is longer, as this set does not grow"),
    ("self.length ≡ max one.length other.length",): Form("self.assert_length(one.len().max(other.len()));", OF_RESULT),
    ("self.length ≡ min one.length other.length",): Form("self.assert_length(one.len().min(other.len()));", OF_RESULT),
    ("self.length ≡ one.length",): Form("self.assert_length(one.len());", OF_RESULT),
    ("prelude.length positions ≡ prelude.length answers",): Form(
        "self.assert_like(positions, answers);", "there are not as many results as positions"),
    ("gens.length ≤ self.length",): Form("self.assert_no_longer(gens);", "`gens` is longer, as this set does not grow"),
}

# The type of a parameter by its type in the source, or by its name too, and what is handed over of it.
PARAMETERS = {
    "usize": ("usize", "{}"),
    "bool": ("bool", "{}"),
    "&[usize]": ("&[usize]", "{}"),
    "&[u8]": ("&[u8]", "{}"),
    "&mut [bool]": ("&mut [bool]", "{}"),
    "Bits<'_>": ("Bits<'_>", "{}.view"),
    "Bits<'a>": ("Bits<'a>", "{}.view"),
    "value: Block": ("Block", "{}"),
    "number: Block": ("u64", "{} as Block"),
    "steps: &mut Steps": ("", "&mut Steps::new()"),
}

# What is made of a proved walk, or of a proved view, and of a value that is new.
WALK, VIEW = "let walk = {0};\n        {1} {{ walk }}", "let view = {0};\n        {1} {{ view }}"
NEW, TRY_NEW = "let {own} = {0}.or_abort();\n        {owner} {{ {fields} }}", "let {own} = {0}?;\n        Ok({owner} {{ {fields} }})"

# The result by its type in the source.
RESULTS = {
    "": Result("", "{};", ""),
    "bool": Result("bool", "{}"),
    "usize": Result("usize", "{}"),
    "Option<usize>": Result("Option<usize>", "{}"),
    "Block": Result("u64", "{} as u64"),
    "&'a [Block]": Result("&'a [Block]", "{}", "the words"),
    "Cursor<Plain<'a>>": Result("Ones<'a>", WALK, "each item"),
    "Cursor<Inverted<'a>>": Result("Zeroes<'a>", WALK, "each item"),
    "Cursor<Beside<'a, And>>": Result("Intersection<'a>", WALK, "each item"),
    "Cursor<Beside<'a, AndNot>>": Result("Difference<'a>", WALK, "each item"),
    "InTurn<Cursor<Plain<'a>>, Cursor<Beside<'a, AndNot>>>": Result("Union<'a>", WALK, "each item"),
    "InTurn<Cursor<Beside<'a, AndNot>>, Cursor<Beside<'a, AndNot>>>": Result("SymmetricDifference<'a>", WALK, "each item"),
    "Runs<'a>": Result("Runs<'a>", WALK, "each stretch"),
}

# The same of a set's own calls.
SET_FORMS = {
    ("(it : I.IntoIter) → I.into_iter_gives blocks it → I.IntoIter.can_next it",): Form("", ""),
    ("IsTrue (over ranges.is_valid self (R.start_of range) (R.end_of range))",): Form(
        "let (start, end) = self.as_bits().part(&range);", "the range is not valid"),
    ("(it : I.IntoIter) → I.into_iter_gives items it → I.IntoIter.can_next it × IsFinite (I.IntoIter.remaining it)",): Form("", ""),
    ("bits < 2 ^ 64 - 1",): Form("self.assert_position(bits);", "`bits` is `usize::MAX`"),
    ("self.length + other.length < 2 ^ 64",): Form("self.assert_sum(other);", "the sum of the lengths is past `usize::MAX`"),
    ("prelude.length words ≡ storage_words length",): Form(
        "if words.len() != storage_words(length) {\n            panics::miscounted(words.len(), length);\n        }",
        "there are not [`storage_words`](crate::storage_words) of them"),
    ("kept ≤ length",): Form(
        "if kept > length {\n            panics::past(\"keep below\", kept, length);\n        }", "`kept` is past the length"),
    ("IsTaken self slot",): Form("self.assert_taken(self.is_taken(slot), slot, 1);", "it is not taken"),
    ("IsTakenStretch self count start",): Form(
        "self.assert_taken(self.slots.is_taken_stretch(start, count), start, count);", "one of them is not taken"),
    ("row < length self.rows", "column < self.columns"): Form(
        "self.assert_cell(row, column);", "the table has no such row or no such column"),
    ("from < length self.rows", "into < length self.rows"): Form("self.assert_pair(from, into);", "the table has not both rows"),
}
# (`{}` in a type stands for the name.)
SET_PARAMETERS = {
    "alloc: Global": ("", "Global::{alloc}"),
    "usize": ("{}: usize", "{}"),
    "bool": ("{}: bool", "{}"),
    "&[u8]": ("{}: &[u8]", "{}"),
    "&Self": ("{}: &FixedBitSet", "&{}.set"),
    "&'a FixedBitSet": ("{}: &'a FixedBitSet", "&{}.set"),
    "&[Block]": ("{}: &[Block]", "{}"),
    "&'a [Block]": ("{}: &'a [Block]", "{}"),
    "&'a mut [Block]": ("{}: &'a mut [Block]", "{}"),
    "Bits<'_>": ("{}: Bits<'_>", "{}.view"),
    "range: R": ("range: T", "start..end"),
    "I": ("{}: I", "{}"),
}
STOPS = "which returns what stops it: the position `usize::MAX`, or an allocation that fails"
SET_RESULTS = {
    "bool": Result("bool", "{}"),
    "usize": Result("usize", "{}"),
    "": Result("", "{};", ""),
    "Option<usize>": Result("Option<usize>", "{}"),
    "Self": Result("Self", "let {own} = {0};\n        {owner} {{ {fields} }}", "the {}"),
    "Option<Self>": Result("Option<Self>", "let {own} = {0}?;\n        Some({owner} {{ {fields} }})"),
    "Bits<'_>": Result("Bits<'_>", VIEW, "the set"),
    "fixedbitset::Bits<'_>": Result("Bits<'_>", VIEW, "the set"),
    "IntoOnes": Result("IntoOnes", WALK, "each item"),
    "Result<(), AllocError>": Result("", "{}.or_abort();", "", "Result<(), AllocError>"),
    "Result<bool, AllocError>": Result("bool", "{}.or_abort()", "the result", "Result<bool, AllocError>"),
    "Result<Self, AllocError>": Result("Self", NEW, "the {}", "Result<Self, AllocError>", TRY_NEW),
    "Result<Vec<u8>, AllocError>": Result(
        "Vec<u8>", "{}.or_abort().0", "the bytes", "Result<Vec<u8>, AllocError>", "Ok({}?.0)"),
    "Result<(), ExtendFault>": Result(
        "", "", "", "Result<(), ExtendFault>", "{}", STOPS, "The positions before it are then in the set."),
    "Result<Self, ExtendFault>": Result(
        "", "", "the {}", "Result<Self, ExtendFault>", TRY_NEW, STOPS),
}
# Calls of which the one alone is made that says where memory is refused. The other is a trait's, or in lib.rs two calls, so that one
# with room saves no registers.
TRIED = {"clone_from", "extend", "from_iter", "grow_and_insert"}
# The calls that make a view, or say whether words are those of one.
MAKERS = {
    ("Bits", "fits"), ("Bits", "over"), ("BitsMut", "over"), ("BitsMut", "settle"), ("BitsMut", "as_bits"), ("FixedBitSet", "as_bits")}
# Calls that go over words and are no part of the program of each that makes them.
OUTLINED = {"union_with", "symmetric_difference_with", "union_with_change", "symmetric_difference_with_change",
            "union_with_difference"}
# The calls of views that a set in an array has by their names. The others it has by its views.
ARRAYS = set("as_slice contains insert remove put take toggle set count_ones insert_range remove_range minimum maximum is_clear next_one "
             "next_zero ones zeroes first_gap union_with intersect_with difference_with symmetric_difference_with union_with_change "
             "is_subset is_disjoint intersection_count intersection difference first_lacking".split())
# The calls of tables that some rows of one have, by another call where theirs has not the name, with their contract.
PARTS = {
    "rows": ("self.table.rows", "rowsmutas_rows"),
    "columns": ("self.table.columns", "rowsmutas_rows"),
    "get": ("row < self.rows() && self.table.as_rows().get(row, column)", "rowsget"),
    "set": ("", "rowsmutset"),
    "union_rows": ("", "rowsmutunion_rows"),
}
# Sentences with one of these speak of what the call of the crate has not.
# (The allocator zeroes a new row that is long, so nothing is written.)
LEFT_OUT = ("`Err`", "The set is then as it was.", "(`range_is_valid`)", "`to_value`", "It writes `bits / 64` words",
            "It writes each word as 0", "It writes each word once: a row", "So it is where there would be", "`counted::close`")

# Where the names and signs of what a call asks are defined. Another definition of the same name is refused.
PRELUDE, BITS, RANGES, SLOTS = "std.specs.Prelude", "fixedbitset.specs.Bits", "fixedbitset.specs.Ranges", "bitslots.specs.Slots"
MEANT = {
    **dict.fromkeys(("IsTrue", "length", "max", "min", "prelude.length"), PRELUDE), "All": "std.specs.List",
    **dict.fromkeys(("model.words", "model.words_needed", "storage_words", "words_needed"), BITS),
    **dict.fromkeys(("is_valid", "over", "ranges.is_valid"), RANGES), **dict.fromkeys(("IsTaken", "IsTakenStretch"), SLOTS),
    **dict.fromkeys(("held", "value"), "fixedbitset.specs.Views"), "IsFinite": "std.specs.Iterator",
    "IsClean": "fixedbitset.specs.Stored", "IsTable": "bitrows.specs.Stored",
}
SIGNS = dict.fromkeys(("<", "≤", "≡", "+", "-", "*", "^"), PRELUDE)
# The ghost fields of views, by their crate and type.
GHOST_FIELDS = {
    **{("fixedbitset", it): "clean: { IsClean length words.now }," for it in ("Bits", "BitsMut")},
    **{("bitrows", it): "clean: { IsTable rows columns words.now }," for it in ("Rows", "RowsMut")},
}

# Calls of a walk in turn that have another name as Rust's traits have them.
RENAMED = {"take_first": "next", "take_last": "next_back"}

# The proved calls that are not made public, by their type, where they are methods, each with the reason.
TRAIT = "it is a trait's"
UNSAFE = "upstream has it as an `unsafe fn`, in unchecked.rs"
WRITES = "it writes words that are no set yet: the calls of sets that are written give it these"
HIDDEN = {
    ("", "storage_words"): "views.rs hands it on",
    ("Bits", "contains_unchecked"): "upstream has it as an `unsafe fn` of a set, in unchecked.rs",
    ("Bits", "range_is_valid"): "`part` asks it of each range",
    ("Bits", "is_equal"): "it is the trait `PartialEq`",
    ("Bits", "compare"): "it is the trait `Ord`",
    ("Bits", "copy_to"): WRITES,
    ("Bits", "union_to"): WRITES,
    ("Bits", "symmetric_difference_to"): WRITES,
    ("Bits", "intersection_to"): WRITES,
    ("Bits", "difference_to"): WRITES,
    ("Bits", "slice_to"): WRITES,
    ("Bits", "to_bytes"): "it writes bytes that words.rs gives it",
    ("FixedBitSet", "new"): "it is a `const fn` in lib.rs",
    ("FixedBitSet", "default"): TRAIT,
    ("FixedBitSet", "bitor_assign"): TRAIT,
    ("FixedBitSet", "bitxor_assign"): TRAIT,
    ("FixedBitSet", "bitand"): TRAIT,
    ("FixedBitSet", "bitor"): TRAIT,
    ("FixedBitSet", "bitxor"): TRAIT,
    ("FixedBitSet", "range_is_valid"): "`part` asks a view of each range",
    ("Ranks", "set"): "ranks.rs has the crate's own set",
    ("Slots", "is_taken_stretch"): "`give_back_stretch` asks it",
    ("Slots", "lower"): "it is two calls",
    ("BitRows", "as_rows"): "rows.rs makes views of rows by it",
    ("BitRows", "row"): "rows.rs goes over the view of a row",
    **{("FixedBitSet", f"{it}_unchecked"): UNSAFE for it in ("contains", "insert", "remove", "put", "toggle", "set", "copy_bit")},
}

# All text of Rust in these tables, but for what stands for another.
SHARED = (WALK, VIEW, NEW, TRY_NEW)
TEMPLATES = [
    METHOD, INLINE, ALWAYS_INLINE, TRACK, MUST, CALL, SET, OF_SETS, DIRECT, *(it.head for it in OWNERS.values()),
    *(it for it, _ in PARTS.values()),
    *(it.test for table in (FORMS, SET_FORMS) for it in table.values()),
    *(handed for table in (PARAMETERS, SET_PARAMETERS) for *_, handed in table.values()),
    *(text for table in (RESULTS, SET_RESULTS) for it in table.values() for text in (it.made, it.try_made) if text not in SHARED), *SHARED,
]
TEMPLATES = [text for text in TEMPLATES if text.strip(";") != "{}"]
