"""The tables of front/erase: which modules it makes, and what these may have. They are closed: what they do not name is refused.

A construct is added with a reason, and with a case in front/check_erase where no other is like it.
That asks of each entry that some source has it.
"""
import dataclasses

# The modules of each crate: all of a set but its JSON, but the walks over two sets that look up each item (the crate has those of
# the views), and but the operators (a trait of Rust has another result).
CRATES = {
    "bitlanes": ["carries", "changes", "counter", "lanes", "ops", "range", "search", "shifts", "word"],
    "bitwords": ["cursors", "gaps", "handfuls", "joins", "new_rows", "positions", "ranges", "shifts"],
    "bitwalks": ["in_turn", "runs", "walks"],
    "bitjson": ["bytes", "fills"],
    "fixedbitset": [
        "bits", "counted", *("counted/" + name for name in ("changes", "copies", "ranges", "shifts", "whole")), "extend",
        "neighbours", "of_two", "order", "parts", "questions", "ranges", "set", "shifts", "text", "views",
        *("views/" + name for name in (
            "bytes", "changes", "copies", "gaps", "neighbours", "positions", "ranges", "shifts", "walks", "whole")),
        "walks", "whole"],
    "bitranks": ["counted", "directory", "ranks"],
    "bitrows": ["counted", "table", "views", "views/changes", "views/reads"],
    "flow": ["postorder", "problem", "rounds", "solver"],
    "bitslots": ["slots"],
}
# The items that are written otherwise, by their source. `Block` is `usize` where that has 64 bits, as upstream's is, else `u64`.
# A text of ASCII digits is made with no test in Rattle, which in Rust is `unsafe`. The solver counts its rounds by a number that
# Rust reads too. From where on a count is a call of its own hangs on the target; both ways have one contract.
WRITTEN = {
    ("crates/bitlanes/src/word.rt", "pub type Block = u64 ;"): "pub use shim::Block;",
    ("crates/bitwords/src/ranges.rt", "const LONG : usize = 512 * BITS ;"): "use shim::LONG;",
    ("crates/fixedbitset/src/text.rt",
     "fn text_of ( digits : & [ u8 ] ) -> & str { unsafe { str :: from_utf8_unchecked ( digits ) } }"): "use shim::text_of;",
    **{(f"crates/flow/src/{it}.rt", "use fixedbitset :: { FixedBitSet , Steps } ;"): "use fixedbitset::FixedBitSet;\nuse shim::Steps;"
       for it in ("postorder", "rounds", "solver")},
}
# The functions that Rust calls in constants too, by their source: the length of an array is the number of words of a set.
CONSTANT = {("crates/fixedbitset/src/views/positions.rt", "fn storage_words")}
# The names that Rattle's prelude brings into each module and that mean something else in Rust: the shim has them, and a module
# that has one imports it. A type with an `impl Clone` copies itself by a call that may be refused memory.
PRELUDE = {"Clone", "Vec"}
# The types of other crates that copy themselves so. A struct that has such a value has no copy of its own.
COPIED = {"FixedBitSet"}
# The macros, by what stands behind the name: `vec![in alloc; item; count]` makes a row, or says where memory is refused.
MACROS = {"vec ! [ in": "crate::shim::row"}

# The attributes that stay, and those that go beside `tactic`.
ATTRIBUTES = {"[ inline ]", "[ inline ( always ) ]", "[ inline ( never ) ]", "[ cold ]", "[ derive ( Clone , Copy ) ]",
              "[ derive ( Clone , Copy , Debug ) ]", "[ derive ( Debug , Clone , Copy , PartialEq , Eq ) ]"}
DROPPED = {"[ derive ( Drop ) ]", "[ derive ( Debug , Drop ) ]", "[ repr ( C ) ]", "[ unsafe ( no_mangle ) ]", "[ cycle ( values ) ]",
           *(f'[ error ( "{it}" ) ]' for it in ("no memory", "position too great", "read failed", "write failed"))}
# Those of which `Drop` and the traits of other crates go.
LIGHTER = {"[ derive ( Debug , Drop , Error ) ]": "#[derive(Debug)]"}
KEYWORDS = set("as break const continue else enum fn for if impl in let loop match mod mut pub return self Self struct trait type "
               "use while true false crate".split())
# Words and marks of Rust that may not stand in what stays: each would mean something else, or something that nobody has looked
# at. Other words in small letters are variables and fields, of which rustc tells whether they are there.
REFUSED = set("<<= >>= ..= ... *= /= %= abstract async await become box do dyn extern final gen macro macro_rules move override "
              "priv raw ref static super try typeof union unsafe unsized virtual where yield i8 i16 i32 i64 i128 isize u16 u64 u128 "
              "f16 f32 f64 f128 char str".split())
ITEMS = {"const", "enum", "fn", "impl", "macro_rules", "mod", "static", "struct", "trait", "type", "use"}
# The names that stand for themselves: types, variants and traits that Rust brings into each module, and types with paths.
NAMES = {"Some", "None", "Option", "Ok", "Err", "Result", "Iterator", "IntoIterator", "DoubleEndedIterator", "PartialEq", "Eq",
         "PartialOrd", "Ord", "Copy", "usize", "u32"}
# Those of them, and of std's, that may be bounds, with a parameter or without.
BOUNDS = {"Copy", "Hasher", "IntoIterator", "Iterator", "Read", "Write"}
# The imports that go, with what they are of.
GONE = {"Model": "std::marker", "Error": "thiserror"}
# What no item may be called, nor what a `use` brings, beside all these: it is dropped, added or written by this name.
RESERVED = set("Drop Global Sized alloc bool core shim std u8".split()) | PRELUDE
# The types whose last parameter is the allocator `Global`.
ALLOCATED = {"IntoIter"}
# The modules of std that are used, and what stands for them.
STD = {"alloc": "crate::shim", "cmp": "core", "fmt": "core", "hash": "core", "iter": "core", "marker": "core", "mem": "core",
       "ops": "core", "slice": "core", "vec": "alloc", "simd": "crate::shim", "snapshot": "crate::shim"}
# What is named of modules and types that are not of these modules.
MEMBERS = {"cmp": {"Ordering"}, "iter": {"FusedIterator"}, "marker": {"PhantomData"}, "mem": {"replace", "swap"}, "slice": {"Iter"},
           "vec": {"IntoIter"}, "alloc": {"AllocError", "Global"}, "fmt": {"Binary", "Display", "Formatter", "Result"},
           "hash": {"Hash", "Hasher"},
           "ops": {"Range", "RangeFrom", "RangeFull", "RangeInclusive", "RangeTo", "RangeToInclusive"},
           "simd": {"prelude"}, "prelude": {"u64x4"}, "snapshot": {"Snapshot"}, "shim": {"Block", "LONG", "Steps", "text_of"},
           "Block": {"MAX", "from_le_bytes"}, "u64x4": {"from_array", "from_slice", "splat"}, "Snapshot": {"of"},
           "Vec": {"from_clones", "from_slice", "new", "with_capacity"}, "Binary": {"fmt"}, "usize": {"MAX"},
           "Ordering": {"Equal"}}
# Methods of Rust, and of the shim. Others have to be declared in these modules, as some that Rust has too are.
METHODS = set("checked_add checked_mul checked_next_multiple_of checked_sub div_ceil leading_zeros max min saturating_add "
              "saturating_sub trailing_zeros copied is_none split_at_mut split_first unwrap_or rev copy_to_slice "
              "reduce_or to_array wrapping_add wrapping_sub iter enumerate zip map map_err into_iter allocator as_mut_slice "
              "copy_from_slice extend_from_slice alternate write_str all pop push".split())
# The closures that may stand.
CLOSURES = {". map ( | ( word , other ) | O :: word ( * word , * other ) )", ". map_err ( | _ | ExtendFault :: Memory )",
            ". all ( | set | set . len ( ) == facts )", ". all ( | ( from , to ) | * from < nodes && * to < nodes )"}


@dataclasses.dataclass
class Target:
    """Modules that are made in one folder: their crates, the crates that they name beside these, and what the tables have for
    them beside all that: members, methods, closures, names, macros and modules of std; words and marks that are refused
    elsewhere; what a module imports that has a word (`prelude`); other crates; the texts of `write!`, which may name variables;
    rules of macros, word by word; crates of which a root hands names on; and lent rows of other crates. Where front/check_mir
    does not compare what rustc compiles with what was proved, the methods that they may declare are a closed list too."""

    crates: dict
    home: str
    below: dict = dataclasses.field(default_factory=dict)
    members: dict = dataclasses.field(default_factory=dict)
    methods: set = dataclasses.field(default_factory=set)
    words: set = dataclasses.field(default_factory=set)
    closures: set = dataclasses.field(default_factory=set)
    names: set = dataclasses.field(default_factory=set)
    macros: dict = dataclasses.field(default_factory=dict)
    std: dict = dataclasses.field(default_factory=dict)
    prelude: dict = dataclasses.field(default_factory=dict)
    others: dict = dataclasses.field(default_factory=dict)
    texts: set = dataclasses.field(default_factory=set)
    rules: set = dataclasses.field(default_factory=set)
    handed: set = dataclasses.field(default_factory=set)
    slices: set = dataclasses.field(default_factory=set)
    declares: set | None = None

    def members_of(self, name):
        return MEMBERS.get(name, set()) | self.members.get(name, set())

    def marks(self):
        """Those of its words by which a source is parted: all that are no names."""
        return frozenset(it for it in self.words if not it.isidentifier())

    def modules(self):
        """The modules of each crate that is named: those that are made, and those below."""
        return {it: [*self.crates.get(it, []), *self.below.get(it, [])] for it in {**self.below, **self.crates}}


OF_RUST = Target(CRATES, "crate::proved::")
# The crate of the calls for C, whose root has functions too.
OF_C = Target(
    {"bits_c": ["lib", "bytes", "copies", "handfuls", "lists", "neighbours", "pairs", "ranges", "ranks", "rows", "runs",
                "shifts", "sieves", "structs", "walks", "whole"]},
    "crate::",
    below=CRATES,
    members={"u32": {"MAX"}, "Ordering": {"Greater", "Less"}},
    methods=set("iter_mut reverse_bits".split()),
    words={"isize"},
    closures={". all ( | position | * position < length )"},
    declares=set("bring_last_word cursor take_first take_first_of_second take_last take_words take_words_back walk".split()),
)
# The program `bits`, over the modules of the crate for Rust.
OF_PROGRAM = Target(
    {"bitwalks": ["pairs", "sieve"],
     "bitjson": ["fault", "form", "values"],
     "fixedbitset": ["json", "operators", "pairs"],
     "bitcommands": ["commands", *("commands/" + name for name in (
         "arguments", "calling", "changing", "comparing", "joining", "looking", "making", "printing", "ranging", "refusals",
         "replies", "values", "walking"))],
     "bitlines": ["arguments", "fault", "lines", "names", "near", "program", "words"]},
    "crate::program::",
    below=CRATES,
    members={
        "Ordering": {"Greater", "Less"}, "prelude": {"u8x32"}, "u8x32": {"from_slice", "splat"}, "usize": {"from"},
        "u64": {"MAX"}, "ops": {"BitAndAssign", "Index"}, "io": {"Read", "Write"}, "Display": {"fmt"},
        "serde_json": {"Map", "Number", "Value", "json"},
        "Value": set("Array Bool Null Number Object String from from_slice".split())},
    methods=set("as_array as_bytes as_i64 as_str as_u64 chars clone flush is_ascii_digit is_err is_memory ok_or position "
                "read simd_eq take_while to_bitmask to_string to_vec unwrap write write_char".split()),
    words=set("$ \" ..= /= char const macro_rules static str super u64 union".split()),
    closures={". take_while ( | item | * * item != usize :: MAX )", ". all ( | item | * item < limit )",
              ". map ( | block | * block as Block )", ". position ( | b | * b == byte )"},
    names={"From", "u64"},
    macros={"json ! ( in": "json", "write ! ( f": "write", "name_in ! ( word": "name_in"},
    std={"io": "std"},
    prelude={"String": "String", "as_array": "AsArray", "from_slice": "ReadJson", "is_memory": "JsonError",
             "to_string": "WriteText", "to_vec": "WriteJson", "write_char": "WriteChar"},
    others={"serde_json": "crate::shim::serde_json"},
    texts={"{natural}", "{whole}", "{number}", "{position}", "{self}", "{text}{number}", r"\\u00{:02x}"},
    rules={"macro_rules ! name_in { ( $ word : expr ; $ ( $ text : literal => $ name : expr , ) + ) => { { $ ( if is ( $ word , $ "
           "text ) { return Some ( $ name ) ; } ) + None } } ; }"},
    handed={"bitlanes", "bitwalks"},
    slices={"& Vec < Value >"},
)
