"""What front/check_erase tries: sources that are wrong in one place, one for each table and reason, each with a text of a file,
what stands there instead, and why front/erase refuses it; and made modules that are wrong in one place, which the second reading
sees. Whether a body means in Rust what it means in Rattle is not tried here: front/check_mir sees that.
"""
LANES, WORD, CURSORS = "bitlanes/src/lanes.rt", "bitlanes/src/word.rt", "bitwords/src/cursors.rt"
RUNS, CARRIES, FILLS = "bitwalks/src/runs.rt", "bitlanes/src/carries.rt", "bitjson/src/fills.rt"
VIEWS, READS, OPS = "fixedbitset/src/views.rt", "fixedbitset/src/views/positions.rt", "bitlanes/src/ops.rt"
VALUES, REFUSALS, REPLIES = (f"bitcommands/src/commands/{it}.rt" for it in ("values", "refusals", "replies"))
PROGRAM, NAMES, LISTS, GIVERS = "bitlines/src/program.rt", "bitlines/src/names.rt", "bits_c/src/lists.rt", "bits_c/src/handfuls.rt"
SET, EXTEND, TEXT = (f"fixedbitset/src/{it}.rt" for it in ("set", "extend", "text"))
ORDER = "flow/src/postorder.rt"
GHOST = "    pub ghost clean: { IsClean length words.now },\n"
BODY, EIGHT = "    let mut sums = Sums::new();\n", "pub(crate) const EIGHT: usize = 8 * LANE;"
CLAUSE = "requires fits { sum_by count_ones a.now < 2 ^ 64 }"
TAKEN_APART = "impl<'a> Drop for Runs<'a> {\n    #[inline]\n    fn drop(self) {\n        let Runs {\n            words: _,"
UNKNOWN, CLOSURE, CALL, CHAIN = "is no token that is known", "a closure", "a call of a value", "a condition of several parts"
RANGE, INCLUSIVE = "a range with no end, or what a value is filled from", "a range with both ends and the last one in it"
# What may not stand in the body of a function, and why.
IN_BODIES = (
    ("unsafe { a.get_unchecked(0); }", "unsafe"), ("prove!(words > 0);", "the macro prove!"), ("let _ = 'a';", UNKNOWN),
    ("assert!(words > 0);", "the macro assert!"), ("a.chunks(2).len();", "the method chunks"), ("let _ = a.len() as i32;", "i32"),
    ("let r#x = 1;", "begins no attribute"), ("ghost here = { words ≡ length a.now }", "a ghost member has no end"),
    ("let _ = std::cmp::min(words, 1);", "the path std::cmp::min"),
    ("let _ = <usize as Default>::default();", "the name Default"), ("let _ = drop(a);", "the function drop"),
    ("for _ in words.. {}", RANGE), ("let one = |word| word;", CLOSURE),
    ("let one: fn(usize) -> usize = lane_at;", "fn within an item"), ("(lane_at)(a);", CALL),
    ("if let (Some([one, two]), Some(word)) = words {}", "an array within a pattern"),
    ("if words > 1 && let Some(one) = words {}", CHAIN),
)
KEPT = "#[derive(Drop)]\npub struct Kept {\n    pub count: usize,\n}\n\n"
RULE = "pub trait Rule {\n    ghost mark: { Self → ℕ };\n\n    fn answer(&self) -> usize {\n        0\n    }\n}\n\npub struct Yes;\n\n"
# What may not stand as an item, and why.
AS_ITEMS = (
    ("pub static LANES: usize = 4;", "the item static"), ("#[repr(C, packed)] pub struct X;", "#[ repr ( C , packed ) ]"),
    ("#[derive(Debug)] pub struct X;", "#[ derive ( Debug ) ]"), ("#[cfg(test)] pub fn one() {}", "#[ cfg ( test ) ]"),
    ("#[repr(transparent)] pub struct X;", "#[ repr ( transparent ) ]"),
    ("#[derive(Clone)] pub struct X;", "#[ derive ( Clone ) ]"),
    ("#[derive(Copy, Clone)] pub struct X;", "#[ derive ( Copy , Clone ) ]"), ("#![no_std]", "#! [ no_std ]"),
    ("#[inline(sometimes)] pub fn one() {}", "#[ inline ( sometimes ) ]"), ("#[no_mangle] pub fn one() {}", "#[ no_mangle ]"),
    ("#[allow(unused)] pub fn one() {}", "#[ allow ( unused ) ]"), ("pub struct X { pub kept: String }", "the name String"),
    ("pub fn one() -> u16 { 1 }", "u16"), ("pub fn one(", "a bracket is not closed"),
    ("pub mod inner { pub const X: usize = 1; }", "a module within a file"),
    ("use std::collections::HashMap; pub type X = HashMap;", "std::collections::HashMap"),
    ("use crate::ops::*;", "use crate::ops::*;"), ("use crate::ops::Or as Drop;", "Drop is the name"),
    ("use crate::ops::WordOp as Model;", "Model is the name"),
    ("pub const Drop: usize = 4;\n\npub fn with_drop(x: usize) -> usize {\n    x + Drop\n}", "Drop is the name"),
    ("pub const lower: usize = 4;", "lower, which a variable may have"), ("pub fn one<Drop>() {}", "the parameter Drop"),
    ("pub fn one<T: Drop>(t: T) {}", "the bound Drop"), ("pub fn one<const N: usize>() {}", "const within an item"),
    ("pub trait Mark {}\nimpl<X: WordOp> Mark for X {}", "an impl of Mark for X"),
    (KEPT + "pub trait Peeked {\n    fn look(&self) -> usize;\n}\n\nimpl Peeked for Kept {\n    fn look(&self) -> usize {\n        1\n"
     "    }\n}\n\n"
     "impl Kept {\n    pub fn look(&mut self) -> usize {\n        2\n    }\n}", "the method look with another receiver"),
    ("impl Model for Steps { fn one() {} }", "impl Model for Steps does more"),
    (RULE + "impl Rule for Yes {\n    // The mark.\n    ghost mark = { λ _. 1 }; fn answer(&self) -> usize { 1 }\n}",
     "on the line of a ghost"),
    ("pub fn one() -> usize // says\n    ensures { true }\n{\n    1\n}", "a clause behind a comment"),
    ("pub fn one() -> ! { loop {} }", "a function that does not"),
)
# Each is a file, a text that stands there, a text instead, and why that may not stand.
ELSEWHERE = (
    (LANES, CLAUSE, CLAUSE[:-1], "in a term"), (LANES, CLAUSE, "requires fits { true } where O: WordOp", "a clause with no body"),
    (CARRIES, "#[derive(Drop)]", "#[derive(Clone, Drop)]", "#[ derive ( Clone , Drop ) ]"),
    (CARRIES, "use crate::lanes::{LANE, ", "use crate::lanes::{", "the name LANE"),
    (CARRIES, "use crate::ops::WordOp;", "", "the bound WordOp"),
    (WORD, "pub type Block = u64;", "pub type Block = u64;\npub type Other = u64;", "u64"),
    (WORD, "word.trailing_zeros()", "word.count_zeros()", "the method count_zeros"),
    (OPS, "impl WordOp for Second {", "impl Default for Second {}\n\nimpl WordOp for Second {", "an impl of Default for Second"),
    (FILLS, "Block::from_le_bytes", "Block::from_be_bytes", "the path Block::from_be_bytes"),
    (CURSORS, "    pub words: Iter<'a, Block>,\n}", "    pub words: Iter<'a, Block>,\n    pub kept: String,\n}",
     "the name String"),
    (CURSORS, "vec::IntoIter<Block, Global>", "vec::Drain<Block, Global>", "an impl of Middle for vec :: Drain"),
    (CURSORS, "operation: PhantomData<O>", "operation: PhantomData<O, Global>", "the name Global"),
    (RUNS, TAKEN_APART, TAKEN_APART.replace("        let", "        tell();\n        let"),
     "impl < 'a > Drop for Runs < 'a > does more"),
    (VIEWS, "#[derive(Clone, Copy)]", "#[derive(Clone, Copy, Default)]", "#[ derive ( Clone , Copy , Default ) ]"),
    (VIEWS, GHOST, GHOST[:-2] + "\n", "a ghost member has no end"),
    (VIEWS, GHOST, GHOST.replace("now }", "now"), "a ghost member"),
    (VIEWS, GHOST, GHOST[:-1] + " pub kept: usize,\n", "on the line of a ghost member"),
    (READS, "Some(Bits { words, length })", "Some(made(words, length))", "the function made"),
    (GIVERS, "trait Giver {", "trait Mark {\n    fn clone(&self) -> bool;\n}\n\ntrait Giver {", "the method clone, which"),
    (GIVERS, "trait Giver {", "trait Mark {}\n\nimpl Mark for Option<usize> {}\n\ntrait Giver {", "an impl of Mark for Option"),
    (LISTS, "*position < length", "*position <= length", CLOSURE),
    (LISTS, 'extern "C" fn bits_insert_all', 'extern "C" fn insert_all', "the item extern"),
    (ORDER, "vec![in alloc; 0; nodes]?", "vec![0; nodes]", "the macro vec!"),
    (ORDER, "fixedbitset::{FixedBitSet, Steps}", "fixedbitset::{Steps, FixedBitSet}", "fixedbitset::Steps"),
    (SET, "#[derive(Debug, Drop)]", "#[derive(Clone, Debug, Drop)]", "#[ derive ( Clone , Debug , Drop ) ]"),
    (EXTEND, '#[error("no memory")]', '#[error("no more memory")]', '#[ error ( "no more memory" ) ]'),
    (EXTEND, "#[derive(Debug, Drop, Error)]", "#[derive(Debug, Drop, Error, Hash)]",
     "#[ derive ( Debug , Drop , Error , Hash ) ]"),
    (EXTEND, "use thiserror::Error;", "use anyhow::Error;", "Error is the name"),
    (EXTEND, "<I: IntoIterator<Item = usize>>", "<I: IntoIterator<IntoIter = usize>>",
     "the parameter I : IntoIterator < IntoIter"),
    (TEXT, '"0b"', '"0b\\n"', UNKNOWN),
)

# The same of what the program may have beside.
OF_PROGRAM = (
    (VALUES, '"null"', '"null', UNKNOWN), (VALUES, '"{natural}"', '"{whole:?}"', "the text"),
    (VALUES, 'write!(f, "{natural}")', 'writeln!(f, "{natural}")', "the macro writeln!"),
    (VALUES, "items: &Vec<Value>", "items: &Vec<Values>", "the name Values"),
    (VALUES, "number.as_u64()", "number.as_f64()", "the method as_f64"),
    (VALUES, "#[cycle(values)]", "#[cycle(other)]", "#[ cycle ( other ) ]"),
    (VALUES, "use serde_json::{Map, Number, Value};", "use serde_json::{Map, Number, Value, to_string};", "serde_json::to_string"),
    (VALUES, "write_value<W: fmt::Write>", "write_value<W: fmt::Write, P: Copy>", "the parameter W : fmt :: Write"),
    (REFUSALS, "|item| *item < limit", "|item| *item <= limit", CLOSURE),
    (REFUSALS, "impl From<AllocError> for Refusal {", "impl Into<AllocError> for Refusal {", "an impl of Into"),
    (REPLIES, "fmt::Display::fmt(flag, f)", "fmt::Debug::fmt(flag, f)", "the path fmt::Debug::fmt"),
    (PROGRAM, "0..u64::MAX", "0..=u64::MAX", INCLUSIVE),
    (PROGRAM, "use std::io::{Read, Write};", "use std::io::{BufRead, Read, Write};", "std::io::BufRead"),
    (PROGRAM, '#[error("read failed")]', '#[error("no read")]', '#[ error ( "no read" ) ]'),
    (NAMES, "macro_rules! name_in {\n    ($word:expr; ", "macro_rules! name_in {\n    ($word:ident; ", "the item macro_rules"),
    ("flow/src/rounds.rt", "due.insert_range(..)", "due.insert_range(0..)", RANGE),
)

# Each is a module, a text that stands there, and one in whose place the second reading has to see that it is wrong.
WRONG_MODULES = (
    ("program/bitcommands/commands/values.rs", "items: &[Value]", "items: &[Block]"),
    ("program/bitcommands/commands/values.rs", "fmt::Formatter<'_>", "fmt::Formatter"),
    ("program/bitcommands/commands/values.rs", "WriteChar", "WriteText"),
    ("program/bitcommands/commands/refusals.rs", "pub(super) fn check_set(", "pub fn check_set("),
    ("program/fixedbitset/mod.rs", "pub use crate::proved::fixedbitset::*;", "pub use crate::proved::bitrows::*;"),
    ("fixedbitset/views/positions.rs", "pub const fn storage_words", "pub fn storage_words"),
    ("bitlanes/carries.rs", "use crate::proved::bitlanes::ops::WordOp;\n", "use crate::proved::bitwords::ops::WordOp;\n"),
    ("bitlanes/word.rs", "pub use crate::shim::Block;", "pub use crate::shim::u64x4 as Block;"),
    ("bitwalks/runs.rs", "use core::iter::FusedIterator;\n", ""), ("bitlanes/lanes.rs", "#[inline(never)]\n", ""),
    ("bitlanes/mod.rs", "pub mod word;", "pub mod word;\npub mod others;"),
    ("bits_c/lists.rs", "pub fn bits_insert_all", "pub(crate) fn bits_insert_all"),
    ("fixedbitset/set.rs", "use crate::shim::prelude::{Clone, Vec};\n", ""),
    ("bitjson/bytes.rs", "prelude::Vec;", "prelude::{Clone, Vec};"),
    ("fixedbitset/extend.rs", "use crate::shim::alloc::{AllocError, Global}", "use alloc::alloc::{AllocError, Global}"),
    ("bitjson/bytes.rs", "crate::shim::row![in", "vec![in"), ("bitjson/bytes.rs", "crate::shim::row![in alloc; ", "vec!["),
    ("bitrows/table.rs", "row![in alloc;", "row![in Global::Abort;"),
    ("fixedbitset/set.rs", "pub fn new(alloc: Global)", "pub fn new(_: Global)"),
    ("fixedbitset/set.rs", "pub struct FixedBitSet {", "#[derive(Clone)]\npub struct FixedBitSet {"),
    ("bitwalks/walks.rs", "#[derive(Clone)]\npub struct IntoOnes", "pub struct IntoOnes"),
    ("fixedbitset/extend.rs", "pub enum ExtendFault", "#[derive(Clone)]\npub enum ExtendFault"),
    ("fixedbitset/extend.rs", "#[derive(Debug)]\n", ""), ("fixedbitset/extend.rs", "#[derive(Debug)]", "#[derive(Clone, Debug)]"),
    ("fixedbitset/text.rs", "fmt::Formatter<'_>", "fmt::Formatter"), ("fixedbitset/text.rs", "use crate::shim::text_of;", ""),
    ("fixedbitset/text.rs", "use crate::shim::text_of;", 'fn text_of(_: &[u8]) -> &str {\n    ""\n}'),
    ("flow/postorder.rs", "use crate::shim::Steps;", "use crate::proved::bitlanes::Steps;"),
    ("flow/postorder.rs", "struct Part {", "#[derive(Clone)]\nstruct Part {"),
    ("flow/postorder.rs", "#[derive(Clone)]\nstruct Lists", "struct Lists"), ("flow/rounds.rs", "use crate::shim::Steps;\n", ""),
    ("flow/solver.rs", "pub struct Solution", "#[derive(Clone)]\npub struct Solution"),
)


def cases():
    """The wrong sources: a file of crates/, a text of it, what stands there instead, and why that is refused."""
    yield from ((CARRIES, BODY, BODY + f"    {text}\n", why) for text, why in IN_BODIES)
    yield from ((CARRIES, EIGHT, f"{text}\n{EIGHT}", why) for text, why in AS_ITEMS)
    yield from (*ELSEWHERE, *OF_PROGRAM)
