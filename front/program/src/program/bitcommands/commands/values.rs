// Made by front/erase from crates/bitcommands/src/commands/values.rt: change that, and not this.
//! JSON values, written through a formatter that does not allocate. The library's own `Display`
//! promises no text.

use crate::shim::prelude::{String, WriteChar};
use crate::shim::serde_json::{Map, Number, Value};
use core::fmt;

// The value without spaces.
pub(super) fn write_value(value: &Value, f: &mut fmt::Formatter<'_>) -> fmt::Result {
    match value {
        Value::Null => f.write_str("null"),
        Value::Bool(true) => f.write_str("true"),
        Value::Bool(false) => f.write_str("false"),
        Value::Number(number) => write_number(number, f),
        Value::String(text) => write_quoted(text.as_str(), f),
        Value::Array(items) => {
            f.write_str("[")?;
            write_items(items, f)
        }
        Value::Object(members) => {
            f.write_str("{")?;
            write_members(members, f)
        }
    }
}

// The items, a comma between two of them, and the closing bracket.
fn write_items(items: &[Value], f: &mut fmt::Formatter<'_>) -> fmt::Result {
    let mut later = false;
    for item in items {
        write_comma(later, f)?;
        write_value(item, f)?;
        later = true;
    }
    f.write_str("]")
}

// The members, a comma between two of them, and the closing brace.
fn write_members(
    members: &Map<String, Value>,
    f: &mut fmt::Formatter<'_>,
) -> fmt::Result {
    let mut later = false;
    for (key, member) in members.iter() {
        write_key(later, key.as_str(), f)?;
        write_value(member, f)?;
        later = true;
    }
    f.write_str("}")
}

// A comma, if something stands before.
fn write_comma(later: bool, f: &mut fmt::Formatter<'_>) -> fmt::Result {
    if later { f.write_str(",") } else { Ok(()) }
}

// The key of a member and a colon, after a comma if a member stands before.
fn write_key(later: bool, key: &str, f: &mut fmt::Formatter<'_>) -> fmt::Result {
    write_comma(later, f)?;
    write_quoted(key, f)?;
    f.write_str(":")
}

// A whole number in decimal. Of a number with a fraction or an exponent no text is promised.
fn write_number(number: &Number, f: &mut fmt::Formatter<'_>) -> fmt::Result {
    if let Some(natural) = number.as_u64() {
        return write!(f, "{natural}");
    }
    if let Some(whole) = number.as_i64() {
        return write!(f, "{whole}");
    }
    write!(f, "{number}")
}

// The text in quotes, with the escapes that it needs.
fn write_quoted(text: &str, f: &mut fmt::Formatter<'_>) -> fmt::Result {
    f.write_str("\"")?;
    for character in text.chars() {
        write_escaped(character, f)?;
    }
    f.write_str("\"")
}

// A character of a text, or what stands for it in quotes.
fn write_escaped(character: char, f: &mut fmt::Formatter<'_>) -> fmt::Result {
    match character {
        '"' => f.write_str("\\\""),
        '\\' => f.write_str("\\\\"),
        '\u{8}' => f.write_str("\\b"),
        '\t' => f.write_str("\\t"),
        '\n' => f.write_str("\\n"),
        '\u{c}' => f.write_str("\\f"),
        '\r' => f.write_str("\\r"),
        _ if character < ' ' => write!(f, "\\u00{:02x}", character as u32),
        _ => f.write_char(character),
    }
}
