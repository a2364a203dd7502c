//! What has to hold of every input: as many replies as lines, each of a form that docs/COMMANDS.md has, and those of the model.
use super::{json, lines_of, output_of};

/// What is wrong with the program's output for an input, if anything is.
pub fn fault(input: &[u8]) -> Option<String> {
    let mut output = Vec::new();
    let status = bits::run(&mut &input[..], &mut output);
    let (lines, replies) = (lines_of(input), lines_of(&output));
    if status != 0 {
        return Some(format!("the status is {status}"));
    }
    if lines.len() != replies.len() || !(output.is_empty() || output.ends_with(b"\n")) {
        return Some(format!(
            "{} lines have {} replies",
            lines.len(),
            replies.len()
        ));
    }
    let is_one = |it: &&[u8]| std::str::from_utf8(it).is_ok_and(is_reply);
    if let Some(at) = replies.iter().position(|it| !is_one(it)) {
        let (line, reply) = (shown(lines[at]), shown(replies[at]));
        return Some(format!("'{line}' answers '{reply}', which no reply is"));
    }
    let wanted = output_of(input);
    let wanted = lines_of(&wanted);
    let at = (0..lines.len()).find(|it| wanted[*it] != replies[*it])?;
    let (line, reply, wanted) = (shown(lines[at]), shown(replies[at]), shown(wanted[at]));
    Some(format!(
        "line {at}, '{line}', answers '{reply}', and by the model '{wanted}'"
    ))
}

/// The begin of a text.
fn shown(text: &[u8]) -> String {
    text[..text.len().min(300)].escape_ascii().to_string()
}

/// Whether a text has the form of a reply.
fn is_reply(text: &str) -> bool {
    let is_number = |it: &str| {
        it.parse::<u64>()
            .is_ok_and(|number| number.to_string() == it)
    };
    let refusals = [
        "F1 no such set",
        "F2 position not below the length",
        "F3 range not valid",
        "F4 position too great",
        "F7 length above the limit",
        "F8 not a command",
    ];
    let words = ["ok", "true", "false", "-", "less", "equal", "greater"];
    words.contains(&text)
        || refusals.contains(&text)
        || text.strip_prefix("F5 J8 ").is_some_and(is_number)
        || text
            .strip_prefix("F5 J")
            .is_some_and(|it| matches!(it, "1" | "2" | "3" | "4" | "5" | "6" | "7"))
        || text.bytes().all(|it| it == b'0' || it == b'1')
        || text.split(' ').all(|it| it == "none" || is_number(it))
        || is_saved(text)
}

/// Whether a text is a set's JSON form as it is written: eight bytes for each word, without spaces.
fn is_saved(text: &str) -> bool {
    let form = json::read(text.as_bytes()).and_then(|it| json::form(&it).ok());
    form.is_some_and(|(length, bytes)| {
        let listed = bytes
            .iter()
            .map(u8::to_string)
            .collect::<Vec<_>>()
            .join(",");
        bytes.len() as u64 == length.div_ceil(64) * 8
            && text == format!("{{\"data\":[{listed}],\"length\":{length}}}")
    })
}
