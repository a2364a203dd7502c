use super::{fault_of, lack_of};

/// Lines of which each lacks something, and what is said of it.
#[test]
fn what_a_line_lacks_is_said() {
    let insert = "for the form is `insert k p`";
    let range = "which stands for `r` of `count_ones k r`";
    let no_range = "is no range, as `..`, `5..`, `..9`, `5..9` and `5..=9` are";
    for (line, wanted) in [
        ("", "it is empty".into()),
        ("inser 0 3", "there is no command `inser`, and the nearest is `insert`".into()),
        ("INSERT 0 3", "there is no command `INSERT`, and the nearest is `insert`".into()),
        ("insert", format!("`k` is missing, {insert}")),
        ("insert 0", format!("`p` is missing, {insert}")),
        ("insert 0 3 4", format!("`4` is one argument too many, {insert}")),
        ("insert  0 3", "two spaces stand behind `insert`, and there has to be one".into()),
        ("insert 0  3", "two spaces stand behind `insert 0`, and there has to be one".into()),
        ("insert 0 3 ", "a space stands at its end".into()),
        (" insert 0 3", "a space stands before the command".into()),
        ("insert 0 3\r", "a carriage return stands in it".into()),
        ("insert\t0 3", "a tab stands in it, and there has to be one space".into()),
        ("insert 0 +3", "`+3`, which stands for `p` of `insert k p`, is no number of decimal digits".into()),
        ("insert 0 \u{663}", "`\u{663}`, which stands for `p` of `insert k p`, is no number of decimal digits".into()),
        ("len -1", "`-1`, which stands for `k` of `len k`, is no number of decimal digits".into()),
        ("set 0 3 yes", "`yes`, which stands for `e` of `set k p e`, is neither `true` nor `false`".into()),
        ("count_ones 0 5-9", format!("`5-9`, {range}, {no_range}")),
        ("count_ones 0 ..=", format!("`..=`, {range}, {no_range}")),
        ("count_ones 0 5..=", format!("`5..=`, {range}, {no_range}")),
        ("count_ones 0 x..9", format!("`x..9`, {range}, has `x`, which is no number of decimal digits")),
        ("count_ones 0 1..=2..3", format!("`1..=2..3`, {range}, has `2..3`, which is no number of decimal digits")),
        ("count_ones 0 5...9", format!("`5...9`, {range}, has `.9`, which is no number of decimal digits")),
        ("ones 0 fxb", "`fxb`, which stands for `ends` of `ones k ends`, has a letter that is neither `f` nor `b`".into()),
        ("extend 0 1 x 2", "`x`, which stands for `i*` of `extend k i*`, is no number of decimal digits".into()),
        ("with_capacity_and_blocks 0", "`bits` is missing, for the form is `with_capacity_and_blocks d bits w*`".into()),
        ("from_value 1", "`JSON` is missing, for the form is `from_value d JSON`".into()),
        ("from_value  1 []", "two spaces stand behind `from_value`, and there has to be one".into()),
        ("from_value x []", "`x`, which stands for `d` of `from_value d JSON`, is no number of decimal digits".into()),
    ] {
        assert_eq!(lack_of(line.as_bytes()), wanted, "{line}");
    }
    assert_eq!(lack_of(b"insert 0 \xff"), "it is not UTF-8 from byte 10 on");
}

#[test]
fn numbers_have_a_greatest() {
    let greatest = u64::MAX;
    let zeros = "0".repeat(99);
    for line in [
        format!("insert 0 {greatest}"),
        format!("insert 0 {zeros}{greatest}"),
        format!("len {zeros}"),
    ] {
        assert!(fault_of(line.as_bytes()).is_none(), "{line}");
    }
    let above = u128::from(greatest) + 1;
    let wanted = format!("`{above}`, which stands for `p` of `insert k p`, is above {greatest}");
    assert_eq!(lack_of(format!("insert 0 {above}").as_bytes()), wanted);
    let wanted = format!("`..={above}`, which stands for `r` of `count_ones k r`, has `{above}`, which is above {greatest}");
    assert_eq!(
        lack_of(format!("count_ones 0 ..={above}").as_bytes()),
        wanted
    );
}

/// Of JSON it says what `serde_json` says, which the program asks too.
#[test]
fn json_is_not_valid() {
    let deep = |levels: usize| format!("{}{}", "[".repeat(levels), "]".repeat(levels));
    for text in [
        r#"{"length":10,"data":[76,1}"#,
        "NaN",
        "[1] 2",
        "1e999",
        "[",
        &deep(128),
        "",
    ] {
        let fault = serde_json::from_str::<serde_json::Value>(text)
            .unwrap_err()
            .to_string();
        let told = lack_of(format!("from_value 1  {text}").as_bytes());
        let text_shown = format!(" {text}").chars().take(40).collect::<String>();
        assert!(told.starts_with(&format!("`{text_shown}")), "{told}");
        let parts = fault
            .rsplit_once(" at line ")
            .map_or(fault.as_str(), |it| it.0);
        let wanted =
            format!(", which stands for `JSON` of `from_value d JSON`, is not valid JSON: {parts}");
        assert!(told.contains(&wanted), "{told}");
    }
    for text in ["[]", " [ 1,\t2 ]\r", "\"\u{e9}  x\"", &deep(127)] {
        assert!(
            fault_of(format!("from_value 1 {text}").as_bytes()).is_none(),
            "{text}"
        );
    }
}

/// A word of any length and with any characters is shown on one line.
#[test]
fn words_are_shown_on_a_line() {
    let long = "x".repeat(1_000_000);
    let told = format!(
        "there is no command `{}..`, and the nearest is `text`",
        "x".repeat(40)
    );
    let start = |told: &str| told.split(", and the nearest").next().map(str::to_owned);
    assert_eq!(start(&lack_of(long.as_bytes())), start(&told));
    let told = lack_of("a\u{1b}[31m\u{200b}\u{2028}\"'\\ 1".as_bytes());
    assert_eq!(
        start(&told).unwrap(),
        r#"there is no command `a\u{1b}[31m\u{200b}\u{2028}"'\`"#
    );
}

/// The lines of all examples in docs/COMMANDS.md.
fn examples() -> Vec<String> {
    let page = include_str!("../../../../docs/COMMANDS.md");
    let tables = page.split("\n| Sets before | Line |").skip(1);
    let rows = tables.flat_map(|it| it.lines().skip(2).take_while(|row| row.starts_with('|')));
    let lines = rows.map(|row| row.split("| ").nth(2).unwrap_or_default());
    lines
        .map(|it| it.trim().trim_matches('`').to_owned())
        .collect()
}

/// A line has a fault exactly where the program answers that it is no command: each line of the examples, and each with one of
/// these bytes put in, or in the place of another, or with one byte less.
#[test]
fn lines_with_a_fault_are_no_commands() {
    let mut lines: Vec<Vec<u8>> = Vec::new();
    for line in examples().iter().map(String::as_bytes) {
        assert!(fault_of(line).is_none(), "{line:?}");
        for at in 0..=line.len() {
            let (before, behind) = line.split_at(at);
            let rest = behind.get(1..).unwrap_or_default();
            lines.extend([[before, rest].concat(), line.to_vec()]);
            for byte in *b" \t\r09.=fbx+-_,]}\"\0\x7f\xc3\xff" {
                lines.extend([
                    [before, &[byte], behind].concat(),
                    [before, &[byte], rest].concat(),
                ]);
            }
        }
    }
    let mut replies = Vec::new();
    assert_eq!(
        bits::run(&mut lines.join(&b'\n').as_slice(), &mut replies),
        0
    );
    let replies: Vec<&[u8]> = replies.split(|it| *it == b'\n').collect();
    assert_eq!(replies.len(), lines.len() + 1);
    assert!(lines.len() > 50_000, "{}", lines.len());
    for (line, reply) in lines.iter().zip(replies) {
        let line_shown = String::from_utf8_lossy(line);
        assert_eq!(
            fault_of(line).is_some(),
            reply == b"F8 not a command",
            "{line_shown}"
        );
    }
}
