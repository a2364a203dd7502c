//! The texts of replies.

use bitcommands::commands::{Refusal, Reply};
use fixedbitset::{FixedBitSet, JsonFault};
use std::alloc::{AllocError, Global};
use std::cmp::Ordering;
use std::process::Abort;
use std::test::Fail;

// What `Display` prints of a reply, and what is put behind an output.
fn assert_text(
    rt: &impl Abort,
    alloc: Global,
    reply: &Reply,
    text: &str,
) -> Result<(), AllocError> {
    let mut output = Vec::new(alloc);
    output.push(b'>')?;
    reply.push_text(&mut output)?;
    let printed = format!(in alloc; ">{reply}")?;
    assert_eq!(rt; printed.as_bytes(), output.as_slice());
    let bytes = output.as_slice();
    assert!(rt; !bytes.is_empty());
    assert_eq!(rt; &bytes[1..], text.as_bytes());
    Ok(())
}

#[test]
fn a_number_prints_one_text_both_ways(rt: HostRuntime) -> Result<(), Fail> {
    for (number, text) in [
        (0, "0"),
        (9, "9"),
        (10, "10"),
        (1_000_000, "1000000"),
        (9_999_999_999_999_999_999, "9999999999999999999"),
        (10_000_000_000_000_000_000, "10000000000000000000"),
        (18_446_744_073_709_551_615, "18446744073709551615"),
    ] {
        assert_text(&rt, rt.alloc(), &Reply::Number(number), text)?;
    }
    Ok(())
}

#[test]
fn a_reply_prints_one_text_both_ways(rt: HostRuntime) -> Result<(), Fail> {
    for (reply, text) in [
        (Reply::Done, "ok"),
        (Reply::Bool(true), "true"),
        (Reply::Bool(false), "false"),
        (Reply::Position(Some(70)), "70"),
        (Reply::Position(None), "none"),
        (Reply::Refused(Refusal::Greatest), "F4 position too great"),
        (Reply::Refused(Refusal::Limit), "F7 length above the limit"),
        (Reply::Order(Ordering::Less), "less"),
        (Reply::Order(Ordering::Equal), "equal"),
        (Reply::Order(Ordering::Greater), "greater"),
    ] {
        assert_text(&rt, rt.alloc(), &reply, text)?;
    }
    Ok(())
}

#[test]
fn items_print_one_text_both_ways(rt: HostRuntime) -> Result<(), Fail> {
    let alloc = rt.alloc();
    let items = vec![in alloc; None; 1]?;
    assert_text(&rt, alloc, &Reply::Items(items), "none")?;
    let mut items = vec![in alloc; Some(70); 2]?;
    items.push(None)?;
    assert_text(&rt, alloc, &Reply::Items(items), "70 70 none")?;
    assert_text(&rt, alloc, &Reply::Items(Vec::new(alloc)), "")?;
    Ok(())
}

#[test]
fn words_print_one_text_both_ways(rt: HostRuntime) -> Result<(), Fail> {
    let alloc = rt.alloc();
    let mut words = vec![in alloc; 0; 2]?;
    words.push(u64::MAX)?;
    assert_text(&rt, alloc, &Reply::Words(words), "0 0 18446744073709551615")?;
    assert_text(&rt, alloc, &Reply::Words(Vec::new(alloc)), "-")?;
    Ok(())
}

#[test]
fn faults_of_json_print_one_text_both_ways(rt: HostRuntime) -> Result<(), Fail> {
    for (fault, text) in [
        (JsonFault::Shape, "F5 J1"),
        (JsonFault::Count, "F5 J2"),
        (JsonFault::NoLength, "F5 J3"),
        (JsonFault::NoData, "F5 J4"),
        (JsonFault::Key, "F5 J5"),
        (JsonFault::Length, "F5 J6"),
        (JsonFault::Data, "F5 J7"),
        (JsonFault::Item(0), "F5 J8 0"),
        (JsonFault::Item(1_000_000), "F5 J8 1000000"),
    ] {
        let reply = Reply::Refused(Refusal::Json(fault));
        assert_text(&rt, rt.alloc(), &reply, text)?;
    }
    Ok(())
}

#[test]
fn texts_and_values_print_one_text_both_ways(rt: HostRuntime) -> Result<(), Fail> {
    let alloc = rt.alloc();
    let mut set = FixedBitSet::with_capacity(alloc, 10)?;
    assert!(rt; set.range_is_valid(&(2..4)));
    set.insert_range(2..4);
    let text = Reply::Text(set.to_string(alloc)?);
    assert_text(&rt, alloc, &text, "0011000000")?;
    let value = Reply::Value(set.to_value(alloc)?);
    assert_text(
        &rt,
        alloc,
        &value,
        r#"{"data":[12,0,0,0,0,0,0,0],"length":10}"#,
    )?;
    Ok(())
}

#[test]
fn numbers_of_json_print_one_text_both_ways(rt: HostRuntime) -> Result<(), Fail> {
    for (reply, text) in [
        (Reply::Value(().into()), "null"),
        (Reply::Value(true.into()), "true"),
        (Reply::Value(u64::MAX.into()), "18446744073709551615"),
        (Reply::Value(i64::MIN.into()), "-9223372036854775808"),
        (Reply::Value(1.5.into()), "1.5"),
        (Reply::Value(1e300.into()), "1e+300"),
    ] {
        assert_text(&rt, rt.alloc(), &reply, text)?;
    }
    Ok(())
}

#[test]
fn texts_of_json_are_quoted_both_ways(rt: HostRuntime) -> Result<(), Fail> {
    let alloc = rt.alloc();
    let text = String::from_str(alloc, "\"a\\/\u{8}\t\n\u{c}\r\0\u{1f}\u{7f}é€😀")?;
    let quoted = r#""\"a\\/\b\t\n\f\r\u0000\u001f"#;
    let wanted = format!(in alloc; "{quoted}\u{7f}é€😀\"")?;
    assert_text(&rt, alloc, &Reply::Value(text.into()), wanted.as_str())?;
    Ok(())
}

#[test]
fn lists_of_json_have_commas_both_ways(rt: HostRuntime) -> Result<(), Fail> {
    let alloc = rt.alloc();
    let mut items = Vec::new(alloc);
    items.push(1.into())?;
    items.push(Vec::new(alloc).into())?;
    items.push((-2).into())?;
    assert_text(&rt, alloc, &Reply::Value(items.into()), "[1,[],-2]")?;
    Ok(())
}
