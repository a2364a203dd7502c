//! Sets as JSON, there and back, and texts that are none.
use fixedbitset::FixedBitSet;
use serde_json::{from_str, from_value, json, to_string, to_value};

#[test]
fn a_set_is_written_as_upstream_writes_it() {
    let set: FixedBitSet = [0, 9, 65].into_iter().collect();
    let text = r#"{"length":66,"data":[1,2,0,0,0,0,0,0,2,0,0,0,0,0,0,0]}"#;
    assert_eq!(to_string(&set).unwrap(), text);
    assert_eq!(
        to_string(&FixedBitSet::new()).unwrap(),
        r#"{"length":0,"data":[]}"#
    );
}

#[test]
fn what_is_written_is_read_back() {
    for length in 0..300 {
        for step in [1, 2, 3, 64, 1000] {
            let mut set = FixedBitSet::with_capacity(length);
            set.extend((0..length).step_by(step));
            assert_eq!(
                from_str::<FixedBitSet>(&to_string(&set).unwrap()).unwrap(),
                set
            );
            assert_eq!(
                from_value::<FixedBitSet>(to_value(&set).unwrap()).unwrap(),
                set
            );
        }
    }
}

#[test]
fn lists_and_other_orders_are_read() {
    let set: FixedBitSet = [0, 9].into_iter().collect();
    for text in [
        "[10, [1, 2]]",
        r#"{"data": [1, 2], "length": 10}"#,
        r#"{"length": 10, "data": [1, 254, 255, 255, 1, 1, 1, 1, 1, 7]}"#,
    ] {
        assert_eq!(from_str::<FixedBitSet>(text).unwrap(), set);
    }
    let missing: FixedBitSet = from_str(r#"{"length": 200, "data": []}"#).unwrap();
    assert_eq!(missing, FixedBitSet::with_capacity(200));
}

#[test]
fn damaged_texts_are_errors() {
    for text in [
        "",
        "{}",
        "[]",
        "[10]",
        "[10, [1], 3]",
        "10",
        "null",
        r#"{"length": 10}"#,
        r#"{"data": []}"#,
        r#"{"length": 10, "length": 10, "data": []}"#,
        r#"{"length": 10, "data": [], "data": []}"#,
        r#"{"length": 10, "data": [], "more": 1}"#,
        r#"{"length": -1, "data": []}"#,
        r#"{"length": 1.5, "data": []}"#,
        r#"{"length": "10", "data": []}"#,
        r#"{"length": 10, "data": 3}"#,
        r#"{"length": 10, "data": [256]}"#,
        r#"{"length": 10, "data": [-1]}"#,
        r#"{"length": 10, "data": [1.0]}"#,
        r#"{"length": 10, "data": ["1"]}"#,
        r#"{"length": 10, "data": [1"#,
        r#"{"length": 18446744073709551615, "data": []}"#,
        r#"{"length": 18446744073709551616, "data": []}"#,
        r#"{"length": 9223372036854775807, "data": [1]}"#,
    ] {
        assert!(from_str::<FixedBitSet>(text).is_err(), "{text}");
    }
    assert!(from_value::<FixedBitSet>(json!({"length": 10, "data": null})).is_err());
}

#[test]
fn an_error_names_the_field() {
    for (text, error) in [
        (r#"{"data": []}"#, "missing field `length`"),
        (r#"{"length": 10}"#, "missing field `data`"),
        (r#"{"length": 1, "length": 1}"#, "duplicate field `length`"),
        (r#"{"data": [], "data": []}"#, "duplicate field `data`"),
        ("[]", "invalid length 0, expected a length"),
        ("[10]", "invalid length 1, expected a length"),
    ] {
        let found = from_str::<FixedBitSet>(text).unwrap_err().to_string();
        assert!(found.starts_with(error), "{found}");
    }
}

#[test]
fn each_text_of_one_byte_changed_is_read_or_an_error() {
    let text = r#"{"length":66,"data":[1,2,0,255]}"#.as_bytes();
    for place in 0..text.len() {
        for byte in 0..=127 {
            let mut changed = text.to_vec();
            changed[place] = byte;
            let changed = String::from_utf8(changed).unwrap();
            if let Ok(set) = from_str::<FixedBitSet>(&changed) {
                assert!(set.ones().all(|bit| bit < set.len()), "{changed}");
            }
        }
    }
}
