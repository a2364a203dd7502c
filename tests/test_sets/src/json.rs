//! Sets as JSON values: worked values, each fault, every byte, and every length up to 200 there and back by way of text.

use fixedbitset::{FixedBitSet, JsonFault};
use serde_json::Value;
use std::alloc::Global;
use std::process::Abort;
use std::test::Fail;
use test_values::slow::{filled, is_same, multiples};

// The set that a text means.
fn read(alloc: Global, text: &str) -> Result<FixedBitSet, Fail> {
    let value = Value::from_str(alloc, text)?;
    let set = FixedBitSet::from_value(alloc, &value)?;
    Ok(set)
}

// The text means the set of this length and of the positions of the range.
fn assert_reads(
    rt: &impl Abort,
    alloc: Global,
    text: &str,
    length: usize,
    start: usize,
    end: usize,
) -> Result<(), Fail> {
    let value = Value::from_str(alloc, text)?;
    assert_eq!(rt; FixedBitSet::check_value(&value), Ok(length));
    let mut flags = vec![in alloc; false; length]?;
    for position in start..end.min(length) {
        flags[position] = true;
    }
    let set = FixedBitSet::from_value(alloc, &value)?;
    assert!(rt; is_same(&set, &flags), "{text}");
    Ok(())
}

#[test]
fn values_in_the_form(rt: HostRuntime) -> Result<(), Fail> {
    for (text, length, start, end) in [
        ("{\"length\":3,\"data\":[255]}", 3, 0, 3),
        ("[70,[]]", 70, 0, 0),
        ("{\"length\":70,\"data\":[0,0,0,0,0,0,0,0,255]}", 70, 64, 70),
        ("{\"length\":0,\"data\":[255]}", 0, 0, 0),
        ("{\"length\":9,\"data\":[0,255,7,255]}", 9, 8, 9),
    ] {
        assert_reads(&rt, rt.alloc(), text, length, start, end)?;
    }
    Ok(())
}

#[test]
fn an_object_and_a_list_are_one_set(rt: HostRuntime) -> Result<(), Fail> {
    let mut set = FixedBitSet::with_capacity(rt.alloc(), 10)?;
    for position in [2, 3, 6, 8] {
        set.grow_and_insert(position)?;
    }
    let text = set.to_value(rt.alloc())?.to_string(rt.alloc())?;
    assert_eq!(rt;
        text.as_str(),
        "{\"data\":[76,1,0,0,0,0,0,0],\"length\":10}"
    );
    assert!(rt; read(rt.alloc(), text.as_str())? == set);
    assert!(rt; read(rt.alloc(), "[10,[76,1]]")? == set);
    Ok(())
}

#[test]
fn the_first_fault_is_answered(rt: HostRuntime) -> Result<(), Fail> {
    for (text, fault) in [
        ("7", JsonFault::Shape),
        ("null", JsonFault::Shape),
        ("[3]", JsonFault::Count),
        ("[]", JsonFault::Count),
        ("[3,[],0]", JsonFault::Count),
        ("{}", JsonFault::NoLength),
        ("{\"data\":[],\"x\":1}", JsonFault::NoLength),
        ("{\"length\":3}", JsonFault::NoData),
        ("{\"length\":1,\"x\":1}", JsonFault::NoData),
        ("{\"length\":3,\"data\":[],\"x\":0}", JsonFault::Key),
        ("{\"length\":-3,\"data\":[]}", JsonFault::Length),
        ("[true,7]", JsonFault::Length),
        ("[1.0,[]]", JsonFault::Length),
        ("[18446744073709551616,[]]", JsonFault::Length),
        ("{\"length\":3,\"data\":\"A\"}", JsonFault::Data),
        ("{\"length\":1,\"data\":7}", JsonFault::Data),
        ("{\"length\":3,\"data\":[1,256]}", JsonFault::Item(1)),
        ("{\"length\":1,\"data\":[255,300]}", JsonFault::Item(1)),
        ("[1,[1e2,-1]]", JsonFault::Item(0)),
    ] {
        assert_refuses(&rt, rt.alloc(), text, fault)?;
    }
    Ok(())
}

fn assert_refuses(
    rt: &impl Abort,
    alloc: Global,
    text: &str,
    fault: JsonFault,
) -> Result<(), Fail> {
    let value = Value::from_str(alloc, text)?;
    assert_eq!(rt; FixedBitSet::check_value(&value), Err(fault), "{text}");
    let read = FixedBitSet::from_value(alloc, &value).err();
    assert_eq!(rt; read, Some(fault), "{text}");
    Ok(())
}

// No memory holds a set that long.
#[test]
fn the_greatest_length_is_seen(rt: HostRuntime) -> Result<(), Fail> {
    let text = "{\"length\":18446744073709551615,\"data\":[]}";
    let value = Value::from_str(rt.alloc(), text)?;
    assert_eq!(rt; FixedBitSet::check_value(&value), Ok(usize::MAX));
    let read = FixedBitSet::from_value(rt.alloc(), &value).err();
    assert_eq!(rt; read, Some(JsonFault::Memory));
    Ok(())
}

// The byte stands between others, and each of its bits is the position that it should be.
#[test]
fn each_byte_is_eight_positions(rt: HostRuntime) -> Result<(), Fail> {
    for byte in 0..256_usize {
        let text = format!(in rt.alloc(); "[24,[0,{byte},255]]")?;
        let set = read(rt.alloc(), text.as_str())?;
        assert_is_byte(&rt, &set, byte);
    }
    Ok(())
}

fn assert_is_byte(rt: &impl Abort, set: &FixedBitSet, byte: usize) {
    assert_eq!(rt; set.len(), 24);
    for bit in 0..8_usize {
        assert!(rt; !set.contains(bit));
        assert_eq!(rt; set.contains(8 + bit), (byte >> bit) % 2 == 1);
        assert!(rt; set.contains(16 + bit));
    }
}

#[test]
fn each_length_reads_back(rt: HostRuntime) -> Result<(), Fail> {
    for length in 0..201 {
        assert_reads_back(&rt, rt.alloc(), &multiples(rt.alloc(), length, 1)?)?;
        assert_reads_back(&rt, rt.alloc(), &multiples(rt.alloc(), length, 3)?)?;
        assert_reads_back(&rt, rt.alloc(), &multiples(rt.alloc(), length, 7)?)?;
        assert_reads_back(&rt, rt.alloc(), &multiples(rt.alloc(), length, 300)?)?;
    }
    Ok(())
}

#[test]
fn a_million_positions_read_back(rt: HostRuntime) -> Result<(), Fail> {
    let mut flags = Vec::new(rt.alloc());
    flags.resize(1_000_000, false)?;
    for seventh in 0..1_000_000_usize.div_ceil(7) {
        flags[7 * seventh] = true;
    }
    assert_reads_back(&rt, rt.alloc(), &flags)
}

// The set of these flags, written as text, is read back from it.
fn assert_reads_back(rt: &impl Abort, alloc: Global, flags: &[bool]) -> Result<(), Fail> {
    let set = filled(alloc, flags)?;
    let text = set.to_value(alloc)?.to_string(alloc)?;
    let copy = read(alloc, text.as_str())?;
    assert!(rt; is_same(&copy, flags), "length {}", flags.len());
    Ok(())
}
