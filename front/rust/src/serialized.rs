//! `Serialize` and `Deserialize`, in the form that upstream writes: a struct of the length and the bytes of the words.
use crate::FixedBitSet;
use alloc::{collections::TryReserveError, vec::Vec};
use core::fmt::{Formatter, Result as Written};
use serde::de::{Deserialize, Deserializer, Error, MapAccess, SeqAccess, Visitor};
use serde::ser::{Serialize, SerializeStruct, Serializer};

const NAME: &str = "FixedBitset";
const FIELDS: &[&str] = &["length", "data"];

/// Proved: the bytes, for all sets ([contract](crate::contracts#fixedbitsetbitsto_bytes)). The form around them is not.
impl Serialize for FixedBitSet {
    /// The length, and the bytes of the words: eight for each, the lowest first. A format without bytes writes a list.
    fn serialize<S: Serializer>(&self, serializer: S) -> Result<S::Ok, S::Error> {
        let mut form = serializer.serialize_struct(NAME, FIELDS.len())?;
        form.serialize_field(FIELDS[0], &(self.len() as u64))?;
        form.serialize_field(FIELDS[1], &Bytes(self.to_bytes()))?;
        form.end()
    }
}

/// Proved: the positions, for all bytes ([contract](crate::contracts#fixedbitsetbitsmutassign_bytes)). How the form is read is not.
impl<'de> Deserialize<'de> for FixedBitSet {
    /// Reads what upstream's crate and this one write, and a list in place of the struct and of the bytes. Bytes that are
    /// missing are 0, and bits past the length are dropped. Anything else is an error, and so is a length that no memory
    /// holds. Memory is bounded by the bytes that come, but for zeros of the allocator, which are not written. How many
    /// bytes a format asks for is its own: bincode over a reader takes as many as are claimed, up to its `with_limit`.
    fn deserialize<D: Deserializer<'de>>(deserializer: D) -> Result<Self, D::Error> {
        deserializer.deserialize_struct(NAME, FIELDS, Form)
    }
}

/// The set of this length with these bytes.
fn set_of<E: Error>(length: u64, bytes: &Bytes) -> Result<FixedBitSet, E> {
    let length = usize::try_from(length).ok();
    let set = length.and_then(|bits| FixedBitSet::try_from_bytes(bits, &bytes.0).ok());
    set.ok_or_else(|| E::custom("no memory holds a set of this length"))
}

/// Reads the struct.
struct Form;

impl<'de> Visitor<'de> for Form {
    type Value = FixedBitSet;

    fn expecting(&self, formatter: &mut Formatter<'_>) -> Written {
        formatter.write_str("a length and the bytes of a set")
    }

    fn visit_seq<A: SeqAccess<'de>>(self, mut list: A) -> Result<FixedBitSet, A::Error> {
        let length = list.next_element()?;
        let length = length.ok_or_else(|| A::Error::invalid_length(0, &self))?;
        let bytes = list.next_element()?;
        let bytes = bytes.ok_or_else(|| A::Error::invalid_length(1, &self))?;
        set_of(length, &bytes)
    }

    fn visit_map<A: MapAccess<'de>>(self, mut map: A) -> Result<FixedBitSet, A::Error> {
        let (mut length, mut bytes) = (None, None);
        while let Some(field) = map.next_key()? {
            match field {
                Field::Length if length.is_some() => {
                    return Err(A::Error::duplicate_field(FIELDS[0]));
                }
                Field::Data if bytes.is_some() => return Err(A::Error::duplicate_field(FIELDS[1])),
                Field::Length => length = Some(map.next_value()?),
                Field::Data => bytes = Some(map.next_value()?),
            }
        }
        let length = length.ok_or_else(|| A::Error::missing_field(FIELDS[0]))?;
        let bytes = bytes.ok_or_else(|| A::Error::missing_field(FIELDS[1]))?;
        set_of(length, &bytes)
    }
}

/// A name of the struct's fields.
enum Field {
    Length,
    Data,
}

impl<'de> Deserialize<'de> for Field {
    fn deserialize<D: Deserializer<'de>>(deserializer: D) -> Result<Self, D::Error> {
        deserializer.deserialize_identifier(FieldName)
    }
}

struct FieldName;

impl Visitor<'_> for FieldName {
    type Value = Field;

    fn expecting(&self, formatter: &mut Formatter<'_>) -> Written {
        formatter.write_str("`length` or `data`")
    }

    fn visit_str<E: Error>(self, name: &str) -> Result<Field, E> {
        match name {
            "length" => Ok(Field::Length),
            "data" => Ok(Field::Data),
            _ => Err(E::unknown_field(name, FIELDS)),
        }
    }

    fn visit_u64<E: Error>(self, index: u64) -> Result<Field, E> {
        match index {
            0 => Ok(Field::Length),
            1 => Ok(Field::Data),
            _ => Err(E::custom("there are two fields")),
        }
    }
}

/// The bytes of the words of a set.
struct Bytes(Vec<u8>);

impl Serialize for Bytes {
    fn serialize<S: Serializer>(&self, serializer: S) -> Result<S::Ok, S::Error> {
        serializer.serialize_bytes(&self.0)
    }
}

impl<'de> Deserialize<'de> for Bytes {
    fn deserialize<D: Deserializer<'de>>(deserializer: D) -> Result<Self, D::Error> {
        deserializer.deserialize_byte_buf(ByteList)
    }
}

/// The error where memory for bytes that came is refused.
fn refused<E: Error>(_: TryReserveError) -> E {
    E::custom("no memory holds these bytes")
}

struct ByteList;

impl<'de> Visitor<'de> for ByteList {
    type Value = Bytes;

    fn expecting(&self, formatter: &mut Formatter<'_>) -> Written {
        formatter.write_str("bytes, or a list of whole numbers from 0 to 255")
    }

    fn visit_bytes<E: Error>(self, bytes: &[u8]) -> Result<Bytes, E> {
        let mut copy = Vec::new();
        copy.try_reserve_exact(bytes.len()).map_err(refused)?;
        copy.extend_from_slice(bytes);
        Ok(Bytes(copy))
    }

    fn visit_byte_buf<E: Error>(self, bytes: Vec<u8>) -> Result<Bytes, E> {
        Ok(Bytes(bytes))
    }

    fn visit_seq<A: SeqAccess<'de>>(self, mut list: A) -> Result<Bytes, A::Error> {
        let mut bytes = Vec::new(); // (a hint of its length is only claimed)
        while let Some(byte) = list.next_element()? {
            bytes.try_reserve(1).map_err(refused)?;
            bytes.push(byte);
        }
        Ok(Bytes(bytes))
    }
}
