//! The JSON form of a set, read by hand from a text: an object with a length and a list of bytes.

use fixedbitset::FixedBitSet;

/// What is left of a text.
struct Text<'a> {
    rest: &'a [u8],
}

/// The length and the bytes that the text writes.
pub fn read(text: &[u8]) -> Option<(usize, Vec<u8>)> {
    let mut text = Text { rest: text };
    let (mut length, mut data) = (None, None);
    text.take(b'{')?;
    loop {
        match text.key()? {
            b"length" if length.is_none() => length = Some(text.number()?),
            b"data" if data.is_none() => data = Some(text.bytes()?),
            _ => return None,
        }
        if text.ends(b'}')? {
            break;
        }
    }
    text.space();
    text.rest.is_empty().then_some((length?, data?))
}

/// The set that they mean: bytes that are missing count as 0, and bits past the length are dropped.
pub fn set_of(length: usize, data: &[u8]) -> FixedBitSet {
    let words = data.chunks(8).map(|bytes| {
        let mut word = [0; 8];
        word[..bytes.len()].copy_from_slice(bytes);
        usize::from_le_bytes(word)
    });
    FixedBitSet::with_capacity_and_blocks(length, words)
}

impl<'a> Text<'a> {
    fn space(&mut self) {
        while let Some((b' ' | b'\t' | b'\r' | b'\n', rest)) = self.rest.split_first() {
            self.rest = rest;
        }
    }

    fn take(&mut self, byte: u8) -> Option<()> {
        self.space();
        self.rest = self.rest.strip_prefix(&[byte])?;
        Some(())
    }

    /// Whether this byte stands next. If not, a comma does.
    fn ends(&mut self, byte: u8) -> Option<bool> {
        match self.take(byte) {
            Some(()) => Some(true),
            None => self.take(b',').map(|()| false),
        }
    }

    /// A key, and the colon behind it.
    fn key(&mut self) -> Option<&'a [u8]> {
        self.take(b'"')?;
        let end = self.rest.iter().position(|byte| *byte == b'"')?;
        let (key, rest) = self.rest.split_at(end);
        self.rest = &rest[1..];
        self.take(b':')?;
        Some(key)
    }

    /// A whole number with no zero in front.
    fn number(&mut self) -> Option<usize> {
        self.space();
        let (mut value, mut count) = (0_usize, 0);
        while let Some(digit) = self
            .rest
            .get(count)
            .map(|byte| byte.wrapping_sub(b'0'))
            .filter(|digit| *digit <= 9)
        {
            value = value.checked_mul(10)?.checked_add(usize::from(digit))?;
            count += 1;
        }
        if count == 0 || (count > 1 && self.rest[0] == b'0') {
            return None;
        }
        self.rest = &self.rest[count..];
        Some(value)
    }

    fn bytes(&mut self) -> Option<Vec<u8>> {
        let mut bytes = Vec::new();
        self.take(b'[')?;
        if self.take(b']').is_some() {
            return Some(bytes);
        }
        loop {
            bytes.push(u8::try_from(self.number()?).ok()?);
            if self.ends(b']')? {
                return Some(bytes);
            }
        }
    }
}
