//! A strict reader of JSON, one byte after the other, and the form that a set has in it.

/// A value. Of a number it says which whole number from 0 to 18446744073709551615 it is, if it is one.
pub enum Value {
    Other,
    Number(Option<u64>),
    List(Vec<Value>),
    Object(Vec<(String, Value)>),
}

/// How deep lists and objects may stand in each other.
const DEEPEST: usize = 127;

/// The value that a text is, with spaces around it, if it is valid.
pub fn read(text: &[u8]) -> Option<Value> {
    let mut reader = Reader { text, at: 0 };
    let found = reader.value(0)?;
    reader.skip_spaces();
    (reader.at == text.len()).then_some(found)
}

struct Reader<'a> {
    text: &'a [u8],
    at: usize,
}

impl Reader<'_> {
    /// The next byte, which stays.
    fn next(&self) -> Option<u8> {
        self.text.get(self.at).copied()
    }

    /// The next byte, which is taken.
    fn taken(&mut self) -> Option<u8> {
        let found = self.next()?;
        self.at += 1;
        Some(found)
    }

    /// Takes the next byte if it is this one, and says whether it was.
    fn takes(&mut self, byte: u8) -> bool {
        let is_next = self.next() == Some(byte);
        self.at += usize::from(is_next);
        is_next
    }

    fn skip_spaces(&mut self) {
        while matches!(self.next(), Some(b' ' | b'\t' | b'\r' | b'\n')) {
            self.at += 1;
        }
    }

    /// A value that stands in as many lists and objects.
    fn value(&mut self, depth: usize) -> Option<Value> {
        self.skip_spaces();
        match self.next()? {
            b'[' if depth < DEEPEST => self.list(depth + 1),
            b'{' if depth < DEEPEST => self.object(depth + 1),
            b'"' => self.string().map(|_| Value::Other),
            b'-' | b'0'..=b'9' => self.number(),
            b't' => self.word("true"),
            b'f' => self.word("false"),
            b'n' => self.word("null"),
            _ => None,
        }
    }

    fn word(&mut self, word: &str) -> Option<Value> {
        let is_there = self.text[self.at..].starts_with(word.as_bytes());
        self.at += word.len();
        is_there.then_some(Value::Other)
    }

    fn list(&mut self, depth: usize) -> Option<Value> {
        let mut items = Vec::new();
        self.at += 1;
        self.skip_spaces();
        if self.takes(b']') {
            return Some(Value::List(items));
        }
        loop {
            items.push(self.value(depth)?);
            self.skip_spaces();
            match self.taken()? {
                b',' => {}
                b']' => return Some(Value::List(items)),
                _ => return None,
            }
        }
    }

    /// Of two members of one name the later one counts.
    fn object(&mut self, depth: usize) -> Option<Value> {
        let mut members: Vec<(String, Value)> = Vec::new();
        self.at += 1;
        self.skip_spaces();
        if self.takes(b'}') {
            return Some(Value::Object(members));
        }
        loop {
            self.skip_spaces();
            let name = self.string()?;
            self.skip_spaces();
            if !self.takes(b':') {
                return None;
            }
            let value = self.value(depth)?;
            members.retain(|it| it.0 != name);
            members.push((name, value));
            self.skip_spaces();
            match self.taken()? {
                b',' => {}
                b'}' => return Some(Value::Object(members)),
                _ => return None,
            }
        }
    }

    fn string(&mut self) -> Option<String> {
        let mut bytes = Vec::new();
        if !self.takes(b'"') {
            return None;
        }
        loop {
            match self.taken()? {
                b'"' => return String::from_utf8(bytes).ok(),
                b'\\' => bytes.extend(self.escaped()?.to_string().bytes()),
                0..=31 => return None,
                byte => bytes.push(byte),
            }
        }
    }

    /// The character that stands behind a backslash.
    fn escaped(&mut self) -> Option<char> {
        let found = match self.taken()? {
            b'b' => '\u{8}',
            b'f' => '\u{c}',
            b'n' => '\n',
            b'r' => '\r',
            b't' => '\t',
            b'u' => return self.unit(),
            byte @ (b'"' | b'\\' | b'/') => char::from(byte),
            _ => return None,
        };
        Some(found)
    }

    /// A character by its number, or by the two halves of a pair.
    fn unit(&mut self) -> Option<char> {
        let first = self.four_digits()?;
        if !(0xd800..0xdc00).contains(&first) {
            return char::from_u32(first);
        }
        if !(self.takes(b'\\') && self.takes(b'u')) {
            return None;
        }
        let second = self.four_digits()?;
        let is_pair = (0xdc00..0xe000).contains(&second);
        is_pair.then(|| char::from_u32(0x10000 + (first - 0xd800) * 0x400 + (second - 0xdc00)))?
    }

    fn four_digits(&mut self) -> Option<u32> {
        let mut value = 0;
        for _ in 0..4 {
            value = value * 16 + char::from(self.taken()?).to_digit(16)?;
        }
        Some(value)
    }

    /// A number. One that is too great for a float is not valid.
    fn number(&mut self) -> Option<Value> {
        let from = self.at;
        let mut is_whole = !self.takes(b'-');
        if !self.takes(b'0') {
            self.digits()?;
        }
        if self.takes(b'.') {
            is_whole = false;
            self.digits()?;
        }
        if self.takes(b'e') || self.takes(b'E') {
            is_whole = false;
            let _ = self.takes(b'+') || self.takes(b'-');
            self.digits()?;
        }
        let text = std::str::from_utf8(&self.text[from..self.at]).ok()?;
        let size: f64 = text.parse().ok()?;
        size.is_finite()
            .then(|| Value::Number(if is_whole { text.parse().ok() } else { None }))
    }

    /// One or more digits.
    fn digits(&mut self) -> Option<()> {
        let from = self.at;
        while matches!(self.next(), Some(b'0'..=b'9')) {
            self.at += 1;
        }
        (self.at > from).then_some(())
    }
}

/// The length and the bytes of a value in the form, or its first fault.
pub fn form(value: &Value) -> Result<(u64, Vec<u8>), String> {
    let (length, data) = match value {
        Value::List(items) => match &items[..] {
            [length, data] => (length, data),
            _ => return Err("J2".into()),
        },
        Value::Object(members) => {
            let named = |name| members.iter().find(|it| it.0 == name).map(|it| &it.1);
            let length = named("length").ok_or("J3")?;
            let data = named("data").ok_or("J4")?;
            if members.len() != 2 {
                return Err("J5".into());
            }
            (length, data)
        }
        _ => return Err("J1".into()),
    };
    let Value::Number(Some(length)) = length else {
        return Err("J6".into());
    };
    let Value::List(items) = data else {
        return Err("J7".into());
    };
    let byte = |(at, it): (usize, &Value)| match it {
        Value::Number(Some(number @ 0..=255)) => Ok(*number as u8),
        _ => Err(format!("J8 {at}")),
    };
    Ok((
        *length,
        items
            .iter()
            .enumerate()
            .map(byte)
            .collect::<Result<_, _>>()?,
    ))
}
