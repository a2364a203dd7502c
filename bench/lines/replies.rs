//! What a command answers, as text behind the output.

pub trait Reply {
    fn push_to(self, output: &mut Vec<u8>);
}

impl Reply for () {
    fn push_to(self, output: &mut Vec<u8>) {
        output.extend_from_slice(b"ok");
    }
}

impl Reply for bool {
    fn push_to(self, output: &mut Vec<u8>) {
        output.extend_from_slice(if self { b"true".as_slice() } else { b"false" });
    }
}

impl Reply for usize {
    fn push_to(self, output: &mut Vec<u8>) {
        let mut digits = [0; 20];
        let mut start = digits.len();
        let mut rest = self;
        loop {
            start -= 1;
            digits[start] = b'0' + (rest % 10) as u8;
            rest /= 10;
            if rest == 0 {
                return output.extend_from_slice(&digits[start..]);
            }
        }
    }
}

impl Reply for Option<usize> {
    fn push_to(self, output: &mut Vec<u8>) {
        match self {
            Some(position) => position.push_to(output),
            None => output.extend_from_slice(b"none"),
        }
    }
}

impl Reply for String {
    fn push_to(self, output: &mut Vec<u8>) {
        output.extend_from_slice(self.as_bytes());
    }
}

/// One text for each, with the separator between two of them.
pub fn push_each<R: Reply>(replies: impl Iterator<Item = R>, separator: u8, output: &mut Vec<u8>) {
    for (index, reply) in replies.enumerate() {
        if index > 0 {
            output.push(separator);
        }
        reply.push_to(output);
    }
}
