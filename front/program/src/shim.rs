//! What Rattle's `std` and `serde_json` have and Rust's have not, beside the shim of the crate.

#[path = "../../rust/src/shim.rs"]
#[allow(dead_code, unused_imports)]
mod of_sets;

pub use of_sets::*;

/// What `use std::simd::prelude::*` names.
pub mod simd {
    pub mod prelude {
        pub use super::super::{u64x4, u8x32};
    }
}

/// Thirty-two bytes, as four words, the first byte lowest.
#[allow(non_camel_case_types)]
#[derive(Clone, Copy)]
pub struct u8x32([u64; 4]);

/// Which of thirty-two bytes are alike: in the highest bit of each.
#[derive(Clone, Copy)]
pub struct Alike([u64; 4]);

/// Eight times a byte of 1.
const ONES: u64 = u64::MAX / 255;

impl u8x32 {
    /// Thirty-two times this byte.
    #[inline(always)]
    pub fn splat(byte: u8) -> Self {
        u8x32([ONES * u64::from(byte); 4])
    }

    /// The first thirty-two bytes of a row, which has to have as many.
    #[inline(always)]
    pub fn from_slice(bytes: &[u8]) -> Self {
        let word = |at: usize| u64::from_le_bytes(core::array::from_fn(|byte| bytes[at + byte]));
        u8x32([word(0), word(8), word(16), word(24)])
    }

    /// Which bytes are the same as those of `other`.
    #[inline(always)]
    pub fn simd_eq(self, other: Self) -> Alike {
        let ([a, b, c, d], [e, f, g, h]) = (self.0, other.0);
        let zeros = |x: u64| !(((x & (ONES * 127)) + ONES * 127) | x | (ONES * 127));
        Alike([zeros(a ^ e), zeros(b ^ f), zeros(c ^ g), zeros(d ^ h)])
    }
}

impl Alike {
    /// One bit for each byte, that of the first byte lowest.
    #[inline(always)]
    pub fn to_bitmask(self) -> u64 {
        let byte = |x: u64| ((x >> 7).wrapping_mul(0x0102_0408_1020_4080)) >> 56;
        let [a, b, c, d] = self.0;
        byte(a) | byte(b) << 8 | byte(c) << 16 | byte(d) << 24
    }
}

/// What is used of the crate of that name.
pub mod serde_json {
    pub use ::serde_json::{Map, Number, Value};

    /// `json!(in alloc; {"key": value, ..})`. `serde_json` ends the program where memory is refused.
    macro_rules! json {
        (in $alloc:expr; { $($key:literal: $value:expr),* }) => {{
            let _: crate::shim::alloc::Global = $alloc;
            let mut map = ::serde_json::Map::new();
            $(map.insert($key.into(), ::serde_json::Value::from($value));)*
            Ok(::serde_json::Value::Object(map))
        }};
    }
    pub(crate) use json;
}

impl<'a, T> IntoIterator for &'a row::Vec<T> {
    type Item = &'a T;
    type IntoIter = core::slice::Iter<'a, T>;

    #[inline]
    fn into_iter(self) -> core::slice::Iter<'a, T> {
        self.0.iter()
    }
}

/// What Rattle's prelude has and Rust's has not.
pub mod prelude {
    use super::alloc::{AllocError, Global};
    pub use super::of_sets::prelude::{Clone, Vec};
    use ::serde_json::{Error, Value};
    use core::fmt;
    pub use core::fmt::Write as WriteChar;
    pub use std::string::String;

    /// The bytes as an array, where they are so many. (A later Rust has this call itself.)
    #[allow(dead_code)]
    pub trait AsArray {
        fn as_array<const N: usize>(&self) -> Option<&[u8; N]>;
    }
    impl AsArray for [u8] {
        #[inline(always)]
        fn as_array<const N: usize>(&self) -> Option<&[u8; N]> {
            self.try_into().ok()
        }
    }

    /// A text that is put together, and says where memory is refused.
    struct Text(String);

    impl fmt::Write for Text {
        #[inline]
        fn write_str(&mut self, text: &str) -> fmt::Result {
            self.0.try_reserve(text.len()).map_err(|_| fmt::Error)?;
            self.0.push_str(text);
            Ok(())
        }
    }

    /// The text of a value.
    pub trait WriteText {
        fn to_string(&self, alloc: Global) -> Result<String, AllocError>;
    }
    impl<T: fmt::Display> WriteText for T {
        fn to_string(&self, _: Global) -> Result<String, AllocError> {
            let mut text = Text(String::new());
            fmt::Write::write_fmt(&mut text, format_args!("{self}")).map_err(|_| AllocError)?;
            Ok(text.0)
        }
    }

    /// The value of a JSON text. `serde_json` ends the program where memory is refused.
    pub trait ReadJson: Sized {
        fn from_slice(alloc: Global, text: &[u8]) -> Result<Self, Error>;
    }
    impl ReadJson for Value {
        fn from_slice(_: Global, text: &[u8]) -> Result<Value, Error> {
            ::serde_json::from_slice(text)
        }
    }

    /// The JSON text of a value, without spaces.
    pub trait WriteJson {
        fn to_vec(&self, alloc: Global) -> Result<Vec<u8>, AllocError>;
    }
    impl WriteJson for Value {
        fn to_vec(&self, alloc: Global) -> Result<Vec<u8>, AllocError> {
            let mut bytes = Vec::new(alloc);
            ::serde_json::to_writer(&mut bytes, self).map_err(|_| AllocError)?;
            Ok(bytes)
        }
    }

    impl std::io::Write for Vec<u8> {
        #[inline]
        fn write(&mut self, bytes: &[u8]) -> std::io::Result<usize> {
            self.extend_from_slice(bytes)
                .map_err(|_| std::io::ErrorKind::OutOfMemory)?;
            Ok(bytes.len())
        }

        fn flush(&mut self) -> std::io::Result<()> {
            Ok(())
        }
    }

    impl From<Vec<Value>> for Value {
        fn from(items: Vec<Value>) -> Value {
            Value::Array(items.0)
        }
    }

    /// Why a JSON text was not read.
    pub trait JsonError {
        fn is_memory(&self) -> bool;
    }
    impl JsonError for Error {
        /// Never: where memory is refused, `serde_json` ends the program.
        fn is_memory(&self) -> bool {
            false
        }
    }
}
