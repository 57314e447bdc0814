//! Texts whose growth may fail, texts of a limited size, and digits.

use core::fmt;
use core::ops::Deref;

use super::{AllocError, Global};

/// What is text.
pub trait AsStr {
    fn as_str(&self) -> &str;
}

impl AsStr for &str {
    fn as_str(&self) -> &str {
        self
    }
}

impl AsStr for String {
    fn as_str(&self) -> &str {
        &self.0
    }
}

/// A text.
#[derive(Clone, Debug, PartialEq, Eq, PartialOrd, Ord, Hash)]
pub struct String(pub(super) alloc::string::String);

impl String {
    pub fn new(_: Global) -> Self {
        String(alloc::string::String::new())
    }

    pub fn with_capacity(alloc: Global, most: usize) -> Result<Self, AllocError> {
        let mut made = String::new(alloc);
        made.0.try_reserve_exact(most).map_err(|_| AllocError)?;
        Ok(made)
    }

    pub fn from_str(alloc: Global, text: &str) -> Result<Self, AllocError> {
        let mut made = String::new(alloc);
        made.push_str(text)?;
        Ok(made)
    }

    pub fn format(alloc: Global, text: fmt::Arguments<'_>) -> Result<Self, AllocError> {
        let mut made = String::new(alloc);
        made.write_fmt(text)?;
        Ok(made)
    }

    pub fn push_str(&mut self, text: &str) -> Result<(), AllocError> {
        self.0.try_reserve(text.len()).map_err(|_| AllocError)?;
        self.0.push_str(text);
        Ok(())
    }

    pub fn push(&mut self, scalar: char) -> Result<(), AllocError> {
        self.push_str(scalar.encode_utf8(&mut [0; 4]))
    }

    pub fn clear(&mut self) {
        self.0.clear();
    }

    pub fn as_str(&self) -> &str {
        &self.0
    }

    pub fn write_fmt(&mut self, text: fmt::Arguments<'_>) -> Result<(), AllocError> {
        struct Growing<'a>(&'a mut String);

        impl fmt::Write for Growing<'_> {
            fn write_str(&mut self, text: &str) -> fmt::Result {
                self.0.push_str(text).map_err(|_| fmt::Error)
            }
        }

        fmt::Write::write_fmt(&mut Growing(self), text).map_err(|_| AllocError)
    }
}

impl Deref for String {
    type Target = str;

    fn deref(&self) -> &str {
        &self.0
    }
}

impl fmt::Display for String {
    fn fmt(&self, f: &mut fmt::Formatter<'_>) -> fmt::Result {
        self.0.fmt(f)
    }
}

/// A text with other parts.
pub trait ReplaceIn {
    fn replace_in(&self, alloc: Global, from: &str, to: &str) -> Result<String, AllocError>;
}

impl ReplaceIn for str {
    fn replace_in(&self, alloc: Global, from: &str, to: &str) -> Result<String, AllocError> {
        let mut made = String::new(alloc);
        for (number, part) in self.split(from).enumerate() {
            made.push_str(if number > 0 { to } else { "" })?;
            made.push_str(part)?;
        }
        Ok(made)
    }
}

/// A text of at most so many bytes.
#[derive(Clone, Copy)]
pub struct ArrayString<const MOST: usize> {
    bytes: [u8; MOST],
    len: usize,
}

impl<const MOST: usize> ArrayString<MOST> {
    pub fn new() -> Self {
        ArrayString {
            bytes: [0; MOST],
            len: 0,
        }
    }

    pub fn as_str(&self) -> &str {
        self
    }

    pub fn push_str(&mut self, text: &str) {
        self.bytes[self.len..self.len + text.len()].copy_from_slice(text.as_bytes());
        self.len += text.len();
    }
}

impl<const MOST: usize> Deref for ArrayString<MOST> {
    type Target = str;

    fn deref(&self) -> &str {
        core::str::from_utf8(&self.bytes[..self.len]).expect("only texts were pushed")
    }
}

/// Writes the digits of a number before an index, and returns where they begin.
pub fn write_digits(number: u64, room: &mut [u8], end: usize) -> usize {
    let (mut at, mut rest) = (end, number);
    loop {
        at -= 1;
        room[at] = b'0' + (rest % 10) as u8;
        rest /= 10;
        if rest == 0 {
            return at;
        }
    }
}

/// Room for the digits of a number.
pub struct Buffer([u8; 20]);

impl Buffer {
    pub fn new() -> Self {
        Buffer([0; 20])
    }

    pub fn format(&mut self, number: impl Into<u64>) -> &str {
        let at = write_digits(number.into(), &mut self.0, 20);
        core::str::from_utf8(&self.0[at..]).expect("digits are text")
    }
}

/// The nearest number.
pub fn nearest_u64_to_f64(number: u64) -> f64 {
    number as f64
}

pub mod simdutf8 {
    pub mod compat {
        pub use core::str::from_utf8;
    }
}
