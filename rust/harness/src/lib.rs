//! The inner parts of Headreader as safe Rust functions.

pub use answers::Random;

extern "C" {
    fn harness_utf8(start: *const u8, length: usize) -> bool;
    fn harness_is(class: u8, byte: u8) -> bool;
    fn harness_skip(class: u8, start: *const u8, length: usize, at: usize) -> usize;
}

/// The classes of bytes, numbered as in crates/harness; the first six have a skip.
#[derive(Clone, Copy, Debug, PartialEq)]
pub enum Class {
    Token,
    Target,
    Value,
    Blank,
    Ascii,
    Visible,
    Digit,
    HexDigit,
}

pub const CLASSES: [Class; 8] = [
    Class::Token,
    Class::Target,
    Class::Value,
    Class::Blank,
    Class::Ascii,
    Class::Visible,
    Class::Digit,
    Class::HexDigit,
];

pub const SKIPPED: [Class; 6] = [
    Class::Token,
    Class::Target,
    Class::Value,
    Class::Blank,
    Class::Ascii,
    Class::Visible,
];

/// Whether the bytes are well-formed UTF-8.
pub fn is_utf8(bytes: &[u8]) -> bool {
    // SAFETY: the function demands nothing of the slice, and reads within it.
    unsafe { harness_utf8(bytes.as_ptr(), bytes.len()) }
}

/// Whether a byte is of a class.
pub fn is(class: Class, byte: u8) -> bool {
    // SAFETY: the function demands nothing.
    unsafe { harness_is(class as u8, byte) }
}

/// Where the row of bytes of a class that starts at `at` ends.
pub fn skip(class: Class, bytes: &[u8], at: usize) -> usize {
    // SAFETY: the function demands nothing of the slice or the position, and reads within the slice.
    unsafe { harness_skip(class as u8, bytes.as_ptr(), bytes.len(), at) }
}
