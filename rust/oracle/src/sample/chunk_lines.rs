//! All short chunk size lines over an alphabet, and lines of about as many digits as are allowed.

use super::strings;
use crate::record::plain;
use answers::{Call, Query};

/// Digits of each kind, every other byte that means something in the line, and two that do not.
const ALPHABET: &[u8] = b"0fFg \t;\r\nx";

/// One digit more than is allowed, in an order that shows if one is lost.
const DIGITS: &[u8; 17] = b"9f8E7d6C5b4A32101";

pub fn queries() -> Vec<Query> {
    let mut lines = strings::up_to(4, ALPHABET);
    for count in 15..=17 {
        for rest in strings::up_to(2, ALPHABET) {
            lines.push([&DIGITS[..count], &rest].concat());
        }
    }
    lines
        .iter()
        .map(|line| plain(Call::ChunkSize, 0, line))
        .collect()
}
