//! All short strings behind good starts that end in each part of a head.

use super::strings;
use crate::record::plain;
use answers::{Call, Query};

/// A byte of each kind that the parts of a head tell apart.
pub const ALPHABET: &[u8] = b"a \t:\r\n\x00\x801";

/// Starts of good heads; more than one count of slots where a header can be finished soon.
const STARTS: &[(Call, &[usize], &[u8])] = &[
    // Empty lines and method, target, a target amid a UTF-8 character, version, header.
    (Call::Request, &[0], b""),
    (Call::Request, &[1], b"a "),
    (Call::Request, &[2], b"a /\xc3"),
    (Call::Request, &[1], b"a / HTTP/1."),
    (Call::Request, &[0, 1, 2], b"a / HTTP/1.1\r\na:"),
    // Empty lines, version, code, behind the code, reason, header.
    (Call::Response, &[2], b""),
    (Call::Response, &[0], b"HTTP/1."),
    (Call::Response, &[1], b"HTTP/1.1 "),
    (Call::Response, &[2], b"HTTP/1.1 111"),
    (Call::Response, &[1], b"HTTP/1.1 111 "),
    (Call::Response, &[0, 1, 2], b"HTTP/1.1 111 a\r\na:"),
    // First byte of a line, name, value, a second header's value.
    (Call::Headers, &[1, 0, 2], b""),
    (Call::Headers, &[2, 0, 1], b"a"),
    (Call::Headers, &[0, 1, 2], b"a:"),
    (Call::Headers, &[1, 2], b"a:1\r\na:"),
];

pub fn queries() -> Vec<Query> {
    let mut queries = Vec::new();
    for &(call, slot_counts, start) in STARTS {
        for (index, &slots) in slot_counts.iter().enumerate() {
            // Three bytes with the first count only, since the file is to stay small.
            let longest = if index == 0 { 3 } else { 2 };
            for rest in strings::up_to(longest, ALPHABET) {
                queries.push(plain(call, slots, &[start, &rest].concat()));
            }
        }
    }
    queries
}
