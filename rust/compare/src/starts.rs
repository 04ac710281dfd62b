//! Good starts that end in each part of a head, and the bytes that tell most behind them.

use answers::bits::{
    self, IGNORE_INVALID_HEADERS_IN_REQUESTS, IGNORE_INVALID_HEADERS_IN_RESPONSES,
    MULTILINE_HEADERS, SPACES_AFTER_HEADER_NAME, SPACES_IN_REQUEST_LINE, SPACES_IN_STATUS_LINE,
    SPACE_BEFORE_FIRST_HEADER_NAME,
};
use answers::Call;

/// Good bytes, and how many more are tried behind them.
pub type Start = (&'static [u8], usize);

/// A place where a setting has its say: good bytes that end there, and what goes on from there to the
/// end of a good head.
pub type Place = (&'static [u8], &'static [u8]);

/// A letter, a digit, all bytes with a meaning of their own, a control byte and one from 0x80 on.
const HEAD_BYTES: &[u8] = b"a \t:\r\n\x00\x801";

/// The same for the lines of headers, where a digit is as good as a letter and NUL is not as good as
/// another control byte.
const LINE_BYTES: &[u8] = b"a \t:\r\n\x00\x01\x80";

/// Digits of every kind, the first letter that is none, and all bytes with a meaning of their own.
const CHUNK_BYTES: &[u8] = b"0fFg \t;\r\nx";

// Seven bytes are tried where most of what follows is still open: at the very beginning, where
// method, target, version, code and reason begin or end, where a header block begins, in a name,
// behind the colon, in a value and behind a header. Where the next byte or two decide nearly
// everything, or where another start leads on to the same, it is six or five. Behind parts of 27
// bytes, six more cross the width of httparse's widest vectors.

const REQUESTS: &[Start] = &[
    (b"", 7),
    (b"\r", 5),
    (b"\r\n\n", 6),
    (b"GET", 7),
    (b"POST", 6),
    (b"GET ", 7),
    (b"GET /", 7),
    (b"GET /\xc3", 6),
    (b"GET /\xe1", 6),
    (b"GET /\xf1", 6),
    (b"GET /a-target-of-27-bytes-here!", 6),
    (b"GET / ", 5),
    (b"GET / HTTP/", 5),
    (b"GET / HTTP/1.", 6),
    (b"GET / HTTP/1.1", 7),
    (b"GET / HTTP/1.1\r", 6),
    (b"GET / HTTP/1.1\n", 6),
    (b"GET / HTTP/1.1\r\n", 7),
    (b"GET / HTTP/1.1\r\n\r", 5),
    (b"GET / HTTP/1.1\r\n\r\n", 5),
    (b"GET / HTTP/1.1\r\nA", 7),
    (b"GET / HTTP/1.1\r\nA:", 7),
    (b"GET / HTTP/1.1\r\nA: ", 6),
    (b"GET / HTTP/1.1\r\nA: b", 7),
    (b"GET / HTTP/1.1\r\nA: b\r", 6),
    (b"GET / HTTP/1.1\r\nA:b\r\n", 7),
    (b"GET / HTTP/1.1\r\nA:b\r\nC", 6),
    (b"GET / HTTP/1.1\r\nA:b\r\nC:", 6),
    (b"GET / HTTP/1.1\r\nA:b\r\nC:d", 6),
    (b"GET / HTTP/1.1\r\nA:b\r\nC:d\r\n", 6),
    (b"GET / HTTP/1.1\r\nA:b\r\nC:d\r\nE:f", 6),
];

const RESPONSES: &[Start] = &[
    (b"", 6),
    (b"\r\n\n", 5),
    (b"HTTP/", 5),
    (b"HTTP/1.", 6),
    (b"HTTP/1.1", 7),
    (b"HTTP/1.1 ", 7),
    (b"HTTP/1.1 2", 6),
    (b"HTTP/1.1 20", 6),
    (b"HTTP/1.1 200", 7),
    (b"HTTP/1.1 200\r", 6),
    (b"HTTP/1.1 200 ", 7),
    (b"HTTP/1.1 200 O", 6),
    (b"HTTP/1.1 200 \x80", 6),
    (b"HTTP/1.1 200 OK\r", 6),
    (b"HTTP/1.1 200 OK\r\n", 7),
    (b"HTTP/1.1 200 OK\r\nA", 7),
    (b"HTTP/1.1 200 OK\r\nA:", 7),
    (b"HTTP/1.1 200 OK\r\nA: b", 7),
    (b"HTTP/1.1 200 OK\r\nA: b\r", 6),
    (b"HTTP/1.1 200 OK\r\nA:b\r\n", 7),
    (b"HTTP/1.1 200 OK\r\nA:b\r\nC:d", 6),
    (b"HTTP/1.1 200 OK\r\nA:b\r\nC:d\r\n", 6),
    (b"HTTP/1.1 200 OK\r\nA:b\r\nC:d\r\nE:f", 6),
    (b"HTTP/1.1 200\n\n", 5),
];

const HEADERS: &[Start] = &[
    (b"", 7),
    (b"\r", 5),
    (b"A", 7),
    (b"A-name-of-27-bytes-it-seems", 6),
    (b"A:", 7),
    (b"A: ", 6),
    (b"A: b", 7),
    (b"A: a-value-of-27-bytes-in-here", 6),
    (b"A: b\r", 6),
    (b"A: b\r\n", 7),
    (b"A: b\r\n\r", 5),
    (b"A: b\nC", 6),
    (b"A: b\nC:", 6),
    (b"A: b\nC: d", 6),
    (b"A: b\nC: d\n", 7),
    (b"A: b\nC: d\nE: f", 6),
];

/// Fourteen digits and more are where the number of digits decides.
const CHUNK_SIZES: &[Start] = &[
    (b"", 7),
    (b"ffffffffffffff", 7),
    (b"123456789ABCDEf", 7),
    (b"0123456789abcdef", 7),
    (b"0;", 6),
];

pub fn starts(call: Call) -> &'static [Start] {
    match call {
        Call::Request => REQUESTS,
        Call::Response => RESPONSES,
        Call::Headers => HEADERS,
        Call::ChunkSize => CHUNK_SIZES,
    }
}

/// Behind the method, its space and two of them; behind the target, its space and two of them.
const REQUEST_LINES: &[Place] = &[
    (b"GET", b" / HTTP/1.1\n\n"),
    (b"\nGET ", b"/ HTTP/1.1\nA: b\n\n"),
    (b"GET  ", b"/ HTTP/1.1\r\n\r\n"),
    (b"GET /", b" HTTP/1.1\n\n"),
    (b"GET / ", b"HTTP/1.1\r\nA: b\r\n\r\n"),
    (b"GET  /  ", b"HTTP/1.0\n\n"),
];

/// Behind the version, its space and two of them; behind the code, its space and two of them.
const STATUS_LINES: &[Place] = &[
    (b"HTTP/1.1", b" 200 OK\n\n"),
    (b"\nHTTP/1.1 ", b"200 OK\r\nA: b\r\n\r\n"),
    (b"HTTP/1.1  ", b"200\n\n"),
    (b"HTTP/1.1 200", b" OK\nA: b\n\n"),
    (b"HTTP/1.1 200 ", b"OK\r\nA: b\r\n\r\n"),
    (b"HTTP/1.1  200  ", b"OK\n\n"),
];

/// At the start of the first header's line, behind a blank there, and at the start of the second's.
const REQUEST_FIRST_NAMES: &[Place] = &[
    (b"GET / HTTP/1.1\r\n", b"A: b\r\n\r\n"),
    (b"GET / HTTP/1.1\n ", b"A: b\n\n"),
    (b"GET / HTTP/1.1\nA:b\n", b"C: d\n\n"),
];
const RESPONSE_FIRST_NAMES: &[Place] = &[
    (b"HTTP/1.1 200 OK\r\n", b"A: b\r\n\r\n"),
    (b"HTTP/1.1 200\n ", b"A: b\n\n"),
    (b"HTTP/1.1 200\nA:b\n", b"C: d\n\n"),
];

/// Behind a name, behind blanks there, and behind the colon.
const RESPONSE_NAMES: &[Place] = &[
    (b"HTTP/1.1 200 OK\r\nA", b": b\r\n\r\n"),
    (b"HTTP/1.1 200\nA ", b":b\n\n"),
    (b"HTTP/1.1 200\nA\t:", b"b\n\n"),
];

/// Behind the colon, within a value, behind its line end and behind a fold, with something in the value
/// or nothing yet; and behind a second header's line end.
const RESPONSE_VALUES: &[Place] = &[
    (b"HTTP/1.1 200 OK\r\nA:", b"\r\n\r\n"),
    (b"HTTP/1.1 200\nA: b", b"\nC: d\n\n"),
    (b"HTTP/1.1 200\r\nA:b\r\n", b"C: d\r\n\r\n"),
    (b"HTTP/1.1 200\nA:\n", b" b\n\n"),
    (b"HTTP/1.1 200\nA: b\r\n ", b"c\r\n\r\n"),
    (b"HTTP/1.1 200\nA:\n\t", b"b\nC: d\n\n"),
    (b"HTTP/1.1 200\nA:b\nC: d\n", b"\n"),
];

/// Within a line that is no header, behind its CR, and behind it with no header given yet and with one;
/// behind a byte that is wrong in a value, and in a fold also behind its line end.
const REQUEST_INVALID_LINES: &[Place] = &[
    (b"GET / HTTP/1.1\n:", b"\nA: b\n\n"),
    (b"GET / HTTP/1.1\r\nA b\r", b"\nC: d\r\n\r\n"),
    (b"GET / HTTP/1.1\n:\n", b"A: b\n\n"),
    (b"GET / HTTP/1.1\nA: b\n:\r\n", b"C: d\n\n"),
    (b"GET / HTTP/1.1\nA: \x01", b"\nC: d\n\n"),
];
const RESPONSE_INVALID_LINES: &[Place] = &[
    (b"HTTP/1.1 200\n:", b"\nA: b\n\n"),
    (b"HTTP/1.1 200 OK\r\nA b\r", b"\nC: d\r\n\r\n"),
    (b"HTTP/1.1 200\n:\n", b"A: b\n\n"),
    (b"HTTP/1.1 200\nA: b\n:\r\n", b"C: d\n\n"),
    (b"HTTP/1.1 200\nA: \x01", b"\nC: d\n\n"),
    (b"HTTP/1.1 200\nA: b\n \x01", b"\nC: d\n\n"),
    (b"HTTP/1.1 200\nA:\n \x01\r\n", b"C: d\n\n"),
];

/// The places where a setting would have its say if it were for requests.
const REQUEST_NAMES: &[Place] = &[(b"GET / HTTP/1.1\r\nA", b": b\r\n\r\n")];
const REQUEST_VALUES: &[Place] = &[(b"GET / HTTP/1.1\nA: b", b"\nC: d\n\n")];

/// Where in a call a setting has its say, or would have it if it were for that call.
pub fn places(call: Call, setting: u32) -> &'static [Place] {
    match (call, setting) {
        (Call::Request, SPACES_IN_REQUEST_LINE) => REQUEST_LINES,
        (Call::Request, SPACE_BEFORE_FIRST_HEADER_NAME) => REQUEST_FIRST_NAMES,
        (Call::Request, SPACES_AFTER_HEADER_NAME) => REQUEST_NAMES,
        (Call::Request, MULTILINE_HEADERS) => REQUEST_VALUES,
        (Call::Request, IGNORE_INVALID_HEADERS_IN_REQUESTS) => REQUEST_INVALID_LINES,
        (Call::Response, SPACES_IN_STATUS_LINE) => STATUS_LINES,
        (Call::Response, SPACE_BEFORE_FIRST_HEADER_NAME) => RESPONSE_FIRST_NAMES,
        (Call::Response, SPACES_AFTER_HEADER_NAME) => RESPONSE_NAMES,
        (Call::Response, MULTILINE_HEADERS) => RESPONSE_VALUES,
        (Call::Response, IGNORE_INVALID_HEADERS_IN_RESPONSES) => RESPONSE_INVALID_LINES,
        _ => &[],
    }
}

/// The places of all settings that Headreader has.
pub fn all_places(call: Call) -> Vec<Place> {
    let settings = bits::singles(bits::SUPPORTED);
    let places = settings.iter().flat_map(|&setting| places(call, setting));
    places.copied().collect()
}

pub fn telling_bytes(call: Call) -> &'static [u8] {
    match call {
        Call::ChunkSize => CHUNK_BYTES,
        _ => HEAD_BYTES,
    }
}

/// The bytes that tell most at a place, which is in a start line or in the lines behind it.
pub fn bytes_at((start, _): Place) -> &'static [u8] {
    match start.trim_ascii_start().contains(&b'\n') {
        true => LINE_BYTES,
        false => HEAD_BYTES,
    }
}

#[cfg(test)]
mod tests {
    use super::*;
    use crate::numbers::Numbers;
    use crate::{theirs, Case};

    #[test]
    fn every_place_is_in_a_good_head() {
        for call in [Call::Request, Call::Response] {
            for (start, rest) in all_places(call) {
                let input = [start, rest].concat();
                let case = Case {
                    call,
                    slots: 2,
                    remainder: 0,
                    settings: bits::SUPPORTED,
                    input: &input,
                };
                let mut numbers = Numbers::default();
                numbers.lend(case.room());
                theirs::read(&case, &mut numbers);
                let end = numbers.out.numbers()[0];
                assert_eq!((numbers.status, end), (0, input.len() as u64), "{case}");
            }
        }
    }

    #[test]
    fn lines_of_headers_have_bytes_of_their_own() {
        for setting in bits::singles(bits::SUPPORTED) {
            let in_line = [SPACES_IN_REQUEST_LINE, SPACES_IN_STATUS_LINE].contains(&setting);
            for call in [Call::Request, Call::Response] {
                for &place in places(call, setting) {
                    assert_eq!(bytes_at(place) == HEAD_BYTES, in_line);
                }
            }
        }
    }

    #[test]
    fn every_setting_has_a_place() {
        for call in [Call::Request, Call::Response] {
            for setting in bits::singles(bits::of(call)) {
                assert!(!places(call, setting).is_empty());
            }
        }
    }
}
