//! Where errors lie: every error, in every call that tells it, and what the position means.

use headreader::{
    chunk_size_error_position, headers_error_position, parse_chunk_size, parse_headers,
    request_error_position, response_error_position, Error, ParserConfig, Request, Response,
    EMPTY_HEADER,
};

/// Bytes, the error that they are, and the position of the byte that decides it.
type Wrong = (&'static [u8], Error, usize);

const REQUESTS: &[Wrong] = &[
    (b" GET / HTTP/1.1", Error::Token, 0),
    (b"\r\n\nGE(T / HTTP/1.1", Error::Token, 5),
    (b"GET  / HTTP/1.1", Error::Token, 4),
    (b"GET /\x7f/ HTTP/1.1", Error::Token, 5),
    (b"GET /a\xff/b HTTP/1.1", Error::Token, 9),
    (b"GET / HTTP/2.0\r\n", Error::Version, 11),
    (b"GET / HTTP/1.2\r\n", Error::Version, 13),
    (b"\rGET / HTTP/1.1", Error::NewLine, 1),
    (b"GET / HTTP/1.1 \r\n", Error::NewLine, 14),
    (b"GET / HTTP/1.1\rA: b\r\n", Error::NewLine, 15),
    (b"GET / HTTP/1.1\r\n\rA", Error::NewLine, 17),
    (b"GET / HTTP/1.1\r\n: b\r\n", Error::HeaderName, 16),
    (b"GET / HTTP/1.1\nHost : a\n", Error::HeaderName, 19),
    (b"GET / HTTP/1.1\nA: b\nC\n\n", Error::HeaderName, 21),
    (b"GET / HTTP/1.1\nA: \x01\n", Error::HeaderValue, 18),
    (b"GET / HTTP/1.1\nA: b\rC: d\n", Error::HeaderValue, 20),
];

const RESPONSES: &[Wrong] = &[
    (b"HTTP/2", Error::Version, 5),
    (b"HTTP/1.1\r\n", Error::Version, 8),
    (b"HTTP/1.1  200", Error::Status, 9),
    (b"HTTP/1.1 2000", Error::Status, 12),
    (b"HTTP/1.1 200 O\x00K", Error::Status, 14),
    (b"HTTP/1.1 200 OK\rA: b", Error::Status, 16),
    (b"\nHTTP/1.1 200\nA\n", Error::HeaderName, 15),
    (b"HTTP/1.1 200 OK\r\nA:\x7f", Error::HeaderValue, 19),
    (b"HTTP/1.1 200 OK\r\n\r\r\n", Error::NewLine, 18),
];

const HEADERS: &[Wrong] = &[
    (b"A b\n", Error::HeaderName, 1),
    (b"A: b\r\n c\r\n", Error::HeaderName, 6),
    (b"A: b\nC: \x00", Error::HeaderValue, 8),
    (b"A:\rB", Error::HeaderValue, 3),
    (b"A: b\n\rC", Error::NewLine, 6),
];

/// The names of its headers begin at 15, 20 and 28.
const THREE: &[u8] = b"GET / HTTP/1.1\nA: b\nCC:  d\r\nE:\n\n";

/// The position in every beginning of the bytes, and with others behind: none up to the position,
/// and then always the same.
fn check(head: &[u8], position: usize, told: impl Fn(&[u8]) -> Option<usize>) {
    for end in 0..=head.len() {
        let expected = (end > position).then_some(position);
        assert_eq!(told(&head[..end]), expected, "{}", head.escape_ascii());
    }
    assert_eq!(told(&[head, b"\0\r\n\r\n"].concat()), Some(position));
}

#[test]
fn errors_of_requests() {
    for &(head, error, position) in REQUESTS {
        let mut headers = [EMPTY_HEADER; 2];
        assert_eq!(Request::new(&mut headers).parse(head), Err(error));
        check(head, position, |head| request_error_position(head, 2));
    }
}

#[test]
fn errors_of_responses() {
    for &(head, error, position) in RESPONSES {
        let mut headers = [EMPTY_HEADER; 2];
        assert_eq!(Response::new(&mut headers).parse(head), Err(error));
        check(head, position, |head| response_error_position(head, 2));
        let config = ParserConfig::default();
        check(head, position, |head| {
            config.response_error_position(head, 2)
        });
    }
}

#[test]
fn errors_of_headers() {
    for &(block, error, position) in HEADERS {
        let mut headers = [EMPTY_HEADER; 2];
        assert_eq!(parse_headers(block, &mut headers), Err(error));
        check(block, position, |block| headers_error_position(block, 2));
    }
}

#[test]
fn errors_of_chunk_size_lines() {
    for (line, position) in [
        (&b"g"[..], 0),
        (b"1\n", 1),
        (b"567f8a\rfoo", 7),
        (b"1 2\r\n", 2),
        (b"1;a\r\r\n", 4),
        (b"0123456789abcdef0\r\n", 16),
    ] {
        assert!(parse_chunk_size(line).is_err());
        check(line, position, chunk_size_error_position);
    }
}

#[test]
fn settings_decide_earlier() {
    let head = b"GET /a\xff/b HTTP/1.1\r\n\r\n";
    let mut config = ParserConfig::default();
    check(head, 9, |head| config.request_error_position(head, 0));
    config.ascii_targets(true);
    check(head, 6, |head| config.request_error_position(head, 0));
    check(b"HTTP/1.1 2\xff", 10, |head| {
        config.response_error_position(head, 0)
    });
}

/// The header that had no slot, and not the byte that made it whole.
#[test]
fn headers_without_a_slot() {
    for (slots, position, whole) in [(0, 15, 20), (1, 20, 28), (2, 28, 31)] {
        for end in 0..=THREE.len() {
            let expected = (end >= whole).then_some(position);
            assert_eq!(request_error_position(&THREE[..end], slots), expected);
            let block = &THREE[end.min(15)..end];
            let expected = expected.map(|position| position - 15);
            assert_eq!(headers_error_position(block, slots), expected);
        }
    }
    assert_eq!(request_error_position(THREE, 3), None);
}

/// More headers than are read at once, and with every number of slots.
#[test]
fn many_slots() {
    let start = b"HTTP/1.1 200 OK\r\n";
    let line = b"Name: value\r\n";
    let head = [&start[..], &line.repeat(200), b"\r\n"].concat();
    for slots in 0..200 {
        let position = start.len() + slots * line.len();
        assert_eq!(response_error_position(&head, slots), Some(position));
        assert_eq!(
            headers_error_position(&head[start.len()..], slots),
            Some(slots * line.len())
        );
    }
    for slots in [200, 201, 1_000, usize::MAX] {
        assert_eq!(response_error_position(&head, slots), None);
        assert_eq!(
            response_error_position(&head[..head.len() - 1], slots),
            None
        );
        let wrong = [&head[..head.len() - 2], b"Name : value\r\n"].concat();
        assert_eq!(
            response_error_position(&wrong, slots),
            Some(head.len() - 2 + 4)
        );
    }
}

#[test]
fn where_there_is_no_error_there_is_no_position() {
    for head in [
        &b""[..],
        b"GET",
        b"GET / HTTP/1.1\n\n",
        b"GET / HTTP/1.1\n\n\0",
    ] {
        assert_eq!(request_error_position(head, 0), None);
    }
    assert_eq!(response_error_position(b"HTTP/1.1 200\n\n", 0), None);
    assert_eq!(headers_error_position(b"A: b\n", 1), None);
    assert_eq!(chunk_size_error_position(b"ffffffffffffffff\r\n"), None);
    assert_eq!(chunk_size_error_position(b"1;"), None);
}
