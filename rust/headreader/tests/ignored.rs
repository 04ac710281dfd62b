//! Lines that are no headers and are passed over: what is given all the same, what is an error after
//! all and where, and that a head ends where it did.

use headreader::{Error, Header, ParserConfig, Request, Response, Result, Status};

/// What sets one of the settings.
type Set = fn(&mut ParserConfig, bool) -> &mut ParserConfig;

const IN_REQUESTS: Set = ParserConfig::ignore_invalid_headers_in_requests;
const IN_RESPONSES: Set = ParserConfig::ignore_invalid_headers_in_responses;
const MULTILINE: Set = ParserConfig::allow_obsolete_multiline_headers_in_responses;
const BEFORE_FIRST_NAME: Set = ParserConfig::allow_space_before_first_header_name;
const SPACES_AFTER_NAME: Set = ParserConfig::allow_spaces_after_header_name_in_responses;

const REQUEST_LINE: &[u8] = b"GET / HTTP/1.1\r\n";
const STATUS_LINE: &[u8] = b"HTTP/1.1 200 OK\r\n";

/// What a slot holds that nobody wrote to.
const UNTOUCHED: Header = Header {
    name: "untouched",
    value: b"untouched",
};

/// How many slots are lent.
const SLOTS: usize = 3;

/// A header's name and value.
type Pair = (String, Vec<u8>);

/// How a block of headers ended, which headers were given, and where the error lies.
type Answer = (Result<usize>, Vec<Pair>, Option<usize>);

fn with(setters: &[Set]) -> ParserConfig {
    let mut config = ParserConfig::default();
    for set in setters {
        set(&mut config, true);
    }
    config
}

/// What was written to slots, with the others as they were.
fn written(headers: &[Header]) -> Vec<Pair> {
    let is_written = |header: &&Header| **header != UNTOUCHED;
    let pair = |header: &Header| (header.name.to_string(), header.value.to_vec());
    let written: Vec<Pair> = headers.iter().take_while(is_written).map(pair).collect();
    let others = &headers[written.len()..];
    assert!(others.iter().all(|header| *header == UNTOUCHED));
    written
}

/// How many slots a head has at the end: those of its headers if it is complete, else all.
fn left(read: Result<usize>, given: &[Pair], slots: usize) -> usize {
    match read {
        Ok(Status::Complete(_)) => given.len(),
        _ => slots,
    }
}

/// Places from the start of the block on.
fn behind(line: &[u8], read: Result<usize>, given: Vec<Pair>, position: Option<usize>) -> Answer {
    let read = read.map(|status| match status {
        Status::Complete(end) => Status::Complete(end - line.len()),
        Status::Partial => Status::Partial,
    });
    (read, given, position.map(|position| position - line.len()))
}

fn in_request(config: &ParserConfig, block: &[u8], slots: usize) -> Answer {
    let head = [REQUEST_LINE, block].concat();
    let mut headers = [UNTOUCHED; SLOTS];
    let mut request = Request::new(&mut headers[..slots]);
    let read = config.parse_request(&mut request, &head);
    let told = request.headers.len();
    let given = written(&headers);
    assert_eq!(told, left(read, &given, slots));
    let position = config.request_error_position(&head, slots);
    behind(REQUEST_LINE, read, given, position)
}

fn in_response(config: &ParserConfig, block: &[u8], slots: usize) -> Answer {
    let head = [STATUS_LINE, block].concat();
    let mut headers = [UNTOUCHED; SLOTS];
    let mut response = Response::new(&mut headers[..slots]);
    let read = config.parse_response(&mut response, &head);
    let told = response.headers.len();
    let given = written(&headers);
    assert_eq!(told, left(read, &given, slots));
    let position = config.response_error_position(&head, slots);
    behind(STATUS_LINE, read, given, position)
}

/// The same answer for both kinds, each with its own setting and more.
fn ignoring_with(more: &[Set], block: &[u8], slots: usize) -> Answer {
    let request = in_request(&with(&[&[IN_REQUESTS], more].concat()), block, slots);
    let response = in_response(&with(&[&[IN_RESPONSES], more].concat()), block, slots);
    assert_eq!(request, response, "{}", block.escape_ascii());
    request
}

/// The same answer for both kinds, each with its own setting alone.
fn ignoring(block: &[u8], slots: usize) -> Answer {
    ignoring_with(&[], block, slots)
}

fn pairs(given: &[(&str, &str)]) -> Vec<Pair> {
    let pair = |&(name, value): &(&str, &str)| (name.to_string(), value.into());
    given.iter().map(pair).collect()
}

/// That a block is whole up to an end, with these headers.
fn whole(end: usize, given: &[(&str, &str)]) -> Answer {
    (Ok(Status::Complete(end)), pairs(given), None)
}

/// That a block is an error, with these headers before it.
fn wrong(error: Error, position: usize, given: &[(&str, &str)]) -> Answer {
    (Err(error), pairs(given), Some(position))
}

/// A line that its end makes no header.
const NAME: &[u8] = b"A";

/// Lines that are no headers, without their ends, and what they are where they are not passed over.
const LINES: &[(&[u8], Error, usize)] = &[
    (NAME, Error::HeaderName, 1),
    (b":", Error::HeaderName, 0),
    (b": a", Error::HeaderName, 0),
    (b"A ", Error::HeaderName, 1),
    (b"A b", Error::HeaderName, 1),
    (b"A : b", Error::HeaderName, 1),
    (b"A\x7f: b", Error::HeaderName, 1),
    (b"\xc3\xa9: a", Error::HeaderName, 0),
    (b"A: \x01", Error::HeaderValue, 3),
    (b"A: b\x7fc", Error::HeaderValue, 4),
    (b"A:\x1f\x01", Error::HeaderValue, 2),
    (b" A: b", Error::HeaderName, 0),
    (b"\tA: b", Error::HeaderName, 0),
    (b"(A): b", Error::HeaderName, 0),
    (b"A: b\x0b C: d", Error::HeaderValue, 4),
];

const LINE_ENDS: [&[u8]; 2] = [b"\r\n", b"\n"];

#[test]
fn both_are_off_until_they_are_set() {
    for (set, other) in [(IN_REQUESTS, IN_RESPONSES), (IN_RESPONSES, IN_REQUESTS)] {
        let mut config = ParserConfig::default();
        for value in [true, false] {
            set(&mut config, value);
            assert_eq!(format!("{config:?}").contains("true"), value);
        }
        other(set(&mut config, true), true);
        assert_eq!(format!("{config:?}").matches("true").count(), 2);
    }
}

/// Each line before, between and behind two headers: they are given in their places, and the head ends
/// where it ends.
#[test]
fn headers_around_a_line_are_given() {
    for (line, ..) in LINES {
        for end in LINE_ENDS {
            let line = [line, end].concat();
            let [first, second] = [&b"X: y\r\n"[..], b"Zz:  w \n"];
            for lines in [
                [&line, first, second],
                [first, &line, second],
                [first, second, &line],
            ] {
                let block = [&lines.concat()[..], b"\r\n"].concat();
                let whole = whole(block.len(), &[("X", "y"), ("Zz", "w")]);
                assert_eq!(ignoring(&block, SLOTS), whole, "{}", block.escape_ascii());
                assert_eq!(ignoring(&block, 2), whole);
            }
        }
    }
}

/// With the setting of the other kind, and with none, it is the error that it was.
#[test]
fn the_other_setting_has_no_say() {
    for &(line, error, position) in LINES {
        let block = [line, b"\r\n\r\n"].concat();
        let wrong = wrong(error, position, &[]);
        assert_eq!(in_request(&with(&[IN_RESPONSES]), &block, 1), wrong);
        assert_eq!(in_response(&with(&[IN_REQUESTS]), &block, 1), wrong);
        assert_eq!(in_request(&with(&[]), &block, 1), wrong);
        assert_eq!(in_response(&with(&[]), &block, 1), wrong);
    }
}

/// What is passed over may have any byte but NUL: each of the 256 behind each line.
#[test]
fn a_nul_is_the_error_after_all() {
    for &(line, error, _) in LINES.iter().filter(|&&(line, ..)| line != NAME) {
        for byte in 0..=255 {
            let block = [line, &[byte], b"\r\n\r\n"].concat();
            let expected = match byte {
                0 => wrong(error, line.len(), &[]),
                b'\r' => wrong(error, line.len() + 1, &[]),
                // The line ends there, and the next is empty.
                b'\n' => whole(line.len() + 3, &[]),
                _ => whole(block.len(), &[]),
            };
            assert_eq!(ignoring(&block, 1), expected, "{}", block.escape_ascii());
        }
    }
}

/// From the byte that decides on it is the error, whatever follows; before it, partial.
#[test]
fn errors_and_where_they_lie() {
    for (block, error, position) in [
        (&b"\0"[..], Error::HeaderName, 0),
        (b":\0", Error::HeaderName, 1),
        (b"A\0", Error::HeaderName, 1),
        (b"A b\0", Error::HeaderName, 3),
        (b"A: \0", Error::HeaderValue, 3),
        (b"A: \x01b\0", Error::HeaderValue, 5),
        (b":\rA", Error::HeaderName, 2),
        (b"A\r\r", Error::HeaderName, 2),
        (b"A: \x01\rB", Error::HeaderValue, 5),
        (b"A: b\rC", Error::HeaderValue, 5),
        (b"A:\r\r", Error::HeaderValue, 3),
        (b":\n\rA", Error::NewLine, 3),
        (b"A: b\n:\r\n\xff\0", Error::HeaderName, 9),
    ] {
        for end in 0..=block.len() {
            let (read, _, found) = ignoring(&block[..end], 1);
            let expected = match end > position {
                true => (Err(error), Some(position)),
                false => (Ok(Status::Partial), None),
            };
            assert_eq!((read, found), expected, "{}", block.escape_ascii());
        }
        let more = [block, b"\n\n: c\r\n\r\n"].concat();
        let (read, _, found) = ignoring(&more, 1);
        assert_eq!((read, found), (Err(error), Some(position)));
    }
}

/// No slot is taken by a line that is passed over.
#[test]
fn slots_are_for_headers_alone() {
    let block = b":\nA: b\nC\nD: e\n\x01\nF: g\nH: \x01\n\n";
    let headers = [("A", "b"), ("D", "e"), ("F", "g")];
    for (slots, position) in [(0, 2), (1, 9), (2, 16)] {
        let too_many = wrong(Error::TooManyHeaders, position, &headers[..slots]);
        assert_eq!(ignoring(block, slots), too_many);
    }
    assert_eq!(ignoring(block, 3), whole(block.len(), &headers));
}

/// More lines than there are slots without memory from the heap.
#[test]
fn many_lines() {
    let config = with(&[IN_REQUESTS]);
    let lines = b"Name: value\r\nno header\r\n".repeat(200);
    let head = [REQUEST_LINE, &lines, b"\r\n"].concat();
    for slots in 0..200 {
        let position = REQUEST_LINE.len() + slots * 24;
        assert_eq!(config.request_error_position(&head, slots), Some(position));
    }
    assert_eq!(config.request_error_position(&head, 200), None);
    let only = [REQUEST_LINE, &b":\n".repeat(1_000), b"\n"].concat();
    assert_eq!(config.request_error_position(&only, 0), None);
}

/// A fold with a wrong byte loses the whole header, and what would go on with it is a line of its own;
/// in a request, which has no folds, such a line is passed over alone.
#[test]
fn folds_with_a_wrong_byte() {
    let request = with(&[IN_REQUESTS, MULTILINE]);
    let response = with(&[IN_RESPONSES, MULTILINE]);
    for (block, folded, not_folded) in [
        (
            &b"A: b\n c\x01\n d\nE: f\n\n"[..],
            &[("E", "f")][..],
            &[("A", "b"), ("E", "f")][..],
        ),
        (
            b"A: b\n c\nD\x01: e\n f\nG: h\n\n",
            &[("A", "b\n c"), ("G", "h")],
            &[("A", "b"), ("G", "h")],
        ),
        (b"A:\n \x01\n\n", &[], &[("A", "")]),
    ] {
        let end = block.len();
        assert_eq!(in_response(&response, block, SLOTS), whole(end, folded));
        assert_eq!(in_request(&request, block, SLOTS), whole(end, not_folded));
    }
}

#[test]
fn errors_in_folds() {
    let config = with(&[IN_RESPONSES, MULTILINE]);
    for (block, error, position) in [
        (&b"A: b\n \0"[..], Error::HeaderValue, 6),
        (b"A: b\n \x01\n \0", Error::HeaderName, 9),
    ] {
        let wrong = wrong(error, position, &[]);
        assert_eq!(in_response(&config, block, SLOTS), wrong);
    }
}

/// As long as no header was given, a line behind one that is passed over is a first line again.
#[test]
fn blanks_before_the_first_name() {
    for (block, end, given) in [
        (&b":\n \tA: b\n\n"[..], 10, &[("A", "b")][..]),
        (b" :\n A: b\n C: d\n\n", 16, &[("A", "b")]),
        (b":\n \nA: b\n\n", 4, &[]),
    ] {
        let answer = ignoring_with(&[BEFORE_FIRST_NAME], block, SLOTS);
        assert_eq!(answer, whole(end, given));
    }
}

/// In a request, which may not have them, such a line is passed over.
#[test]
fn spaces_after_a_name() {
    let block = b"A b: c\nD \t: e\nF \n\n";
    let response = with(&[IN_RESPONSES, SPACES_AFTER_NAME]);
    let with_spaces = whole(block.len(), &[("D", "e")]);
    assert_eq!(in_response(&response, block, SLOTS), with_spaces);
    let request = with(&[IN_REQUESTS, SPACES_AFTER_NAME]);
    assert_eq!(in_request(&request, block, SLOTS), whole(block.len(), &[]));
}
