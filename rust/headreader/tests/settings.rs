//! httparse's settings: each on and off, in every way to read with settings.

use headreader::{Error, Header, ParserConfig, Request, Response, Result, Status};
use std::mem::MaybeUninit;

/// What sets one of the settings.
type Set = fn(&mut ParserConfig, bool) -> &mut ParserConfig;

const SPACES_AFTER_NAME: Set = ParserConfig::allow_spaces_after_header_name_in_responses;
const MULTILINE: Set = ParserConfig::allow_obsolete_multiline_headers_in_responses;
const IN_REQUEST_LINE: Set = ParserConfig::allow_multiple_spaces_in_request_line_delimiters;
const IN_STATUS_LINE: Set = ParserConfig::allow_multiple_spaces_in_response_status_delimiters;
const BEFORE_FIRST_NAME: Set = ParserConfig::allow_space_before_first_header_name;

/// All but those to pass over lines that are no headers, under which little is an error.
const ALL: [Set; 5] = [
    SPACES_AFTER_NAME,
    MULTILINE,
    IN_REQUEST_LINE,
    IN_STATUS_LINE,
    BEFORE_FIRST_NAME,
];

/// What a slot holds that nobody wrote to.
const UNTOUCHED: Header = Header {
    name: "untouched",
    value: b"untouched",
};

fn with(setters: &[Set]) -> ParserConfig {
    let mut config = ParserConfig::default();
    for set in setters {
        set(&mut config, true);
    }
    config
}

/// All settings on but one.
fn without(setter: Set) -> ParserConfig {
    let mut config = with(&ALL);
    setter(&mut config, false);
    config
}

/// Reads a request with settings in both ways, and looks at its target and its headers.
fn request(
    config: &ParserConfig,
    head: &[u8],
    target: Option<&str>,
    given: &[Header],
) -> Result<usize> {
    let mut headers = [UNTOUCHED; 3];
    let mut request = Request::new(&mut headers);
    let read = config.parse_request(&mut request, head);
    assert_eq!(request.path, target);
    assert_eq!(headers[..given.len()], *given);
    assert!(headers[given.len()..].iter().all(|slot| *slot == UNTOUCHED));
    let mut lent = [MaybeUninit::new(UNTOUCHED); 3];
    let mut request = Request::new(&mut []);
    let again = config.parse_request_with_uninit_headers(&mut request, head, &mut lent);
    assert_eq!((again, request.path), (read, target));
    read
}

/// The same of a response, with its reason.
fn response(
    config: &ParserConfig,
    head: &[u8],
    reason: Option<&str>,
    given: &[Header],
) -> Result<usize> {
    let mut headers = [UNTOUCHED; 3];
    let mut response = Response::new(&mut headers);
    let read = config.parse_response(&mut response, head);
    assert_eq!(response.reason, reason);
    assert_eq!(headers[..given.len()], *given);
    assert!(headers[given.len()..].iter().all(|slot| *slot == UNTOUCHED));
    let mut lent = [MaybeUninit::new(UNTOUCHED); 3];
    let mut response = Response::new(&mut []);
    let again = config.parse_response_with_uninit_headers(&mut response, head, &mut lent);
    assert_eq!((again, response.reason), (read, reason));
    read
}

fn header<'buf>(name: &'buf str, value: &'buf [u8]) -> Header<'buf> {
    Header { name, value }
}

/// Complete with all bytes read.
fn whole(head: &[u8]) -> Result<usize> {
    Ok(Status::Complete(head.len()))
}

#[test]
fn each_setting_is_off_until_it_is_set() {
    let getters = [
        ParserConfig::obsolete_multiline_headers_in_responses_are_allowed,
        ParserConfig::multiple_spaces_in_request_line_delimiters_are_allowed,
        ParserConfig::multiple_spaces_in_response_status_delimiters_are_allowed,
        ParserConfig::space_before_first_header_name_are_allowed,
    ];
    for (number, set) in ALL.iter().enumerate() {
        let mut config = ParserConfig::default();
        for value in [true, false] {
            set(&mut config, value);
            // The first setting has no getter.
            let expected = std::array::from_fn(|getter| value && getter + 1 == number);
            assert_eq!(getters.map(|get| get(&config)), expected);
            assert_eq!(format!("{config:?}").contains("true"), value);
        }
    }
}

#[test]
fn setters_are_chained() {
    let mut config = ParserConfig::default();
    config
        .allow_multiple_spaces_in_request_line_delimiters(true)
        .allow_space_before_first_header_name(true);
    let head = b"GET  / HTTP/1.1\n A: b\n\n";
    let read = request(&config, head, Some("/"), &[header("A", b"b")]);
    assert_eq!(read, whole(head));
}

#[test]
fn spaces_after_a_name() {
    let head = b"HTTP/1.1 200\nA \t : b\nC: d\n\n";
    for config in [with(&[SPACES_AFTER_NAME]), with(&ALL)] {
        let given = [header("A", b"b"), header("C", b"d")];
        assert_eq!(response(&config, head, Some(""), &given), whole(head));
        let wrong = b"HTTP/1.1 200\nA \tb: c\n\n";
        assert_eq!(
            response(&config, wrong, Some(""), &[]),
            Err(Error::HeaderName)
        );
        assert_eq!(config.response_error_position(wrong, 3), Some(16));
    }
    let config = without(SPACES_AFTER_NAME);
    assert_eq!(
        response(&config, head, Some(""), &[]),
        Err(Error::HeaderName)
    );
    assert_eq!(config.response_error_position(head, 3), Some(14));
}

#[test]
fn folded_values() {
    let head = b"HTTP/1.1 200\nA: b \r\n\tc\n  \n d\t\nE:\n\tf\nG:\r\n \r\n\n";
    let given = [
        header("A", b"b \r\n\tc\n  \n d"),
        header("E", b"f"),
        header("G", b""),
    ];
    for config in [with(&[MULTILINE]), with(&ALL)] {
        assert_eq!(response(&config, head, Some(""), &given), whole(head));
    }
    let config = without(MULTILINE);
    let read = response(&config, head, Some(""), &[header("A", b"b")]);
    assert_eq!(read, Err(Error::HeaderName));
    assert_eq!(config.response_error_position(head, 3), Some(20));
}

/// A header is given when it is known that it does not go on.
#[test]
fn a_value_that_may_be_folded_waits() {
    let config = with(&[MULTILINE]);
    let head = b"HTTP/1.1 200\nA: b\nC: d\n";
    let given = [header("A", b"b"), header("C", b"d")];
    assert_eq!(
        response(&config, head, Some(""), &given[..1]),
        Ok(Status::Partial)
    );
    let default = ParserConfig::default();
    assert_eq!(
        response(&default, head, Some(""), &given),
        Ok(Status::Partial)
    );
    assert_eq!(default.response_error_position(head, 1), Some(18));
    assert_eq!(config.response_error_position(head, 1), None);
    for next in [b'\n', b'\r', b'E', b':', 0] {
        let more = [&head[..], &[next]].concat();
        assert_eq!(config.response_error_position(&more, 1), Some(18));
    }
    assert_eq!(
        config.response_error_position(&[head, &b" "[..]].concat(), 1),
        None
    );
}

#[test]
fn several_spaces_in_a_request_line() {
    let head = b"GET   /a  HTTP/1.1\r\n\r\n";
    for config in [with(&[IN_REQUEST_LINE]), with(&ALL)] {
        assert_eq!(request(&config, head, Some("/a"), &[]), whole(head));
        assert_eq!(request(&config, b"GET  \t/", None, &[]), Err(Error::Token));
        assert_eq!(config.request_error_position(b"GET  \t/", 0), Some(5));
    }
    let config = without(IN_REQUEST_LINE);
    assert_eq!(request(&config, head, None, &[]), Err(Error::Token));
    assert_eq!(config.request_error_position(head, 0), Some(4));
}

#[test]
fn several_spaces_in_a_status_line() {
    let head = b"HTTP/1.1   200  a  b \r\n\r\n";
    for config in [with(&[IN_STATUS_LINE]), with(&ALL)] {
        assert_eq!(response(&config, head, Some("a  b "), &[]), whole(head));
    }
    let config = without(IN_STATUS_LINE);
    assert_eq!(response(&config, head, None, &[]), Err(Error::Status));
    assert_eq!(config.response_error_position(head, 0), Some(9));
    let head = b"HTTP/1.1 200  OK\n\n";
    assert_eq!(response(&config, head, Some(" OK"), &[]), whole(head));
}

#[test]
fn blanks_before_the_first_name() {
    let head = b"GET / HTTP/1.1\n \tA: b\nC:\n\n";
    let given = [header("A", b"b"), header("C", b"")];
    let ended = b"HTTP/1.1 200\n\t \r\n";
    let second = b"GET / HTTP/1.1\nA: b\n C:\n\n";
    for config in [with(&[BEFORE_FIRST_NAME]), with(&ALL)] {
        assert_eq!(request(&config, head, Some("/"), &given), whole(head));
        assert_eq!(config.request_error_position(head, 0), Some(17));
        assert_eq!(response(&config, ended, Some(""), &[]), whole(ended));
        let read = request(&config, second, Some("/"), &given[..1]);
        assert_eq!(read, Err(Error::HeaderName));
    }
    let config = without(BEFORE_FIRST_NAME);
    assert_eq!(
        request(&config, head, Some("/"), &[]),
        Err(Error::HeaderName)
    );
    assert_eq!(config.request_error_position(head, 0), Some(15));
    assert_eq!(
        response(&config, ended, Some(""), &[]),
        Err(Error::HeaderName)
    );
}

/// A request is read as ever with what is for responses, and the other way round.
#[test]
fn settings_that_are_for_something_else() {
    let config = with(&[SPACES_AFTER_NAME, MULTILINE, IN_STATUS_LINE]);
    for (head, position) in [
        (&b"GET  /"[..], 4),
        (b"GET / HTTP/1.1\nA : b\n", 16),
        (b"GET / HTTP/1.1\nA: b\n c\n", 20),
    ] {
        assert_eq!(config.request_error_position(head, 3), Some(position));
    }
    let config = with(&[IN_REQUEST_LINE]);
    for (head, position) in [(&b"HTTP/1.1  2"[..], 9), (b"HTTP/1.1 200\n A: b\n", 13)] {
        assert_eq!(config.response_error_position(head, 3), Some(position));
    }
}

/// More headers than there are slots for without memory from the heap, with every number of slots.
#[test]
fn many_slots() {
    let start = b"HTTP/1.1  200  OK\r\n \t";
    let line = b"Name\t: value\r\n that goes on\r\n";
    let head = [&start[..], &line.repeat(200), b"\r\n"].concat();
    let config = with(&ALL);
    for slots in 0..200 {
        let position = start.len() + slots * line.len();
        assert_eq!(config.response_error_position(&head, slots), Some(position));
    }
    let wrong = [&head[..head.len() - 2], b"Name \t\0"].concat();
    for slots in [200, 201, 1_000, usize::MAX] {
        assert_eq!(config.response_error_position(&head, slots), None);
        let position = config.response_error_position(&wrong, slots);
        assert_eq!(position, Some(wrong.len() - 1));
    }
    let shortest = [&b"HTTP/1.1 200\n"[..], &b"A:\n".repeat(100)].concat();
    for slots in 0..99 {
        let position = config.response_error_position(&shortest, slots);
        assert_eq!(position, Some(13 + 3 * slots));
    }
    assert_eq!(config.response_error_position(&shortest, 99), None);
}
