//! Requests: every field, in every way to read one.

use headreader::{Error, Header, ParserConfig, Request, Status, EMPTY_HEADER};
use std::mem::MaybeUninit;

const HEAD: &[u8] = b"\r\nPOST /orders HTTP/1.1\r\nHost: a.example\r\nX-Empty:\r\n\r\nbody";

/// Where the head ends and its body begins.
const END: usize = HEAD.len() - 4;

const HEADERS: [Header; 2] = [
    Header {
        name: "Host",
        value: b"a.example",
    },
    Header {
        name: "X-Empty",
        value: b"",
    },
];

/// What a slot holds that nobody wrote to.
const UNTOUCHED: Header = Header {
    name: "untouched",
    value: b"untouched",
};

fn assert_read(request: &Request) {
    assert_eq!(request.method, Some("POST"));
    assert_eq!(request.path, Some("/orders"));
    assert_eq!(request.version, Some(1));
    assert_eq!(request.headers, HEADERS);
}

#[test]
fn a_whole_request() {
    let mut headers = [UNTOUCHED; 4];
    let mut request = Request::new(&mut headers);
    assert_eq!(request.parse(HEAD), Ok(Status::Complete(END)));
    assert_read(&request);
    assert_eq!(headers[2..], [UNTOUCHED; 2]);
}

#[test]
fn a_whole_request_by_settings() {
    let mut headers = [EMPTY_HEADER; 2];
    let mut request = Request::new(&mut headers);
    let config = ParserConfig::default();
    let read = config.parse_request(&mut request, HEAD);
    assert_eq!(read, Ok(Status::Complete(END)));
    assert_read(&request);
}

#[test]
fn memory_with_no_headers_in_it() {
    let mut lent = [const { MaybeUninit::uninit() }; 3];
    let start = lent.as_ptr().cast();
    let mut request = Request::new(&mut []);
    let read = request.parse_with_uninit_headers(HEAD, &mut lent);
    assert_eq!(read, Ok(Status::Complete(END)));
    assert_read(&request);
    assert_eq!(request.headers.as_ptr(), start);
}

#[test]
fn memory_with_no_headers_in_it_by_settings() {
    let mut lent = [MaybeUninit::new(UNTOUCHED); 3];
    let mut request = Request::new(&mut []);
    let config = ParserConfig::default();
    let read = config.parse_request_with_uninit_headers(&mut request, HEAD, &mut lent);
    assert_eq!(read, Ok(Status::Complete(END)));
    assert_read(&request);
    // SAFETY: all slots held a header before the call.
    assert_eq!(unsafe { lent[2].assume_init() }, UNTOUCHED);
}

#[test]
fn an_incomplete_head_leaves_the_old_list_and_writes_what_it_gives() {
    let mut headers = [UNTOUCHED; 1];
    let mut lent = [MaybeUninit::new(UNTOUCHED); 3];
    let mut request = Request::new(&mut headers);
    let read = request.parse_with_uninit_headers(&HEAD[..END - 2], &mut lent);
    assert_eq!(read, Ok(Status::Partial));
    assert_eq!(request.path, Some("/orders"));
    assert_eq!(request.headers, [UNTOUCHED]);
    // SAFETY: all slots held a header before the call.
    let lent = lent.map(|slot| unsafe { slot.assume_init() });
    assert_eq!(lent, [HEADERS[0], HEADERS[1], UNTOUCHED]);
}

#[test]
fn fields_are_known_one_after_another() {
    for (length, known) in [
        (0, (None, None, None)),
        (6, (None, None, None)),
        (7, (Some("POST"), None, None)),
        (14, (Some("POST"), None, None)),
        (15, (Some("POST"), Some("/orders"), None)),
        (22, (Some("POST"), Some("/orders"), None)),
        (23, (Some("POST"), Some("/orders"), Some(1))),
        (END - 1, (Some("POST"), Some("/orders"), Some(1))),
    ] {
        let mut headers = [UNTOUCHED; 3];
        let mut request = Request::new(&mut headers);
        assert_eq!(request.parse(&HEAD[..length]), Ok(Status::Partial));
        assert_eq!((request.method, request.path, request.version), known);
        assert_eq!(request.headers.len(), 3);
    }
}

#[test]
fn the_list_is_whole_unless_the_head_is() {
    let mut headers = [UNTOUCHED; 3];
    let mut request = Request::new(&mut headers);
    assert_eq!(request.parse(&HEAD[..44]), Ok(Status::Partial));
    assert_eq!(request.headers, [HEADERS[0], UNTOUCHED, UNTOUCHED]);
    let read = request.parse(b"GET / HTTP/1.0\nA: b\nC d\n\n");
    assert_eq!(read, Err(Error::HeaderName));
    assert_eq!(request.headers[0].name, "A");
    assert_eq!(request.headers[1..], [UNTOUCHED; 2]);
}

#[test]
fn a_request_that_is_read_into_again() {
    let mut headers = [UNTOUCHED; 3];
    let mut request = Request::new(&mut headers);
    assert_eq!(request.parse(HEAD), Ok(Status::Complete(END)));
    assert_eq!(request.parse(b"PUT /again "), Ok(Status::Partial));
    assert_eq!(request.method, Some("PUT"));
    assert_eq!(request.path, Some("/again"));
    assert_eq!(request.version, Some(1));
    assert_eq!(request.headers, HEADERS);
    let three = b"GET / HTTP/1.0\nA: 1\nB: 2\nC: 3\n\n";
    assert_eq!(request.parse(three), Err(Error::TooManyHeaders));
    assert_eq!(request.version, Some(0));
    assert_eq!(request.headers[1].name, "B");
    assert_eq!(headers[2], UNTOUCHED);
}

#[test]
fn no_slots() {
    let mut request = Request::new(&mut []);
    assert_eq!(
        request.parse(b"GET / HTTP/1.1\n\n"),
        Ok(Status::Complete(16))
    );
    assert_eq!(request.parse(HEAD), Err(Error::TooManyHeaders));
    assert_eq!(request.path, Some("/orders"));
    assert_eq!(request.headers, []);
}

#[test]
fn a_target_beyond_ascii() {
    let mut request = Request::new(&mut []);
    let head = "GET /caf\u{e9}/\u{1f600} HTTP/1.1\n\n";
    let read = request.parse(head.as_bytes());
    assert_eq!(read, Ok(Status::Complete(head.len())));
    assert_eq!(request.path, Some("/caf\u{e9}/\u{1f600}"));
    assert_eq!(request.parse(b"GET /\xff "), Err(Error::Token));
    assert_eq!(request.path, Some("/caf\u{e9}/\u{1f600}"));
}

/// Callers subtract addresses, so an empty value must lie in the buffer.
#[test]
fn an_empty_value_lies_where_its_line_ends() {
    let mut headers = [EMPTY_HEADER; 2];
    let mut request = Request::new(&mut headers);
    request.parse(HEAD).unwrap().unwrap();
    let place = request.headers[1].value.as_ptr() as usize - HEAD.as_ptr() as usize;
    assert_eq!(&HEAD[place - 8..place + 2], b"X-Empty:\r\n");
}

#[test]
fn what_is_shown_for_debugging() {
    let mut headers = [EMPTY_HEADER; 1];
    let mut request = Request::new(&mut headers);
    request.parse(b"GET / HTTP/1.1\nA: \xff\n\n").unwrap();
    assert_eq!(
        format!("{request:?}"),
        "Request { method: Some(\"GET\"), path: Some(\"/\"), version: Some(1), \
         headers: [Header { name: \"A\", value: [255] }] }"
    );
}
