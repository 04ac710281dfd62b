//! Responses: every field, in every way to read one.

use headreader::{Error, Header, ParserConfig, Response, Status, EMPTY_HEADER};
use std::mem::MaybeUninit;

const HEAD: &[u8] = b"HTTP/1.0 404 Not Found\r\nServer:  a b\t\r\n\r\nbody";

/// Where the head ends and its body begins.
const END: usize = HEAD.len() - 4;

const SERVER: Header = Header {
    name: "Server",
    value: b"a b",
};

/// What a slot holds that nobody wrote to.
const UNTOUCHED: Header = Header {
    name: "untouched",
    value: b"untouched",
};

fn assert_read(response: &Response) {
    assert_eq!(response.version, Some(0));
    assert_eq!(response.code, Some(404));
    assert_eq!(response.reason, Some("Not Found"));
    assert_eq!(response.headers, [SERVER]);
}

#[test]
fn a_whole_response() {
    let mut headers = [UNTOUCHED; 2];
    let mut response = Response::new(&mut headers);
    assert_eq!(response.parse(HEAD), Ok(Status::Complete(END)));
    assert_read(&response);
    assert_eq!(headers[1], UNTOUCHED);
}

#[test]
fn a_whole_response_by_settings() {
    let mut headers = [EMPTY_HEADER; 1];
    let mut response = Response::new(&mut headers);
    let config = ParserConfig::default();
    let read = config.parse_response(&mut response, HEAD);
    assert_eq!(read, Ok(Status::Complete(END)));
    assert_read(&response);
}

#[test]
fn memory_with_no_headers_in_it() {
    let mut lent = [MaybeUninit::new(UNTOUCHED); 3];
    let mut response = Response::new(&mut []);
    let config = ParserConfig::default();
    let read = config.parse_response_with_uninit_headers(&mut response, HEAD, &mut lent);
    assert_eq!(read, Ok(Status::Complete(END)));
    assert_read(&response);
    // SAFETY: all slots held a header before the call.
    let lent = lent.map(|slot| unsafe { slot.assume_init() });
    assert_eq!(lent, [SERVER, UNTOUCHED, UNTOUCHED]);
}

#[test]
fn an_incomplete_head_leaves_the_old_list() {
    let mut headers = [UNTOUCHED; 1];
    let mut lent = [const { MaybeUninit::uninit() }; 3];
    let mut response = Response::new(&mut headers);
    let config = ParserConfig::default();
    let start = &HEAD[..END - 1];
    let read = config.parse_response_with_uninit_headers(&mut response, start, &mut lent);
    assert_eq!(read, Ok(Status::Partial));
    assert_eq!(response.headers, [UNTOUCHED]);
    // SAFETY: the head's one header was whole, so its slot was written.
    assert_eq!(unsafe { lent[0].assume_init() }, SERVER);
}

#[test]
fn fields_are_known_one_after_another() {
    for (length, known) in [
        (0, (None, None, None)),
        (7, (None, None, None)),
        (8, (Some(0), None, None)),
        (11, (Some(0), None, None)),
        (12, (Some(0), Some(404), None)),
        (23, (Some(0), Some(404), None)),
        (24, (Some(0), Some(404), Some("Not Found"))),
    ] {
        let mut response = Response::new(&mut []);
        assert_eq!(response.parse(&HEAD[..length]), Ok(Status::Partial));
        assert_eq!((response.version, response.code, response.reason), known);
    }
}

#[test]
fn reasons_that_are_empty() {
    for head in [
        &b"HTTP/1.1 204\r\n\r\n"[..],
        b"HTTP/1.1 204\n\n",
        b"HTTP/1.1 204 \r\n\r\n",
        b"HTTP/1.1 204 \n\n",
        b"HTTP/1.1 204 caf\xe9\r\n\r\n",
    ] {
        let mut response = Response::new(&mut []);
        assert_eq!(response.parse(head), Ok(Status::Complete(head.len())));
        assert_eq!(response.code, Some(204));
        assert_eq!(response.reason, Some(""));
    }
}

#[test]
fn a_response_that_is_read_into_again() {
    let mut headers = [UNTOUCHED; 2];
    let mut response = Response::new(&mut headers);
    assert_eq!(response.parse(HEAD), Ok(Status::Complete(END)));
    assert_eq!(response.parse(b"HTTP/1.1 2x0"), Err(Error::Status));
    assert_eq!(response.version, Some(1));
    assert_eq!(response.code, Some(404));
    assert_eq!(response.reason, Some("Not Found"));
    assert_eq!(response.headers, [SERVER]);
    let two = b"HTTP/1.1 200 OK\nA: 1\nB: 2\n\n";
    assert_eq!(response.parse(two), Err(Error::TooManyHeaders));
    assert_eq!(response.headers[0].name, "A");
    assert_eq!(headers[1], UNTOUCHED);
}

#[test]
fn the_list_is_whole_unless_the_head_is() {
    let mut headers = [UNTOUCHED; 2];
    let mut response = Response::new(&mut headers);
    assert_eq!(response.parse(&HEAD[..END - 2]), Ok(Status::Partial));
    assert_eq!(response.headers, [SERVER, UNTOUCHED]);
    assert_eq!(response.parse(HEAD), Ok(Status::Complete(END)));
    assert_eq!(response.headers, [SERVER]);
}

#[test]
fn what_is_shown_for_debugging() {
    let mut headers = [EMPTY_HEADER; 1];
    let mut response = Response::new(&mut headers);
    response.parse(HEAD).unwrap();
    assert_eq!(
        format!("{response:?}"),
        "Response { version: Some(0), code: Some(404), reason: Some(\"Not Found\"), \
         headers: [Header { name: \"Server\", value: \"a b\" }] }"
    );
}
