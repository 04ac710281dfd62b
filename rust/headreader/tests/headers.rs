//! Headers alone.

use headreader::{parse_headers, Error, Header, Status, EMPTY_HEADER};

const BLOCK: &[u8] = b"Host: a\r\nx: \t\r\n\r\nbehind";

const HOST: Header = Header {
    name: "Host",
    value: b"a",
};

/// What a slot holds that nobody wrote to.
const UNTOUCHED: Header = Header {
    name: "untouched",
    value: b"untouched",
};

#[test]
fn a_whole_block() {
    let mut headers = [UNTOUCHED; 3];
    let Ok(Status::Complete((end, list))) = parse_headers(BLOCK, &mut headers) else {
        panic!("a whole block is not complete");
    };
    assert_eq!(end, 17);
    let empty = Header {
        name: "x",
        value: b"",
    };
    assert_eq!(list, [HOST, empty]);
    let place = list[1].value.as_ptr() as usize - BLOCK.as_ptr() as usize;
    assert_eq!(place, 13);
    assert_eq!(headers[2], UNTOUCHED);
}

#[test]
fn a_block_that_is_not_whole() {
    let mut headers = [UNTOUCHED; 3];
    assert_eq!(
        parse_headers(&BLOCK[..16], &mut headers),
        Ok(Status::Partial)
    );
    assert_eq!(headers[0], HOST);
    assert_eq!(headers[1].name, "x");
    assert_eq!(headers[2], UNTOUCHED);
}

#[test]
fn a_block_with_an_error() {
    let mut headers = [UNTOUCHED; 3];
    let read = parse_headers(b"Host: a\nx\n", &mut headers);
    assert_eq!(read, Err(Error::HeaderName));
    assert_eq!(headers, [HOST, UNTOUCHED, UNTOUCHED]);
}

#[test]
fn more_headers_than_slots() {
    let mut headers = [UNTOUCHED; 1];
    let read = parse_headers(BLOCK, &mut headers);
    assert_eq!(read, Err(Error::TooManyHeaders));
    assert_eq!(headers, [HOST]);
}

#[test]
fn no_slots() {
    assert_eq!(
        parse_headers(b"\n", &mut []),
        Ok(Status::Complete((1, &[][..])))
    );
    assert_eq!(parse_headers(BLOCK, &mut []), Err(Error::TooManyHeaders));
}

#[test]
fn no_input() {
    let mut headers = [EMPTY_HEADER; 2];
    assert_eq!(parse_headers(b"", &mut headers), Ok(Status::Partial));
    assert_eq!(headers, [EMPTY_HEADER; 2]);
}
