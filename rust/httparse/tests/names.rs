//! Every name of httparse is passed on, under the version that crates ask for.

use httparse::{
    parse_chunk_size, parse_headers, Error, Header, InvalidChunkSize, ParserConfig, Request,
    Response, Result, Status, EMPTY_HEADER,
};

#[test]
fn each_name_is_headreaders() {
    let mut headers: [Header; 1] = [EMPTY_HEADER];
    let read: Result<usize> = Request::new(&mut headers).parse(b"A b HTTP/1.1\n\n");
    assert_eq!(
        read,
        headreader::Result::Ok(headreader::Status::Complete(14))
    );
    let mut response = Response::new(&mut headers);
    let read = ParserConfig::default().parse_response(&mut response, b"HTTP/2");
    assert_eq!(read, Err(Error::Version));
    assert_eq!(parse_headers(b"A", &mut headers), Ok(Status::Partial));
    assert_eq!(parse_chunk_size(b"g"), Err(InvalidChunkSize));
}

#[test]
fn the_version_is_httparses() {
    assert_eq!(env!("CARGO_PKG_VERSION"), "1.10.1");
}
