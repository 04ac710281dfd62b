//! What may stand between a header's name and its colon: each of the 256 bytes there.

use headreader::{Error, Header, ParserConfig, Request, Response, Status, EMPTY_HEADER};

/// A header's name and value, or the position of the byte that is refused.
type Answer = Result<(String, Vec<u8>), usize>;

/// What sets that lines which are no headers are passed over, in one kind of head.
type Ignore = fn(&mut ParserConfig, bool) -> &mut ParserConfig;

const IN_REQUESTS: Ignore = ParserConfig::ignore_invalid_headers_in_requests;
const IN_RESPONSES: Ignore = ParserConfig::ignore_invalid_headers_in_responses;

/// The setting, spaces after names allowed or not, alone and with all others under which a wrong byte is
/// an error, so that lines are passed over in the other kind of head only.
fn alone_and_with_others(allowed: bool, in_other_kind: Ignore) -> [ParserConfig; 2] {
    let mut alone = ParserConfig::default();
    alone.allow_spaces_after_header_name_in_responses(allowed);
    let mut with_others = alone.clone();
    with_others
        .allow_obsolete_multiline_headers_in_responses(true)
        .allow_multiple_spaces_in_request_line_delimiters(true)
        .allow_multiple_spaces_in_response_status_delimiters(true)
        .allow_space_before_first_header_name(true)
        .ascii_targets(true);
    in_other_kind(&mut with_others, true);
    [alone, with_others]
}

fn response(config: &ParserConfig, head: &[u8]) -> Answer {
    let mut headers = [EMPTY_HEADER; 2];
    let mut response = Response::new(&mut headers);
    let read = config.parse_response(&mut response, head);
    let position = config.response_error_position(head, 2);
    answer(head, read, response.headers, position)
}

fn request(config: &ParserConfig, head: &[u8]) -> Answer {
    let mut headers = [EMPTY_HEADER; 2];
    let mut request = Request::new(&mut headers);
    let read = config.parse_request(&mut request, head);
    let position = config.request_error_position(head, 2);
    answer(head, read, request.headers, position)
}

/// Nothing but a whole head with one header is accepted, and nothing is given of one that is refused.
fn answer(
    head: &[u8],
    read: headreader::Result<usize>,
    headers: &[Header],
    position: Option<usize>,
) -> Answer {
    if let Some(position) = position {
        assert_eq!(read, Err(Error::HeaderName));
        assert_eq!(headers, [EMPTY_HEADER; 2]);
        return Err(position);
    }
    assert_eq!(read, Ok(Status::Complete(head.len())));
    assert_eq!(headers.len(), 1);
    Ok((headers[0].name.to_string(), headers[0].value.to_vec()))
}

fn is_token(byte: u8) -> bool {
    byte.is_ascii_alphanumeric() || b"!#$%&'*+-.^_`|~".contains(&byte)
}

/// What is right of a byte behind a name, or behind its blanks, with a colon and a value behind the byte;
/// a position is counted from the name.
fn expected(behind: &str, byte: u8, allowed: bool) -> Answer {
    let name = behind.trim_end();
    let given = |name: &str, value: &str| Ok((name.to_string(), value.into()));
    match byte {
        _ if name != behind && !allowed => Err(name.len()),
        b':' => given(name, ": value"),
        b' ' | b'\t' if allowed => given(name, "value"),
        _ if name == behind && is_token(byte) => {
            given(&format!("{name}{}", char::from(byte)), "value")
        }
        _ => Err(behind.len()),
    }
}

/// Tries each byte behind a start line and a name, behind a blank there, and behind two.
fn check(start: &str, allowed: bool, read: impl Fn(&[u8]) -> Answer) {
    for behind in ["Name", "Name ", "Name \t"] {
        for byte in 0..=255 {
            let line = [behind.as_bytes(), &[byte], b": value\r\n\r\n"].concat();
            let head = [start.as_bytes(), &line].concat();
            let expected = expected(behind, byte, allowed).map_err(|place| start.len() + place);
            assert_eq!(read(&head), expected, "{}", head.escape_ascii());
            if let Err(position) = expected {
                // What stands behind the byte has no say in it.
                assert_eq!(read(&head[..=position]), expected);
            }
        }
    }
}

#[test]
fn responses_with_spaces_after_names() {
    for config in alone_and_with_others(true, IN_REQUESTS) {
        let read = |head: &[u8]| response(&config, head);
        check("HTTP/1.1 200 OK\r\n", true, read);
    }
}

#[test]
fn responses_without_spaces_after_names() {
    for config in alone_and_with_others(false, IN_REQUESTS) {
        let read = |head: &[u8]| response(&config, head);
        check("HTTP/1.1 200 OK\r\n", false, read);
    }
}

/// The setting is for responses alone.
#[test]
fn requests() {
    let configs = [true, false].map(|allowed| alone_and_with_others(allowed, IN_RESPONSES));
    for config in configs.iter().flatten() {
        let read = |head: &[u8]| request(config, head);
        check("GET / HTTP/1.1\r\n", false, read);
    }
}
