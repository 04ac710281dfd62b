//! Targets that must be plain ASCII: the setting on and off, in every way to read with settings.

use headreader::{Error, Header, ParserConfig, Request, Response, Result, Status};
use std::mem::MaybeUninit;

/// A head whose target is UTF-8 beyond ASCII.
const HEAD: &[u8] = "\r\nPUT /caf\u{e9}/ HTTP/1.1\r\nHost: a\r\n\r\n".as_bytes();

/// Where the first byte from 0x80 on stands.
const BEYOND: usize = 10;

/// What a slot holds that nobody wrote to.
const UNTOUCHED: Header = Header {
    name: "untouched",
    value: b"untouched",
};

fn with_ascii_targets() -> ParserConfig {
    let mut config = ParserConfig::default();
    config.ascii_targets(true);
    config
}

/// Reads with the setting, and checks that no header is touched and that nothing is known but the
/// method, if that.
fn read_line(head: &[u8], method: Option<&str>) -> Result<usize> {
    let mut headers = [UNTOUCHED; 2];
    let mut request = Request::new(&mut headers);
    let read = with_ascii_targets().parse_request(&mut request, head);
    assert_eq!((request.method, request.path), (method, None));
    assert_eq!(request.version, None);
    assert_eq!(request.headers, [UNTOUCHED; 2]);
    read
}

#[test]
fn the_setting_is_off_until_it_is_set() {
    let mut config = ParserConfig::default();
    assert!(!config.targets_are_ascii());
    assert!(config.ascii_targets(true).targets_are_ascii());
    assert!(config.clone().targets_are_ascii());
    assert!(!config.ascii_targets(false).targets_are_ascii());
    let mut request = Request::new(&mut []);
    assert_eq!(
        config.parse_request(&mut request, b"A \xc3\xa9 "),
        Ok(Status::Partial)
    );
    assert_eq!(request.path, Some("\u{e9}"));
}

#[test]
fn a_byte_beyond_ascii_is_refused_at_once() {
    assert_eq!(read_line(&HEAD[..BEYOND], Some("PUT")), Ok(Status::Partial));
    for end in BEYOND + 1..=HEAD.len() {
        assert_eq!(read_line(&HEAD[..end], Some("PUT")), Err(Error::Token));
    }
}

#[test]
fn each_byte_of_a_target() {
    for byte in (0..=255).filter(|&byte| byte != b' ') {
        let expected = match byte {
            0x21..=0x7e => Ok(Status::Partial),
            _ => Err(Error::Token),
        };
        for before in [&b""[..], b"/", &[b'a'; 40]] {
            let head = [b"GET ", before, &[byte]].concat();
            assert_eq!(read_line(&head, Some("GET")), expected);
        }
    }
}

#[test]
fn a_byte_beyond_ascii_in_the_method_is_what_it_was() {
    assert_eq!(read_line(b"GE", None), Ok(Status::Partial));
    assert_eq!(read_line(b"GE\xc3\xa9", None), Err(Error::Token));
}

#[test]
fn memory_with_no_headers_in_it() {
    let mut headers = [UNTOUCHED; 1];
    let mut lent = [MaybeUninit::new(UNTOUCHED); 2];
    let mut request = Request::new(&mut headers);
    let config = with_ascii_targets();
    let read = config.parse_request_with_uninit_headers(&mut request, HEAD, &mut lent);
    assert_eq!(read, Err(Error::Token));
    assert_eq!((request.method, request.path), (Some("PUT"), None));
    assert_eq!(request.headers, [UNTOUCHED]);
    // SAFETY: all slots held a header before the call.
    let lent = lent.map(|slot| unsafe { slot.assume_init() });
    assert_eq!(lent, [UNTOUCHED; 2]);
}

#[test]
fn without_settings_nothing_has_changed() {
    let mut headers = [UNTOUCHED; 2];
    let mut request = Request::new(&mut headers);
    assert_eq!(request.parse(HEAD), Ok(Status::Complete(HEAD.len())));
    assert_eq!(request.path, Some("/caf\u{e9}/"));
    let mut lent = [const { MaybeUninit::uninit() }; 2];
    let read = request.parse_with_uninit_headers(HEAD, &mut lent);
    assert_eq!(read, Ok(Status::Complete(HEAD.len())));
    assert_eq!(request.parse(b"GET /\xff"), Ok(Status::Partial));
    assert_eq!(request.parse(b"GET /\xff "), Err(Error::Token));
}

#[test]
fn plain_targets_are_read_as_ever() {
    let head = b"GET /!~ HTTP/1.0\nA: caf\xc3\xa9\n\n\xff";
    let (mut ours, mut usual) = ([UNTOUCHED; 2], [UNTOUCHED; 2]);
    let mut request = Request::new(&mut ours);
    let read = with_ascii_targets().parse_request(&mut request, head);
    let mut by_default = Request::new(&mut usual);
    assert_eq!(read, by_default.parse(head));
    assert_eq!(read, Ok(Status::Complete(head.len() - 1)));
    assert_eq!(request, by_default);
    assert_eq!(request.headers[0].value, "caf\u{e9}".as_bytes());
}

#[test]
fn a_response_is_read_as_ever() {
    let head = b"HTTP/1.1 200 caf\xc3\xa9\r\nA: \xff\r\n\r\n";
    let mut headers = [UNTOUCHED; 2];
    let mut response = Response::new(&mut headers);
    let config = with_ascii_targets();
    let read = config.parse_response(&mut response, head);
    assert_eq!(read, Ok(Status::Complete(head.len())));
    assert_eq!((response.code, response.reason), (Some(200), Some("")));
    let mut lent = [const { MaybeUninit::uninit() }; 2];
    let read = config.parse_response_with_uninit_headers(&mut response, head, &mut lent);
    assert_eq!(read, Ok(Status::Complete(head.len())));
    assert_eq!(response.headers[0].value, b"\xff");
}
