//! The seven errors, and how a status is asked.

use headreader::{Error, ParserConfig, Request, Response, Status};

#[test]
fn each_error() {
    for (head, error) in [
        (&b"GET / HTTP/1.1\nA b: c\n\n"[..], Error::HeaderName),
        (b"GET / HTTP/1.1\nA: \0\n\n", Error::HeaderValue),
        (b"GET / HTTP/1.1\rA", Error::NewLine),
        (b"GET /\t", Error::Token),
        (b"GET / HTTP/1.1\nA: b\n", Error::TooManyHeaders),
        (b"GET / HTTP/2.0", Error::Version),
    ] {
        assert_eq!(Request::new(&mut []).parse(head), Err(error));
    }
    let read = Response::new(&mut []).parse(b"HTTP/1.1 2000");
    assert_eq!(read, Err(Error::Status));
}

#[test]
fn an_error_for_people() {
    let error: Box<dyn std::error::Error> = Box::new(Error::HeaderName);
    assert_eq!(error.to_string(), "invalid header name");
    assert!(error.source().is_none());
}

#[test]
fn a_status_is_complete_or_partial() {
    let complete = Status::Complete(3);
    assert!(complete.is_complete() && !complete.is_partial());
    assert_eq!(complete.unwrap(), 3);
    let partial = Status::<usize>::Partial;
    assert!(partial.is_partial() && !partial.is_complete());
}

#[test]
#[should_panic(expected = "Tried to unwrap Status::Partial")]
fn what_is_partial_has_nothing_to_unwrap() {
    Status::<usize>::Partial.unwrap();
}

#[test]
fn settings_are_off() {
    let shown = format!("{:?}", ParserConfig::default());
    assert_eq!(shown.matches(": false").count(), 8);
    assert!(!shown.contains("true"));
}
