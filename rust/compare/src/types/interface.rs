//! httparse's public interface by name and type: compiled once for each library, so that each has
//! it.

use super::library::{
    parse_chunk_size, parse_headers, Error, Header, InvalidChunkSize, ParserConfig, Request,
    Response, Result, Status, EMPTY_HEADER,
};
use std::error;
use std::fmt::{Debug, Display};
use std::mem::MaybeUninit;

/// Headers that are lent without being there yet.
type Uninit<'headers, 'buf> = &'headers mut [MaybeUninit<Header<'buf>>];

const _: fn() = functions;

/// Every function has its type, with the lifetimes that callers rely on.
#[allow(clippy::type_complexity)]
fn functions<'h, 'b: 'h>() {
    let _: fn(&'h mut [Header<'b>]) -> Request<'h, 'b> = Request::new;
    let _: fn(&mut Request<'h, 'b>, &'b [u8]) -> Result<usize> = Request::parse;
    let _: fn(&mut Request<'h, 'b>, &'b [u8], Uninit<'h, 'b>) -> Result<usize> =
        Request::parse_with_uninit_headers;
    let _: fn(&'h mut [Header<'b>]) -> Response<'h, 'b> = Response::new;
    let _: fn(&mut Response<'h, 'b>, &'b [u8]) -> Result<usize> = Response::parse;
    let _: fn(&ParserConfig, &mut Request<'_, 'b>, &'b [u8]) -> Result<usize> =
        ParserConfig::parse_request;
    let _: fn(&ParserConfig, &mut Request<'h, 'b>, &'b [u8], Uninit<'h, 'b>) -> Result<usize> =
        ParserConfig::parse_request_with_uninit_headers;
    let _: fn(&ParserConfig, &mut Response<'_, 'b>, &'b [u8]) -> Result<usize> =
        ParserConfig::parse_response;
    let _: fn(&ParserConfig, &mut Response<'h, 'b>, &'b [u8], Uninit<'h, 'b>) -> Result<usize> =
        ParserConfig::parse_response_with_uninit_headers;
    let _: fn(&'b [u8], &'h mut [Header<'b>]) -> Result<(usize, &'h [Header<'b>])> =
        parse_headers::<'b, 'h>;
    let _: fn(&[u8]) -> std::result::Result<Status<(usize, u64)>, InvalidChunkSize> =
        parse_chunk_size;
    let _: fn(&Status<u8>) -> bool = Status::is_complete;
    let _: fn(&Status<u8>) -> bool = Status::is_partial;
    let _: fn(Status<u8>) -> u8 = Status::unwrap;
}

/// What sets each of the settings.
const SETTERS: [fn(&mut ParserConfig, bool) -> &mut ParserConfig; 7] = [
    ParserConfig::allow_spaces_after_header_name_in_responses,
    ParserConfig::allow_obsolete_multiline_headers_in_responses,
    ParserConfig::allow_multiple_spaces_in_request_line_delimiters,
    ParserConfig::allow_multiple_spaces_in_response_status_delimiters,
    ParserConfig::allow_space_before_first_header_name,
    ParserConfig::ignore_invalid_headers_in_responses,
    ParserConfig::ignore_invalid_headers_in_requests,
];

/// What asks for some of them; the others can't be asked for.
const GETTERS: [fn(&ParserConfig) -> bool; 4] = [
    ParserConfig::obsolete_multiline_headers_in_responses_are_allowed,
    ParserConfig::multiple_spaces_in_request_line_delimiters_are_allowed,
    ParserConfig::multiple_spaces_in_response_status_delimiters_are_allowed,
    ParserConfig::space_before_first_header_name_are_allowed,
];

const _: fn() = traits;

/// Every type has its traits.
fn traits() {
    fn is_copied<T: Copy + Eq + Debug + Send + Sync>() {}
    is_copied::<Error>();
    is_copied::<Header>();
    is_copied::<Status<u8>>();
    fn is_compared<T: Eq + Debug + Send + Sync>() {}
    is_compared::<Request>();
    is_compared::<Response>();
    is_compared::<InvalidChunkSize>();
    fn is_chosen<T: Clone + Default + Debug + Send + Sync>() {}
    is_chosen::<ParserConfig>();
    fn is_error<T: error::Error>() {}
    is_error::<Error>();
    fn is_told<T: Display>() {}
    is_told::<InvalidChunkSize>();
}

const _: for<'h, 'b> fn(Request<'h, 'b>, Response<'h, 'b>, Header<'b>) = fields;

/// These are all of the fields.
fn fields<'h, 'b>(request: Request<'h, 'b>, response: Response<'h, 'b>, header: Header<'b>) {
    let Request {
        method,
        path,
        version,
        headers,
    } = request;
    let _: (Option<&'b str>, Option<&'b str>, Option<u8>) = (method, path, version);
    let _: &'h mut [Header<'b>] = headers;
    let Response {
        version,
        code,
        reason,
        headers,
    } = response;
    let _: (Option<u8>, Option<u16>, Option<&'b str>) = (version, code, reason);
    let _: &'h mut [Header<'b>] = headers;
    let Header { name, value } = header;
    let _: (&'b str, &'b [u8]) = (name, value);
}

const ERRORS: [Error; 7] = [
    Error::HeaderName,
    Error::HeaderValue,
    Error::NewLine,
    Error::Status,
    Error::Token,
    Error::TooManyHeaders,
    Error::Version,
];

// There is no eighth error.
const _: fn(Error) = |error| match error {
    Error::HeaderName | Error::HeaderValue | Error::NewLine | Error::Status => (),
    Error::Token | Error::TooManyHeaders | Error::Version => (),
};

/// What the compiler calls one of the types, the library's name first.
#[cfg(test)]
pub fn name() -> &'static str {
    std::any::type_name::<Request>()
}

/// All that is shown or said of what does not depend on an input.
pub fn texts() -> Vec<String> {
    let mut texts: Vec<String> = ERRORS.iter().map(error_texts).collect();
    texts.push(format!("{InvalidChunkSize:?}, {InvalidChunkSize:>30}"));
    texts.push(format!("{:?}, {EMPTY_HEADER:?}", ParserConfig::default()));
    texts.extend(SETTERS.iter().map(|&set| setting_texts(set)));
    texts.push(format!("{:?}", [Status::Complete(1), Status::Partial]));
    for value in [&b"a \"b\"\t"[..], "\u{20ac}".as_bytes(), b"\xff\"", b""] {
        let header = Header { name: "A", value };
        texts.push(format!("{header:?}, {header:#?}"));
    }
    texts
}

/// What is shown and answered of the settings with one of them on, and off again.
fn setting_texts(set: fn(&mut ParserConfig, bool) -> &mut ParserConfig) -> String {
    let mut config = ParserConfig::default();
    let [on, off] = [true, false].map(|value| {
        set(&mut config, value);
        format!(
            "{config:?}, {:?}",
            GETTERS.map(|is_allowed| is_allowed(&config))
        )
    });
    format!("{on}, {off}")
}

#[allow(deprecated)]
fn error_texts(error: &Error) -> String {
    let description = error::Error::description(error);
    format!("{error:?}, {error}, {error:>30}, {description}")
}

#[cfg(test)]
mod tests {
    use super::*;

    #[test]
    #[should_panic(expected = "Tried to unwrap Status::Partial")]
    fn what_is_partial_has_nothing_to_unwrap() {
        Status::<u8>::Partial.unwrap();
    }
}
