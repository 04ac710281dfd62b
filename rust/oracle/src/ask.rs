//! The four calls of httparse.

use crate::piece::place;
use crate::{position, slots};
use answers::{Answer, Call, ChunkSize, HeadError, Outcome, Query, Reason, Settings};
use httparse::{Header, ParserConfig, Request, Response, Status};

pub fn request(query: &Query) -> Answer {
    let input = &query.input;
    let mut lent = slots::lend(query.slots);
    let mut request = Request::new(&mut lent);
    let result = config(&query.settings).parse_request(&mut request, input);
    let outcome = outcome(query, result);
    let (method, target, version) = (request.method, request.path, request.version);
    let listed: *const [Header<'_>] = request.headers;
    Answer::Request {
        outcome,
        method: method.map(|text| place(input, text.as_bytes())),
        target: target.map(|text| place(input, text.as_bytes())),
        version,
        slots: slots::left_behind(&lent, listed, outcome, input),
    }
}

pub fn response(query: &Query) -> Answer {
    let input = &query.input;
    let mut lent = slots::lend(query.slots);
    let mut response = Response::new(&mut lent);
    let result = config(&query.settings).parse_response(&mut response, input);
    let outcome = outcome(query, result);
    let (version, code, reason) = (response.version, response.code, response.reason);
    let listed: *const [Header<'_>] = response.headers;
    Answer::Response {
        outcome,
        version,
        code,
        reason: reason.map(|text| reason_in(input, text)),
        slots: slots::left_behind(&lent, listed, outcome, input),
    }
}

pub fn headers(query: &Query) -> Answer {
    let input = &query.input;
    let mut lent = slots::lend(query.slots);
    let all: *const [Header<'_>] = lent.as_slice();
    let (result, listed) = match httparse::parse_headers(input, &mut lent) {
        Ok(Status::Complete((end, list))) => (Ok(Status::Complete(end)), std::ptr::from_ref(list)),
        Ok(Status::Partial) => (Ok(Status::Partial), all),
        Err(error) => (Err(error), all),
    };
    let outcome = outcome(query, result);
    Answer::Headers {
        outcome,
        slots: slots::left_behind(&lent, listed, outcome, input),
    }
}

pub fn chunk_size(query: &Query) -> Answer {
    Answer::ChunkSize(match httparse::parse_chunk_size(&query.input) {
        Ok(Status::Complete((end, size))) => ChunkSize::Complete { end, size },
        Ok(Status::Partial) => ChunkSize::Incomplete,
        Err(httparse::InvalidChunkSize) => ChunkSize::Error {
            position: position::in_chunk_size(&query.input),
        },
    })
}

/// Reads other bytes into other slots than the query's, and tells nothing but how that ended.
pub fn head<'input>(
    query: &Query,
    input: &'input [u8],
    lent: &mut [Header<'input>],
) -> httparse::Result<usize> {
    let config = config(&query.settings);
    match query.call {
        Call::Request => config.parse_request(&mut Request::new(lent), input),
        Call::Response => config.parse_response(&mut Response::new(lent), input),
        Call::Headers => Ok(match httparse::parse_headers(input, lent)? {
            Status::Complete((end, _)) => Status::Complete(end),
            Status::Partial => Status::Partial,
        }),
        Call::ChunkSize => unreachable!("a chunk size line is no head"),
    }
}

fn config(settings: &Settings) -> ParserConfig {
    let mut config = ParserConfig::default();
    config
        .allow_spaces_after_header_name_in_responses(settings.spaces_after_header_name)
        .allow_obsolete_multiline_headers_in_responses(settings.multiline_headers)
        .allow_multiple_spaces_in_request_line_delimiters(settings.multiple_spaces_in_request_line)
        .allow_multiple_spaces_in_response_status_delimiters(
            settings.multiple_spaces_in_status_line,
        )
        .allow_space_before_first_header_name(settings.space_before_first_header_name)
        .ignore_invalid_headers_in_responses(settings.ignore_invalid_headers_in_responses)
        .ignore_invalid_headers_in_requests(settings.ignore_invalid_headers_in_requests);
    config
}

fn outcome(query: &Query, result: httparse::Result<usize>) -> Outcome {
    match result {
        Ok(Status::Complete(end)) => Outcome::Complete(end),
        Ok(Status::Partial) => Outcome::Incomplete,
        Err(error) => Outcome::Error {
            error: head_error(error),
            position: position::in_head(query, error),
        },
    }
}

fn head_error(error: httparse::Error) -> HeadError {
    match error {
        httparse::Error::HeaderName => HeadError::HeaderName,
        httparse::Error::HeaderValue => HeadError::HeaderValue,
        httparse::Error::NewLine => HeadError::NewLine,
        httparse::Error::Status => HeadError::Status,
        httparse::Error::Token => HeadError::Token,
        httparse::Error::TooManyHeaders => HeadError::TooManyHeaders,
        httparse::Error::Version => HeadError::Version,
    }
}

/// An empty reason may be a constant of httparse, so only one with bytes has a place.
fn reason_in(input: &[u8], text: &str) -> Reason {
    if text.is_empty() {
        Reason::Empty
    } else {
        Reason::Words(place(input, text.as_bytes()))
    }
}
