//! A caller that looks at all that it gets; compiled once for each library.

use super::config;
use super::library::{self, Header, ParserConfig, Request, Response, Status};
use crate::types::seen::{
    place, Ended, Line, Place, Seen, Way, OTHER_REQUEST, OTHER_RESPONSE, UNTOUCHED,
};
use crate::Case;
use answers::bits;
use answers::Call;
use std::fmt::{Debug, Display};
use std::mem::MaybeUninit;

/// Reads a case in one way, with one slot more than are lent: nobody may touch that.
pub fn call(case: &Case, way: Way) -> Seen {
    let untouched = Header {
        name: UNTOUCHED,
        value: UNTOUCHED.as_bytes(),
    };
    let mut memory = vec![untouched; case.slots + 1];
    let seen = match case.call {
        Call::Request => request(case, way, &mut memory),
        Call::Response => response(case, way, &mut memory),
        Call::Headers => headers(case, &mut memory),
        Call::ChunkSize => chunk_size(case.input),
    };
    let start = case.input.as_ptr();
    let slot = |header: &Header| [text(start, header.name), place(start, header.value)];
    Seen {
        slots: memory.iter().map(slot).collect(),
        ..seen
    }
}

/// The settings of a case that httparse has.
pub fn usual(case: &Case) -> ParserConfig {
    let mut config = ParserConfig::default();
    config
        .allow_spaces_after_header_name_in_responses(case.has(bits::SPACES_AFTER_HEADER_NAME))
        .allow_obsolete_multiline_headers_in_responses(case.has(bits::MULTILINE_HEADERS))
        .allow_multiple_spaces_in_request_line_delimiters(case.has(bits::SPACES_IN_REQUEST_LINE))
        .allow_multiple_spaces_in_response_status_delimiters(case.has(bits::SPACES_IN_STATUS_LINE))
        .allow_space_before_first_header_name(case.has(bits::SPACE_BEFORE_FIRST_HEADER_NAME))
        .ignore_invalid_headers_in_responses(case.has(bits::IGNORE_INVALID_HEADERS_IN_RESPONSES))
        .ignore_invalid_headers_in_requests(case.has(bits::IGNORE_INVALID_HEADERS_IN_REQUESTS));
    config
}

fn request<'input>(case: &Case<'input>, way: Way, memory: &mut [Header<'input>]) -> Seen {
    let (input, start) = (case.input, case.input.as_ptr());
    let first = memory.as_ptr();
    let (own, rest) = memory.split_at_mut(way.own_slots(case.slots));
    let lent = uninit(rest);
    let config = config(case);
    let mut request = Request::new(own);
    let results = match way {
        Way::Alone => vec![request.parse(input)],
        Way::Settings => vec![config.parse_request(&mut request, input)],
        Way::Uninit => vec![request.parse_with_uninit_headers(input, lent)],
        Way::SettingsUninit => {
            vec![config.parse_request_with_uninit_headers(&mut request, input, lent)]
        }
        Way::After => vec![request.parse(OTHER_REQUEST), request.parse(input)],
        Way::Before => vec![request.parse(input), request.parse(OTHER_REQUEST)],
        Way::UninitBefore => vec![
            request.parse_with_uninit_headers(input, lent),
            request.parse(OTHER_REQUEST),
        ],
    };
    Seen {
        ended: results.into_iter().map(ended).collect(),
        line: Line {
            method: request.method.map(|method| text(start, method)),
            path: request.path.map(|path| text(start, path)),
            version: request.version,
            ..Line::default()
        },
        list: Some(place(first, request.headers)),
        shown: shown(&request, way),
        ..Seen::default()
    }
}

fn response<'input>(case: &Case<'input>, way: Way, memory: &mut [Header<'input>]) -> Seen {
    let (input, start) = (case.input, case.input.as_ptr());
    let first = memory.as_ptr();
    let (own, rest) = memory.split_at_mut(way.own_slots(case.slots));
    let lent = uninit(rest);
    let config = config(case);
    let mut response = Response::new(own);
    let results = match way {
        Way::Alone => vec![response.parse(input)],
        Way::Settings => vec![config.parse_response(&mut response, input)],
        Way::Uninit | Way::SettingsUninit => {
            vec![config.parse_response_with_uninit_headers(&mut response, input, lent)]
        }
        Way::After => vec![response.parse(OTHER_RESPONSE), response.parse(input)],
        Way::Before => vec![response.parse(input), response.parse(OTHER_RESPONSE)],
        Way::UninitBefore => vec![
            config.parse_response_with_uninit_headers(&mut response, input, lent),
            response.parse(OTHER_RESPONSE),
        ],
    };
    Seen {
        ended: results.into_iter().map(ended).collect(),
        line: Line {
            version: response.version,
            code: response.code,
            reason: response.reason.map(|reason| words(start, reason)),
            ..Line::default()
        },
        list: Some(place(first, response.headers)),
        shown: shown(&response, way),
        ..Seen::default()
    }
}

fn headers<'input>(case: &Case<'input>, memory: &mut [Header<'input>]) -> Seen {
    let first = memory.as_ptr();
    let result = library::parse_headers(case.input, &mut memory[..case.slots]);
    let shown = format!("{result:?}");
    let (ended, list) = match result {
        Ok(Status::Complete((end, list))) => (Ended::Complete(end), Some(place(first, list))),
        Ok(Status::Partial) => (Ended::Partial, None),
        Err(error) => (refused(error), None),
    };
    Seen {
        ended: vec![ended],
        list,
        shown,
        ..Seen::default()
    }
}

fn chunk_size(input: &[u8]) -> Seen {
    let result = library::parse_chunk_size(input);
    let shown = format!("{result:?}");
    let (ended, size) = match result {
        Ok(Status::Complete((end, size))) => (Ended::Complete(end), Some(size)),
        Ok(Status::Partial) => (Ended::Partial, None),
        Err(error) => (refused(error), None),
    };
    Seen {
        ended: vec![ended],
        size,
        shown,
        ..Seen::default()
    }
}

/// The same memory for a library that need not find headers in it.
fn uninit<'lent, 'input>(
    headers: &'lent mut [Header<'input>],
) -> &'lent mut [MaybeUninit<Header<'input>>] {
    let lent: *mut [Header<'input>] = headers;
    // SAFETY: the two have the same layout, and a library writes nothing but headers.
    unsafe { &mut *(lent as *mut [MaybeUninit<Header<'input>>]) }
}

/// What is shown depends on the fields alone, so one way is enough.
fn shown(message: &impl Debug, way: Way) -> String {
    if way == Way::Alone {
        return format!("{message:?}");
    }
    String::new()
}

fn ended(result: library::Result<usize>) -> Ended {
    match result {
        Ok(Status::Complete(end)) => Ended::Complete(end),
        Ok(Status::Partial) => Ended::Partial,
        Err(error) => refused(error),
    }
}

pub fn refused(error: impl Debug + Display) -> Ended {
    Ended::Error {
        name: format!("{error:?}"),
        text: error.to_string(),
    }
}

fn text(start: *const u8, text: &str) -> Place {
    place(start, text.as_bytes())
}

/// An empty reason may be a constant of httparse, so only one with bytes has a place.
fn words(start: *const u8, reason: &str) -> Place {
    if reason.is_empty() {
        return Place {
            offset: 0,
            length: 0,
        };
    }
    text(start, reason)
}
