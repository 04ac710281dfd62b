//! The proved code by its C functions, and what their numbers mean.
//!
//! Each function is proved to tell the answer of one call of the crate `calls`. Every `unsafe` here
//! and in `slots` rests on what that call promises, whatever it answers: `inside`, `fields`, `within`
//! and `untouched` (`docs/PROVED.md`).

use crate::slots::Slots;
use crate::{piece, Error, Header, Status};

/// The numbers that every call writes.
type Out = [usize; 8];

// What is `uint64_t` in C is `usize` here: they are the same where pointers have 64 bits.
extern "C" {
    fn hr_request(
        buffer: *const u8,
        length: usize,
        slots: *mut usize,
        room: usize,
        out: *mut Out,
        settings: u32,
    ) -> u32;
    fn hr_response(
        buffer: *const u8,
        length: usize,
        slots: *mut usize,
        room: usize,
        out: *mut Out,
        settings: u32,
    ) -> u32;
    fn hr_headers(
        buffer: *const u8,
        length: usize,
        slots: *mut usize,
        room: usize,
        out: *mut Out,
    ) -> u32;
    fn hr_chunk_size(buffer: *const u8, length: usize, out: *mut Out) -> u32;
}

/// The bits of the settings; with none of them all are off.
pub const SPACES_AFTER_HEADER_NAME: u32 = 1;
pub const MULTILINE_HEADERS: u32 = 2;
pub const SPACES_IN_REQUEST_LINE: u32 = 4;
pub const SPACES_IN_STATUS_LINE: u32 = 8;
pub const SPACE_BEFORE_FIRST_HEADER_NAME: u32 = 16;
pub const IGNORE_INVALID_HEADERS_IN_RESPONSES: u32 = 32;
pub const IGNORE_INVALID_HEADERS_IN_REQUESTS: u32 = 64;
pub const ASCII_TARGETS: u32 = 128;

/// The bits of the fields that are known.
const METHOD: usize = 1;
const TARGET: usize = 2;
const VERSION: usize = 4;
const CODE: usize = 8;
const REASON: usize = 16;

/// An error, and where it lies.
pub struct Fault {
    pub error: Error,
    pub position: usize,
}

/// What a call answers: how it ended, what is known of the start line by then, and the headers
/// given by then.
pub struct Answer<'lent, 'buf, Line> {
    pub result: Result<Status<usize>, Fault>,
    pub line: Line,
    pub headers: &'lent mut [Header<'buf>],
}

/// What is known of a request's start line.
pub struct RequestLine<'buf> {
    pub method: Option<&'buf str>,
    pub target: Option<&'buf str>,
    pub version: Option<u8>,
}

/// What is known of a response's start line.
pub struct StatusLine<'buf> {
    pub version: Option<u8>,
    pub code: Option<u16>,
    pub reason: Option<&'buf str>,
}

/// Reads the head of a request under settings, which are told by their bits.
#[inline]
pub fn request<'lent, 'buf>(
    buffer: &'buf [u8],
    slots: Slots<'lent, 'buf>,
    settings: u32,
) -> Answer<'lent, 'buf, RequestLine<'buf>> {
    let (start, length) = (buffer.as_ptr(), buffer.len());
    let (numbers, room) = (slots.numbers(), slots.room());
    let mut out = Out::default();
    // SAFETY: the call demands nothing but that each pointer is to as many numbers as are said,
    // eight for `out`, and that what it writes is lent to it alone; what the slots hold does not
    // matter to it, and by `untouched` it is kept in those not given.
    let kind = unsafe { hr_request(start, length, numbers, room, &mut out, settings) };
    let [place, given, known, method, method_length, target, target_length, version] = out;
    // SAFETY: that call was lent these slots and this buffer, and nothing has touched the slots
    // since.
    let headers = unsafe { slots.into_headers(given, buffer) };
    // SAFETY: by `inside` a known method lies in the buffer and is a `token`, so it is ASCII.
    let method =
        is_in(known, METHOD).then(|| unsafe { piece::text(buffer, method, method_length) });
    // SAFETY: by `inside` a known target lies in the buffer and is a `request-target`, which is
    // visible ASCII or else UTF-8, whatever the settings.
    let target =
        is_in(known, TARGET).then(|| unsafe { piece::text(buffer, target, target_length) });
    let version = is_in(known, VERSION).then_some(version as u8);
    Answer {
        result: result(kind, place),
        line: RequestLine {
            method,
            target,
            version,
        },
        headers,
    }
}

/// Reads the head of a response under settings, which are told by their bits.
#[inline]
pub fn response<'lent, 'buf>(
    buffer: &'buf [u8],
    slots: Slots<'lent, 'buf>,
    settings: u32,
) -> Answer<'lent, 'buf, StatusLine<'buf>> {
    let (start, length) = (buffer.as_ptr(), buffer.len());
    let (numbers, room) = (slots.numbers(), slots.room());
    let mut out = Out::default();
    // SAFETY: as for a request.
    let kind = unsafe { hr_response(start, length, numbers, room, &mut out, settings) };
    let [place, given, known, version, code, reason, reason_length, _] = out;
    // SAFETY: that call was lent these slots and this buffer, and nothing has touched the slots
    // since.
    let headers = unsafe { slots.into_headers(given, buffer) };
    let version = is_in(known, VERSION).then_some(version as u8);
    let code = is_in(known, CODE).then_some(code as u16);
    // SAFETY: by `inside` a known reason lies in the buffer (an empty one is told as 0 bytes at 0)
    // and is `plain-text`, so it is ASCII.
    let reason =
        is_in(known, REASON).then(|| unsafe { piece::text(buffer, reason, reason_length) });
    Answer {
        result: result(kind, place),
        line: StatusLine {
            version,
            code,
            reason,
        },
        headers,
    }
}

/// Reads headers alone.
#[inline]
pub fn headers<'lent, 'buf>(
    buffer: &'buf [u8],
    slots: Slots<'lent, 'buf>,
) -> Answer<'lent, 'buf, ()> {
    let (start, length) = (buffer.as_ptr(), buffer.len());
    let mut out = Out::default();
    // SAFETY: as for a request.
    let kind = unsafe { hr_headers(start, length, slots.numbers(), slots.room(), &mut out) };
    let [place, given, ..] = out;
    Answer {
        // SAFETY: that call was lent these slots and this buffer, and nothing has touched the slots
        // since.
        headers: unsafe { slots.into_headers(given, buffer) },
        line: (),
        result: result(kind, place),
    }
}

/// Reads a chunk size line; its one error is told by where it lies.
#[inline]
pub fn chunk_size(buffer: &[u8]) -> Result<Status<(usize, u64)>, usize> {
    let mut out = Out::default();
    // SAFETY: as for a request, but that nothing is lent.
    let kind = unsafe { hr_chunk_size(buffer.as_ptr(), buffer.len(), &mut out) };
    let [place, size, ..] = out;
    match kind {
        0 => Ok(Status::Complete((place, size as u64))),
        1 => Ok(Status::Partial),
        9 => Err(place),
        _ => unreachable!("no chunk size line is answered with {kind}"),
    }
}

fn is_in(known: usize, field: usize) -> bool {
    known & field != 0
}

/// How a head ended: the place is its end where it is complete, and the position of an error.
fn result(kind: u32, place: usize) -> Result<Status<usize>, Fault> {
    let error = match kind {
        0 => return Ok(Status::Complete(place)),
        1 => return Ok(Status::Partial),
        2 => Error::HeaderName,
        3 => Error::HeaderValue,
        4 => Error::NewLine,
        5 => Error::Status,
        6 => Error::Token,
        7 => Error::TooManyHeaders,
        8 => Error::Version,
        _ => unreachable!("no head is answered with {kind}"),
    };
    Err(Fault {
        error,
        position: place,
    })
}
