//! Where an error lies.

use crate::library::{self, Answer};
use crate::slots::Slots;
use crate::{Error, ParserConfig, EMPTY_HEADER};
use alloc::vec;

/// Where the error lies that [`Request::parse`](crate::Request::parse) answers on these bytes with
/// so many slots for headers: the position of the byte that decided it. `None` if it answers none.
///
/// On the bytes before that position it answers [`Status::Partial`](crate::Status::Partial), and
/// from that byte on this error, whatever follows. Only [`Error::TooManyHeaders`] is no matter of one
/// byte: its position is that of the header that had no slot, of the first byte of its name. On the
/// bytes up to that one and with it the call is partial, with a header in every slot.
///
/// With fewer slots than the call had, that error would come in place of a later one. After an error
/// [`Request::headers`] still has all slots, so its length is their number (after
/// [`Request::parse_with_uninit_headers`] it is the length of what was lent):
///
/// ```
/// use headreader::{request_error_position, Error, Request, EMPTY_HEADER};
///
/// let buf = b"GET /orders HTTP/1.1\r\nHost : a\r\n\r\n";
/// let mut headers = [EMPTY_HEADER; 16];
/// let mut request = Request::new(&mut headers);
/// assert_eq!(request.parse(buf), Err(Error::HeaderName));
/// let position = request_error_position(buf, request.headers.len()).unwrap();
/// assert_eq!(&buf[..position], b"GET /orders HTTP/1.1\r\nHost");
/// assert_eq!(buf[position], b' ');
/// ```
///
/// A parser with settings has
/// [a function of its own](ParserConfig::request_error_position).
///
/// [`Request::headers`]: crate::Request::headers
/// [`Request::parse_with_uninit_headers`]: crate::Request::parse_with_uninit_headers
pub fn request_error_position(buf: &[u8], slots: usize) -> Option<usize> {
    ParserConfig::default().request_error_position(buf, slots)
}

/// Where the error lies that [`Response::parse`](crate::Response::parse) answers on these bytes with
/// so many slots for headers, as [`request_error_position`] tells it of a request.
///
/// ```
/// use headreader::{response_error_position, Error, Response, EMPTY_HEADER};
///
/// let buf = b"HTTP/1.1 2OO OK\r\n\r\n";
/// let mut headers = [EMPTY_HEADER; 16];
/// let mut response = Response::new(&mut headers);
/// assert_eq!(response.parse(buf), Err(Error::Status));
/// assert_eq!(response_error_position(buf, response.headers.len()), Some(10));
/// ```
pub fn response_error_position(buf: &[u8], slots: usize) -> Option<usize> {
    ParserConfig::default().response_error_position(buf, slots)
}

/// Where the error lies that [`parse_headers`](crate::parse_headers) answers on these bytes with so
/// many slots for headers, as [`request_error_position`] tells it of a request.
///
/// ```
/// use headreader::{headers_error_position, parse_headers, Error, EMPTY_HEADER};
///
/// let buf = b"A: 1\r\nB: 2\r\nC: 3\r\n\r\n";
/// let mut headers = [EMPTY_HEADER; 2];
/// assert_eq!(parse_headers(buf, &mut headers), Err(Error::TooManyHeaders));
/// let position = headers_error_position(buf, headers.len()).unwrap();
/// assert_eq!(&buf[position..], b"C: 3\r\n\r\n");
/// ```
pub fn headers_error_position(buf: &[u8], slots: usize) -> Option<usize> {
    in_head(buf.len(), slots, |slots| library::headers(buf, slots))
}

/// Where the error lies that [`parse_chunk_size`](crate::parse_chunk_size) answers on these bytes:
/// the position of the byte that decided it. `None` if it answers none.
///
/// ```
/// use headreader::{chunk_size_error_position, parse_chunk_size, InvalidChunkSize};
///
/// assert_eq!(parse_chunk_size(b"1f,3\r\n"), Err(InvalidChunkSize));
/// assert_eq!(chunk_size_error_position(b"1f,3\r\n"), Some(2));
/// ```
pub fn chunk_size_error_position(buf: &[u8]) -> Option<usize> {
    library::chunk_size(buf).err()
}

/// How many slots there are without memory from the heap: more headers are rare.
const FEW: usize = 64;

/// The bytes of the shortest header: a name of one byte, the colon and LF.
const SHORTEST: usize = 3;

/// Where the error of a head lies that is read from so many bytes with so many slots.
pub(crate) fn in_head<'buf, Line>(
    length: usize,
    slots: usize,
    read: impl for<'lent> Fn(Slots<'lent, 'buf>) -> Answer<'lent, 'buf, Line>,
) -> Option<usize> {
    let mut few = [EMPTY_HEADER; FEW];
    let lent = &mut few[..slots.min(FEW)];
    let fault = read(lent.into()).result.err()?;
    if fault.error != Error::TooManyHeaders || slots <= FEW {
        return Some(fault.position);
    }
    // So many bytes have no more headers, so more slots would change nothing.
    let mut enough = vec![EMPTY_HEADER; slots.min(length / SHORTEST)];
    let fault = read(enough[..].as_mut().into()).result.err()?;
    Some(fault.position)
}
