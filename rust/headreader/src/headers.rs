//! Headers alone, such as those behind a chunked body.

use crate::library::{self, Answer};
use crate::{Header, Result, Status};

/// Reads the headers that the buffer begins with, up to the empty line behind them, and tells how
/// many bytes they have and which they are.
///
/// On an error or [`Status::Partial`] the first of the lent headers are those read by then, and the
/// others what they were before.
///
/// ```
/// use headreader::{parse_headers, Header, Status, EMPTY_HEADER};
///
/// let mut headers = [EMPTY_HEADER; 4];
/// let date = Header { name: "Date", value: b"today" };
/// let read = parse_headers(b"Date: today\r\n\r\nmore", &mut headers);
/// assert_eq!(read, Ok(Status::Complete((15, &[date][..]))));
/// ```
///
/// Where an error lies tells [`headers_error_position`](crate::headers_error_position).
#[inline]
pub fn parse_headers<'b: 'h, 'h>(
    src: &'b [u8],
    dst: &'h mut [Header<'b>],
) -> Result<(usize, &'h [Header<'b>])> {
    let Answer {
        result, headers, ..
    } = library::headers(src, dst.into());
    match result.map_err(|fault| fault.error)? {
        Status::Complete(end) => Ok(Status::Complete((end, headers))),
        Status::Partial => Ok(Status::Partial),
    }
}
