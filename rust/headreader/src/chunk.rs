//! The line before a chunk of a body.

use crate::{library, Status};
use core::fmt;

/// A chunk size line that is none.
#[derive(Debug, PartialEq, Eq)]
pub struct InvalidChunkSize;

impl fmt::Display for InvalidChunkSize {
    fn fmt(&self, formatter: &mut fmt::Formatter<'_>) -> fmt::Result {
        formatter.write_str("invalid chunk size")
    }
}

/// Reads the chunk size line that the buffer begins with, and tells how many bytes it has and how
/// many the chunk behind it has.
///
/// ```
/// use headreader::{parse_chunk_size, Status};
///
/// assert_eq!(parse_chunk_size(b"1f;name=value\r\n.."), Ok(Status::Complete((15, 31))));
/// ```
///
/// Where an error lies tells [`chunk_size_error_position`](crate::chunk_size_error_position).
#[inline]
pub fn parse_chunk_size(
    buf: &[u8],
) -> core::result::Result<Status<(usize, u64)>, InvalidChunkSize> {
    library::chunk_size(buf).map_err(|_| InvalidChunkSize)
}
