//! Responses.

use crate::library::{self, Answer, StatusLine};
use crate::{Header, ParserConfig, Result};
use core::mem::{self, MaybeUninit};

/// The head of a response, as far as it was read.
///
/// A field is `None` until it was read, as in a [`Request`](crate::Request).
#[derive(Debug, Eq, PartialEq)]
pub struct Response<'headers, 'buf> {
    /// The version's second number, such as `1` for `HTTP/1.1`.
    pub version: Option<u8>,
    /// The code, such as `200`.
    pub code: Option<u16>,
    /// The reason, such as `OK`: empty where there is none, and where one has a byte from 0x80 on.
    pub reason: Option<&'buf str>,
    /// On complete the headers that were read; else all that were lent, of which the first hold the
    /// headers read by then and the others what they held before.
    pub headers: &'headers mut [Header<'buf>],
}

impl<'headers, 'buf> Response<'headers, 'buf> {
    /// A response of which nothing was read yet, with room for so many headers.
    pub fn new(headers: &'headers mut [Header<'buf>]) -> Response<'headers, 'buf> {
        Response {
            version: None,
            code: None,
            reason: None,
            headers,
        }
    }

    /// Reads the head that the buffer begins with, and tells how many bytes it has.
    ///
    /// On complete the list of headers is cut to those read, so a response that is read into again
    /// has no room for more. Where an error lies tells
    /// [`response_error_position`](crate::response_error_position).
    #[inline]
    pub fn parse(&mut self, buf: &'buf [u8]) -> Result<usize> {
        ParserConfig::default().parse_response(self, buf)
    }

    #[inline]
    pub(crate) fn read(&mut self, buffer: &'buf [u8], settings: u32) -> Result<usize> {
        let Answer {
            result,
            line,
            headers,
        } = library::response(buffer, (&mut *self.headers).into(), settings);
        let given = headers.len();
        self.learn(line);
        let status = result.map_err(|fault| fault.error)?;
        if status.is_complete() {
            self.headers = &mut mem::take(&mut self.headers)[..given];
        }
        Ok(status)
    }

    #[inline]
    pub(crate) fn read_into(
        &mut self,
        buffer: &'buf [u8],
        headers: &'headers mut [MaybeUninit<Header<'buf>>],
        settings: u32,
    ) -> Result<usize> {
        let Answer {
            result,
            line,
            headers,
        } = library::response(buffer, headers.into(), settings);
        self.learn(line);
        let status = result.map_err(|fault| fault.error)?;
        if status.is_complete() {
            self.headers = headers;
        }
        Ok(status)
    }

    fn learn(&mut self, line: StatusLine<'buf>) {
        self.version = line.version.or(self.version);
        self.code = line.code.or(self.code);
        self.reason = line.reason.or(self.reason);
    }
}
