//! Requests.

use crate::library::{self, Answer, RequestLine};
use crate::{Header, ParserConfig, Result};
use core::mem::{self, MaybeUninit};

/// The head of a request, as far as it was read.
///
/// A field is `None` until it was read, and keeps what it has where a later reading does not come
/// so far. So on [`Status::Partial`](crate::Status::Partial) one may look at what is known by then:
///
/// ```
/// let mut headers = [headreader::EMPTY_HEADER; 16];
/// let mut request = headreader::Request::new(&mut headers);
/// assert!(request.parse(b"GET /orders HTT").unwrap().is_partial());
/// assert_eq!(request.path, Some("/orders"));
/// assert_eq!(request.version, None);
/// ```
#[derive(Debug, Eq, PartialEq)]
pub struct Request<'headers, 'buf> {
    /// The method, such as `GET`.
    pub method: Option<&'buf str>,
    /// The target, such as `/orders`.
    pub path: Option<&'buf str>,
    /// The version's second number, such as `1` for `HTTP/1.1`.
    pub version: Option<u8>,
    /// On complete the headers that were read; else all that were lent, of which the first hold the
    /// headers read by then and the others what they held before.
    pub headers: &'headers mut [Header<'buf>],
}

impl<'headers, 'buf> Request<'headers, 'buf> {
    /// A request of which nothing was read yet, with room for so many headers.
    pub fn new(headers: &'headers mut [Header<'buf>]) -> Request<'headers, 'buf> {
        Request {
            method: None,
            path: None,
            version: None,
            headers,
        }
    }

    /// Reads the head that the buffer begins with, and tells how many bytes it has.
    ///
    /// On complete the list of headers is cut to those read, so a request that is read into again
    /// has no room for more. Where an error lies tells
    /// [`request_error_position`](crate::request_error_position).
    #[inline]
    pub fn parse(&mut self, buf: &'buf [u8]) -> Result<usize> {
        ParserConfig::default().parse_request(self, buf)
    }

    /// Reads as [`parse`](Request::parse) does, into memory with no headers in it yet.
    ///
    /// On complete [`headers`](Request::headers) is the part of that memory which was written; else
    /// it is what it was before.
    #[inline]
    pub fn parse_with_uninit_headers(
        &mut self,
        buf: &'buf [u8],
        headers: &'headers mut [MaybeUninit<Header<'buf>>],
    ) -> Result<usize> {
        ParserConfig::default().parse_request_with_uninit_headers(self, buf, headers)
    }

    #[inline]
    pub(crate) fn read(&mut self, buffer: &'buf [u8], settings: u32) -> Result<usize> {
        let Answer {
            result,
            line,
            headers,
        } = library::request(buffer, (&mut *self.headers).into(), settings);
        let given = headers.len();
        self.learn(line);
        let status = result.map_err(|fault| fault.error)?;
        if status.is_complete() {
            self.headers = &mut mem::take(&mut self.headers)[..given];
        }
        Ok(status)
    }

    #[inline]
    pub(crate) fn read_into(
        &mut self,
        buffer: &'buf [u8],
        headers: &'headers mut [MaybeUninit<Header<'buf>>],
        settings: u32,
    ) -> Result<usize> {
        let Answer {
            result,
            line,
            headers,
        } = library::request(buffer, headers.into(), settings);
        self.learn(line);
        let status = result.map_err(|fault| fault.error)?;
        if status.is_complete() {
            self.headers = headers;
        }
        Ok(status)
    }

    fn learn(&mut self, line: RequestLine<'buf>) {
        self.method = line.method.or(self.method);
        self.path = line.target.or(self.path);
        self.version = line.version.or(self.version);
    }
}
