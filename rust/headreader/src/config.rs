//! Settings.

use crate::{library, position, Header, Request, Response, Result};
use core::mem::MaybeUninit;

/// How lenient or strict the reading is.
///
/// All settings are off by default, and each is on its own: any of them may be combined. All are
/// httparse's, but for [`ascii_targets`](ParserConfig::ascii_targets), which is ours.
///
/// ```
/// let mut headers = [headreader::EMPTY_HEADER; 16];
/// let mut response = headreader::Response::new(&mut headers);
/// let mut config = headreader::ParserConfig::default();
/// config.allow_multiple_spaces_in_response_status_delimiters(true);
/// let read = config.parse_response(&mut response, b"HTTP/1.1  204  No Content\r\n\r\n");
/// assert_eq!(read, Ok(headreader::Status::Complete(29)));
/// assert_eq!(response.reason, Some("No Content"));
/// ```
#[derive(Clone, Debug, Default)]
pub struct ParserConfig {
    allow_spaces_after_header_name_in_responses: bool,
    allow_obsolete_multiline_headers_in_responses: bool,
    allow_multiple_spaces_in_request_line_delimiters: bool,
    allow_multiple_spaces_in_response_status_delimiters: bool,
    allow_space_before_first_header_name: bool,
    ignore_invalid_headers_in_responses: bool,
    ignore_invalid_headers_in_requests: bool,
    ascii_targets: bool,
}

impl ParserConfig {
    /// Sets whether spaces and tabs may stand between a header's name and the colon, in responses.
    ///
    /// They are no part of the name. RFC 9112, section 5.1, forbids them: a proxy takes them out
    /// before it passes such a response on. A request with them is refused, whatever is set here.
    ///
    /// ```
    /// use headreader::{Error, ParserConfig, Response, Status, EMPTY_HEADER};
    ///
    /// let head = b"HTTP/1.1 200 OK\r\nServer \t: a\r\n\r\n";
    /// let mut headers = [EMPTY_HEADER; 1];
    /// let mut response = Response::new(&mut headers);
    /// assert_eq!(response.parse(head), Err(Error::HeaderName));
    ///
    /// let mut config = ParserConfig::default();
    /// config.allow_spaces_after_header_name_in_responses(true);
    /// let read = config.parse_response(&mut response, head);
    /// assert_eq!(read, Ok(Status::Complete(head.len())));
    /// assert_eq!(response.headers[0].name, "Server");
    /// ```
    #[inline]
    pub fn allow_spaces_after_header_name_in_responses(&mut self, value: bool) -> &mut Self {
        self.allow_spaces_after_header_name_in_responses = value;
        self
    }

    /// Sets whether a header's value may be folded, in responses: a line that begins with a space or
    /// a tab then goes on with the value of the line before it.
    ///
    /// The value is given as its bytes stand, **with the line ends inside it**; spaces, tabs and line
    /// ends around it are cut off. Who passes it on puts a space in the place of each fold, as RFC
    /// 9112, section 5.2, asks: written out as it is, the value ends at its first line end, and what
    /// follows is something else to the next reader. A header is given only when the byte behind its
    /// line end shows that it does not go on, so [`TooManyHeaders`](crate::Error::TooManyHeaders) waits
    /// for that byte too. A request with a fold is refused, whatever is set here.
    ///
    /// ```
    /// use headreader::{Error, ParserConfig, Response, Status, EMPTY_HEADER};
    ///
    /// let head = b"HTTP/1.1 200 OK\r\nServer: a\r\n  and b\r\n\r\n";
    /// let mut headers = [EMPTY_HEADER; 1];
    /// let mut response = Response::new(&mut headers);
    /// assert_eq!(response.parse(head), Err(Error::HeaderName));
    ///
    /// let mut config = ParserConfig::default();
    /// config.allow_obsolete_multiline_headers_in_responses(true);
    /// let read = config.parse_response(&mut response, head);
    /// assert_eq!(read, Ok(Status::Complete(head.len())));
    /// assert_eq!(response.headers[0].value, b"a\r\n  and b");
    /// ```
    #[inline]
    pub fn allow_obsolete_multiline_headers_in_responses(&mut self, value: bool) -> &mut Self {
        self.allow_obsolete_multiline_headers_in_responses = value;
        self
    }

    /// Whether a header's value may be folded, in responses.
    #[inline]
    pub fn obsolete_multiline_headers_in_responses_are_allowed(&self) -> bool {
        self.allow_obsolete_multiline_headers_in_responses
    }

    /// Sets whether more than one space may stand behind the method and behind the target of a
    /// request.
    ///
    /// Spaces only: a tab is an error as ever, and so is a space before the method or behind the
    /// version.
    ///
    /// ```
    /// use headreader::{Error, ParserConfig, Request, Status};
    ///
    /// let head = b"GET  /orders   HTTP/1.1\r\n\r\n";
    /// let mut request = Request::new(&mut []);
    /// assert_eq!(request.parse(head), Err(Error::Token));
    ///
    /// let mut config = ParserConfig::default();
    /// config.allow_multiple_spaces_in_request_line_delimiters(true);
    /// let read = config.parse_request(&mut request, head);
    /// assert_eq!(read, Ok(Status::Complete(head.len())));
    /// assert_eq!(request.path, Some("/orders"));
    /// ```
    #[inline]
    pub fn allow_multiple_spaces_in_request_line_delimiters(&mut self, value: bool) -> &mut Self {
        self.allow_multiple_spaces_in_request_line_delimiters = value;
        self
    }

    /// Whether more than one space may stand behind the method and behind the target of a request.
    #[inline]
    pub fn multiple_spaces_in_request_line_delimiters_are_allowed(&self) -> bool {
        self.allow_multiple_spaces_in_request_line_delimiters
    }

    /// Sets whether more than one space may stand behind the version and behind the code of a
    /// response.
    ///
    /// A [`reason`](Response::reason) then begins with its first byte that is no space; with the
    /// setting off, spaces behind the first belong to it.
    ///
    /// ```
    /// use headreader::{Error, ParserConfig, Response, Status};
    ///
    /// let head = b"HTTP/1.1   200  OK\r\n\r\n";
    /// let mut response = Response::new(&mut []);
    /// assert_eq!(response.parse(head), Err(Error::Status));
    ///
    /// let mut config = ParserConfig::default();
    /// config.allow_multiple_spaces_in_response_status_delimiters(true);
    /// let read = config.parse_response(&mut response, head);
    /// assert_eq!(read, Ok(Status::Complete(head.len())));
    /// assert_eq!(response.reason, Some("OK"));
    /// ```
    #[inline]
    pub fn allow_multiple_spaces_in_response_status_delimiters(
        &mut self,
        value: bool,
    ) -> &mut Self {
        self.allow_multiple_spaces_in_response_status_delimiters = value;
        self
    }

    /// Whether more than one space may stand behind the version and behind the code of a response.
    #[inline]
    pub fn multiple_spaces_in_response_status_delimiters_are_allowed(&self) -> bool {
        self.allow_multiple_spaces_in_response_status_delimiters
    }

    /// Sets whether spaces and tabs may stand before the name of the first header, in requests and
    /// responses.
    ///
    /// They are no part of the name. As long as no header was given, a line with nothing else in it
    /// ends the head as an empty line does. RFC 9112, section 2.2, asks to refuse such a message, or
    /// to pass over each such line unread.
    ///
    /// ```
    /// use headreader::{Error, ParserConfig, Request, Status, EMPTY_HEADER};
    ///
    /// let head = b"GET / HTTP/1.1\r\n \tHost: a\r\n\r\n";
    /// let mut headers = [EMPTY_HEADER; 1];
    /// let mut request = Request::new(&mut headers);
    /// assert_eq!(request.parse(head), Err(Error::HeaderName));
    ///
    /// let mut config = ParserConfig::default();
    /// config.allow_space_before_first_header_name(true);
    /// let read = config.parse_request(&mut request, head);
    /// assert_eq!(read, Ok(Status::Complete(head.len())));
    /// assert_eq!(request.headers[0].name, "Host");
    /// ```
    #[inline]
    pub fn allow_space_before_first_header_name(&mut self, value: bool) -> &mut Self {
        self.allow_space_before_first_header_name = value;
        self
    }

    /// Whether spaces and tabs may stand before the name of the first header.
    #[inline]
    pub fn space_before_first_header_name_are_allowed(&self) -> bool {
        self.allow_space_before_first_header_name
    }

    /// Sets whether a line that is no header is passed over, in responses.
    ///
    /// Where a byte of a line would be [`HeaderName`](crate::Error::HeaderName) or
    /// [`HeaderValue`](crate::Error::HeaderValue), the rest of the line is passed over instead, and the
    /// line gives no header. Those before it and behind it are given as ever, and the head ends where it
    /// would end without such lines. It is that error after all at a NUL on the way, and where no LF
    /// follows a CR there; nor may a value end in a CR alone. RFC 9112, section 5, has no such line: the
    /// next reader may take it for something else, so a proxy leaves it out of what it passes on.
    ///
    /// With [`allow_obsolete_multiline_headers_in_responses`] a wrong byte in a later line of a value
    /// loses the whole header, and a line behind it that begins with a space or a tab is a line of its
    /// own.
    ///
    /// [`allow_obsolete_multiline_headers_in_responses`]: ParserConfig::allow_obsolete_multiline_headers_in_responses
    ///
    /// ```
    /// use headreader::{Error, ParserConfig, Response, Status, EMPTY_HEADER};
    ///
    /// let head = b"HTTP/1.1 200 OK\r\nno header\r\nServer: a\r\nAge : 1\r\n\r\n";
    /// let mut headers = [EMPTY_HEADER; 3];
    /// let mut response = Response::new(&mut headers);
    /// assert_eq!(response.parse(head), Err(Error::HeaderName));
    ///
    /// let mut config = ParserConfig::default();
    /// config.ignore_invalid_headers_in_responses(true);
    /// let read = config.parse_response(&mut response, head);
    /// assert_eq!(read, Ok(Status::Complete(head.len())));
    /// assert_eq!(response.headers.len(), 1);
    /// assert_eq!(response.headers[0].name, "Server");
    /// ```
    #[inline]
    pub fn ignore_invalid_headers_in_responses(&mut self, value: bool) -> &mut Self {
        self.ignore_invalid_headers_in_responses = value;
        self
    }

    /// Sets whether a line that is no header is passed over, in requests, as
    /// [`ignore_invalid_headers_in_responses`](ParserConfig::ignore_invalid_headers_in_responses) does
    /// in responses.
    ///
    /// ```
    /// use headreader::{Error, ParserConfig, Request, Status, EMPTY_HEADER};
    ///
    /// let head = b"GET / HTTP/1.1\r\nHost: a\r\nCookie: \x01\r\n\r\n";
    /// let mut headers = [EMPTY_HEADER; 2];
    /// let mut request = Request::new(&mut headers);
    /// assert_eq!(request.parse(head), Err(Error::HeaderValue));
    ///
    /// let mut config = ParserConfig::default();
    /// config.ignore_invalid_headers_in_requests(true);
    /// let read = config.parse_request(&mut request, head);
    /// assert_eq!(read, Ok(Status::Complete(head.len())));
    /// assert_eq!(request.headers.len(), 1);
    /// ```
    #[inline]
    pub fn ignore_invalid_headers_in_requests(&mut self, value: bool) -> &mut Self {
        self.ignore_invalid_headers_in_requests = value;
        self
    }

    /// Sets whether a request's target may have visible ASCII only, the bytes 0x21 to 0x7E.
    ///
    /// With it on, any other byte in a target is [`Error::Token`](crate::Error::Token) as soon as it
    /// is there, whatever follows. With it off, bytes from 0x80 on may stand in a target too, and
    /// are an error only at the space behind it and only if the target is no UTF-8. It is for servers
    /// that cannot take such a target, and has no effect on a response, which has none.
    ///
    /// ```
    /// use headreader::{Error, ParserConfig, Request, Status};
    ///
    /// let head = "GET /caf\u{e9} HTTP/1.1\r\n\r\n".as_bytes();
    /// let mut request = Request::new(&mut []);
    /// assert_eq!(request.parse(head), Ok(Status::Complete(head.len())));
    ///
    /// let mut config = ParserConfig::default();
    /// config.ascii_targets(true);
    /// let mut request = Request::new(&mut []);
    /// assert_eq!(config.parse_request(&mut request, &head[..8]), Ok(Status::Partial));
    /// assert_eq!(config.parse_request(&mut request, &head[..9]), Err(Error::Token));
    /// ```
    #[inline]
    pub fn ascii_targets(&mut self, value: bool) -> &mut Self {
        self.ascii_targets = value;
        self
    }

    /// Whether a request's target may have visible ASCII only.
    #[inline]
    pub fn targets_are_ascii(&self) -> bool {
        self.ascii_targets
    }

    /// The bits by which the proved code knows the settings.
    #[inline]
    fn bits(&self) -> u32 {
        let bits = [
            (
                self.allow_spaces_after_header_name_in_responses,
                library::SPACES_AFTER_HEADER_NAME,
            ),
            (
                self.allow_obsolete_multiline_headers_in_responses,
                library::MULTILINE_HEADERS,
            ),
            (
                self.allow_multiple_spaces_in_request_line_delimiters,
                library::SPACES_IN_REQUEST_LINE,
            ),
            (
                self.allow_multiple_spaces_in_response_status_delimiters,
                library::SPACES_IN_STATUS_LINE,
            ),
            (
                self.allow_space_before_first_header_name,
                library::SPACE_BEFORE_FIRST_HEADER_NAME,
            ),
            (
                self.ignore_invalid_headers_in_responses,
                library::IGNORE_INVALID_HEADERS_IN_RESPONSES,
            ),
            (
                self.ignore_invalid_headers_in_requests,
                library::IGNORE_INVALID_HEADERS_IN_REQUESTS,
            ),
            (self.ascii_targets, library::ASCII_TARGETS),
        ];
        bits.iter().map(|&(on, bit)| u32::from(on) * bit).sum()
    }

    /// Reads as [`Request::parse`] does, with these settings.
    #[inline]
    pub fn parse_request<'buf>(
        &self,
        request: &mut Request<'_, 'buf>,
        buf: &'buf [u8],
    ) -> Result<usize> {
        request.read(buf, self.bits())
    }

    /// Reads as [`Request::parse_with_uninit_headers`] does, with these settings.
    #[inline]
    pub fn parse_request_with_uninit_headers<'headers, 'buf>(
        &self,
        request: &mut Request<'headers, 'buf>,
        buf: &'buf [u8],
        headers: &'headers mut [MaybeUninit<Header<'buf>>],
    ) -> Result<usize> {
        request.read_into(buf, headers, self.bits())
    }

    /// Reads as [`Response::parse`] does, with these settings.
    #[inline]
    pub fn parse_response<'buf>(
        &self,
        response: &mut Response<'_, 'buf>,
        buf: &'buf [u8],
    ) -> Result<usize> {
        response.read(buf, self.bits())
    }

    /// Reads as [`Response::parse`] does, with these settings and into memory with no headers in it
    /// yet.
    ///
    /// On complete [`headers`](Response::headers) is the part of that memory which was written;
    /// else it is what it was before.
    #[inline]
    pub fn parse_response_with_uninit_headers<'headers, 'buf>(
        &self,
        response: &mut Response<'headers, 'buf>,
        buf: &'buf [u8],
        headers: &'headers mut [MaybeUninit<Header<'buf>>],
    ) -> Result<usize> {
        response.read_into(buf, headers, self.bits())
    }

    /// Where the error lies that [`parse_request`](ParserConfig::parse_request) answers on these
    /// bytes with these settings and so many slots for headers, as
    /// [`request_error_position`](crate::request_error_position) tells it without settings.
    ///
    /// ```
    /// use headreader::{Error, ParserConfig, Request, EMPTY_HEADER};
    ///
    /// let buf = "GET /caf\u{e9} HTTP/1.1\r\n\r\n".as_bytes();
    /// let mut headers = [EMPTY_HEADER; 16];
    /// let mut request = Request::new(&mut headers);
    /// let mut config = ParserConfig::default();
    /// config.ascii_targets(true);
    /// assert_eq!(config.parse_request(&mut request, buf), Err(Error::Token));
    /// assert_eq!(config.request_error_position(buf, request.headers.len()), Some(8));
    /// ```
    pub fn request_error_position(&self, buf: &[u8], slots: usize) -> Option<usize> {
        position::in_head(buf.len(), slots, |slots| {
            library::request(buf, slots, self.bits())
        })
    }

    /// Where the error lies that [`parse_response`](ParserConfig::parse_response) answers on these
    /// bytes with these settings and so many slots for headers, as
    /// [`response_error_position`](crate::response_error_position) tells it without settings.
    ///
    /// ```
    /// use headreader::{Error, ParserConfig, Response, EMPTY_HEADER};
    ///
    /// let buf = b"HTTP/1.1 200 OK\r\nA: b\rC: d\r\n\r\n";
    /// let mut headers = [EMPTY_HEADER; 16];
    /// let mut response = Response::new(&mut headers);
    /// let config = ParserConfig::default();
    /// assert_eq!(config.parse_response(&mut response, buf), Err(Error::HeaderValue));
    /// assert_eq!(config.response_error_position(buf, response.headers.len()), Some(22));
    /// ```
    pub fn response_error_position(&self, buf: &[u8], slots: usize) -> Option<usize> {
        position::in_head(buf.len(), slots, |slots| {
            library::response(buf, slots, self.bits())
        })
    }
}
