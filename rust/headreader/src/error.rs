//! What can be wrong with a head.

use core::fmt;

/// Why no head begins where one was to be read. Where it lies tell
/// [`request_error_position`](crate::request_error_position) and its like for the other calls.
#[derive(Copy, Clone, PartialEq, Eq, Debug)]
pub enum Error {
    /// A header's name has a byte that no name has, or none at all.
    HeaderName,
    /// A header's value has a byte that no value has.
    HeaderValue,
    /// A line does not end where it must, or ends in CR without LF.
    NewLine,
    /// A response's code or reason is none.
    Status,
    /// A request's method or target is none.
    Token,
    /// There are more headers than were lent.
    TooManyHeaders,
    /// The version is neither HTTP/1.0 nor HTTP/1.1.
    Version,
}

impl Error {
    fn text(&self) -> &'static str {
        match self {
            Error::HeaderName => "invalid header name",
            Error::HeaderValue => "invalid header value",
            Error::NewLine => "invalid new line",
            Error::Status => "invalid response status",
            Error::Token => "invalid token",
            Error::TooManyHeaders => "too many headers",
            Error::Version => "invalid HTTP version",
        }
    }
}

impl fmt::Display for Error {
    fn fmt(&self, formatter: &mut fmt::Formatter<'_>) -> fmt::Result {
        formatter.write_str(self.text())
    }
}

impl core::error::Error for Error {
    // Callers from before `Display` was the way may still ask for it.
    fn description(&self) -> &str {
        self.text()
    }
}
