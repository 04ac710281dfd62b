//! One header.

use core::{fmt, str};

/// A header's name and value, both parts of the buffer that was read.
#[derive(Copy, Clone, Eq, PartialEq)]
pub struct Header<'a> {
    /// The name, one or more letters, digits and marks of a token: ASCII, as it was written.
    pub name: &'a str,
    /// The value without the spaces and tabs around it; it has line ends inside only where
    /// [folds are allowed](crate::ParserConfig::allow_obsolete_multiline_headers_in_responses), and
    /// is then without those around it too. It may have any bytes from 0x80 on, so it
    /// need not be UTF-8.
    pub value: &'a [u8],
}

/// A header with nothing in it, to fill an array to be lent with.
///
/// ```
/// let mut headers = [headreader::EMPTY_HEADER; 64];
/// let request = headreader::Request::new(&mut headers);
/// ```
pub const EMPTY_HEADER: Header<'static> = Header {
    name: "",
    value: b"",
};

impl fmt::Debug for Header<'_> {
    /// Shows the value as text if it is UTF-8, else as bytes.
    fn fmt(&self, formatter: &mut fmt::Formatter<'_>) -> fmt::Result {
        let mut shown = formatter.debug_struct("Header");
        shown.field("name", &self.name);
        match str::from_utf8(self.value) {
            Ok(text) => shown.field("value", &text),
            Err(_) => shown.field("value", &self.value),
        };
        shown.finish()
    }
}
