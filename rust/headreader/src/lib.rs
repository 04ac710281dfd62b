//! Reads the heads of HTTP/1 messages: the start line and the headers of a request or a response,
//! headers alone, and the line that says how long a chunk of a body is.
//!
//! The interface is that of the crate httparse 1.10.1, by name and type, and all of its settings are
//! there; [`ascii_targets`](ParserConfig::ascii_targets) is one of ours. The answers are those of
//! httparse with the same settings, unless that one is on. What reads is Headreader: code in which
//! every function is proved to meet its contract. A complete answer means that a head ends there and
//! that the fields are its own; an error, that no head that fits the lent headers begins there;
//! partial, that none has ended yet; and none of them changes when more bytes arrive. `docs/PROVED.md`
//! in Headreader's repository says what is proved.
//!
//! Nothing is copied and to read nothing is allocated: names and values are parts of the caller's
//! buffer, and the headers stand in memory that the caller lends.
//!
//! # A server
//!
//! Bytes are put behind those that came before until a request's head is whole.
//!
//! ```
//! use headreader::{Error, Request, Status, EMPTY_HEADER};
//!
//! /// Where the head at the start of the buffer ends, if it is whole.
//! fn serve(buffer: &[u8]) -> Result<Option<usize>, Error> {
//!     let mut headers = [EMPTY_HEADER; 16];
//!     let mut request = Request::new(&mut headers);
//!     match request.parse(buffer)? {
//!         Status::Complete(end) => {
//!             assert_eq!(request.method, Some("GET"));
//!             assert_eq!(request.path, Some("/orders"));
//!             assert_eq!(request.headers.len(), 1);
//!             assert_eq!(request.headers[0].name, "Host");
//!             Ok(Some(end))
//!         }
//!         Status::Partial => Ok(None),
//!     }
//! }
//!
//! let mut buffer = b"GET /orders HTTP/1.1\r\nHost: whole".to_vec();
//! assert_eq!(serve(&buffer), Ok(None));
//! buffer.extend_from_slice(b"saler.example\r\n\r\n");
//! assert_eq!(serve(&buffer), Ok(Some(50)));
//! ```
//!
//! # A client
//!
//! ```
//! use headreader::{parse_chunk_size, Response, Status, EMPTY_HEADER};
//!
//! let answer = b"HTTP/1.1 200 OK\r\nTransfer-Encoding: chunked\r\n\r\n8\r\naccepted\r\n0\r\n\r\n";
//! let mut headers = [EMPTY_HEADER; 16];
//! let mut response = Response::new(&mut headers);
//! let head = response.parse(answer).unwrap().unwrap();
//! assert_eq!(response.code, Some(200));
//! assert_eq!(response.headers[0].value, b"chunked");
//!
//! let body = &answer[head..];
//! assert_eq!(parse_chunk_size(body), Ok(Status::Complete((3, 8))));
//! assert_eq!(&body[3..3 + 8], b"accepted");
//! ```
//!
//! The package has both as programs that loop over a growing buffer: `cargo run --example server`
//! and `cargo run --example client`.
//!
//! # Where an error lies
//!
//! An [`Error`] is httparse's, and tells no place. One more line does, by reading the same bytes again:
//!
//! ```
//! use headreader::{request_error_position, Request, EMPTY_HEADER};
//!
//! let buffer = b"GET /orders HTTP/1.1\r\nHost : a\r\n\r\n";
//! let mut headers = [EMPTY_HEADER; 16];
//! let mut request = Request::new(&mut headers);
//! if let Err(error) = request.parse(buffer) {
//!     let position = request_error_position(buffer, request.headers.len()).unwrap();
//!     assert_eq!(format!("{error} at {position}"), "invalid header name at 26");
//! }
//! ```
//!
//! The byte at that position decided: the bytes before it are partial, and with it they are this error.
//! Only [`Error::TooManyHeaders`] lies at the first byte of the header that had no slot. Where that is
//! the 65th or a later one, memory for as many slots is allocated.
//! [`response_error_position`], [`headers_error_position`] and [`chunk_size_error_position`] tell the
//! same of the other calls, and [`ParserConfig`] has two functions for its settings.
//!
//! # In httparse's place
//!
//! This line in a program's `Cargo.toml` is the whole change:
//! `httparse = { package = "headreader", path = ".." }`. What is not as in httparse:
//!
//! - The setting [`ascii_targets`](ParserConfig::ascii_targets) of [`ParserConfig`] is ours, and is
//!   shown for debugging behind httparse's.
//! - The functions that tell where an error lies are ours.
//! - An empty [`reason`](Response::reason) is the empty slice at the buffer's start. httparse gives
//!   its place where a space stands behind the code and nothing behind that, and else a constant.
//! - Only targets with 64-bit pointers are supported.
//! - What httparse exports for its own benchmarks and hides from its documents is left out.

#![no_std]
#![deny(missing_docs, unsafe_op_in_unsafe_fn)]
#![deny(clippy::undocumented_unsafe_blocks, clippy::missing_safety_doc)]

#[cfg(not(target_pointer_width = "64"))]
compile_error!("headreader needs 64-bit pointers: the proved code counts in 64-bit numbers, four in the place of each header");

extern crate alloc;

mod chunk;
mod config;
mod error;
mod header;
mod headers;
mod library;
mod piece;
mod position;
mod request;
mod response;
mod slots;
mod status;

pub use chunk::{parse_chunk_size, InvalidChunkSize};
pub use config::ParserConfig;
pub use error::Error;
pub use header::{Header, EMPTY_HEADER};
pub use headers::parse_headers;
pub use position::{
    chunk_size_error_position, headers_error_position, request_error_position,
    response_error_position,
};
pub use request::Request;
pub use response::Response;
pub use status::{Result, Status};
