//! A server's loop: bytes arrive in pieces, and a request is read as soon as its head is whole.
//!
//! They arrive from memory, so that it needs no network: `cargo run --example server`.

use headreader::{request_error_position, Error, Request, Status, EMPTY_HEADER};

/// What arrives on a connection: heads are cut and joined as the network likes, and the last one
/// has a space where none may be.
const ARRIVALS: [&[u8]; 4] = [
    b"GET /orders/7 HTTP/1.1\r\nHost: orders.whole",
    b"saler.example\r\nAccept: text/plain\r\n\r",
    b"\nGET /orders/8 HTTP/1.1\r\nHost: orders.wholesaler.example\r\n\r\nGET /orders/",
    b"9 HTTP/1.1\r\nHost : orders.wholesaler.example\r\n\r\n",
];

/// How many headers a head may have.
const MOST_HEADERS: usize = 16;

/// How many bytes a head may have: else a sender could fill the memory with one that never ends.
const LONGEST_HEAD: usize = 8_192;

fn main() {
    let mut buffer = Vec::new();
    for arrival in ARRIVALS {
        buffer.extend_from_slice(arrival);
        println!("{} bytes arrived", arrival.len());
        if let Err(error) = serve_all(&mut buffer) {
            let position = request_error_position(&buffer, MOST_HEADERS)
                .expect("the same bytes are the same error");
            println!("400 Bad Request, {error} at byte {position}: the connection is closed");
            return;
        }
        if buffer.len() > LONGEST_HEAD {
            println!("431 Request Header Fields Too Large: the connection is closed");
            return;
        }
    }
}

/// Serves every request that is whole, and drops its bytes; none of them has a body.
fn serve_all(buffer: &mut Vec<u8>) -> Result<(), Error> {
    while let Some(end) = serve(buffer)? {
        buffer.drain(..end);
    }
    Ok(())
}

/// Serves the request at the start of the buffer and tells where it ends, if it is whole.
fn serve(buffer: &[u8]) -> Result<Option<usize>, Error> {
    let mut headers = [EMPTY_HEADER; MOST_HEADERS];
    let mut request = Request::new(&mut headers);
    match request.parse(buffer)? {
        Status::Complete(end) => {
            print(&request);
            Ok(Some(end))
        }
        Status::Partial => Ok(None),
    }
}

fn print(request: &Request) {
    let method = request.method.unwrap_or_default();
    let path = request.path.unwrap_or_default();
    println!("a request: {method} {path}");
    for header in request.headers.iter() {
        println!("    {}: {}", header.name, header.value.escape_ascii());
    }
}
