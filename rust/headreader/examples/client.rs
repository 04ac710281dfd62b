//! A client's loop: the head of a response, its body in chunks and the headers behind them are read
//! as they arrive.
//!
//! They arrive from memory, so that it needs no network: `cargo run --example client`. That the
//! body comes in chunks is taken for granted here; a client has to ask the headers.

use headreader::{parse_chunk_size, parse_headers, Response, Status, EMPTY_HEADER};
use std::error::Error;
use std::slice::Iter;

/// What the server sends: heads, sizes and chunks are cut as the network likes.
const ARRIVALS: [&[u8]; 5] = [
    b"HTTP/1.1 200 OK\r\nContent-Type: text/plain\r\nTransfer-",
    b"Encoding: chunked\r\n\r\n1",
    b"0\r\nforty of aspirin\r\n9\r\n,",
    b" by noon\r\n0",
    b"\r\nDigest: 5b1c\r\n\r\n",
];

/// How many bytes may wait to be read: else a server could fill the memory with what never ends.
const MOST_WAITING: usize = 65_536;

fn main() -> Result<(), Box<dyn Error>> {
    let mut connection = Connection {
        arrivals: ARRIVALS.iter(),
        buffer: Vec::new(),
    };
    connection.read_head()?;
    while let Some(chunk) = connection.read_chunk()? {
        println!("a chunk: {}", chunk.escape_ascii());
    }
    connection.read_headers()
}

/// The bytes that have arrived and were not read yet, and those still to come.
struct Connection {
    arrivals: Iter<'static, &'static [u8]>,
    buffer: Vec<u8>,
}

impl Connection {
    fn wait_for_more(&mut self) -> Result<(), Box<dyn Error>> {
        if self.buffer.len() > MOST_WAITING {
            return Err("a head is too long".into());
        }
        let arrival = self.arrivals.next().ok_or("the connection ended early")?;
        self.buffer.extend_from_slice(arrival);
        println!("{} bytes arrived", arrival.len());
        Ok(())
    }

    fn read_head(&mut self) -> Result<(), Box<dyn Error>> {
        loop {
            let mut headers = [EMPTY_HEADER; 16];
            let mut response = Response::new(&mut headers);
            if let Status::Complete(end) = response.parse(&self.buffer)? {
                print(&response);
                self.buffer.drain(..end);
                return Ok(());
            }
            self.wait_for_more()?;
        }
    }

    /// The next chunk, or nothing where the last one was.
    fn read_chunk(&mut self) -> Result<Option<Vec<u8>>, Box<dyn Error>> {
        let size = self.read_chunk_size()?;
        if size == 0 {
            return Ok(None);
        }
        if size > MOST_WAITING {
            return Err("a chunk is too long".into());
        }
        while self.buffer.len() < size + 2 {
            self.wait_for_more()?;
        }
        let mut chunk: Vec<u8> = self.buffer.drain(..size + 2).collect();
        if chunk.split_off(size) != b"\r\n" {
            return Err("a chunk is longer than its size".into());
        }
        Ok(Some(chunk))
    }

    fn read_chunk_size(&mut self) -> Result<usize, Box<dyn Error>> {
        loop {
            let read = parse_chunk_size(&self.buffer).map_err(|error| error.to_string())?;
            if let Status::Complete((end, size)) = read {
                self.buffer.drain(..end);
                return Ok(size.try_into()?);
            }
            self.wait_for_more()?;
        }
    }

    /// The headers behind the last chunk.
    fn read_headers(&mut self) -> Result<(), Box<dyn Error>> {
        loop {
            let mut headers = [EMPTY_HEADER; 16];
            if let Status::Complete((end, list)) = parse_headers(&self.buffer, &mut headers)? {
                println!("the end: {list:?}");
                self.buffer.drain(..end);
                return Ok(());
            }
            self.wait_for_more()?;
        }
    }
}

fn print(response: &Response) {
    let code = response.code.unwrap_or_default();
    let reason = response.reason.unwrap_or_default();
    println!("a response: {code} {reason}");
    for header in response.headers.iter() {
        println!("    {}: {}", header.name, header.value.escape_ascii());
    }
}
