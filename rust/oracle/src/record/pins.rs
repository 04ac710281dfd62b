//! Inputs that upstream's tests pin, and inputs on which a wrong library would give itself away.

use super::plain;
use answers::{Call, Query};

pub fn queries() -> Vec<Query> {
    let chunk_sizes = CHUNK_SIZES
        .iter()
        .map(|input| plain(Call::ChunkSize, 0, input));
    let heads = HEADS
        .iter()
        .map(|&(call, slots, input)| plain(call, slots, input));
    chunk_sizes.chain(heads).chain(header_counts()).collect()
}

/// Chunk size lines: digits, their number, blanks, extensions and line ends.
const CHUNK_SIZES: &[&[u8]] = &[
    b"0\r\n",
    b"12\r\nchunk",
    b"3086d\r\n",
    b"3735AB1;foo bar*\r\n",
    b"3735ab1 ; baz \r\n",
    b"77a65\r",
    b"ab",
    b"567f8a\rfoo",
    b"567f8a \rfoo",
    b"567xf8a\r\n",
    b"ffffffffffffffff\r\n",
    b"1ffffffffffffffff\r\n",
    b"0000000000000000\r\n",
    b"00000000000000001\r\n",
    b"Affffffffffffffff\r\n",
    b"fffffffffffffffff",
    b"\r\n",
    b";\r\n",
    b" \r\n",
    b"\n",
    b"1\n",
    b"1 \t\r\n",
    b"1 2\r\n",
    b" 1\r\n",
    b"1;\n\r\n",
    b"1;;\x00\xff\r\n",
    b"1;a\r\r\n",
    b"1; \"\r\n\"\r\n",
    b"-1\r\n",
    b"0x1\r\n",
    b"g\r\n",
];

/// For each wrong answer of a list of them, inputs that call for the right one.
const HEADS: &[(Call, usize, &[u8])] = &[
    // A name with a trailing blank is no name.
    (Call::Request, 4, b"GET / HTTP/1.1\r\nHost : a\r\n\r\n"),
    (Call::Request, 4, b"GET / HTTP/1.1\r\nHost\t: a\r\n\r\n"),
    (Call::Response, 4, b"HTTP/1.1 200 OK\r\nHost : a\r\n\r\n"),
    (Call::Headers, 4, b"Host : a\r\n\r\n"),
    (Call::Headers, 4, b"Host \r\n\r\n"),
    // A value ends before its final blanks.
    (Call::Request, 4, b"GET / HTTP/1.1\r\nA: b\t\r\n\r\n"),
    (Call::Response, 4, b"HTTP/1.1 200 OK\r\nA: b\t\n\n"),
    (Call::Headers, 4, b"A: b\t\r\n\r\n"),
    (Call::Headers, 4, b"A: b \t \r\n\r\n"),
    (Call::Headers, 4, b"A:\tb\tc\t\n\n"),
    (Call::Headers, 4, b"A:\t\r\nB: \n\n"),
    // What bytes already seen decide is decided at once, and never changes.
    (Call::Request, 4, b"GET / HTTP/1!"),
    (Call::Request, 4, b"GET / HTTP/1.2"),
    (Call::Request, 4, b"GET / HTTQ"),
    (Call::Request, 4, b"GET / \r"),
    (Call::Request, 4, b"GET /\xff"),
    (Call::Request, 4, b"GET /\xff "),
    (Call::Request, 4, b"GET /\xff\r"),
    (Call::Request, 4, b"GET /\xc3 HTTP/1.1\r\n\r\n"),
    (Call::Request, 4, b"GET /\xed\xa0\x80 HTTP/1.1\r\n\r\n"),
    (Call::Request, 4, b"GET /\xf4\x90\x80\x80 HTTP/1.1\r\n\r\n"),
    (Call::Request, 4, b"GET /\xf0\x9f\x98\x80 HTTP/1.1\r\n\r\n"),
    (Call::Request, 4, b"\r\r\n"),
    (Call::Request, 4, b"GET / HTTP/1.1\r\r\n"),
    (Call::Request, 4, b"GET / HTTP/1.1\r\n\rA"),
    (Call::Response, 4, b"HTTP/2"),
    (Call::Response, 4, b"HTTP/1.1 2x"),
    (Call::Response, 4, b"HTTP/1.1 200\t"),
    (Call::Response, 4, b"HTTP/1.1 200\rOK"),
    (Call::Response, 4, b"HTTP/1.1 200 OK\rA"),
    (Call::Response, 4, b"HTTP/1.1\r\n"),
    (Call::Headers, 4, b"A: b\rc"),
    (Call::Headers, 4, b"A:\rc"),
    (Call::Headers, 4, b"\rA"),
    (Call::Headers, 4, b"A\r\n"),
    (Call::Headers, 4, b"A: b\r\n c\r\n\r\n"),
    // The count stands right behind the last LF.
    (Call::Request, 4, b"GET / HTTP/1.1\r\n\r\nbody"),
    (Call::Request, 4, b"\r\n\r\nGET / HTTP/1.1\n\n\n\n"),
    (Call::Response, 4, b"HTTP/1.1 200 OK\r\nA: b\r\n\r\n\r\n"),
    (Call::Response, 4, b"HTTP/1.1 200\n\nA: b\n\n"),
    (Call::Headers, 4, b"\nA: b\r\n\r\n"),
    (Call::Headers, 4, b"A: b\r\n\n\r\n"),
    // A space in front is no empty method.
    (Call::Request, 4, b" / HTTP/1.1\r\n\r\n"),
    (Call::Request, 4, b" GET / HTTP/1.1\r\n\r\n"),
    (Call::Request, 4, b"\r\n / HTTP/1.1\r\n\r\n"),
    (Call::Request, 4, b" "),
];

/// Up to three headers with up to four slots: n headers fit into n slots, n + 1 don't.
fn header_counts() -> Vec<Query> {
    let mut queries = Vec::new();
    for headers in 0..=3 {
        for ending in ["\r\n", "", "C: d"] {
            let block = "A: b\r\n".repeat(headers) + ending;
            for slots in 0..=4 {
                queries.push(plain(Call::Headers, slots, block.as_bytes()));
            }
        }
    }
    queries
}
