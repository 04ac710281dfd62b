//! The good heads whose beginnings and damages are recorded.

use answers::Call;

/// A whole head, or a whole chunk size line, which has no headers.
pub struct Head {
    pub call: Call,
    pub headers: usize,
    pub input: &'static [u8],
}

/// Heads short enough to damage every byte of them.
pub const SHORT: [Head; 9] = [
    Head {
        call: Call::Request,
        headers: 2,
        input: b"GET / HTTP/1.1\r\nHost: a\r\nX:\r\n\r\n",
    },
    Head {
        call: Call::Request,
        headers: 1,
        input: b"\r\n\nPUT * HTTP/1.0\nA:\tb \t\n\n",
    },
    Head {
        call: Call::Request,
        headers: 0,
        input: b"X /\xe2\x82\xac HTTP/1.1\n\n",
    },
    Head {
        call: Call::Response,
        headers: 1,
        input: b"HTTP/1.1 200 OK\r\nAge: 1\r\n\r\n",
    },
    Head {
        call: Call::Response,
        headers: 1,
        input: b"\nHTTP/1.0 404 N\xe9 \nA: \xff \n\n",
    },
    Head {
        call: Call::Response,
        headers: 0,
        input: b"HTTP/1.1 204\n\r\n",
    },
    Head {
        call: Call::Headers,
        headers: 4,
        input: b"A:b\r\nC: \t d e\t\r\nE: \r\nF:\xe9\n\n",
    },
    Head {
        call: Call::ChunkSize,
        headers: 0,
        input: b"1aF ;x=y\r\n",
    },
    Head {
        call: Call::ChunkSize,
        headers: 0,
        input: b"0\r\n",
    },
];

/// Heads with parts of more than 32 bytes, the width of httparse's widest vectors.
pub const LONG: [Head; 2] = [
    Head {
        call: Call::Request,
        headers: 2,
        input: b"DELETE /a/target/of/more/than/thirty-two/bytes?\xc3\xa9=1 HTTP/1.1\r\n\
                 A-Name-Of-More-Than-Thirty-Two-Bytes: ABCDEFGHIJKLMNOPQRSTUVWXYZ 012345\r\n\
                 B:c\r\n\r\n",
    },
    Head {
        call: Call::Response,
        headers: 1,
        input: b"HTTP/1.1 500 A reason phrase of more than thirty-two bytes\r\n\
                 Date:  a value with obs-text \xe9 and a\ttab and blanks at its end \t \t\r\n\r\n",
    },
];
