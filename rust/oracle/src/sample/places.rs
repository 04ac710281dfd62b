//! All short strings at the places where a setting has its say, with that setting alone and with all.

use super::starts::ALPHABET;
use super::strings;
use answers::bits::{self, SUPPORTED};
use answers::{Call, Query, Settings};

/// How many bytes are tried at each place.
const LONGEST: usize = 2;

/// The places of a setting in a call.
struct Places {
    setting: u32,
    call: Call,
    slots: &'static [usize],
    /// Beginnings that end there.
    starts: &'static [&'static [u8]],
}

const PLACES: &[Places] = &[
    Places {
        setting: bits::SPACES_AFTER_HEADER_NAME,
        call: Call::Response,
        slots: &[1],
        starts: &[b"HTTP/1.1 111\na", b"HTTP/1.1 111\na "],
    },
    Places {
        setting: bits::MULTILINE_HEADERS,
        call: Call::Response,
        slots: &[0, 1],
        starts: &[
            b"HTTP/1.1 111\na:1",
            b"HTTP/1.1 111\na:1\n",
            b"HTTP/1.1 111\na:\n",
            b"HTTP/1.1 111\na:1\n ",
            b"HTTP/1.1 111\na:\n\t",
            b"HTTP/1.1 111\na:1\na:1\n",
        ],
    },
    Places {
        setting: bits::SPACES_IN_REQUEST_LINE,
        call: Call::Request,
        slots: &[1],
        starts: &[b"a", b"a ", b"a /", b"a / "],
    },
    Places {
        setting: bits::SPACES_IN_STATUS_LINE,
        call: Call::Response,
        slots: &[1],
        starts: &[b"HTTP/1.1 ", b"HTTP/1.1 111", b"HTTP/1.1 111 "],
    },
    Places {
        setting: bits::SPACE_BEFORE_FIRST_HEADER_NAME,
        call: Call::Request,
        slots: &[0, 1],
        starts: &[b"a / HTTP/1.1\n", b"a / HTTP/1.1\n a:"],
    },
    Places {
        setting: bits::SPACE_BEFORE_FIRST_HEADER_NAME,
        call: Call::Response,
        slots: &[0, 1],
        starts: &[b"HTTP/1.1 111\n", b"HTTP/1.1 111\n a:"],
    },
    Places {
        setting: bits::IGNORE_INVALID_HEADERS_IN_REQUESTS,
        call: Call::Request,
        slots: &[1],
        starts: &[
            b"a / HTTP/1.1\n",
            b"a / HTTP/1.1\na",
            b"a / HTTP/1.1\n:",
            b"a / HTTP/1.1\n:\n",
            b"a / HTTP/1.1\na:\x01",
        ],
    },
    Places {
        setting: bits::IGNORE_INVALID_HEADERS_IN_RESPONSES,
        call: Call::Response,
        slots: &[1],
        starts: &[
            b"HTTP/1.1 111\n",
            b"HTTP/1.1 111\na",
            b"HTTP/1.1 111\n:",
            b"HTTP/1.1 111\n:\n",
            b"HTTP/1.1 111\na:\x01",
            b"HTTP/1.1 111\na:1\n \x01",
        ],
    },
];

pub fn queries() -> Vec<Query> {
    PLACES.iter().flat_map(Places::queries).collect()
}

impl Places {
    fn queries(&self) -> Vec<Query> {
        let mut queries = Vec::new();
        for settings in [self.setting, SUPPORTED] {
            for start in self.starts {
                for &slots in self.slots {
                    queries.extend(behind(self.call, settings, slots, start));
                }
            }
        }
        queries
    }
}

/// All short strings behind a beginning.
fn behind(call: Call, settings: u32, slots: usize, start: &[u8]) -> Vec<Query> {
    let query = |rest: Vec<u8>| Query {
        call,
        settings: Settings::from_bits(settings),
        slots,
        input: [start, &rest].concat(),
    };
    let rests = strings::up_to(LONGEST, ALPHABET).into_iter();
    rests.map(query).collect()
}
