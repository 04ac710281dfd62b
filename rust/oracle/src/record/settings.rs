//! Inputs made for each of the seven settings alone, accepted and refused ones.

use super::ENOUGH_SLOTS;
use answers::{Call, Query};

pub fn queries() -> Vec<Query> {
    groups().iter().flat_map(Group::queries).collect()
}

/// Inputs for one setting and one call: each is the start and one of the rests.
struct Group {
    setting: &'static str,
    call: Call,
    start: &'static [u8],
    rests: &'static [&'static [u8]],
}

impl Group {
    fn queries(&self) -> Vec<Query> {
        self.rests
            .iter()
            .map(|rest| Query {
                call: self.call,
                settings: self.setting.parse().expect("each group names a setting"),
                slots: ENOUGH_SLOTS,
                input: [self.start, rest].concat(),
            })
            .collect()
    }
}

/// The groups in the order of the settings; where a setting has no effect, two inputs show it.
fn groups() -> [Group; 14] {
    [
        in_response("spaces-after-header-name", BLANKS_AFTER_NAME),
        in_request("spaces-after-header-name", &BLANKS_AFTER_NAME[..2]),
        in_response("multiline-headers", FOLDS),
        in_request("multiline-headers", &FOLDS[..2]),
        request("multiple-spaces-in-request-line", REQUEST_LINES),
        response("multiple-spaces-in-request-line", &STATUS_LINES[..2]),
        response("multiple-spaces-in-status-line", STATUS_LINES),
        request("multiple-spaces-in-status-line", &REQUEST_LINES[..2]),
        in_response("space-before-first-header-name", BLANKS_IN_FRONT),
        in_request("space-before-first-header-name", BLANKS_IN_FRONT),
        in_response("ignore-invalid-headers-in-responses", INVALID_HEADERS),
        in_request("ignore-invalid-headers-in-responses", &INVALID_HEADERS[..2]),
        in_request("ignore-invalid-headers-in-requests", INVALID_HEADERS),
        in_response("ignore-invalid-headers-in-requests", &INVALID_HEADERS[..2]),
    ]
}

/// Whole requests.
fn request(setting: &'static str, rests: &'static [&'static [u8]]) -> Group {
    Group {
        setting,
        call: Call::Request,
        start: b"",
        rests,
    }
}

/// Whole responses.
fn response(setting: &'static str, rests: &'static [&'static [u8]]) -> Group {
    Group {
        setting,
        call: Call::Response,
        start: b"",
        rests,
    }
}

/// Header blocks of requests.
fn in_request(setting: &'static str, rests: &'static [&'static [u8]]) -> Group {
    Group {
        start: b"GET / HTTP/1.1\r\n",
        ..request(setting, rests)
    }
}

/// Header blocks of responses.
fn in_response(setting: &'static str, rests: &'static [&'static [u8]]) -> Group {
    Group {
        start: b"HTTP/1.1 200 OK\r\n",
        ..response(setting, rests)
    }
}

const BLANKS_AFTER_NAME: &[&[u8]] = &[
    b"A : b\r\n\r\n",
    b"A\t:b\r\n\r\n",
    b"A \t :\r\n\r\n",
    b"A: b\r\n\r\n",
    b"A : b\nC\t: d\n\n",
    b"A :: b\r\n\r\n",
    b"A ",
    b"A \t",
    b"A b\r\n\r\n",
    b"A \r\n\r\n",
    b"A \n: b\r\n\r\n",
    b"A \x00: b\r\n\r\n",
    b"A\x0b: b\r\n\r\n",
    b" A : b\r\n\r\n",
    b" : b\r\n\r\n",
    b"A : b\r\n c\r\n\r\n",
];

const FOLDS: &[&[u8]] = &[
    b"A: b\r\n c\r\n\r\n",
    b"A: b\n\tc\n\n",
    b"A:\r\n b\r\n\r\n",
    b"A:\r\n \r\n\r\n",
    b"A:\n \n\t\n  b\n\n",
    b"A: b\r\n \r\n\r\n",
    b"A: b \r\n \t\r\n c \r\n\r\n",
    b"A: b\r\n c: d\r\nE: f\r\n\r\n",
    b"A: b\r\nC: d\r\n\r\n",
    b"A: b\r\n",
    b"A:\r\n",
    b"A: b\r\n c\r\n",
    b"A: b\r\n\r",
    b" A: b\r\n\r\n",
    b"A: b\r\n \x00\r\n\r\n",
    b"A:\r\n \x7f\r\n\r\n",
    b"A: b\r\n c\rd\r\n\r\n",
    b"A: b\r\n\x0bc\r\n\r\n",
    b"A : b\r\n c\r\n\r\n",
];

const REQUEST_LINES: &[&[u8]] = &[
    b"GET  /  HTTP/1.1\r\n\r\n",
    b"GET   / HTTP/1.1\r\n\r\n",
    b"GET /   HTTP/1.0\n\n",
    b"GET / HTTP/1.1\r\n\r\n",
    b"GET  ",
    b"GET  /  ",
    b"GET  /  HTTP/1.",
    b"  GET / HTTP/1.1\r\n\r\n",
    b"GET \t/ HTTP/1.1\r\n\r\n",
    b"GET / \tHTTP/1.1\r\n\r\n",
    b"GET  \r\n",
    b"GET  HTTP/1.1\r\n\r\n",
    b"GET  /  HTTP/2.0\r\n\r\n",
    b"GET  /  HTTP/1.1 \r\n\r\n",
];

const STATUS_LINES: &[&[u8]] = &[
    b"HTTP/1.1  200  OK\r\n\r\n",
    b"HTTP/1.1   200 OK\n\n",
    b"HTTP/1.1 200   OK\r\n\r\n",
    b"HTTP/1.1 200 OK\r\n\r\n",
    b"HTTP/1.1  200\r\n\r\n",
    b"HTTP/1.1 200  \r\n\r\n",
    b"HTTP/1.1 200  a  b \r\n\r\n",
    b"HTTP/1.1 200  \tOK\r\n\r\n",
    b"HTTP/1.1  200  \xe9\n\n",
    b"HTTP/1.1  ",
    b"HTTP/1.1  200  ",
    b"  HTTP/1.1 200 OK\r\n\r\n",
    b"HTTP/1.1\t 200 OK\r\n\r\n",
    b"HTTP/1.1 \t200 OK\r\n\r\n",
    b"HTTP/1.1  20 OK\r\n\r\n",
    b"HTTP/1.1  2000 OK\r\n\r\n",
    b"HTTP/1.1  200  \rOK\r\n\r\n",
];

const BLANKS_IN_FRONT: &[&[u8]] = &[
    b" A: b\r\n\r\n",
    b"\t \tA: b\n\n",
    b" A: b\r\nC: d\r\n\r\n",
    b"A: b\r\n\r\n",
    b" \r\n\r\n",
    b"\t\n",
    b" ",
    b" A",
    b" \r",
    b" \rA: b\r\n\r\n",
    b"A: b\r\n C: d\r\n\r\n",
    b" A: b\r\n C: d\r\n\r\n",
    b" : b\r\n\r\n",
    b" A : b\r\n\r\n",
    b" \x0bA: b\r\n\r\n",
    b"\x0bA: b\r\n\r\n",
];

const INVALID_HEADERS: &[&[u8]] = &[
    b"A b\r\nC: d\r\n\r\n",
    b": b\r\nC: d\r\n\r\n",
    b"A : b\r\nC: d\r\n\r\n",
    b"A\r\nC: d\r\n\r\n",
    b"A: \x01b\r\nC: d\r\n\r\n",
    b"A: b\x7f\nC: d\n\n",
    b"A: b\r\n c\r\nD: e\r\n\r\n",
    b" A: b\r\nC: d\r\n\r\n",
    b"\x80\xff\r\n\r\n",
    b"A: b\r\nA: b\r\nA: b\r\nA: b\r\n:\r\n\r\n",
    b"A b",
    b"A b\r",
    b"A b\r\n",
    b"A b\x00\r\n\r\n",
    b"A: \x01\x00\r\n\r\n",
    b"A: \x00\r\n\r\n",
    b"\x00\r\n\r\n",
    b"A b\rc\r\n\r\n",
    b"A: \x01\rc\r\n\r\n",
    b"A: b\rc\r\n\r\n",
    b"A:\rc\r\n\r\n",
    b"\rA: b\r\n\r\n",
];

#[cfg(test)]
mod tests {
    use super::*;

    #[test]
    fn each_setting_has_a_dozen_inputs_accepted_and_refused() {
        for group in groups().iter().filter(|group| group.rests.len() > 2) {
            let answers: Vec<String> = group
                .queries()
                .iter()
                .map(|query| crate::answer(query).unwrap().to_string())
                .collect();
            assert!(answers.len() >= 12, "{}", group.setting);
            for outcome in ["complete ", "incomplete ", "error "] {
                assert!(
                    answers.iter().any(|answer| answer.starts_with(outcome)),
                    "{}: no {outcome}",
                    group.setting
                );
            }
        }
    }
}
