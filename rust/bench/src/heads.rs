//! The heads that are read, made by a rule: what browsers, gateways and servers send, of an exact length.

use crate::words::{
    COOKIE_BYTES, COOKIE_LENGTHS, COOKIE_NAMES, REQUEST_HEADERS, REQUEST_LINES, RESPONSE_HEADERS,
    STATUS_LINES,
};
use answers::Random;

/// How many heads a set has, so that no contestant learns one by heart.
pub const HEADS: usize = 8;

/// The lengths of heads.
const LENGTHS: [usize; 3] = [80, 700, 4_000];

const SEED: u64 = 9112;

#[derive(Clone, Copy)]
pub enum Kind {
    Request,
    Response,
}

/// Different heads of one kind and one length.
pub struct HeadSet {
    pub kind: Kind,
    pub length: usize,
    pub heads: Vec<Vec<u8>>,
}

impl HeadSet {
    pub fn name(&self) -> String {
        match self.kind {
            Kind::Request => format!("request, {} bytes", self.length),
            Kind::Response => format!("response, {} bytes", self.length),
        }
    }
}

/// A set of each kind and length, the same in every run.
pub fn sets() -> Vec<HeadSet> {
    let mut random = Random::new(SEED);
    let mut sets = Vec::new();
    for kind in [Kind::Request, Kind::Response] {
        sets.extend(LENGTHS.map(|length| {
            HeadSet {
                kind,
                length,
                heads: (0..HEADS)
                    .map(|_| make(kind, length, &mut random))
                    .collect(),
            }
        }));
    }
    sets
}

/// A start line, the usual headers in their order for up to three quarters of the length, and cookies for the rest.
fn make(kind: Kind, length: usize, random: &mut Random) -> Vec<u8> {
    let (first_lines, headers, cookie, longest) = match kind {
        Kind::Request => (REQUEST_LINES, REQUEST_HEADERS, "Cookie: ", usize::MAX),
        Kind::Response => (
            STATUS_LINES,
            RESPONSE_HEADERS,
            "Set-Cookie: ",
            LONGEST_SET_COOKIE,
        ),
    };
    let mut head = fitting(first_lines, length / 3, random).to_string();
    for (name, values) in headers {
        let line = format!("{name}: {}\r\n", random.choose(values));
        if head.len() + line.len() <= length * 3 / 4 {
            head += &line;
        }
    }
    while head.len() + END.len() < length {
        let left = length - head.len() - END.len();
        let line = if left > 2 * longest { longest } else { left };
        head += cookie;
        head += &pairs(line - cookie.len() - END.len(), random);
        head += END;
    }
    head += END;
    head.into_bytes()
}

const END: &str = "\r\n";

/// Servers set one cookie a line; browsers send all of them in one.
const LONGEST_SET_COOKIE: usize = 250;

/// One of the texts that are no longer than this.
fn fitting(texts: &[&'static str], longest: usize, random: &mut Random) -> &'static str {
    let fitting = texts.iter().copied().filter(|text| text.len() <= longest);
    random.choose(&fitting.collect::<Vec<_>>())
}

/// Names with values as cookies have them, of exactly this length.
fn pairs(length: usize, random: &mut Random) -> String {
    let mut text = String::new();
    while text.len() < length {
        let name = random.choose(COOKIE_NAMES);
        let value: String = (0..random.choose(COOKIE_LENGTHS))
            .map(|_| char::from(random.choose(COOKIE_BYTES)))
            .collect();
        text += &format!("{name}={value}; ");
    }
    text.truncate(length);
    // a blank at the end would be no part of the value
    let kept = text.trim_end().len();
    text.truncate(kept);
    text + &"0".repeat(length - kept)
}

#[cfg(test)]
mod tests {
    use super::*;

    #[test]
    fn every_head_has_its_length_and_differs_from_the_others() {
        for set in sets() {
            for (number, head) in set.heads.iter().enumerate() {
                assert_eq!(head.len(), set.length, "{}", head.escape_ascii());
                assert!(!set.heads[..number].contains(head));
                assert!(head.ends_with(b"\r\n\r\n"));
            }
        }
    }
}
