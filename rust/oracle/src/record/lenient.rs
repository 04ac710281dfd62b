//! Heads that make use of several settings at once, read with all of them, with each alone, and with
//! none.

use super::{damages, prefixes, slot_counts, Head};
use answers::{bits, Call, Query, Settings};

/// Spaces in the start line and before the first name; in the response also behind names, and folds.
const SPACED: [Head; 3] = [
    Head {
        call: Call::Request,
        headers: 2,
        input: b"A  *  HTTP/1.0\n \tB: c\nD:\n\n",
    },
    Head {
        call: Call::Response,
        headers: 2,
        input: b"HTTP/1.1  200  OK\r\n\tA : b\r\n  c\r\nD\t:\r\n \r\n\r\n",
    },
    Head {
        call: Call::Response,
        headers: 0,
        input: b"HTTP/1.0  204\n \t\n",
    },
];

/// Lines that are no headers, before the first header and among the others; in the response also a fold
/// with a wrong byte.
const INVALID: [Head; 2] = [
    Head {
        call: Call::Request,
        headers: 2,
        input: b"A * HTTP/1.0\n:\n B:\r\nC d\r\nE: \x01\nF: g\n\n",
    },
    Head {
        call: Call::Response,
        headers: 2,
        input: b"HTTP/1.1 200\nA\n B:\n \x7f\n\tc\nD: e\r\n f\n:\nG:\n\n",
    },
];

pub fn queries() -> Vec<Query> {
    let spaced = SPACED
        .iter()
        .flat_map(|head| of_head(head, bits::of(head.call) & !bits::IGNORING));
    let invalid = INVALID
        .iter()
        .flat_map(|head| of_head(head, bits::of(head.call)));
    spaced.chain(invalid).collect()
}

/// The damages of a head with all settings that it needs, its slots with every combination of them, and
/// its beginnings with each and with all.
fn of_head(head: &Head, all: u32) -> Vec<Query> {
    let mut queries = with(all, damages(head));
    for settings in bits::combinations(all) {
        queries.extend(with(settings, slot_counts(head)));
    }
    for settings in bits::alone_and_all(all) {
        queries.extend(with(settings, prefixes(head)));
    }
    queries
}

/// The same queries with some settings.
fn with(bits: u32, mut queries: Vec<Query>) -> Vec<Query> {
    for query in &mut queries {
        query.settings = Settings::from_bits(bits);
    }
    queries
}

#[cfg(test)]
mod tests {
    use super::*;

    #[test]
    fn the_heads_are_good_with_all_settings() {
        for head in SPACED.iter().chain(&INVALID) {
            let whole = slot_counts(head).pop().expect("the last has slots enough");
            let query = with(bits::of(head.call), vec![whole]).remove(0);
            let answer = crate::answer(&query).unwrap().to_string();
            let expected = format!("complete {} ", head.input.len());
            assert!(answer.starts_with(&expected), "{answer}");
        }
    }
}
