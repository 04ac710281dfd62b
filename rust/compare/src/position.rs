//! Where an error lies: found by asking httparse about beginnings of the input, behind the filter
//! where targets must be plain ASCII, and by nothing else.

use crate::numbers::{Numbers, SLOT};
use crate::{expected, Case};
use answers::functions::{number, INCOMPLETE};
use answers::{Call, HeadError};

/// Whether a call ended in an error, which has a position.
pub fn is_error(status: u32) -> bool {
    status > INCOMPLETE
}

/// Asks httparse; its numbers are kept so that the next question needs no allocation, and what was
/// found last so that it need not be asked again.
#[derive(Default)]
pub struct Search {
    numbers: Numbers,
    found: [Option<Found>; FOUND],
}

/// For how many numbers of slots the last that was found is kept.
const FOUND: usize = 4;

impl Search {
    /// The position of the error that a case has: what was found already, or the guess if that is
    /// right, and else what halving finds. All three are right where an error stays one when more
    /// bytes follow.
    pub fn position(&mut self, case: &Case, status: u32, guess: Option<u64>) -> u64 {
        let slots = case.slots % FOUND;
        if let Some(found) = &self.found[slots] {
            if found.is_also_in(case, status) {
                return found.position;
            }
        }
        let position = self.guessed(case, status, guess).unwrap_or_else(|| {
            let decided = self.halve(case);
            self.decided_at(case, status, decided)
        });
        self.found[slots] = Some(Found::new(case, status, position));
        position
    }

    /// The same, found by asking about every beginning on its own, shortest first.
    ///
    /// Panics unless all that are shorter than the least error are incomplete, and all that are
    /// longer are the same error.
    pub fn by_every_beginning(&mut self, case: &Case, status: u32) -> u64 {
        let lengths = 0..=case.input.len();
        let is_incomplete = |&length: &usize| self.status(&beginning(case, length)) == INCOMPLETE;
        let least = lengths.clone().take_while(is_incomplete).count();
        for length in lengths.skip(least) {
            self.expect_error(&beginning(case, length), status);
        }
        self.decided_at(case, status, least - 1)
    }

    /// The guess, if it is right.
    fn guessed(&mut self, case: &Case, status: u32, guess: Option<u64>) -> Option<u64> {
        let within = guess.filter(|&guess| guess < case.input.len() as u64);
        within.filter(|&guess| self.is_position(case, status, guess as usize))
    }

    /// Whether the byte at a place is what the position is of: the bytes before it are incomplete,
    /// and with it they are the error, or else fill the slots, and a header without one begins there.
    fn is_position(&mut self, case: &Case, status: u32, place: usize) -> bool {
        if self.status(&beginning(case, place)) != INCOMPLETE {
            return false;
        }
        let with_it = self.status(&beginning(case, place + 1));
        if status == number(HeadError::TooManyHeaders) {
            return with_it == INCOMPLETE
                && self.given() == case.slots
                && self.header_without_slot(case) == Some(place);
        }
        with_it == status
    }

    /// The position of an error that the byte at a place decided.
    fn decided_at(&mut self, case: &Case, status: u32, decided: usize) -> u64 {
        let least = beginning(case, decided + 1);
        self.expect_error(&least, status);
        let mut position = decided;
        if status == number(HeadError::TooManyHeaders) {
            let header = self.header_without_slot(&least);
            position = header.expect("one slot more holds one header more");
        }
        assert!(
            self.is_position(&least, status, position),
            "httparse does not say that {position} is the position:\n{case}"
        );
        position as u64
    }

    /// Where the byte lies with which the bytes are no longer incomplete.
    fn halve(&mut self, case: &Case) -> usize {
        let (mut incomplete, mut decided) = (0, case.input.len());
        while decided - incomplete > 1 {
            let middle = (incomplete + decided) / 2;
            match self.status(&beginning(case, middle)) {
                INCOMPLETE => incomplete = middle,
                _ => decided = middle,
            }
        }
        incomplete
    }

    fn expect_error(&mut self, case: &Case, status: u32) {
        let found = self.status(case);
        assert!(
            found == status,
            "httparse's error {status} is {found} on this beginning:\n{case}"
        );
    }

    /// Where the name begins of the header that would have the slot behind those lent, if there is
    /// one.
    fn header_without_slot(&mut self, case: &Case) -> Option<usize> {
        self.status(&Case {
            slots: case.slots + 1,
            ..*case
        });
        let name = self.numbers.slots.numbers()[case.slots * SLOT];
        (self.given() > case.slots).then_some(name as usize)
    }

    fn status(&mut self, case: &Case) -> u32 {
        self.numbers.lend(case.room());
        expected::read(case, &mut self.numbers);
        self.numbers.status
    }

    /// How many headers were given at the last question.
    fn given(&self) -> usize {
        self.numbers.out.numbers()[1] as usize
    }
}

/// The same call on the first so many bytes.
fn beginning<'input>(case: &Case<'input>, length: usize) -> Case<'input> {
    Case {
        input: &case.input[..length],
        ..*case
    }
}

/// An error that was found, and where it lies.
struct Found {
    call: Call,
    slots: usize,
    settings: u32,
    status: u32,
    position: u64,
    /// Bytes that are this error: their least beginning that is one is also that of all that begins
    /// with them.
    bytes: Vec<u8>,
}

impl Found {
    fn new(case: &Case, status: u32, position: u64) -> Found {
        // A header without a slot is an error only behind its line end, and with folds a byte later.
        let end = match status == number(HeadError::TooManyHeaders) {
            true => case.input.len(),
            false => position as usize + 1,
        };
        Found {
            call: case.call,
            slots: case.slots,
            settings: case.settings,
            status,
            position,
            bytes: case.input[..end].to_vec(),
        }
    }

    /// Whether a case begins with these bytes, read by the same call.
    fn is_also_in(&self, case: &Case, status: u32) -> bool {
        self.call == case.call
            && self.slots == case.slots
            && self.settings == case.settings
            && self.status == status
            && case.input.starts_with(&self.bytes)
    }
}

#[cfg(test)]
mod tests {
    use super::*;
    use answers::bits::{
        ASCII_TARGETS, DEFAULT, IGNORING, MULTILINE_HEADERS, SPACES_IN_REQUEST_LINE,
        SPACE_BEFORE_FIRST_HEADER_NAME,
    };

    const fn case(call: Call, slots: usize, input: &'static [u8]) -> Case<'static> {
        Case {
            call,
            slots,
            remainder: 0,
            settings: DEFAULT,
            input,
        }
    }

    const fn with(settings: u32, case: Case<'static>) -> Case<'static> {
        Case { settings, ..case }
    }

    /// Four headers, whose names begin at 0, 5, 9 and 14.
    const HEADERS: &[u8] = b"A:b\r\nC:d\nE: f\nG:\n\n";

    /// Two headers, whose names begin at 13 and 20, both folded, and a byte that begins none.
    const FOLDED: &[u8] = b"HTTP/1.1 200\nA:b\n c\nD:\n\te\n:";

    /// Two headers, whose names begin at 17 and 23, with lines around them that are none, and a NUL.
    const AMONG_OTHERS: &[u8] = b"GET / HTTP/1.1\n:\nA:b\nC\nD:\nE \0";

    /// Six headers of three bytes each.
    const SIX: &[u8] = b"A:\nB:\nC:\nD:\nE:\nF:\n";

    /// Cases, their errors, and where these lie.
    const ERRORS: &[(Case, HeadError, u64)] = &[
        (
            case(Call::Request, 1, b"GET /\xff/ HTTP"),
            HeadError::Token,
            7,
        ),
        (
            with(ASCII_TARGETS, case(Call::Request, 1, b"GET /\xff/ HTTP")),
            HeadError::Token,
            5,
        ),
        (case(Call::Request, 1, b"\r\n\rGET"), HeadError::NewLine, 3),
        (
            case(Call::Response, 0, b"HTTP/1.1 200\rx"),
            HeadError::Status,
            13,
        ),
        (
            case(Call::Response, 0, b"HTTP/2 200 OK"),
            HeadError::Version,
            5,
        ),
        (
            case(Call::Headers, 1, b"A: b\nC d: e\n"),
            HeadError::HeaderName,
            6,
        ),
        (
            case(Call::Headers, 1, b"A: b\rC: d"),
            HeadError::HeaderValue,
            5,
        ),
        (
            case(Call::Headers, 0, HEADERS),
            HeadError::TooManyHeaders,
            0,
        ),
        (
            case(Call::Headers, 1, HEADERS),
            HeadError::TooManyHeaders,
            5,
        ),
        (
            case(Call::Headers, 2, HEADERS),
            HeadError::TooManyHeaders,
            9,
        ),
        (
            case(Call::Headers, 3, HEADERS),
            HeadError::TooManyHeaders,
            14,
        ),
        (
            case(Call::Headers, 5, b"A: b\r\n\rC"),
            HeadError::NewLine,
            7,
        ),
        (
            case(Call::Headers, 1 + FOUND, SIX),
            HeadError::TooManyHeaders,
            15,
        ),
        (case(Call::Headers, 1, SIX), HeadError::TooManyHeaders, 3),
        (case(Call::Request, 1, b"GET / X"), HeadError::Version, 6),
        (
            with(SPACES_IN_REQUEST_LINE, case(Call::Request, 1, b"GET  / X")),
            HeadError::Version,
            7,
        ),
        (
            with(
                SPACE_BEFORE_FIRST_HEADER_NAME,
                case(Call::Request, 0, b"GET / HTTP/1.1\n \tA:b\n C"),
            ),
            HeadError::TooManyHeaders,
            17,
        ),
        (
            with(MULTILINE_HEADERS, case(Call::Response, 1, FOLDED)),
            HeadError::TooManyHeaders,
            20,
        ),
        (
            with(MULTILINE_HEADERS, case(Call::Response, 2, FOLDED)),
            HeadError::HeaderName,
            26,
        ),
        (
            with(IGNORING, case(Call::Request, 0, AMONG_OTHERS)),
            HeadError::TooManyHeaders,
            17,
        ),
        (
            with(IGNORING, case(Call::Request, 1, AMONG_OTHERS)),
            HeadError::TooManyHeaders,
            23,
        ),
        (
            with(IGNORING, case(Call::Request, 2, AMONG_OTHERS)),
            HeadError::HeaderName,
            28,
        ),
        (
            with(
                IGNORING,
                case(Call::Response, 1, b"HTTP/1.1 200\nA:\x01\rB\n"),
            ),
            HeadError::HeaderValue,
            17,
        ),
        (case(Call::Response, 1, b"GET / X"), HeadError::Version, 0),
    ];

    #[test]
    fn every_way_to_search_finds_the_position() {
        for (case, error, right) in ERRORS {
            let status = number(*error);
            let mut search = Search::default();
            assert_eq!(search.by_every_beginning(case, status), *right, "{case}");
            let guesses = (0..case.input.len() as u64 + 2).map(Some);
            for guess in guesses.chain([None, Some(u64::MAX)]) {
                let mut search = Search::default();
                assert_eq!(search.position(case, status, guess), *right, "{case}");
                let right_guess = guess == Some(*right);
                assert_eq!(search.guessed(case, status, guess).is_some(), right_guess);
            }
        }
        let digits = case(Call::ChunkSize, 0, b"0123456789abcdef0\r\n");
        assert_eq!(Search::default().position(&digits, 9, None), 16);
    }

    /// One search for all of them, again and again: what was found for one is not told of another.
    #[test]
    fn what_was_found_is_told_of_the_same_bytes_only() {
        let mut search = Search::default();
        for (case, error, right) in ERRORS.iter().chain(ERRORS.iter().rev()) {
            let position = search.position(case, number(*error), None);
            assert_eq!(position, *right, "{case}");
        }
    }

    #[test]
    fn bytes_behind_an_error_are_not_asked_about() {
        let mut search = Search::default();
        let token = number(HeadError::Token);
        let least = case(Call::Request, 1, b"GET /\0");
        assert_eq!(search.position(&least, token, None), 5);
        search.numbers.status = u32::MAX;
        let longer = case(Call::Request, 1, b"GET /\0 HTTP/1.1");
        assert_eq!(search.position(&longer, token, Some(7)), 5);
        assert_eq!(search.numbers.status, u32::MAX);
        let other = case(Call::Request, 1, b"GET /a\0");
        assert_eq!(search.position(&other, token, None), 6);
    }

    #[test]
    #[should_panic(expected = "httparse's error 6 is 1 on this beginning")]
    fn an_error_that_a_beginning_is_not_is_noticed() {
        let case = case(Call::Request, 1, b"GET /\0");
        Search::default().decided_at(&case, number(HeadError::Token), 4);
    }

    #[test]
    #[should_panic(expected = "httparse does not say that 6 is the position")]
    fn a_byte_that_comes_too_late_is_noticed() {
        let case = case(Call::Request, 1, b"GET /\0a");
        Search::default().decided_at(&case, number(HeadError::Token), 6);
    }
}
