//! What is expected of Headreader: what httparse answers, behind a filter where targets must be plain
//! ASCII.

use crate::numbers::Numbers;
use crate::{theirs, Case};
use answers::functions::{number, INCOMPLETE, METHOD};
use answers::HeadError;

/// Writes the answer; `numbers` must have been lent with the room of the case.
///
/// An error's position is 0 here, since httparse does not tell it: [`crate::position`] asks for it.
///
/// The filter reads nothing itself. It asks httparse for all in front of the first byte beyond
/// ASCII: if that ends in the target, the byte is refused with what is known by then, and else it
/// stands where the setting has no say.
pub fn read(case: &Case, numbers: &mut Numbers) {
    if let Some(ascii) = case.ascii_part() {
        theirs::read(&ascii, numbers);
        if ends_in_target(numbers) {
            numbers.status = number(HeadError::Token);
            return;
        }
        numbers.lend(case.room());
    }
    theirs::read(case, numbers);
}

/// Whether a request ran out of bytes in its target, or right in front of it: httparse knows the
/// method and the target each as soon as the space behind it is read.
fn ends_in_target(numbers: &Numbers) -> bool {
    numbers.status == INCOMPLETE && numbers.out.numbers()[2] == METHOD
}

#[cfg(test)]
mod tests {
    use super::*;
    use crate::numbers::{SLOT, UNTOUCHED};
    use crate::starts::Start;
    use crate::strings::strings;
    use answers::bits::{ASCII_TARGETS, DEFAULT};
    use answers::Call;

    fn case(call: Call, input: &[u8]) -> Case<'_> {
        Case {
            call,
            slots: 1,
            remainder: 0,
            settings: ASCII_TARGETS,
            input,
        }
    }

    fn answer(case: &Case, library: fn(&Case, &mut Numbers)) -> Numbers {
        let mut numbers = Numbers::default();
        numbers.lend(case.room());
        library(case, &mut numbers);
        numbers
    }

    /// Asserts that the target is refused, with the method at its place and nothing else known.
    fn assert_refused(input: &[u8], method: [u64; 2]) {
        let numbers = answer(&case(Call::Request, input), read);
        let [at, length] = method;
        assert_eq!(numbers.status, 6, "{}", input.escape_ascii());
        assert_eq!(numbers.out.numbers(), [0, 0, 1, at, length, 0, 0, 0]);
        assert_eq!(numbers.slots.numbers(), [UNTOUCHED; SLOT]);
    }

    #[test]
    fn a_byte_beyond_ascii_in_a_target_is_refused() {
        assert_refused(b"GET \x80", [0, 3]);
        assert_refused(b"GET /a\xc3\xa9 HTTP/1.1\nA: b\n\n", [0, 3]);
        assert_refused(b"POST /\xff ", [0, 4]);
        assert_refused(b"\r\n\n\r\nM-SEARCH /\xc3", [5, 8]);
    }

    /// A method that is cut short, or only lacks its space, is not known, also behind empty lines.
    #[test]
    fn a_method_is_known_from_its_space_on() {
        for method in ["GET", "POST", "PUT", "POSTS", "G", "M-SEARCH"] {
            for empty_lines in ["", "\n", "\r\n\n"] {
                let start = [empty_lines, method].concat();
                for end in 0..=start.len() {
                    let cut = case(Call::Request, &start.as_bytes()[..end]);
                    assert!(!ends_in_target(&answer(&cut, theirs::read)));
                }
                let space = [&start, " "].concat();
                let cut = case(Call::Request, space.as_bytes());
                assert!(ends_in_target(&answer(&cut, theirs::read)));
            }
        }
    }

    #[test]
    fn a_byte_beyond_ascii_elsewhere_is_what_it_was() {
        for (status, call, input) in [
            (6, Call::Request, &b"GE\x80"[..]),
            (6, Call::Request, b"GET\x80"),
            (6, Call::Request, b"POST\x80 /"),
            (4, Call::Request, b"\r\x80"),
            (6, Call::Request, b"GET  \x80"),
            (6, Call::Request, b"GET /\x00\x80"),
            (8, Call::Request, b"GET / \x80"),
            (4, Call::Request, b"GET / HTTP/1.1\x80"),
            (2, Call::Request, b"GET / HTTP/1.1\nA\x80"),
            (1, Call::Request, b"GET / HTTP/1.1\nA:\x80\n"),
            (0, Call::Request, b"GET / HTTP/1.1\n\n\x80"),
            (0, Call::Response, b"HTTP/1.1 200 \x80\n\n"),
            (0, Call::Headers, b"A: \x80\n\n"),
        ] {
            let case = case(call, input);
            let numbers = answer(&case, read);
            assert_eq!(numbers.status, status, "{}", input.escape_ascii());
            assert!(numbers == answer(&case, theirs::read));
        }
    }

    #[test]
    fn off_it_is_httparse() {
        for input in [&b"GET /\x80"[..], b"GET /\xff ", b"GET /\xc3\xa9 "] {
            let off = Case {
                settings: DEFAULT,
                ..case(Call::Request, input)
            };
            assert!(answer(&off, read) == answer(&off, theirs::read));
        }
    }

    /// The setting by another way: httparse itself refuses DEL in a target at once, so what it
    /// answers with DEL in place of the bytes beyond ASCII is what it should answer with those.
    fn by_delete(case: &Case, numbers: &mut Numbers) {
        let delete = |&byte: &u8| if byte.is_ascii() { byte } else { 0x7f };
        let input: Vec<u8> = case.input.iter().map(delete).collect();
        let spoiled = Case {
            input: &input,
            ..*case
        };
        theirs::read(&spoiled, numbers);
        let refused = numbers.status == 6 && numbers.out.numbers()[2] == METHOD;
        if !refused {
            numbers.lend(case.room());
            theirs::read(case, numbers);
        }
    }

    #[test]
    fn two_ways_to_filter_agree() {
        let starts: [Start; 6] = [
            (b"", 4),
            (b"GE", 4),
            (b"POST", 4),
            (b"\r\nGET ", 4),
            (b"GET /", 4),
            (b"GET / HTTP/1.1\nA", 4),
        ];
        let bytes = b"a \t:\r\n\x00\x801\xc3\xa9\xff";
        let mut refused = 0;
        for strings in strings(&starts, bytes) {
            strings.each(bytes, |input| {
                let case = case(Call::Request, input);
                let filtered = answer(&case, read);
                assert!(filtered == answer(&case, by_delete));
                refused += u32::from(filtered != answer(&case, theirs::read));
            });
        }
        assert!(
            refused > 1_000,
            "the filter made a difference {refused} times"
        );
    }
}
