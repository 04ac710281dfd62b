//! The types of httparse and of Headreader side by side: one caller, compiled with each, must see
//! the same.

// The caller is one file, so that it cannot favour one of them.
#![allow(clippy::duplicate_mod)]

mod ours;
mod seen;
mod theirs;

use crate::position::Search;
use crate::shrink::shrink;
use crate::{Case, Tally};
use seen::{ways, Seen, Way};

pub use ours::texts as our_texts;
pub use theirs::texts as their_texts;

pub(crate) use theirs::config as their_config;

/// A caller of a library that is to be as httparse, beside a caller of httparse.
pub struct TypesComparer {
    name: &'static str,
    caller: fn(&Case, Way) -> Seen,
    search: Search,
    tally: Tally,
}

impl TypesComparer {
    pub fn of_headreader() -> TypesComparer {
        TypesComparer::of("Headreader", ours::call)
    }

    /// Other callers are for the tests of this file.
    fn of(name: &'static str, caller: fn(&Case, Way) -> Seen) -> TypesComparer {
        TypesComparer {
            name,
            caller,
            search: Search::default(),
            tally: Tally::default(),
        }
    }

    /// Counts the case, and panics if the two callers see something else on any way to read it.
    pub fn compare(&mut self, case: &Case) {
        let ways = ways(case);
        for &way in ways {
            let [ours, expected] = self.see(case, way);
            if ours != expected {
                panic!("{}", self.report(case, way));
            }
            if way == ways[0] {
                self.tally.count(expected.status());
                if expected.position.is_some() {
                    self.tally.count_position();
                }
            }
        }
    }

    /// What the two callers see.
    fn see(&mut self, case: &Case, way: Way) -> [Seen; 2] {
        let ours = (self.caller)(case, way);
        let mut expected = expected(case, way);
        if way.has_positions() && expected.is_error() {
            let status = expected.status();
            expected.position = Some(self.search.position(case, status, ours.position));
        }
        [ours, expected]
    }

    pub fn tally(&self) -> Tally {
        self.tally
    }

    /// What is said of a case on which the two differ, with the shortest input that shows it.
    fn report(&mut self, case: &Case, way: Way) -> String {
        let input = shrink(case.input, |input| {
            let [ours, expected] = self.see(&Case { input, ..*case }, way);
            ours != expected
        });
        let shortest = Case {
            input: &input,
            ..*case
        };
        let [ours, expected] = self.see(&shortest, way);
        format!(
            "callers of {} and httparse differ on this query ({way:?}):\n{shortest}\n{}: {ours:?}\nhttparse: {expected:?}",
            self.name, self.name,
        )
    }
}

/// What a caller of httparse sees, behind the filter of [`crate::expected`] where targets must be
/// plain ASCII; not where an error lies, which it cannot ask for.
fn expected(case: &Case, way: Way) -> Seen {
    if let Some(ascii) = case.ascii_part() {
        let seen = theirs::call(&ascii, way);
        if seen.ends_in_target() {
            return Seen {
                ended: vec![theirs::refused(httparse::Error::Token)],
                ..seen
            };
        }
    }
    theirs::call(case, way)
}

#[cfg(test)]
mod tests {
    use super::seen::{Ended, Line, Place};
    use super::*;
    use answers::bits::{ASCII_TARGETS, DEFAULT};
    use answers::Call;

    const HEAD: &[u8] = b"PUT / HTTP/1.1\nHost: a\nX:\n\nbody";

    fn case(slots: usize, input: &[u8]) -> Case<'_> {
        Case {
            call: Call::Request,
            slots,
            remainder: 0,
            settings: DEFAULT,
            input,
        }
    }

    fn place(offset: isize, length: usize) -> Place {
        Place { offset, length }
    }

    #[test]
    fn headreader_is_what_is_compared() {
        assert!(ours::name().starts_with("headreader::"));
        assert!(theirs::name().starts_with("httparse::"));
        let caller = TypesComparer::of_headreader().caller;
        assert!(std::ptr::fn_addr_eq(
            caller,
            ours::call as fn(&Case, Way) -> Seen
        ));
    }

    #[test]
    fn all_of_a_request_is_seen() {
        for call in [ours::call, theirs::call] {
            let seen = call(&case(3, HEAD), Way::Alone);
            assert_eq!(seen.ended, [Ended::Complete(27)]);
            let line = Line {
                method: Some(place(0, 3)),
                path: Some(place(4, 1)),
                version: Some(1),
                ..Line::default()
            };
            assert_eq!(seen.line, line);
            assert_eq!(seen.list, Some(place(0, 2)));
            let [host, empty, free, guard] = seen.slots[..] else {
                panic!("not all slots are seen");
            };
            assert_eq!(host, [place(15, 4), place(21, 1)]);
            assert_eq!(empty, [place(23, 1), place(25, 0)]);
            assert!(free == guard && free[0].length == "untouched".len());
        }
    }

    #[test]
    fn lent_memory_is_seen_where_it_lies() {
        for call in [ours::call, theirs::call] {
            let complete = call(&case(3, HEAD), Way::Uninit);
            assert_eq!(complete.list, Some(place(32, 2)));
            let partial = call(&case(3, &HEAD[..26]), Way::SettingsUninit);
            assert_eq!(partial.list, Some(place(0, 1)));
            assert_eq!(partial.slots[1..3], complete.slots[1..3]);
        }
    }

    #[test]
    fn what_was_read_before_is_seen() {
        for call in [ours::call, theirs::call] {
            let seen = call(&case(2, b"PUT / "), Way::After);
            assert_eq!(seen.ended, [Ended::Complete(33), Ended::Partial]);
            assert_eq!(seen.line.path, Some(place(4, 1)));
            assert_eq!(seen.line.version, Some(0));
            assert_eq!(seen.list, Some(place(0, 1)));
        }
    }

    #[test]
    fn where_an_error_lies_is_seen() {
        for (slots, input, way, position) in [
            (2, &b"PUT /\0"[..], Way::Alone, Some(5)),
            (2, b"PUT /\0", Way::Settings, Some(5)),
            (2, b"PUT /\0", Way::Uninit, None),
            (1, HEAD, Way::Alone, Some(23)),
            (2, HEAD, Way::Alone, None),
        ] {
            let [ours, expected] = TypesComparer::of_headreader().see(&case(slots, input), way);
            assert_eq!(ours.position, position);
            assert_eq!(expected.position, position);
        }
    }

    /// A caller that asks with one slot more, or else is told one byte too far.
    fn wrong_position(case: &Case, way: Way) -> Seen {
        let roomier = Case {
            slots: case.slots + 1,
            ..*case
        };
        let seen = ours::call(case, way);
        let wrong = ours::call(&roomier, way).position;
        Seen {
            position: match wrong == seen.position {
                true => wrong.map(|position| position + 1),
                false => wrong,
            },
            ..seen
        }
    }

    #[test]
    fn a_position_that_is_wrong_is_noticed() {
        for (slots, input) in [(2, &b"PUT /\0"[..]), (2, b" "), (1, HEAD), (0, HEAD)] {
            for way in [Way::Alone, Way::Settings] {
                let mut comparer = TypesComparer::of("a wrong position", wrong_position);
                let [ours, expected] = comparer.see(&case(slots, input), way);
                assert_ne!(ours, expected);
            }
        }
    }

    /// A caller of a library that loses the list wherever 0x80 stands.
    fn wrong_at_0x80(case: &Case, way: Way) -> Seen {
        let mut seen = ours::call(case, way);
        if case.input.contains(&0x80) {
            seen.list = None;
        }
        seen
    }

    #[test]
    #[should_panic(
        expected = "callers of a wrong library and httparse differ on this query (Alone):
request\tdefault\t2\t\"\\x80\"
a wrong library: Seen { ended: [Error { name: \"Token\", text: \"invalid token\" }], position: Some(0)"
    )]
    fn a_difference_is_told_with_the_shortest_input() {
        let long = [HEAD, &b"\x80".repeat(100)].concat();
        TypesComparer::of("a wrong library", wrong_at_0x80).compare(&case(2, &long));
    }

    /// A caller of Headreader that forgets the setting.
    fn without_settings(case: &Case, way: Way) -> Seen {
        let off = Case {
            settings: DEFAULT,
            ..*case
        };
        ours::call(&off, way)
    }

    #[test]
    #[should_panic(
        expected = "callers of a wrong setting and httparse differ on this query (Settings):
request\tdefault\t2\t\"a \\xe9\"
with targets in plain ASCII, and httparse behind a filter
a wrong setting: Seen { ended: [Partial]"
    )]
    fn a_setting_that_is_forgotten_is_told() {
        TypesComparer::of("a wrong setting", without_settings).compare(&Case {
            settings: ASCII_TARGETS,
            ..case(2, b"\r\nGET /caf\xe9")
        });
    }

    #[test]
    fn a_target_beyond_ascii_is_seen_to_be_refused() {
        let case = Case {
            settings: ASCII_TARGETS,
            ..case(2, b"\nPUT /\xc3\xa9 HTTP/1.1\nHost: a\n\n")
        };
        for way in [Way::Settings, Way::SettingsUninit] {
            for seen in [ours::call(&case, way), expected(&case, way)] {
                let token = Ended::Error {
                    name: "Token".to_string(),
                    text: "invalid token".to_string(),
                };
                assert_eq!(seen.ended, [token]);
                let line = Line {
                    method: Some(place(1, 3)),
                    ..Line::default()
                };
                assert_eq!(seen.line, line);
                assert_eq!(seen.list, Some(place(0, way.own_slots(2))));
                assert!(seen.slots.iter().all(|slot| slot == &seen.slots[2]));
            }
        }
    }
}
