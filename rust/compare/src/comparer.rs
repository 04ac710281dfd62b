//! Compares two libraries on one case after another, and tells the shortest input on which they differ.

use crate::numbers::Numbers;
use crate::plain::{is_folded, RoundTrip};
use crate::position::{is_error, Search};
use crate::shrink::shrink;
use crate::{expected, ours, text, Case, Tally};
use answers::Call;

/// Makes a call, and writes what it answers.
type Library = dyn Fn(&Case, &mut Numbers);

/// A library that is to answer as httparse does, beside httparse.
pub struct Comparer {
    name: &'static str,
    library: Box<Library>,
    ours: Numbers,
    expected: Numbers,
    search: Search,
    round_trip: RoundTrip,
    tally: Tally,
}

impl Comparer {
    pub fn of_headreader() -> Comparer {
        Comparer::of("Headreader", ours::read)
    }

    /// Other libraries are for the tests of this file.
    fn of(name: &'static str, library: impl Fn(&Case, &mut Numbers) + 'static) -> Comparer {
        Comparer {
            name,
            library: Box::new(library),
            ours: Numbers::default(),
            expected: Numbers::default(),
            search: Search::default(),
            round_trip: RoundTrip::default(),
            tally: Tally::default(),
        }
    }

    /// Counts the case, and panics if the two answer it differently, or if a complete head does not
    /// come back from its plain form.
    pub fn compare(&mut self, case: &Case) {
        if self.differ(case) {
            panic!("{}", self.report(case));
        }
        self.tally.count(self.expected.status);
        if is_error(self.expected.status) {
            self.tally.count_position();
        }
        if is_complete_head(case, &self.expected) {
            match is_folded(case, &self.expected) {
                true => self.refuse(case),
                false => self.send_round(case),
            }
        }
    }

    /// Compares the case, and panics also if its error lies elsewhere when httparse is asked about
    /// every beginning on its own.
    pub fn compare_by_every_beginning(&mut self, case: &Case) {
        self.compare(case);
        if is_error(self.expected.status) {
            let found = self.search.by_every_beginning(case, self.expected.status);
            assert_eq!(found, self.expected.out.numbers()[0], "{case}");
        }
    }

    /// Panics if anything is written of a complete head that has no plain form.
    fn refuse(&mut self, case: &Case) {
        if let Err(wrong) = self.round_trip.refuse(case, &self.expected) {
            panic!("a head without a plain form was written:\n{case}\n{wrong}");
        }
        self.tally.count_folded();
    }

    /// Sends a complete head through its plain form and back; if it is lost, panics with the shortest that is.
    fn send_round(&mut self, case: &Case) {
        if self.round_trip.go(case, &self.expected).is_err() {
            let input = shrink(case.input, |input| {
                self.lost(&Case { input, ..*case }).is_some()
            });
            let shortest = Case {
                input: &input,
                ..*case
            };
            let wrong = self.lost(&shortest).unwrap_or_default();
            panic!("a head does not come back:\n{shortest}\n{wrong}");
        }
        self.tally.count_round_trip();
    }

    /// What goes wrong on the round trip of a case, if it is a complete head.
    fn lost(&mut self, case: &Case) -> Option<String> {
        self.expected.lend(case.room());
        expected::read(case, &mut self.expected);
        let complete = is_complete_head(case, &self.expected);
        let has_form = complete && !is_folded(case, &self.expected);
        has_form.then(|| self.round_trip.go(case, &self.expected).err())?
    }

    pub fn tally(&self) -> Tally {
        self.tally
    }

    fn differ(&mut self, case: &Case) -> bool {
        self.ours.lend(case.room());
        (self.library)(case, &mut self.ours);
        self.expected.lend(case.room());
        expected::read(case, &mut self.expected);
        if is_error(self.expected.status) {
            self.expect_position(case);
        }
        self.ours != self.expected
    }

    /// Writes where httparse's error lies to what is expected; ours is the guess.
    fn expect_position(&mut self, case: &Case) {
        let guess = self.ours.out.numbers()[0];
        let status = self.expected.status;
        let position = self.search.position(case, status, Some(guess));
        self.expected.out.numbers_mut()[0] = position;
    }

    /// What is said of a case on which the two differ, with the shortest input that shows it.
    fn report(&mut self, case: &Case) -> String {
        let input = shrink(case.input, |input| self.differ(&Case { input, ..*case }));
        let shortest = Case {
            input: &input,
            ..*case
        };
        self.differ(&shortest);
        format!(
            "{} and httparse differ on this query (numbers lent: {}):\n{shortest}\n{}: {}\nhttparse: {}",
            self.name,
            shortest.room(),
            self.name,
            text::line(case.call, &self.ours),
            text::line(case.call, &self.expected)
        )
    }
}

#[cfg(test)]
mod ignored;

/// What has a plain form, unless a value is folded.
fn is_complete_head(case: &Case, answer: &Numbers) -> bool {
    answer.status == 0 && case.call != Call::ChunkSize
}

#[cfg(test)]
mod tests {
    use super::*;
    use crate::numbers::UNTOUCHED;
    use crate::starts::{places, telling_bytes, Start};
    use crate::strings::strings;
    use crate::theirs;
    use answers::bits::{self, ASCII_TARGETS, DEFAULT, SPACES_AFTER_HEADER_NAME};
    use answers::functions::{number, COMPLETE};
    use answers::HeadError;

    /// Every call, complete, incomplete and refused, with written slots, free ones and a remainder,
    /// and some under settings.
    const CASES: [Case; 25] = [
        case(Call::Request, b"GET / HTTP/1.1\r\nA: b\r\n\r\n"),
        case(Call::Request, b"GET / HTTP/1.0\nA: b\n"),
        case(Call::Request, b"GET /\xff "),
        case(Call::Response, b"HTTP/1.1 200 OK\r\nA: b\r\n\r\n"),
        case(Call::Response, b"HTTP/1.0 200\n:"),
        case(Call::Headers, b"A: b\r\n\r\n"),
        case(Call::Headers, b"A: b\r\nC: d\r\nE: f\r\nG: h\r\n"),
        case(Call::Headers, b"A: b\nC: d\n\r\r"),
        case(Call::Request, b"\r\nGET / HTTP/1.1\nA: b\rc"),
        case(Call::ChunkSize, b"0123456789abcdef0\r\n"),
        case(Call::ChunkSize, b"1f\r\n"),
        case(Call::ChunkSize, b"g"),
        ascii(b"GET /\xc3\xa9 HTTP/1.1\r\nA: b\r\n\r\n"),
        ascii(b"GET /\xff"),
        ascii(b"GET / HTTP/1.1\r\nA: \xff\r\n\r\n"),
        with(
            ASCII_TARGETS,
            Call::Response,
            b"HTTP/1.1 200 \xff\r\nA: b\r\n",
        ),
        with(
            bits::SUPPORTED,
            Call::Request,
            b"GET  /  HTTP/1.1\n A: b\n\n",
        ),
        with(
            bits::SUPPORTED,
            Call::Response,
            b"HTTP/1.1  200  OK\n\tA : b\n",
        ),
        with(
            bits::SUPPORTED,
            Call::Response,
            b"HTTP/1.1 200\nA:b\n c\nD:\n\n",
        ),
        with(bits::SUPPORTED, Call::Response, b"HTTP/1.1 200\n \t\n"),
        with(
            bits::SUPPORTED,
            Call::Response,
            b"HTTP/1.1 200\nA:\nB:\nC:\n d\n:",
        ),
        with(
            bits::SUPPORTED,
            Call::Request,
            b"GET / HTTP/1.1\n A:\nB:\nC:\n",
        ),
        with(
            bits::SUPPORTED,
            Call::Request,
            b"GET / HTTP/1.1\n:\n A: b\nC\n\n",
        ),
        with(
            bits::SUPPORTED,
            Call::Response,
            b"HTTP/1.1 200\nA: b\nC: \x01\n D\0",
        ),
        with(
            bits::SUPPORTED,
            Call::Response,
            b"HTTP/1.1 200\nA:\n:\nB:\nC:\n\n",
        ),
    ];

    const fn case(call: Call, input: &'static [u8]) -> Case<'static> {
        Case {
            call,
            slots: 2,
            remainder: 3,
            settings: DEFAULT,
            input,
        }
    }

    const fn with(settings: u32, call: Call, input: &'static [u8]) -> Case<'static> {
        Case {
            settings,
            ..case(call, input)
        }
    }

    /// A request whose target must be ASCII.
    const fn ascii(input: &'static [u8]) -> Case<'static> {
        with(ASCII_TARGETS, Call::Request, input)
    }

    /// httparse, with the positions of its errors.
    fn httparse(case: &Case, numbers: &mut Numbers) {
        expected::read(case, numbers);
        if is_error(numbers.status) {
            let position = Search::default().by_every_beginning(case, numbers.status);
            numbers.out.numbers_mut()[0] = position;
        }
    }

    /// What httparse answers to a case.
    fn answer(case: &Case) -> Numbers {
        let mut numbers = Numbers::default();
        numbers.lend(case.room());
        httparse(case, &mut numbers);
        numbers
    }

    /// Whether httparse's own answer is told from one that was changed.
    fn notices(case: &Case, change: impl Fn(&mut Numbers) + 'static) -> bool {
        let changed = move |case: &Case, numbers: &mut Numbers| {
            httparse(case, numbers);
            change(numbers);
        };
        Comparer::of("a changed httparse", changed).differ(case)
    }

    #[test]
    fn equal_answers_do_not_differ() {
        for case in &CASES {
            assert!(!notices(case, |_| {}));
        }
    }

    #[test]
    fn another_status_is_noticed() {
        for case in &CASES {
            for more in 1..10 {
                assert!(notices(case, move |numbers| numbers.status =
                    (numbers.status + more) % 10));
            }
        }
    }

    /// Changes each number alone, the guards' too, in ways in which a library may be wrong.
    fn assert_each_is_noticed(lent: fn(&mut Numbers) -> &mut [u64]) {
        for case in &CASES {
            let mut expected = answer(case);
            for (place, &right) in lent(&mut expected).iter().enumerate() {
                for wrong in [right ^ 1, right.wrapping_add(1), 0, UNTOUCHED] {
                    let noticed = notices(case, move |numbers| lent(numbers)[place] = wrong);
                    assert_eq!(noticed, wrong != right, "number {place}: {wrong}");
                }
            }
        }
    }

    #[test]
    fn each_number_of_out_is_compared() {
        assert_each_is_noticed(|numbers| numbers.out.with_guards_mut());
    }

    #[test]
    fn each_number_of_the_slots_is_compared() {
        assert_each_is_noticed(|numbers| numbers.slots.with_guards_mut());
    }

    /// Too many headers of different lengths, with every number of slots, and what stands where.
    const HEADERS: &[u8] = b"GET / HTTP/1.1\r\nA: b\r\nCC:dd\nEEE:  f \r\nG:\r\n\r\n";
    const NAMES: [u64; 4] = [16, 22, 28, 38];

    fn request_with_slots(slots: usize) -> Case<'static> {
        Case {
            slots,
            ..case(Call::Request, HEADERS)
        }
    }

    #[test]
    fn the_position_of_another_header_is_noticed() {
        for (slots, &right) in NAMES.iter().enumerate() {
            for wrong in 0..HEADERS.len() as u64 + 2 {
                let change = move |numbers: &mut Numbers| numbers.out.numbers_mut()[0] = wrong;
                let noticed = notices(&request_with_slots(slots), change);
                assert_eq!(noticed, wrong != right, "{slots} slots: {wrong}");
            }
        }
    }

    #[test]
    fn every_other_position_is_noticed() {
        for case in &CASES {
            let expected = answer(case);
            if !is_error(expected.status) {
                continue;
            }
            let right = expected.out.numbers()[0];
            for wrong in (0..case.input.len() as u64 + 2).chain([u64::MAX, right.wrapping_sub(1)]) {
                let change = move |numbers: &mut Numbers| numbers.out.numbers_mut()[0] = wrong;
                assert_eq!(notices(case, change), wrong != right, "{case}: {wrong}");
            }
        }
    }

    /// A library whose positions are right only where nothing stands behind them.
    #[test]
    fn a_position_that_bytes_behind_it_move_is_noticed() {
        let moved = |case: &Case, numbers: &mut Numbers| {
            httparse(case, numbers);
            let position = &mut numbers.out.numbers_mut()[0];
            *position += u64::from(*position + 1 < case.input.len() as u64);
        };
        let mut comparer = Comparer::of("a wrong library", moved);
        let whole = case(Call::Request, b"GET /\x00 HTTP/1.1");
        let least = case(Call::Request, b"GET /\x00");
        assert!(!comparer.differ(&least));
        assert!(comparer.differ(&whole));
        assert!(!comparer.differ(&least));
    }

    /// A library that knows no positions.
    #[test]
    #[should_panic(
        expected = "httparse without positions and httparse differ on this query (numbers lent: 11):
request\tdefault\t2\t\"a/\"
httparse without positions: error Token position=0 given=0 known=0 method=0+0 target=0+0 version=0 \
slots=[] and 11 untouched numbers
httparse: error Token position=1 given=0 known=0 method=0+0 target=0+0 version=0 \
slots=[] and 11 untouched numbers"
    )]
    fn positions_that_are_all_0_are_told() {
        let mut comparer = Comparer::of("httparse without positions", expected::read);
        comparer.compare(&case(Call::Request, b"GET /\x00 HTTP/1.1"));
    }

    #[test]
    fn positions_are_counted() {
        let mut comparer = Comparer::of("httparse", httparse);
        for case in &CASES {
            comparer.compare_by_every_beginning(case);
        }
        comparer.tally().assert_all_placed();
        let errors = CASES.iter().filter(|case| is_error(answer(case).status));
        let count = errors.count();
        let told = format!(" {count} errors), {count} positions");
        assert!(comparer.tally().to_string().contains(&told));
    }

    #[test]
    fn headreader_is_what_is_compared() {
        for case in &CASES {
            let before = ours::CALLS.get();
            assert!(!Comparer::of_headreader().differ(case));
            assert_eq!(ours::CALLS.get(), before + 1);
        }
    }

    /// A library that takes 0x80 for an error in a value wherever it stands.
    fn wrong_at_0x80(case: &Case, numbers: &mut Numbers) {
        httparse(case, numbers);
        if case.input.contains(&0x80) {
            numbers.status = 3;
        }
    }

    #[test]
    #[should_panic(
        expected = "a wrong library and httparse differ on this query (numbers lent: 11):
request\tdefault\t2\t\"\\x80\"
a wrong library: error HeaderValue position=0 given=0 known=0 method=0+0 target=0+0 version=0 \
slots=[] and 11 untouched numbers
httparse: error Token position=0 given=0 known=0 method=0+0 target=0+0 version=0 \
slots=[] and 11 untouched numbers"
    )]
    fn a_difference_is_told_with_the_shortest_input() {
        let long = [&b"GET / HTTP/1.1\r\n"[..], &b"A: b\x80\r\n".repeat(100)].concat();
        Comparer::of("a wrong library", wrong_at_0x80).compare(&Case {
            input: &long,
            ..CASES[0]
        });
    }

    /// Headreader with all settings off, whatever the case says.
    fn never(case: &Case, numbers: &mut Numbers) {
        let off = Case {
            settings: DEFAULT,
            ..*case
        };
        ours::read(&off, numbers);
    }

    /// Headreader with all settings on, whatever the case says.
    fn always(case: &Case, numbers: &mut Numbers) {
        let on = Case {
            settings: bits::SUPPORTED | ASCII_TARGETS,
            ..*case
        };
        ours::read(&on, numbers);
    }

    /// A library that refuses a byte beyond ASCII only when the target is whole.
    fn ascii_at_the_space(case: &Case, numbers: &mut Numbers) {
        theirs::read(case, numbers);
        if !case.input.is_ascii() && numbers.out.numbers()[2] & 2 != 0 {
            numbers.lend(case.room());
            ours::read(case, numbers);
        }
    }

    /// A library that refuses a byte beyond ASCII wherever it stands.
    fn ascii_everywhere(case: &Case, numbers: &mut Numbers) {
        ours::read(case, numbers);
        if !case.input.is_ascii() {
            numbers.status = 6;
        }
    }

    #[test]
    fn a_setting_that_is_wrong_is_noticed() {
        let off = case(Call::Request, b"GET /\xc3\xa9 HTTP/1.1\n\n");
        for (library, case) in [
            (never as fn(&Case, &mut Numbers), ascii(off.input)),
            (never, ascii(b"GET \x80")),
            (always, off),
            (always, case(Call::Request, b"GET \x80")),
            (ascii_at_the_space, ascii(b"GET /\xc3\xa9")),
            (ascii_at_the_space, ascii(b"GET /\xff")),
            (ascii_everywhere, ascii(b"GET / HTTP/1.1\nA: \xff\n\n")),
            (ascii_everywhere, ascii(b"GET / \xff")),
        ] {
            assert!(Comparer::of("a wrong setting", library).differ(&case));
            assert!(!Comparer::of_headreader().differ(&case));
        }
    }

    /// With a byte that a setting is about at each of its places, and with all others as they are.
    #[test]
    fn a_setting_of_httparse_that_is_wrong_is_noticed() {
        for call in [Call::Request, Call::Response] {
            for setting in bits::singles(bits::of(call)) {
                let noticed = places(call, setting).iter().filter(|(start, rest)| {
                    let input = [start, &b" "[..], rest].concat();
                    let off = Case {
                        input: &input,
                        ..case(call, b"")
                    };
                    let on = Case {
                        settings: setting,
                        ..off
                    };
                    assert!(!Comparer::of_headreader().differ(&off));
                    assert!(!Comparer::of_headreader().differ(&on));
                    Comparer::of("never on", never).differ(&on)
                        && Comparer::of("never off", always).differ(&off)
                });
                assert!(noticed.count() > 1, "{call}: {setting}");
            }
        }
    }

    /// What must be true of the byte before one that is wrong.
    type Before = fn(&u8) -> bool;

    /// A library with a fault like one that httparse had until 2022: with spaces allowed after names, and
    /// nothing else set, it takes one wrong byte for a blank, where `before` is true of the byte before it.
    fn a_byte_too_many(before: Before) -> impl Fn(&Case, &mut Numbers) {
        move |case, numbers| {
            httparse(case, numbers);
            let position = numbers.out.numbers()[0] as usize;
            let is_taken = case.settings == SPACES_AFTER_HEADER_NAME
                && numbers.status == number(HeadError::HeaderName)
                && case.input[..position].last().is_some_and(before);
            if is_taken {
                let mut input = case.input.to_vec();
                input[position] = b' ';
                let with_blank = Case {
                    input: &input,
                    ..*case
                };
                numbers.lend(case.room());
                httparse(&with_blank, numbers);
            }
        }
    }

    fn is_blank(byte: &u8) -> bool {
        b" \t".contains(byte)
    }

    /// The fault right behind a name, and behind its blanks: how many of the strings of up to two bytes at
    /// the places of the setting give it away, and the shortest input on which it is seen.
    const BYTES_TOO_MANY: [(Before, usize, &str); 2] = [
        (u8::is_ascii_alphanumeric, 48, r#""HTTP/1.1 111\na/""#),
        (is_blank, 84, r#""HTTP/1.1 111\na a""#),
    ];

    /// Before the colon of a good head, where the fault has the whole head accepted.
    #[test]
    fn a_byte_too_many_is_noticed() {
        let places = places(Call::Response, SPACES_AFTER_HEADER_NAME);
        for ((start, rest), (before, ..)) in places.iter().zip(BYTES_TOO_MANY) {
            let input = [start, &b"\0"[..], rest].concat();
            let off = Case {
                input: &input,
                ..case(Call::Response, b"")
            };
            let on = Case {
                settings: SPACES_AFTER_HEADER_NAME,
                ..off
            };
            let mut comparer = Comparer::of("a wrong library", a_byte_too_many(before));
            assert!(comparer.differ(&on));
            assert_eq!(comparer.ours.status, COMPLETE);
            assert!(!comparer.differ(&off));
            assert!(!Comparer::of_headreader().differ(&on));
        }
    }

    /// Hands over all strings of up to two bytes at the places of spaces after names.
    fn each_at_a_name(mut take: impl FnMut(&Case)) {
        let on = with(SPACES_AFTER_HEADER_NAME, Call::Response, b"");
        let places = places(on.call, on.settings).iter();
        let starts: Vec<Start> = places.map(|&(start, _)| (start, 2)).collect();
        let bytes = telling_bytes(on.call);
        for strings in strings(&starts, bytes) {
            strings.each(bytes, |input| take(&Case { input, ..on }));
        }
    }

    /// Whichever string gives the fault away.
    #[test]
    fn a_byte_too_many_is_told_with_the_shortest_input() {
        for (before, count, shortest) in BYTES_TOO_MANY {
            let mut comparer = Comparer::of("a wrong library", a_byte_too_many(before));
            let mut noticed = 0;
            each_at_a_name(|case| {
                if comparer.differ(case) {
                    let told = comparer.report(case);
                    assert!(told.contains(&format!("\t{shortest}\n")), "{told}");
                    noticed += 1;
                }
            });
            assert_eq!(noticed, count);
        }
    }

    #[test]
    #[should_panic(
        expected = "a wrong setting and httparse differ on this query (numbers lent: 11):
request\tdefault\t2\t\"a \\xe9\"
with targets in plain ASCII, and httparse behind a filter
a wrong setting: incomplete end=0 given=0 known=1 method=0+1 target=0+0 version=0 \
slots=[] and 11 untouched numbers
httparse: error Token position=2 given=0 known=1 method=0+1 target=0+0 version=0 \
slots=[] and 11 untouched numbers"
    )]
    fn a_difference_by_the_setting_is_told_with_it() {
        let cut = ascii(b"\r\nGET /caf\xe9");
        Comparer::of("a wrong setting", never).compare(&cut);
    }
}
