//! Libraries that pass over lines that are no headers in a wrong way: the comparison notices each.

use super::Comparer;
use crate::numbers::Numbers;
use crate::position::{is_error, Search};
use crate::starts::{bytes_at, places};
use crate::strings::strings;
use crate::{expected, Case};
use answers::bits::{self, IGNORING, MULTILINE_HEADERS, SPACE_BEFORE_FIRST_HEADER_NAME};
use answers::functions::number;
use answers::{Call, HeadError};

/// How many bytes are tried at each place of the settings.
const DEPTH: usize = 3;

/// httparse, with the positions of its errors.
fn httparse(case: &Case, numbers: &mut Numbers) {
    numbers.lend(case.room());
    expected::read(case, numbers);
    if is_error(numbers.status) {
        let position = Search::default().by_every_beginning(case, numbers.status);
        numbers.out.numbers_mut()[0] = position;
    }
}

/// The first byte for which a line is passed over, if there is one.
fn wrong_byte(case: &Case) -> Option<usize> {
    let off = Case {
        settings: case.settings & !IGNORING,
        ..*case
    };
    let mut numbers = Numbers::default();
    httparse(&off, &mut numbers);
    let errors = [HeadError::HeaderName, HeadError::HeaderValue].map(number);
    let is_wrong = case.has(IGNORING & bits::of(case.call)) && errors.contains(&numbers.status);
    is_wrong.then(|| numbers.out.numbers()[0] as usize)
}

/// What a wrong library takes an input for, of which the byte at a position is wrong.
type Mistake = fn(&mut [u8], usize);

/// A NUL from there on is as good as another byte.
fn no_nul(input: &mut [u8], wrong: usize) {
    let nuls = input[wrong..].iter_mut().filter(|byte| **byte == 0);
    nuls.for_each(|byte| *byte = 1);
}

/// A CR that no LF follows is as good as another byte.
fn no_cr(input: &mut [u8], wrong: usize) {
    for place in wrong..input.len() {
        if input[place] == b'\r' && input.get(place + 1).is_some_and(|&next| next != b'\n') {
            input[place] = 1;
        }
    }
}

/// The next line is passed over with the one that is wrong.
fn next_line_lost(input: &mut [u8], wrong: usize) {
    let mut behind = input[wrong..].iter_mut();
    if let Some(line_end) = behind.find(|byte| **byte == b'\n') {
        *line_end = 1;
    }
}

/// The wrong byte alone is passed over, and the line is read.
fn line_taken(input: &mut [u8], wrong: usize) {
    if !b"\0\r\n".contains(&input[wrong]) {
        input[wrong] = b'a';
    }
}

/// The line before the wrong one is lost with it.
fn line_before_lost(input: &mut [u8], wrong: usize) {
    let line_ends = input[..wrong].iter().filter(|&&byte| byte == b'\n').count();
    let mut before = input[..wrong].iter_mut().rev();
    // That of the start line is left alone.
    if let Some(line_end) = before
        .find(|byte| **byte == b'\n')
        .filter(|_| line_ends > 1)
    {
        *line_end = 1;
    }
}

const MISTAKES: [Mistake; 5] = [no_nul, no_cr, next_line_lost, line_taken, line_before_lost];

/// A library that makes one mistake.
fn mistaken(mistake: Mistake) -> impl Fn(&Case, &mut Numbers) {
    move |case, numbers| {
        let mut input = case.input.to_vec();
        if let Some(wrong) = wrong_byte(case) {
            mistake(&mut input, wrong);
        }
        httparse(
            &Case {
                input: &input,
                ..*case
            },
            numbers,
        );
    }
}

/// Hands over all strings of up to three bytes at the places of a call's setting, within good heads.
fn each(call: Call, settings: u32, mut take: impl FnMut(&Case)) {
    for &(start, rest) in places(call, IGNORING & bits::of(call)) {
        let bytes = bytes_at((start, rest));
        for strings in strings(&[(start, DEPTH)], bytes) {
            strings.each(bytes, |string| {
                let input = [string, rest].concat();
                take(&Case {
                    call,
                    slots: 2,
                    remainder: 0,
                    settings,
                    input: &input,
                });
            });
        }
    }
}

/// With how many of these strings the mistake is seen.
fn count_noticed(call: Call, settings: u32, comparer: &mut Comparer) -> usize {
    let mut noticed = 0;
    each(call, settings, |case| {
        noticed += usize::from(comparer.differ(case));
    });
    noticed
}

/// With the setting alone, and with all of the call.
#[test]
fn every_mistake_is_noticed() {
    for mistake in MISTAKES {
        let mut comparer = Comparer::of("a wrong library", mistaken(mistake));
        for call in [Call::Request, Call::Response] {
            for settings in [IGNORING & bits::of(call), bits::of(call)] {
                let noticed = count_noticed(call, settings, &mut comparer);
                assert!(noticed > 10, "{call}, {settings}: {noticed}");
            }
        }
    }
}

/// The line behind the wrong one is no first line again: if it begins with a blank, it is passed over too.
fn not_first_again(input: &mut [u8], wrong: usize) {
    let mut line_ends = (wrong..input.len()).filter(|&place| input[place] == b'\n');
    let next = line_ends.next().map(|place| place + 1);
    if let Some(first) = next.and_then(|next| input.get_mut(next)) {
        make_wrong_if_blank(first);
    }
}

/// A header that is lost with its fold is given: the fold is a line of its own, and passed over alone.
fn given_without_its_fold(input: &mut [u8], wrong: usize) {
    let line_end = input[..wrong].iter().rposition(|&byte| byte == b'\n');
    let first = line_end.map_or(0, |place| place + 1);
    // A NUL is an error in any line, so no header is lost by it.
    if input[wrong] != 0 {
        make_wrong_if_blank(&mut input[first]);
    }
}

fn make_wrong_if_blank(byte: &mut u8) {
    if b" \t".contains(byte) {
        *byte = 1;
    }
}

/// What is a mistake only with another setting: which, and the shortest input on which it is seen.
const MISTAKES_TOGETHER: [(Mistake, Call, u32, &str); 3] = [
    (
        not_first_again,
        Call::Request,
        SPACE_BEFORE_FIRST_HEADER_NAME,
        r#""a a HTTP/1.1\na\n \n""#,
    ),
    (
        not_first_again,
        Call::Response,
        SPACE_BEFORE_FIRST_HEADER_NAME,
        r#""HTTP/1.1 111\na\n \n""#,
    ),
    (
        given_without_its_fold,
        Call::Response,
        MULTILINE_HEADERS,
        r#""HTTP/1.1 111\na:\n \x01""#,
    ),
];

/// With both settings, and with all of the call; with the one alone httparse answers the same.
#[test]
fn every_mistake_of_settings_together_is_noticed() {
    for (mistake, call, other, _) in MISTAKES_TOGETHER {
        let mut comparer = Comparer::of("a wrong library", mistaken(mistake));
        let alone = IGNORING & bits::of(call);
        assert_eq!(count_noticed(call, alone, &mut comparer), 0);
        for settings in [alone | other, bits::of(call)] {
            let noticed = count_noticed(call, settings, &mut comparer);
            assert!(noticed > 10, "{call}, {settings}: {noticed}");
        }
    }
}

/// Whichever string gives the mistake away.
#[test]
fn a_mistake_of_settings_together_is_told_with_the_shortest_input() {
    for (mistake, call, other, shortest) in MISTAKES_TOGETHER {
        let mut comparer = Comparer::of("a wrong library", mistaken(mistake));
        each(call, IGNORING & bits::of(call) | other, |case| {
            if comparer.differ(case) {
                let told = comparer.report(case);
                assert!(told.contains(&format!("\t{shortest}\n")), "{told}");
            }
        });
    }
}
