//! Targets that must be plain ASCII: Headreader with its setting, and httparse behind a filter.

use answers::bits::ASCII_TARGETS;
use answers::Call;
use compare::damage::{damaged, places, slot_counts};
use compare::heads::{jobs, make, shapes, Head, Shape};
use compare::starts::{starts, telling_bytes, Start};
use compare::strings::{self, how_many, strings, with_depth, Sweep};
use compare::types::TypesComparer;
use compare::{on_all_cores, Case, Comparer, Random, Tally};
use std::ops::Range;

const SEED: u64 = 3986;

/// Starts that end in front of the target, in it and behind it, and how many bytes are tried there.
const REQUESTS: &[Start] = &[
    (b"", 5),
    (b"\r\n\nGE", 5),
    (b"GET", 5),
    (b"POST", 5),
    (b"GET ", 5),
    (b"\r\nPOST ", 5),
    (b"GET /", 5),
    (b"M-SEARCH *", 5),
    (b"GET /a-target-of-27-bytes-here!", 5),
    (b"GET /\xc3", 4),
    (b"GET / ", 5),
    (b"GET / HTTP/1.1", 4),
    (b"GET / HTTP/1.1\r\n", 5),
    (b"GET / HTTP/1.1\r\nA:", 5),
];

/// What is put into targets: bytes that are no UTF-8, and letters that are.
const BEYOND_ASCII: &[&[u8]] = &[
    b"\x80",
    b"\xc3",
    b"\xa9",
    b"\xff",
    b"\xc3\xa9",
    "\u{1f600}".as_bytes(),
];

/// Heads up to this length are damaged at every place, longer ones at places chosen at random.
const SHORT: usize = 300;

/// How many places are chosen in a long head.
const PLACES: usize = 20;

/// How many heads of each shape are made.
const HEADS: usize = 4;

fn case(call: Call, slots: usize, input: &[u8]) -> Case<'_> {
    Case {
        call,
        slots,
        remainder: input.len() % 4,
        settings: ASCII_TARGETS,
        input,
    }
}

/// The telling bytes of a head, the two bytes of a letter in UTF-8, and one that no UTF-8 has.
fn bytes() -> Vec<u8> {
    [telling_bytes(Call::Request), b"\xc3\xa9\xff"].concat()
}

/// Compares all strings of the bytes behind the starts.
fn compare_behind(call: Call, starts: &[Start], bytes: &[u8]) -> Tally {
    let sweep = Sweep {
        call,
        settings: ASCII_TARGETS,
        slots: strings::slot_counts(call),
        starts,
        bytes,
        rest: b"",
    };
    sweep.compare()
}

#[test]
fn requests() {
    let tally = compare_behind(Call::Request, REQUESTS, &bytes());
    tally.assert_all_seen(Call::Request);
    let count = REQUESTS.len();
    println!("request in ASCII, all strings behind {count} starts: {tally}, no difference");
}

#[test]
fn responses() {
    let starts = with_depth(starts(Call::Response), 4);
    let tally = compare_behind(Call::Response, &starts, &bytes());
    tally.assert_all_seen(Call::Response);
    let count = starts.len();
    println!("response, the setting on, all strings behind {count} starts: {tally}, no difference");
}

/// The classes of bytes: whatever the few telling bytes leave out is met here.
#[test]
fn every_two_of_all_bytes() {
    let all: Vec<u8> = (0..=255).collect();
    let tally = compare_behind(Call::Request, &with_depth(REQUESTS, 2), &all);
    println!("request in ASCII, every two of all bytes behind every start: {tally}, no difference");
}

#[test]
fn by_the_types() {
    let (starts, bytes) = (with_depth(REQUESTS, 3), bytes());
    let slots = strings::slot_counts(Call::Request);
    let tally = on_all_cores(&strings(&starts, &bytes), |strings| {
        let mut comparer = TypesComparer::of_headreader();
        strings.each(&bytes, |input| {
            for &slots in slots {
                comparer.compare(&case(Call::Request, slots, input));
                comparer.compare(&case(Call::Response, slots, input));
            }
        });
        comparer.tally()
    });
    let strings = how_many(&starts, &bytes);
    assert_eq!(tally.total(), strings * 2 * slots.len() as u64);
    tally.assert_all_seen(Call::Request);
    tally.assert_all_placed();
    println!("by the types, the setting on: {tally}, no difference");
}

/// What stands between the first two spaces: in a good head the target.
fn target(bytes: &[u8]) -> Range<usize> {
    let spaces = (0..bytes.len()).filter(|&place| bytes[place] == b' ');
    let [first, second] = match spaces.take(2).collect::<Vec<usize>>()[..] {
        [] => [0, bytes.len()],
        [first] => [first + 1, bytes.len()],
        [first, second, ..] => [first + 1, second],
    };
    first..second
}

fn compare(head: &Head, input: &[u8], comparer: &mut Comparer) {
    for slots in slot_counts(head) {
        comparer.compare(&case(head.call, slots, input));
    }
}

/// Compares the head with bytes beyond ASCII at each place of its target, the rest behind them or
/// not.
fn compare_with_targets_beyond_ascii(head: &Head, comparer: &mut Comparer) {
    let target = target(&head.bytes);
    for place in target.start..=target.end {
        let (before, behind) = head.bytes.split_at(place);
        for beyond in BEYOND_ASCII {
            compare(head, &[before, beyond, behind].concat(), comparer);
            compare(head, &[before, beyond, &behind[1..]].concat(), comparer);
            compare(head, &[before, beyond].concat(), comparer);
        }
    }
}

/// Compares the head with each damage at a place, as it is and with its target beyond ASCII.
fn damage_at(place: usize, head: &Head, random: &mut Random, comparer: &mut Comparer) {
    for input in &damaged(&head.bytes, place, random) {
        compare(head, input, comparer);
        let target = target(input);
        let at = target.start + random.below(target.len() + 1);
        let (before, behind) = input.split_at(at);
        let beyond = random.choose(BEYOND_ASCII);
        compare(head, &[before, beyond, behind].concat(), comparer);
    }
}

/// How many heads of a shape are made: none but requests have a target.
fn heads_of(shape: &Shape) -> usize {
    if shape.call == Call::Request {
        HEADS
    } else {
        0
    }
}

#[test]
fn damaged_heads() {
    let jobs = jobs(shapes(), SEED, heads_of);
    let tally = on_all_cores(&jobs, |(shape, seed)| {
        let mut comparer = Comparer::of_headreader();
        let mut random = Random::new(*seed);
        let head = make(shape, &mut random);
        compare(&head, &head.bytes, &mut comparer);
        compare_with_targets_beyond_ascii(&head, &mut comparer);
        for place in places(&head.bytes, SHORT, PLACES, &mut random) {
            damage_at(place, &head, &mut random, &mut comparer);
        }
        comparer.tally()
    });
    tally.assert_all_seen(Call::Request);
    tally.assert_all_placed();
    let heads = jobs.len();
    println!("damaged copies of {heads} requests in ASCII (seed {SEED}): {tally}, no difference");
}
