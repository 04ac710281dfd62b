//! Where errors lie, with httparse asked about every beginning of an input on its own: so the least
//! that is an error is meant, and what is one stays one.

use answers::bits::{self, ASCII_TARGETS, DEFAULT};
use answers::{recorded, Call};
use compare::damage::{damaged, places, slot_counts};
use compare::heads::{jobs, lenient_shapes, make, shapes, Head, Shape};
use compare::starts::{all_places, bytes_at, starts, telling_bytes, Start};
use compare::strings::{self, how_many, strings, with_depth};
use compare::{on_all_cores, Case, Comparer, Random, Tally, CALLS};

const RECORDED: &str = concat!(env!("CARGO_MANIFEST_DIR"), "/../../recorded/answers.tsv");

const SEED: u64 = 1945;

/// How many bytes are tried behind each start.
const DEPTH: usize = 4;

/// Heads of shapes up to this length are damaged, at every place up to so many bytes.
const LONG: usize = 2_000;
const SHORT: usize = 200;

/// How many places are chosen in a long head.
const PLACES: usize = 10;

/// All settings off, and on requests also ours.
fn usual(call: Call) -> &'static [u32] {
    match call {
        Call::Request => &[DEFAULT, ASCII_TARGETS],
        _ => &[DEFAULT],
    }
}

fn compare(call: Call, settings: &[u32], slots: &[usize], input: &[u8], comparer: &mut Comparer) {
    for &settings in settings {
        for &slots in slots {
            comparer.compare_by_every_beginning(&Case {
                call,
                slots,
                remainder: 0,
                settings,
                input,
            });
        }
    }
}

fn tell(what: &str, tally: &Tally) {
    for call in CALLS {
        tally.assert_all_seen(call);
    }
    tally.assert_all_placed();
    println!("{what}, errors by every beginning: {tally}, no difference");
}

#[test]
fn recorded_inputs() {
    let text = std::fs::read_to_string(RECORDED)
        .unwrap_or_else(|error| panic!("cannot read {RECORDED}: {error}"));
    let mut comparer = Comparer::of_headreader();
    for row in recorded::rows(&text).unwrap() {
        let call = row.query.call;
        let slots = [row.query.slots, 0, 1];
        let mut settings = usual(call).to_vec();
        settings.push(row.query.settings.bits());
        settings.sort_unstable();
        settings.dedup();
        compare(call, &settings, &slots, &row.query.input, &mut comparer);
    }
    tell("recorded inputs", &comparer.tally());
}

/// Compares all strings over some bytes behind some starts, and sees that none was left out.
fn compare_behind(call: Call, settings: &[u32], starts: &[Start], bytes: &[u8]) -> Tally {
    let slots = strings::slot_counts(call);
    let tally = on_all_cores(&strings(starts, bytes), |strings| {
        let mut comparer = Comparer::of_headreader();
        strings.each(bytes, |input| {
            compare(call, settings, slots, input, &mut comparer);
        });
        comparer.tally()
    });
    let each = slots.len() * settings.len();
    assert_eq!(tally.total(), how_many(starts, bytes) * each as u64);
    tally
}

#[test]
fn all_short_strings() {
    let mut sum = Tally::default();
    for call in CALLS {
        let starts = with_depth(starts(call), DEPTH);
        sum += compare_behind(call, usual(call), &starts, telling_bytes(call));
    }
    tell("all strings behind every start", &sum);
}

#[test]
fn all_short_strings_with_settings() {
    let mut sum = Tally::default();
    for call in CALLS {
        let settings = bits::alone_and_all(bits::of(call));
        for place in all_places(call) {
            sum += compare_behind(call, &settings, &[(place.0, DEPTH)], bytes_at(place));
        }
    }
    sum.assert_all_placed();
    println!(
        "all strings at every place with settings, errors by every beginning: {sum}, no difference"
    );
}

/// How many heads of a shape are made: a long one has many beginnings, and settings many readings.
fn heads_of(shape: &Shape) -> usize {
    let longest = match shape.settings {
        DEFAULT => LONG,
        _ => SHORT,
    };
    usize::from(shape.length <= longest && shape.headers < 100)
}

/// The settings with which a head of a shape is read.
fn settings_of(shape: &Shape) -> Vec<u32> {
    match shape.settings {
        DEFAULT => usual(shape.call).to_vec(),
        needed => bits::alone_and_all(needed),
    }
}

fn damage_at(
    place: usize,
    head: &Head,
    settings: &[u32],
    random: &mut Random,
    comparer: &mut Comparer,
) {
    for input in &damaged(&head.bytes, place, random) {
        compare(head.call, settings, &slot_counts(head), input, comparer);
    }
}

#[test]
fn damaged_heads() {
    let shapes = [shapes(), lenient_shapes()].concat();
    let jobs = jobs(shapes, SEED, heads_of);
    let tally = on_all_cores(&jobs, |(shape, seed)| {
        let mut comparer = Comparer::of_headreader();
        let mut random = Random::new(*seed);
        let (head, settings) = (make(shape, &mut random), settings_of(shape));
        for place in places(&head.bytes, SHORT, PLACES, &mut random) {
            damage_at(place, &head, &settings, &mut random, &mut comparer);
        }
        comparer.tally()
    });
    let heads = jobs.len();
    tell(
        &format!("damaged copies of {heads} heads (seed {SEED})"),
        &tally,
    );
}
