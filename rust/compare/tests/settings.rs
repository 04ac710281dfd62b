//! httparse's settings, alone and in every combination: all short strings at each place where one of
//! them has its say, and damaged heads that make use of them.

use answers::bits::{self, ASCII_TARGETS};
use answers::Call;
use compare::damage::{self, damaged, slot_counts};
use compare::heads::{jobs, lenient_shapes, make, Head, Shape};
use compare::starts::{all_places, bytes_at, places, Place, Start};
use compare::strings::{self, how_many, strings, Sweep};
use compare::types::TypesComparer;
use compare::{on_all_cores, Case, Comparer, Random, Tally};

/// The calls that have settings.
const CALLS: [Call; 2] = [Call::Request, Call::Response];

/// How many bytes are tried at each place with every combination of the settings of both calls.
const DEPTH: usize = 4;

/// As many with every combination of those that a call does not ignore.
const DEPTH_OF_OWN: usize = 5;

/// As many at the places of a setting with that one alone.
const DEPTH_ALONE: usize = 7;

/// As many with what makes a good head behind them.
const DEPTH_WITHIN: usize = 4;

/// As many by the types.
const DEPTH_OF_TYPES: usize = 3;

const SEED: u64 = 7230;

/// Heads up to this length are damaged at every place, longer ones at places chosen at random.
const SHORT: usize = 300;

/// How many places are chosen in a long head.
const PLACES: usize = 20;

/// How many heads of each shape are made.
const HEADS: usize = 2;

/// Heads of a shape that is longer are not made.
const LONGEST: usize = 2_000;

/// A place as a start, with so many bytes behind it.
fn start_at((start, _): Place, depth: usize) -> [Start; 1] {
    [(start, depth)]
}

/// All strings over the telling bytes of a place behind its start, with nothing behind them.
fn sweep(call: Call, settings: u32, place: Place, starts: &[Start]) -> Sweep<'_> {
    Sweep {
        call,
        settings,
        slots: strings::slot_counts(call),
        starts,
        bytes: bytes_at(place),
        rest: b"",
    }
}

/// Compares all strings of up to so many bytes at some places.
fn compare_at(places: &[Place], depth: usize, call: Call, settings: u32) -> Tally {
    let mut tally = Tally::default();
    for &place in places {
        tally += sweep(call, settings, place, &start_at(place, depth)).compare();
    }
    tally
}

/// Compares a call at every place with every combination of some settings.
fn compare_combinations(call: Call, settings: u32, depth: usize) {
    let places = all_places(call);
    let combinations = bits::combinations(settings);
    let mut tally = Tally::default();
    for &settings in &combinations {
        tally += compare_at(&places, depth, call, settings);
    }
    tally.assert_all_seen(call);
    let (places, combinations) = (places.len(), combinations.len());
    println!("{call}, all strings of up to {depth} bytes at {places} places, {combinations} combinations of settings: {tally}, no difference");
}

/// The settings of both calls, of which each ignores some.
#[test]
fn every_combination() {
    for call in CALLS {
        compare_combinations(call, bits::SUPPORTED, DEPTH);
    }
}

#[test]
fn every_combination_of_its_own() {
    for call in CALLS {
        compare_combinations(call, bits::of(call), DEPTH_OF_OWN);
    }
}

fn compare_alone(call: Call, setting: u32) {
    let places = places(call, setting);
    let tally = compare_at(places, DEPTH_ALONE, call, setting);
    let places = places.len();
    println!(
        "{call}, all strings at {places} places, setting {setting} alone: {tally}, no difference"
    );
}

#[test]
fn each_setting_alone() {
    for call in CALLS {
        for setting in bits::singles(bits::of(call)) {
            compare_alone(call, setting);
        }
    }
}

/// Compares strings within good heads, under settings that are any of them.
fn compare_within(call: Call, settings: u32) -> Tally {
    let mut tally = Tally::default();
    for place in all_places(call) {
        let starts = start_at(place, DEPTH_WITHIN);
        let within = Sweep {
            rest: place.1,
            ..sweep(call, settings, place, &starts)
        };
        tally += within.compare();
    }
    tally
}

#[test]
fn within_good_heads() {
    for call in CALLS {
        let mut tally = Tally::default();
        for settings in bits::combinations(bits::of(call)) {
            tally += compare_within(call, settings);
        }
        let folds = bits::of(call) & bits::MULTILINE_HEADERS != 0;
        assert_eq!(tally.folded() > 0, folds);
        println!("{call}, strings within good heads, every combination of settings: {tally}, no difference");
    }
}

/// Compares requests whose targets must be ASCII, with bytes beyond it at a place.
fn compare_in_ascii(place: Place, settings: u32) -> Tally {
    let starts = start_at(place, DEPTH_WITHIN);
    let bytes = [bytes_at(place), b"\xc3\xa9\xff"].concat();
    let in_ascii = Sweep {
        bytes: &bytes,
        ..sweep(Call::Request, settings | ASCII_TARGETS, place, &starts)
    };
    in_ascii.compare()
}

/// The two filters of httparse's answers, by settings and by plain ASCII, one behind the other.
#[test]
fn with_targets_in_ascii() {
    let mut tally = Tally::default();
    for settings in bits::combinations(bits::of(Call::Request)) {
        for place in all_places(Call::Request) {
            tally += compare_in_ascii(place, settings);
        }
    }
    println!("request in ASCII, every combination of settings: {tally}, no difference");
}

/// Compares every two of all bytes at every place, under settings that are any of them.
fn compare_all_bytes(call: Call, settings: u32) -> Tally {
    let all: Vec<u8> = (0..=255).collect();
    let mut tally = Tally::default();
    for place in all_places(call) {
        let starts = start_at(place, 2);
        let any_bytes = Sweep {
            slots: &[1],
            bytes: &all,
            ..sweep(call, settings, place, &starts)
        };
        tally += any_bytes.compare();
    }
    tally
}

/// The classes of bytes: whatever the few telling bytes leave out is met here.
#[test]
fn every_two_of_all_bytes() {
    let mut tally = Tally::default();
    for call in CALLS {
        for settings in bits::alone_and_all(bits::of(call)) {
            tally += compare_all_bytes(call, settings);
        }
    }
    println!("each setting and all, every two of all bytes at every place: {tally}, no difference");
}

/// Compares by the types with every combination of settings, none left out.
fn compare_types(call: Call, input: &[u8], comparer: &mut TypesComparer) {
    for settings in bits::combinations(bits::of(call)) {
        for &slots in strings::slot_counts(call) {
            comparer.compare(&Case {
                call,
                slots,
                remainder: 0,
                settings,
                input,
            });
        }
    }
}

/// Compares all strings at a place by the types, and sees that none was left out.
fn compare_types_at(place: Place, call: Call) -> Tally {
    let (starts, bytes) = (start_at(place, DEPTH_OF_TYPES), bytes_at(place));
    let tally = on_all_cores(&strings(&starts, bytes), |strings| {
        let mut comparer = TypesComparer::of_headreader();
        strings.each(bytes, |input| compare_types(call, input, &mut comparer));
        comparer.tally()
    });
    let combinations = bits::combinations(bits::of(call)).len();
    let each = combinations * strings::slot_counts(call).len();
    assert_eq!(tally.total(), how_many(&starts, bytes) * each as u64);
    tally
}

#[test]
fn by_the_types() {
    for call in CALLS {
        let mut tally = Tally::default();
        for place in all_places(call) {
            tally += compare_types_at(place, call);
        }
        tally.assert_all_placed();
        println!("{call} by its types, every combination of settings: {tally}, no difference");
    }
}

fn compare(head: &Head, settings: u32, input: &[u8], comparer: &mut Comparer) {
    for slots in slot_counts(head) {
        comparer.compare(&Case {
            call: head.call,
            slots,
            remainder: input.len() % 4,
            settings,
            input,
        });
    }
}

/// Compares the head with each damage at a place, and cut there with the rest still behind it.
fn damage_at(
    place: usize,
    head: &Head,
    settings: u32,
    random: &mut Random,
    comparer: &mut Comparer,
) {
    for input in &damaged(&head.bytes, place, random) {
        compare(head, settings, input, comparer);
    }
    compare(head, settings, &head.bytes[..place], comparer);
}

fn heads_of(shape: &Shape) -> usize {
    if shape.length <= LONGEST && shape.headers < 100 {
        HEADS
    } else {
        0
    }
}

/// Heads with folds, spaces and lines that are no headers, read with all settings that they need, with
/// fewer, and with none.
#[test]
fn damaged_heads() {
    let jobs = jobs(lenient_shapes(), SEED, heads_of);
    let tally = on_all_cores(&jobs, |(shape, seed)| {
        let mut comparer = Comparer::of_headreader();
        let mut random = Random::new(*seed);
        let head = make(shape, &mut random);
        for settings in bits::combinations(shape.settings) {
            compare(&head, settings, &head.bytes, &mut comparer);
            for place in damage::places(&head.bytes, SHORT, PLACES, &mut random) {
                damage_at(place, &head, settings, &mut random, &mut comparer);
            }
        }
        comparer.tally()
    });
    for call in CALLS {
        tally.assert_all_seen(call);
    }
    tally.assert_all_placed();
    tally.assert_all_came_back(tally.complete());
    let heads = jobs.len();
    println!("damaged copies of {heads} heads with folds, spaces and lines that are no headers, every combination of settings (seed {SEED}): {tally}, no difference");
}
