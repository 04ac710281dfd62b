//! A caller of Headreader sees what a caller of httparse sees: results, fields, headers and their
//! places, memory that is left alone, and texts.

use answers::bits::DEFAULT;
use answers::Call;
use compare::damage::{damaged, places, slot_counts};
use compare::heads::{jobs, make, shapes, Head, Shape, LONGEST};
use compare::starts::{starts, telling_bytes, Start};
use compare::strings::{self, strings};
use compare::types::{our_texts, their_texts, TypesComparer};
use compare::{on_all_cores, Case, Random, CALLS};

const SEED: u64 = 7230;

/// How many bytes are tried behind each start.
const DEPTH: usize = 5;

/// Heads up to this length are damaged at every place, longer ones at places chosen at random.
const SHORT: usize = 150;

/// How many places are chosen in a long head.
const PLACES: usize = 8;

/// How many heads of each shape are made.
const HEADS: usize = 2;

fn compare(call: Call, slots: &[usize], input: &[u8], comparer: &mut TypesComparer) {
    for &slots in slots {
        comparer.compare(&Case {
            call,
            slots,
            remainder: 0,
            settings: DEFAULT,
            input,
        });
    }
}

/// The setting that httparse does not have is shown behind those that it has: by default, and with
/// each of them on and off.
#[test]
fn texts() {
    let shown = ", ascii_targets: false }";
    let ours = our_texts();
    let count = |text: &String| text.matches(shown).count();
    assert_eq!(ours.iter().map(count).sum::<usize>(), 1 + 2 * 7);
    let ours: Vec<String> = ours.iter().map(|text| text.replace(shown, " }")).collect();
    assert_eq!(ours, their_texts());
}

fn compare_strings(call: Call) {
    let bytes = telling_bytes(call);
    let starts: Vec<Start> = starts(call)
        .iter()
        .map(|&(start, _)| (start, DEPTH))
        .collect();
    let slots = strings::slot_counts(call);
    let tally = on_all_cores(&strings(&starts, bytes), |strings| {
        let mut comparer = TypesComparer::of_headreader();
        strings.each(bytes, |input| compare(call, slots, input, &mut comparer));
        comparer.tally()
    });
    let all = strings::how_many(&starts, bytes) * slots.len() as u64;
    assert_eq!(tally.total(), all);
    tally.assert_all_seen(call);
    tally.assert_all_placed();
    let count = starts.len();
    println!("{call} by its types, all strings behind {count} starts: {tally}, no difference");
}

#[test]
fn all_short_strings() {
    for call in CALLS {
        compare_strings(call);
    }
}

/// Compares the head with each damage at a place, and cut there with the rest still behind it.
fn damage_at(place: usize, head: &Head, random: &mut Random, comparer: &mut TypesComparer) {
    let slots = slot_counts(head);
    for input in &damaged(&head.bytes, place, random) {
        compare(head.call, &slots, input, comparer);
    }
    compare(head.call, &slots, &head.bytes[..place], comparer);
}

/// How many heads of a shape are made: the longest would take too long.
fn how_many(shape: &Shape) -> usize {
    if shape.length < LONGEST {
        HEADS
    } else {
        0
    }
}

#[test]
fn damaged_heads() {
    let jobs = jobs(shapes(), SEED, how_many);
    let tally = on_all_cores(&jobs, |(shape, seed)| {
        let mut comparer = TypesComparer::of_headreader();
        let mut random = Random::new(*seed);
        let head = make(shape, &mut random);
        compare(head.call, &slot_counts(&head), &head.bytes, &mut comparer);
        for place in places(&head.bytes, SHORT, PLACES, &mut random) {
            damage_at(place, &head, &mut random, &mut comparer);
        }
        comparer.tally()
    });
    for call in CALLS {
        tally.assert_all_seen(call);
    }
    tally.assert_all_placed();
    let heads = jobs.len();
    println!(
        "damaged copies of {heads} heads by their types (seed {SEED}): {tally}, no difference"
    );
}
