//! Damaged copies of realistic heads: changed, dropped, doubled and swapped bytes, and cuts.

use answers::bits::DEFAULT;
use compare::damage::{damaged, places, slot_counts};
use compare::heads::{jobs, make, shapes, Head, Shape};
use compare::{on_all_cores, Case, Comparer, Random, CALLS};

const SEED: u64 = 9112;

/// Heads up to this length are damaged at every place, longer ones at places chosen at random.
const SHORT: usize = 2_000;

/// How many places are chosen in a long head.
const PLACES: usize = 60;

fn compare(head: &Head, input: &[u8], comparer: &mut Comparer) {
    for slots in slot_counts(head) {
        comparer.compare(&Case {
            call: head.call,
            slots,
            remainder: input.len() % 4,
            settings: DEFAULT,
            input,
        });
    }
}

/// Compares the head with each damage at a place, and cut there with the rest still behind it.
fn damage_at(place: usize, head: &Head, random: &mut Random, comparer: &mut Comparer) {
    for input in &damaged(&head.bytes, place, random) {
        compare(head, input, comparer);
    }
    compare(head, &head.bytes[..place], comparer);
}

/// How many heads of a shape are made: the long ones take their time.
fn how_many(shape: &Shape) -> usize {
    if shape.headers < 4 && shape.length <= SHORT {
        30
    } else {
        3
    }
}

#[test]
fn damaged_heads() {
    let jobs = jobs(shapes(), SEED, how_many);
    let tally = on_all_cores(&jobs, |(shape, seed)| {
        let mut comparer = Comparer::of_headreader();
        let mut random = Random::new(*seed);
        let head = make(shape, &mut random);
        compare(&head, &head.bytes, &mut comparer);
        for place in places(&head.bytes, SHORT, PLACES, &mut random) {
            damage_at(place, &head, &mut random, &mut comparer);
        }
        comparer.tally()
    });
    for call in CALLS {
        tally.assert_all_seen(call);
    }
    tally.assert_all_placed();
    let heads = jobs.len();
    println!("damaged copies of {heads} heads (seed {SEED}): {tally}, no difference");
}
