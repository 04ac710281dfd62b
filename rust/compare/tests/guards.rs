//! The edges of what is lent: rooms of no whole slots, inputs with nothing around them, none at all.

use answers::bits::DEFAULT;
use answers::Call;
use compare::heads::{make, shapes, Head};
use compare::{Case, Comparer, Random, CALLS};

const SEED: u64 = 9110;

/// Heads up to this length are tried with every cut and every alignment.
const SHORT: usize = 300;

fn heads() -> Vec<Head> {
    let mut random = Random::new(SEED);
    let heads = shapes().into_iter().map(|shape| make(&shape, &mut random));
    heads.collect()
}

/// Compares with every remainder behind some slots, and sees that the input is left alone.
fn compare(call: Call, headers: usize, input: &[u8], comparer: &mut Comparer) {
    let before = input.to_vec();
    for slots in [0, 1, headers, headers + 1] {
        for remainder in 0..4 {
            comparer.compare(&Case {
                call,
                slots,
                remainder,
                settings: DEFAULT,
                input,
            });
        }
    }
    assert!(input == before, "the input was written to");
}

#[test]
fn rooms_that_are_no_whole_slots() {
    let mut comparer = Comparer::of_headreader();
    for head in heads() {
        for call in CALLS {
            compare(call, head.headers, &head.bytes, &mut comparer);
        }
    }
    let tally = comparer.tally();
    println!("rooms of no whole number of slots (seed {SEED}): {tally}, no difference");
}

/// Each input has an allocation of exactly its length.
#[test]
fn inputs_with_nothing_around_them() {
    let mut comparer = Comparer::of_headreader();
    for head in heads().iter().filter(|head| head.bytes.len() <= SHORT) {
        for end in 0..=head.bytes.len() {
            let alone: Box<[u8]> = head.bytes[..end].into();
            compare(head.call, head.headers, &alone, &mut comparer);
        }
    }
    let tally = comparer.tally();
    println!("inputs with nothing around them (seed {SEED}): {tally}, no difference");
}

/// Each input begins at every place within the width of httparse's widest vectors.
#[test]
fn inputs_at_every_alignment() {
    let mut comparer = Comparer::of_headreader();
    for head in heads().iter().filter(|head| head.bytes.len() <= SHORT) {
        for shift in 0..32 {
            let moved = [&vec![b'\n'; shift], &head.bytes[..]].concat();
            compare(head.call, head.headers, &moved[shift..], &mut comparer);
        }
    }
    let tally = comparer.tally();
    println!("inputs at every alignment (seed {SEED}): {tally}, no difference");
}

/// The empty input is a pointer that is not null, as Rust's slices and C's arrays have it.
#[test]
fn no_input_at_all() {
    let mut comparer = Comparer::of_headreader();
    let nothing: Box<[u8]> = Box::new([]);
    let behind_a_head = b"GET / HTTP/1.1\r\n\r\n";
    for call in CALLS {
        for empty in [&nothing[..], &behind_a_head[..0], &behind_a_head[18..]] {
            compare(call, 1, empty, &mut comparer);
        }
    }
    let tally = comparer.tally();
    println!("no input at all: {tally}, no difference");
}
