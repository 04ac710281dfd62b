//! Heads one behind another: good ones, damaged ones, and cuts, with any room for slots and ends.

use answers::bits::{self, ASCII_TARGETS};
use answers::Call;
use compare::heads::{lenient_shapes, make, shapes, Head, Shape};
use compare::row::{ours, theirs, FULL};
use compare::Random;

const SEED: u64 = 2068;
const ROWS: usize = 40_000;

/// Shapes of short heads of a call, those that need no setting and those that need all.
fn short(call: Call) -> Vec<Shape> {
    let all = shapes().into_iter().chain(lenient_shapes());
    let of_call = all.filter(|shape| shape.call == call);
    of_call
        .filter(|shape| shape.headers < 10)
        .filter(|shape| shape.length < 1_000)
        .collect()
}

/// Some heads with nothing between them, and where each ends.
fn row(shapes: &[Shape], random: &mut Random) -> (Vec<u8>, Vec<u64>) {
    let mut bytes = Vec::new();
    let mut ends = Vec::new();
    for _ in 0..random.below(7) {
        let head = make(&random.choose(shapes), random);
        bytes.extend_from_slice(&head.bytes[..end(&head)]);
        ends.push(bytes.len() as u64);
    }
    (bytes, ends)
}

/// Where the head ends and what stands behind it begins.
fn end(head: &Head) -> usize {
    let settings = bits::of(head.call);
    let alone = theirs(head.call, &head.bytes, head.headers, 1, settings);
    alone.ends[0] as usize
}

/// One byte is changed, or the row is cut.
fn damaged(mut bytes: Vec<u8>, random: &mut Random) -> Vec<u8> {
    if bytes.is_empty() {
        return bytes;
    }
    let place = random.below(bytes.len());
    if random.below(2) == 0 {
        bytes.truncate(place);
    } else {
        bytes[place] = random.choose(b" \t:\r\n\x00\x80a");
    }
    bytes
}

#[test]
fn rows_of_heads() {
    let mut random = Random::new(SEED);
    let mut seen = [0; FULL as usize + 1];
    let (mut heads, mut later) = (0, 0);
    for call in [Call::Request, Call::Response] {
        let shapes = short(call);
        let settings = bits::combinations(bits::of(call) | ASCII_TARGETS);
        for _ in 0..ROWS {
            let (good, ends) = row(&shapes, &mut random);
            let all = ours(call, &good, 100, ends.len(), bits::of(call));
            assert_eq!((all.status, all.count), (0, ends.len() as u64));
            assert_eq!((all.ends, all.position), (ends, 0));
            let damage = random.below(2) == 0;
            let input = if damage {
                damaged(good, &mut random)
            } else {
                good
            };
            let (slots, room) = (random.below(10), random.below(8));
            let settings = random.choose(&settings);
            let found = ours(call, &input, slots, room, settings);
            let expected = theirs(call, &input, slots, room, settings);
            assert_eq!(found, expected, "{call}: {}", input.escape_ascii());
            seen[found.status as usize] += 1;
            heads += found.count;
            later += u64::from(found.position > found.end && found.count > 0);
        }
    }
    for status in [0, 1, 2, 3, 4, 5, 6, 7, 8, FULL as usize] {
        assert!(seen[status] > 0, "no row ended with status {status}");
    }
    assert!(later > 1_000, "too few errors lie behind a good head");
    let (rows, positions) = (2 * ROWS, seen[2..FULL as usize].iter().sum::<u64>());
    println!("{rows} rows of {heads} heads and {positions} positions (seed {SEED}), compared with httparse head by head, no difference");
}
