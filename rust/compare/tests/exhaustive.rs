//! All short strings over a few telling bytes, behind good starts that end in each part of a head.

use answers::bits::DEFAULT;
use answers::Call;
use compare::starts::{starts, telling_bytes, Start};
use compare::strings::{slot_counts, with_depth, Sweep};
use compare::{Tally, CALLS};

/// Compares all strings of the bytes behind the starts.
fn compare_behind(call: Call, starts: &[Start], bytes: &[u8]) -> Tally {
    let sweep = Sweep {
        call,
        settings: DEFAULT,
        slots: slot_counts(call),
        starts,
        bytes,
        rest: b"",
    };
    sweep.compare()
}

/// Compares all strings over the telling bytes of a call, and sees that they lead to every answer.
fn compare_telling(call: Call) {
    let tally = compare_behind(call, starts(call), telling_bytes(call));
    tally.assert_all_seen(call);
    let count = starts(call).len();
    println!("{call}, all strings behind {count} starts: {tally}, no difference");
}

#[test]
fn requests() {
    compare_telling(Call::Request);
}

#[test]
fn responses() {
    compare_telling(Call::Response);
}

#[test]
fn header_blocks() {
    compare_telling(Call::Headers);
}

#[test]
fn chunk_size_lines() {
    compare_telling(Call::ChunkSize);
}

/// The classes of bytes: whatever the few telling bytes leave out is met here.
#[test]
fn every_two_of_all_bytes() {
    let all: Vec<u8> = (0..=255).collect();
    let mut tally = Tally::default();
    for call in CALLS {
        tally += compare_behind(call, &with_depth(starts(call), 2), &all);
    }
    println!("every call, every two of all bytes behind every start: {tally}, no difference");
}
