//! Damage to a head: changed, dropped, doubled and swapped bytes.

use crate::heads::Head;
use crate::Random;
use answers::Call;

/// What is put in place of a byte, beside one at random.
const CHANGES: &[u8] = b" \t:\r\n\x00\x7f\x80\xc3/a0";

/// No slots, one, one too few, as many as there are headers, one more, and a common number.
pub fn slot_counts(head: &Head) -> Vec<usize> {
    if head.call == Call::ChunkSize {
        return vec![0];
    }
    let headers = head.headers;
    let mut counts = vec![0, 1, headers.saturating_sub(1), headers, headers + 1, 100];
    counts.sort_unstable();
    counts.dedup();
    counts
}

/// Every place of a head up to `short` bytes long, and of a longer one some chosen at random.
pub fn places(bytes: &[u8], short: usize, some: usize, random: &mut Random) -> Vec<usize> {
    if bytes.len() <= short {
        return (0..bytes.len()).collect();
    }
    let pairs = (0..some / 2).map(|_| [random.below(bytes.len()), near_a_line_end(bytes, random)]);
    pairs.flatten().collect()
}

/// A place at the end of a line or the start of the next: in long values it would be rare.
fn near_a_line_end(bytes: &[u8], random: &mut Random) -> usize {
    let from = random.below(bytes.len());
    let ahead = bytes[from..].iter().position(|&byte| byte == b'\n');
    let place = from + ahead.unwrap_or(0) + random.below(12);
    place.saturating_sub(4).min(bytes.len() - 1)
}

/// A copy for each damage at a place.
pub fn damaged(bytes: &[u8], place: usize, random: &mut Random) -> Vec<Vec<u8>> {
    let neighbour = (place + 1) % bytes.len();
    let elsewhere = random.below(bytes.len());
    let mut copies = changed(bytes, place, random);
    copies.push(dropped(bytes, place));
    copies.push(doubled(bytes, place));
    copies.push(swapped(bytes, place, neighbour));
    copies.push(swapped(bytes, place, elsewhere));
    copies
}

fn changed(bytes: &[u8], place: usize, random: &mut Random) -> Vec<Vec<u8>> {
    let any = random.number() as u8;
    let change = |&byte| {
        let mut copy = bytes.to_vec();
        copy[place] = byte;
        copy
    };
    CHANGES.iter().chain([&any]).map(change).collect()
}

fn dropped(bytes: &[u8], place: usize) -> Vec<u8> {
    [&bytes[..place], &bytes[place + 1..]].concat()
}

fn doubled(bytes: &[u8], place: usize) -> Vec<u8> {
    [&bytes[..=place], &bytes[place..]].concat()
}

fn swapped(bytes: &[u8], one: usize, other: usize) -> Vec<u8> {
    let mut copy = bytes.to_vec();
    copy.swap(one, other);
    copy
}
