//! All short strings over some bytes, behind starts.

use crate::starts::Start;
use crate::{on_all_cores, Case, Comparer, Tally};
use answers::Call;

/// A start with one more byte or none, and how many are tried behind that.
pub struct Strings {
    start: Vec<u8>,
    more: usize,
}

/// All strings over the bytes behind the starts, in parts for several cores.
pub fn strings(starts: &[Start], bytes: &[u8]) -> Vec<Strings> {
    let behind = |&start| strings_behind(start, bytes);
    starts.iter().flat_map(behind).collect()
}

fn strings_behind((start, depth): Start, bytes: &[u8]) -> Vec<Strings> {
    let part = |byte: &[u8], more| Strings {
        start: [start, byte].concat(),
        more,
    };
    let mut parts: Vec<Strings> = bytes.iter().map(|&byte| part(&[byte], depth - 1)).collect();
    parts.push(part(&[], 0));
    parts
}

impl Strings {
    /// Hands over every string.
    pub fn each(&self, bytes: &[u8], mut take: impl FnMut(&[u8])) {
        each_from(&mut self.start.clone(), self.more, bytes, &mut take);
    }
}

/// Hands over the input, and all that has up to `more` bytes behind it.
fn each_from(input: &mut Vec<u8>, more: usize, bytes: &[u8], take: &mut impl FnMut(&[u8])) {
    take(input);
    if more > 0 {
        for &byte in bytes {
            input.push(byte);
            each_from(input, more - 1, bytes, take);
            input.pop();
        }
    }
}

/// How many strings there are in all.
pub fn how_many(starts: &[Start], bytes: &[u8]) -> u64 {
    let bytes = bytes.len() as u64;
    let up_to = |depth| {
        (0..=depth as u32)
            .map(|length| bytes.pow(length))
            .sum::<u64>()
    };
    starts.iter().map(|&(_, depth)| up_to(depth)).sum()
}

/// What is compared on all strings over some bytes behind some starts, with each number of slots.
#[derive(Clone, Copy)]
pub struct Sweep<'lists> {
    pub call: Call,
    pub settings: u32,
    pub slots: &'lists [usize],
    pub starts: &'lists [Start],
    pub bytes: &'lists [u8],
    /// What stands behind each string.
    pub rest: &'lists [u8],
}

impl Sweep<'_> {
    /// Compares all of it, with every remainder in turn, and sees that nothing was left out.
    pub fn compare(&self) -> Tally {
        let tally = on_all_cores(&strings(self.starts, self.bytes), |strings| {
            let mut comparer = Comparer::of_headreader();
            let mut input = Vec::new();
            strings.each(self.bytes, |string| {
                input.clear();
                input.extend_from_slice(string);
                input.extend_from_slice(self.rest);
                self.compare_one(&input, &mut comparer);
            });
            comparer.tally()
        });
        assert_eq!(tally.total(), self.how_many());
        tally.assert_all_placed();
        if self.call != Call::ChunkSize {
            tally.assert_all_came_back(tally.complete());
        }
        tally
    }

    fn compare_one(&self, input: &[u8], comparer: &mut Comparer) {
        for &slots in self.slots {
            comparer.compare(&Case {
                call: self.call,
                slots,
                remainder: input.len() % 4,
                settings: self.settings,
                input,
            });
        }
    }

    fn how_many(&self) -> u64 {
        how_many(self.starts, self.bytes) * self.slots.len() as u64
    }
}

/// The same starts with another number of bytes behind each.
pub fn with_depth(starts: &[Start], depth: usize) -> Vec<Start> {
    starts.iter().map(|&(start, _)| (start, depth)).collect()
}

/// With how many slots each is read; a chunk size line has no headers, so once is enough.
pub fn slot_counts(call: Call) -> &'static [usize] {
    match call {
        Call::ChunkSize => &[0],
        _ => &[0, 1, 2],
    }
}
