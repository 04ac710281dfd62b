//! Heads one behind another, read by Headreader and, head by head, by httparse.

use crate::numbers::{Lent, Numbers, SLOT, UNTOUCHED};
use crate::position::{is_error, Search};
use crate::{expected, Case};
use answers::Call;

/// Declares readers of rows, which are all of one form.
macro_rules! readers {
    ($($name:ident),*) => {
        extern "C" {
            $(fn $name(
                start: *const u8,
                length: usize,
                slots: *mut u64,
                room: usize,
                ends: *mut u64,
                heads: usize,
                out: *mut u64,
                settings: u32,
            ) -> u32;)*
        }
    };
}

readers!(harness_requests, harness_responses);

/// The status of a row that has more heads than there is room for their ends.
pub const FULL: u32 = 10;

/// Why the reading stopped, how many heads were read, the position behind them, where the error lies
/// if it was one and else 0, and all of the ends.
#[derive(Debug, PartialEq, Eq)]
pub struct Row {
    pub status: u32,
    pub count: u64,
    pub end: u64,
    pub position: u64,
    pub ends: Vec<u64>,
}

/// What Headreader answers, with this many slots and room for this many ends.
pub fn ours(call: Call, input: &[u8], slots: usize, heads: usize, settings: u32) -> Row {
    let [mut lent, mut ends, mut out] = [slots * SLOT, heads, 3].map(Lent::of);
    let read = match call {
        Call::Request => harness_requests,
        _ => harness_responses,
    };
    // SAFETY: each pointer is to as many live elements as its length says, three for `out`, and
    // those to be written overlap nothing.
    let status = unsafe {
        read(
            input.as_ptr(),
            input.len(),
            lent.pointer(),
            slots * SLOT,
            ends.pointer(),
            heads,
            out.pointer(),
            settings,
        )
    };
    let guarded = [&lent, &ends, &out];
    assert!(guarded.iter().all(|lent| lent.guards_are_untouched()));
    Row {
        status,
        count: out.numbers()[0],
        end: out.numbers()[1],
        position: out.numbers()[2],
        ends: ends.numbers().to_vec(),
    }
}

/// What httparse answers when it is called again and again, from each end on, behind the filter where
/// targets must be plain ASCII.
pub fn theirs(call: Call, input: &[u8], slots: usize, heads: usize, settings: u32) -> Row {
    let mut ends = vec![UNTOUCHED; heads];
    let mut numbers = Numbers::default();
    let (mut at, mut count, mut position) = (0, 0, 0);
    let status = loop {
        if at == input.len() {
            break 0;
        }
        if count == heads {
            break FULL;
        }
        let case = Case {
            call,
            slots,
            remainder: 0,
            settings,
            input: &input[at..],
        };
        numbers.lend(case.room());
        expected::read(&case, &mut numbers);
        if is_error(numbers.status) {
            position = at as u64 + Search::default().position(&case, numbers.status, None);
        }
        if numbers.status != 0 {
            break numbers.status;
        }
        at += numbers.out.numbers()[0] as usize;
        ends[count] = at as u64;
        count += 1;
    };
    Row {
        status,
        count: count as u64,
        end: at as u64,
        position,
        ends,
    }
}
