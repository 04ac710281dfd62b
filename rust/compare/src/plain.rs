//! The plain form that Headreader writes of a complete answer, and its way back through both libraries.

mod form;
mod round_trip;

use crate::numbers::Numbers;
use crate::Case;
use answers::Call;
// links libharness.a
pub use form::{form, is_folded};
use harness as _;
pub use round_trip::RoundTrip;

/// Declares writers, which are all of one form.
macro_rules! writers {
    ($($name:ident),*) => {
        extern "C" {
            $(fn $name(
                start: *const u8,
                length: usize,
                slots: *const u64,
                room: usize,
                kind: u32,
                answer: *const u64,
                out: *mut u8,
                bytes: usize,
                size: *mut u64,
            ) -> u32;)*
        }
    };
}

writers!(
    harness_plain_request,
    harness_plain_response,
    harness_plain_headers
);

/// What a writer answers.
#[derive(Clone, Copy, Debug, PartialEq, Eq)]
pub enum Written {
    All(usize),
    Needs(usize),
    Unwritable,
    TooLong,
}

/// What every byte holds before a writer is called, and those behind the lent ones afterwards too.
pub const UNTOUCHED: u8 = 0xA5;

/// How many bytes stand on either side of the lent ones; no writer may touch them.
const GUARD: usize = 8;

/// Writes the plain form of what a case was answered into the `lent` bytes that `out` has when it
/// returns.
///
/// Panics if a byte before or behind them was touched.
pub fn write(case: &Case, answer: &Numbers, out: &mut Vec<u8>, lent: usize) -> Written {
    out.clear();
    out.resize(GUARD + lent + GUARD, UNTOUCHED);
    let writer = match case.call {
        Call::Request => harness_plain_request,
        Call::Response => harness_plain_response,
        _ => harness_plain_headers,
    };
    let slots = answer.slots.numbers();
    let mut size = u64::MAX;
    // SAFETY: each pointer is to as many live elements as its length says, eight for the answer's
    // numbers and one for the size, and those to be written overlap nothing.
    let kind = unsafe {
        writer(
            case.input.as_ptr(),
            case.input.len(),
            slots.as_ptr(),
            slots.len(),
            answer.status,
            answer.out.numbers().as_ptr(),
            out[..].as_mut_ptr().wrapping_add(GUARD),
            lent,
            &mut size,
        )
    };
    let behind = out.split_off(GUARD + lent);
    let before = out.drain(..GUARD);
    assert!(
        before.chain(behind).all(|byte| byte == UNTOUCHED),
        "a writer touched a guard"
    );
    match (kind, size) {
        (0, size) => Written::All(size as usize),
        (1, size) => Written::Needs(size as usize),
        (2, 0) => Written::Unwritable,
        (3, 0) => Written::TooLong,
        other => panic!("a writer answered {other:?}"),
    }
}
