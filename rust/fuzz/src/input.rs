//! The form that a call has as one row of bytes: three choose the call, its settings and what is lent,
//! the rest is read.

use answers::bits::{ASCII_TARGETS, SUPPORTED};
use answers::Call;
use compare::{Case, CALLS};

/// How many remainders there are, and so the weight of the call's choice in the first byte.
const REMAINDERS: usize = 4;

/// The settings, whose bits are those of the third byte.
pub const SETTINGS: u32 = SUPPORTED | ASCII_TARGETS;

/// More slots than this are never lent.
const MOST_SLOTS: usize = 127;

/// The call that a row of bytes stands for; every row of three bytes or more stands for one.
pub fn case(bytes: &[u8]) -> Option<Case<'_>> {
    let [choice, slots, settings, input @ ..] = bytes else {
        return None;
    };
    let choice = usize::from(*choice);
    Some(Case {
        call: CALLS[choice / REMAINDERS % CALLS.len()],
        remainder: choice % REMAINDERS,
        settings: u32::from(*settings),
        slots: usize::from(*slots) % (MOST_SLOTS + 1),
        input,
    })
}

/// The row of bytes that stands for a call, with fewer slots where it has more than are ever lent.
pub fn write(case: &Case) -> Vec<u8> {
    let choice = number(case.call) * REMAINDERS + case.remainder;
    let slots = case.slots.min(MOST_SLOTS);
    let chosen = [choice as u8, slots as u8, case.settings as u8];
    [&chosen, case.input].concat()
}

/// Where a call stands among all of them.
fn number(call: Call) -> usize {
    let found = CALLS.iter().position(|&each| each == call);
    found.expect("every call is among them")
}

#[cfg(test)]
mod tests {
    use super::*;
    use answers::bits::combinations;

    fn assert_read_as_written(written: &Case) {
        let row = write(written);
        let read = case(&row).unwrap();
        assert!(read.call == written.call && read.input == written.input);
        assert_eq!(read.slots, written.slots);
        assert_eq!(read.remainder, written.remainder);
        assert_eq!(read.settings, written.settings);
    }

    #[test]
    fn a_call_is_read_as_it_is_written() {
        for call in CALLS {
            for settings in combinations(SETTINGS) {
                for slots in 0..=MOST_SLOTS {
                    assert_read_as_written(&Case {
                        call,
                        slots,
                        remainder: slots % REMAINDERS,
                        settings,
                        input: b"A: b",
                    });
                }
            }
        }
    }

    #[test]
    fn three_bytes_are_a_call_on_nothing() {
        assert!(case(b"").is_none() && case(b"aa").is_none());
        assert!(case(b"\xff\xff\xff").is_some_and(|case| case.input.is_empty()));
    }
}
