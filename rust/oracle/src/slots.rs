//! The header slots lent to httparse, and what they hold after the call.

use crate::piece::place;
use answers::{Header, Outcome, Slots};

/// What every slot holds before the call; known by its address, which no part of an input has.
static UNTOUCHED: httparse::Header<'static> = httparse::Header {
    name: "untouched",
    value: b"untouched",
};

/// Slots to lend for one call.
pub fn lend<'input>(count: usize) -> Vec<httparse::Header<'input>> {
    vec![UNTOUCHED; count]
}

/// What the call left in the lent slots; panics if the list it handed back is not the written
/// slots on complete, and all of them otherwise.
pub fn left_behind(
    lent: &[httparse::Header<'_>],
    listed: *const [httparse::Header<'_>],
    outcome: Outcome,
    input: &[u8],
) -> Slots {
    let slots = look_at(lent, input);
    let expected = match outcome {
        Outcome::Complete(_) => &lent[..slots.written.len()],
        Outcome::Incomplete | Outcome::Error { .. } => lent,
    };
    assert!(
        std::ptr::eq(listed, expected),
        "httparse handed back a list of {} slots where {} were expected, on {outcome}",
        listed.len(),
        expected.len()
    );
    slots
}

/// The lent slots as they are now; panics if the written ones are not the first ones.
pub fn look_at(lent: &[httparse::Header<'_>], input: &[u8]) -> Slots {
    let count = lent.iter().position(is_untouched).unwrap_or(lent.len());
    let (written, rest) = lent.split_at(count);
    assert!(
        rest.iter().all(is_untouched),
        "httparse wrote a slot behind slot {count}, which it left untouched"
    );
    Slots {
        written: written.iter().map(|slot| header(slot, input)).collect(),
        untouched: rest.len(),
    }
}

fn is_untouched(slot: &httparse::Header<'_>) -> bool {
    std::ptr::eq(slot.name, UNTOUCHED.name) && std::ptr::eq(slot.value, UNTOUCHED.value)
}

fn header(slot: &httparse::Header<'_>, input: &[u8]) -> Header {
    Header {
        name: place(input, slot.name.as_bytes()),
        value: place(input, slot.value),
    }
}

#[cfg(test)]
mod tests {
    use super::*;

    const INPUT: &[u8] = b"A:b\n";

    fn written() -> httparse::Header<'static> {
        httparse::Header {
            name: std::str::from_utf8(&INPUT[0..1]).unwrap(),
            value: &INPUT[2..3],
        }
    }

    #[test]
    fn written_and_untouched_slots_are_told_apart() {
        let lent = [written(), UNTOUCHED, UNTOUCHED];
        let found = left_behind(&lent, &lent[..1], Outcome::Complete(4), INPUT);
        assert_eq!(found.to_string(), "headers=[0+1:2+1] untouched=2");
    }

    #[test]
    fn equal_text_elsewhere_is_not_untouched() {
        // On the heap, as every query's input is; the compiler may merge equal constants.
        let input = b"untouched".to_vec();
        let lent = [httparse::Header {
            name: std::str::from_utf8(&input).unwrap(),
            value: &input,
        }];
        assert_eq!(look_at(&lent, &input).untouched, 0);
    }

    #[test]
    #[should_panic(expected = "behind slot 0")]
    fn a_gap_is_noticed() {
        look_at(&[UNTOUCHED, written()], INPUT);
    }

    #[test]
    #[should_panic(expected = "a list of 2 slots where 1 were expected")]
    fn a_list_that_is_not_cut_is_noticed() {
        let lent = [written(), UNTOUCHED];
        left_behind(&lent, &lent[..], Outcome::Complete(4), INPUT);
    }

    #[test]
    #[should_panic(expected = "a list of 1 slots where 2 were expected")]
    fn a_list_that_is_not_given_back_is_noticed() {
        let lent = [written(), UNTOUCHED];
        left_behind(&lent, &lent[..1], Outcome::Incomplete, INPUT);
    }
}
