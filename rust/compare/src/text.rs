//! The numbers of an answer as text for people.

use crate::numbers::{Lent, Numbers, OUT, SLOT, UNTOUCHED};
use crate::position::is_error;
use answers::Call;

/// What a call returns, by number.
pub const STATUSES: [&str; 10] = [
    "complete",
    "incomplete",
    "error HeaderName",
    "error HeaderValue",
    "error NewLine",
    "error Status",
    "error Token",
    "error TooManyHeaders",
    "error Version",
    "error InvalidChunkSize",
];

/// One line with every number of an answer; a dash is a number that was left untouched.
pub fn line(call: Call, numbers: &Numbers) -> String {
    format!(
        "{} {} {}{}",
        status(numbers.status),
        out(call, numbers),
        slots(numbers.slots.numbers()),
        guards(numbers)
    )
}

fn status(status: u32) -> String {
    match STATUSES.get(status as usize) {
        Some(name) => name.to_string(),
        None => format!("status {status}"),
    }
}

/// What each number of `out` means; those with an index are to be 0.
fn names(call: Call, status: u32) -> [&'static str; OUT] {
    let place = if is_error(status) { "position" } else { "end" };
    match call {
        Call::Request => [
            place, "given", "known", "method", "+", "target", "+", "version",
        ],
        Call::Response => [
            place, "given", "known", "version", "code", "reason", "+", "out[7]",
        ],
        Call::Headers => [
            place, "given", "out[2]", "out[3]", "out[4]", "out[5]", "out[6]", "out[7]",
        ],
        Call::ChunkSize => [
            place, "size", "out[2]", "out[3]", "out[4]", "out[5]", "out[6]", "out[7]",
        ],
    }
}

/// The fields with their names; a length follows its offset as OFFSET+LENGTH.
fn out(call: Call, numbers: &Numbers) -> String {
    let mut text = String::new();
    let names = names(call, numbers.status);
    for (name, &field) in names.iter().zip(numbers.out.numbers()) {
        text += &match *name {
            "+" => format!("+{}", number(field)),
            name => format!(" {name}={}", number(field)),
        };
    }
    text.trim_start().to_string()
}

/// The lent numbers slot by slot, up to the last that was touched.
fn slots(lent: &[u64]) -> String {
    let touched = lent
        .iter()
        .rposition(|&number| number != UNTOUCHED)
        .map_or(0, |last| last + 1);
    let slots: Vec<String> = lent[..touched].chunks(SLOT).map(slot).collect();
    format!(
        "slots=[{}] and {} untouched numbers",
        slots.join(", "),
        lent.len() - touched
    )
}

fn slot(numbers: &[u64]) -> String {
    let numbers: Vec<String> = numbers.iter().map(|&each| number(each)).collect();
    numbers.join(" ")
}

fn number(number: u64) -> String {
    match number {
        UNTOUCHED => "-".to_string(),
        _ => number.to_string(),
    }
}

fn guards(numbers: &Numbers) -> &'static str {
    let whole = Lent::guards_are_untouched;
    match (whole(&numbers.out), whole(&numbers.slots)) {
        (true, true) => "",
        (false, true) => ", and wrote beside out",
        (true, false) => ", and wrote beside the slots",
        (false, false) => ", and wrote beside out and the slots",
    }
}

#[cfg(test)]
mod tests {
    use super::*;

    #[test]
    fn every_number_is_told() {
        let mut numbers = Numbers::default();
        numbers.lend(9);
        numbers.status = 1;
        numbers.out.numbers_mut()[..7].copy_from_slice(&[0, 1, 7, 0, 3, 4, 1]);
        numbers.slots.numbers_mut()[..3].copy_from_slice(&[16, 4, 22]);
        numbers.slots.numbers_mut()[4] = 5;
        numbers.slots.with_guards_mut()[0] = 6;
        assert_eq!(
            line(Call::Request, &numbers),
            "incomplete end=0 given=1 known=7 method=0+3 target=4+1 version=- \
             slots=[16 4 22 -, 5] and 4 untouched numbers, and wrote beside the slots"
        );
    }
}
