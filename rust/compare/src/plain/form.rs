//! The plain form as its definition says, made of httparse's answer.

use crate::numbers::{Numbers, OUT, SLOT};
use crate::Case;
use answers::bits::MULTILINE_HEADERS;
use answers::Call;

/// Where the pieces of the start line stand in `out`.
fn line_pieces(call: Call) -> &'static [usize] {
    match call {
        Call::Request => &[3, 5],
        Call::Response => &[5],
        _ => &[],
    }
}

/// The numbers that a start line says.
pub(super) fn numbers(call: Call, answer: &Numbers) -> [u64; 2] {
    let out: &[u64; OUT] = answer.out.numbers().try_into().expect("eight numbers");
    match call {
        Call::Request => [out[7], 0],
        Call::Response => [out[3], out[4]],
        _ => [0, 0],
    }
}

/// The bytes of each piece of the start line, and of each name and value.
pub(super) fn fields<'input>(
    call: Call,
    input: &'input [u8],
    answer: &'input Numbers,
) -> impl Iterator<Item = &'input [u8]> {
    let out = answer.out.numbers();
    let first = line_pieces(call)
        .iter()
        .map(move |&place| piece(input, out[place], out[place + 1]));
    first.chain(names_and_values(input, answer))
}

fn names_and_values<'input>(
    input: &'input [u8],
    answer: &'input Numbers,
) -> impl Iterator<Item = &'input [u8]> {
    let count = answer.out.numbers()[1] as usize;
    let places = answer.slots.numbers()[..count * SLOT].chunks_exact(2);
    places.map(move |place| piece(input, place[0], place[1]))
}

fn piece(input: &[u8], offset: u64, length: u64) -> &[u8] {
    &input[offset as usize..][..length as usize]
}

/// Whether folds are read and a value has a line end inside: then the head has no plain form.
pub fn is_folded(case: &Case, answer: &Numbers) -> bool {
    let has_line_end = |bytes: &[u8]| bytes.iter().any(|byte| b"\r\n".contains(byte));
    case.has(MULTILINE_HEADERS) && names_and_values(case.input, answer).any(has_line_end)
}

/// The plain form as its definition says, made of httparse's answer.
pub fn form(call: Call, input: &[u8], answer: &Numbers, form: &mut Vec<u8>) {
    let mut line = fields(call, input, answer);
    let [first, second] = numbers(call, answer);
    match call {
        Call::Request => {
            form.extend_from_slice(line.next().expect("a method"));
            form.push(b' ');
            form.extend_from_slice(line.next().expect("a target"));
            form.extend_from_slice(b" HTTP/1.");
            form.push(b'0' + first as u8);
            form.extend_from_slice(b"\r\n");
        }
        Call::Response => {
            form.extend_from_slice(b"HTTP/1.");
            form.push(b'0' + first as u8);
            form.push(b' ');
            for power in [100, 10, 1] {
                form.push(b'0' + (second / power % 10) as u8);
            }
            form.push(b' ');
            form.extend_from_slice(line.next().expect("a reason"));
            form.extend_from_slice(b"\r\n");
        }
        _ => {}
    }
    while let Some(name) = line.next() {
        form.extend_from_slice(name);
        form.extend_from_slice(b": ");
        form.extend_from_slice(line.next().expect("a value"));
        form.extend_from_slice(b"\r\n");
    }
    form.extend_from_slice(b"\r\n");
}

#[cfg(test)]
mod tests {
    use super::*;
    use crate::theirs;
    use answers::bits::DEFAULT;

    fn is_folded_in(settings: u32, input: &[u8]) -> bool {
        let case = Case {
            call: Call::Response,
            slots: 2,
            remainder: 0,
            settings,
            input,
        };
        let mut answer = Numbers::default();
        answer.lend(case.room());
        theirs::read(&case, &mut answer);
        assert_eq!(answer.status, 0);
        is_folded(&case, &answer)
    }

    #[test]
    fn a_line_end_inside_a_value_is_a_fold() {
        assert!(is_folded_in(
            MULTILINE_HEADERS,
            b"HTTP/1.1 200\nA: b\nC: d\n e\n\n"
        ));
        assert!(is_folded_in(
            MULTILINE_HEADERS,
            b"HTTP/1.1 200\nA:b\r\n\tc\nD:\n\n"
        ));
    }

    #[test]
    fn line_ends_around_a_value_are_none() {
        assert!(!is_folded_in(
            MULTILINE_HEADERS,
            b"HTTP/1.1 200\nA:\n b\nC: d\n \n\n"
        ));
        assert!(!is_folded_in(MULTILINE_HEADERS, b"HTTP/1.1 200\nA: b\n\n"));
        assert!(!is_folded_in(DEFAULT, b"HTTP/1.1 200\nA: b\n\n"));
    }
}
