//! One query and its answer as a row of words, separated by single spaces:
//!
//! `CALL SETTINGS SLOTS INPUT KIND OUT0 OUT1 OUT2 OUT3 OUT4 OUT5 OUT6 OUT7 [SLOT NUMBERS..]`
//!
//! * CALL: 0 request, 1 response, 2 headers, 3 chunk size.
//! * SETTINGS: the bits of those that are on, as include/headreader.h has them, added up.
//! * SLOTS: the number of slots lent; 0 for a chunk size.
//! * INPUT: two hexadecimal digits for each byte; `-` if there is none.
//! * KIND: 0 complete, 1 incomplete, 2 HeaderName, 3 HeaderValue, 4 NewLine, 5 Status, 6 Token,
//!   7 TooManyHeaders, 8 Version, 9 chunk size error.
//! * OUT0: the end, if complete; of an error, its position.
//! * OUT1: the number of slots written; for a chunk size, the size, if complete.
//! * OUT2: what is known: 1 method, 2 target, 4 version, 8 code, 16 reason, added up.
//! * OUT3 to OUT7: of a request, offset and length of the method, offset and length of the target,
//!   minor version; of a response, minor version, code, offset and length of the reason (0 0 if it
//!   is empty), 0.
//! * SLOT NUMBERS: for each slot written, offset and length of the name, offset and length of the
//!   value.
//!
//! All but INPUT are decimal, without leading zeros. What is not known is 0.

use answers::functions::{
    number, CODE, COMPLETE, INCOMPLETE, INVALID_CHUNK_SIZE, METHOD, REASON, TARGET, VERSION,
};
use answers::{Answer, Call, ChunkSize, Header, Outcome, Piece, Query, Reason, Slots};

/// The row, without a line end.
pub fn write(query: &Query, answer: &Answer) -> String {
    let mut words = vec![
        number_of(query.call).to_string(),
        query.settings.bits().to_string(),
        query.slots.to_string(),
        hexadecimal(&query.input),
    ];
    words.extend(numbers(answer).iter().map(u64::to_string));
    words.join(" ")
}

fn number_of(call: Call) -> u64 {
    match call {
        Call::Request => 0,
        Call::Response => 1,
        Call::Headers => 2,
        Call::ChunkSize => 3,
    }
}

fn hexadecimal(input: &[u8]) -> String {
    if input.is_empty() {
        return "-".to_string();
    }
    input.iter().map(|byte| format!("{byte:02x}")).collect()
}

/// All numbers from KIND on.
fn numbers(answer: &Answer) -> Vec<u64> {
    match answer {
        Answer::Request {
            outcome,
            method,
            target,
            version,
            slots,
        } => of_head(*outcome, request_fields(*method, *target, *version), slots),
        Answer::Response {
            outcome,
            version,
            code,
            reason,
            slots,
        } => of_head(*outcome, response_fields(*version, *code, *reason), slots),
        Answer::Headers { outcome, slots } => of_head(*outcome, [0; 6], slots),
        Answer::ChunkSize(answer) => of_chunk_size(*answer).to_vec(),
    }
}

/// The numbers of all but a chunk size, given OUT2 to OUT7.
fn of_head(outcome: Outcome, fields: [u64; 6], slots: &Slots) -> Vec<u64> {
    let [kind, place] = kind_and_place(outcome);
    let mut numbers = vec![kind, place, slots.written.len() as u64];
    numbers.extend(fields);
    numbers.extend(slots.written.iter().flat_map(of_header));
    numbers
}

fn of_chunk_size(answer: ChunkSize) -> [u64; 9] {
    let (kind, place, size) = match answer {
        ChunkSize::Complete { end, size } => (COMPLETE, end, size),
        ChunkSize::Incomplete => (INCOMPLETE, 0, 0),
        ChunkSize::Error { position } => (INVALID_CHUNK_SIZE, position, 0),
    };
    [u64::from(kind), place as u64, size, 0, 0, 0, 0, 0, 0]
}

/// KIND and OUT0.
fn kind_and_place(outcome: Outcome) -> [u64; 2] {
    let (kind, place) = match outcome {
        Outcome::Complete(end) => (COMPLETE, end),
        Outcome::Incomplete => (INCOMPLETE, 0),
        Outcome::Error { error, position } => (number(error), position),
    };
    [u64::from(kind), place as u64]
}

fn request_fields(method: Option<Piece>, target: Option<Piece>, version: Option<u8>) -> [u64; 6] {
    let known = if_known(METHOD, method) + if_known(TARGET, target) + if_known(VERSION, version);
    let [method_offset, method_length] = method.map_or([0, 0], of_piece);
    let [target_offset, target_length] = target.map_or([0, 0], of_piece);
    [
        known,
        method_offset,
        method_length,
        target_offset,
        target_length,
        version.map_or(0, u64::from),
    ]
}

fn response_fields(version: Option<u8>, code: Option<u16>, reason: Option<Reason>) -> [u64; 6] {
    let known = if_known(VERSION, version) + if_known(CODE, code) + if_known(REASON, reason);
    let [reason_offset, reason_length] = match reason {
        Some(Reason::Words(piece)) => of_piece(piece),
        Some(Reason::Empty) | None => [0, 0],
    };
    [
        known,
        version.map_or(0, u64::from),
        code.map_or(0, u64::from),
        reason_offset,
        reason_length,
        0,
    ]
}

/// What a field adds to OUT2.
fn if_known<Field>(mark: u64, field: Option<Field>) -> u64 {
    field.map_or(0, |_| mark)
}

fn of_header(header: &Header) -> [u64; 4] {
    let [name_offset, name_length] = of_piece(header.name);
    let [value_offset, value_length] = of_piece(header.value);
    [name_offset, name_length, value_offset, value_length]
}

fn of_piece(piece: Piece) -> [u64; 2] {
    [piece.offset as u64, piece.length as u64]
}

#[cfg(test)]
mod tests {
    use super::*;
    use answers::HeadError;

    /// Checks the rows of queries and answers that are given in their text forms.
    fn check(examples: &[(&str, &str, &str)]) {
        for (query, answer, expected) in examples {
            let query: Query = query.parse().unwrap();
            let answer = Answer::read(query.call, answer).unwrap();
            assert_eq!(write(&query, &answer), *expected);
        }
    }

    #[test]
    fn heads_are_written() {
        check(&[
            (
                "request\tdefault\t3\t\"A b HTTP/1.1\\nC:d\\nE:\\n\\n\"",
                "complete 21 method=0+1 target=2+1 version=1 headers=[13+1:15+1 17+1:19+0] untouched=1",
                "0 0 3 41206220485454502f312e310a433a640a453a0a0a 0 21 2 7 0 1 2 1 1 13 1 15 1 17 1 19 0",
            ),
            (
                "response\tdefault\t0\t\"\\nHTTP/1.1 204 a\\n\\n\"",
                "complete 17 version=1 code=204 reason=14+1 headers=[] untouched=0",
                "1 0 0 0a485454502f312e312032303420610a0a 0 17 0 28 1 204 14 1 0",
            ),
            (
                "headers\tdefault\t2\t\"A:\\n\\n\"",
                "complete 4 headers=[0+1:2+0] untouched=1",
                "2 0 2 413a0a0a 0 4 1 0 0 0 0 0 0 0 1 2 0",
            ),
        ]);
    }

    #[test]
    fn settings_are_written_as_bits() {
        check(&[(
            "response\tmultiline-headers+space-before-first-header-name\t1\t\"HTTP/1.1 204\\n A:\"",
            "incomplete version=1 code=204 reason=+0 headers=[] untouched=1",
            "1 18 1 485454502f312e31203230340a20413a 1 0 0 28 1 204 0 0 0",
        )]);
    }

    #[test]
    fn what_is_not_known_is_zero() {
        check(&[
            (
                "request\tdefault\t1\t\"\\nA \\xff \"",
                "error Token at 4 method=1+1 target=- version=- headers=[] untouched=1",
                "0 0 1 0a4120ff20 6 4 0 1 1 1 0 0 0",
            ),
            (
                "response\tdefault\t1\t\"HTTP/1.0 000\"",
                "incomplete version=0 code=0 reason=- headers=[] untouched=1",
                "1 0 1 485454502f312e3020303030 1 0 0 12 0 0 0 0 0",
            ),
            (
                "response\tdefault\t1\t\"HTTP/1.0 000\\n:\"",
                "error HeaderName at 13 version=0 code=0 reason=+0 headers=[] untouched=1",
                "1 0 1 485454502f312e30203030300a3a 2 13 0 28 0 0 0 0 0",
            ),
            (
                "headers\tdefault\t1\t\"\"",
                "incomplete headers=[] untouched=1",
                "2 0 1 - 1 0 0 0 0 0 0 0 0",
            ),
        ]);
    }

    #[test]
    fn every_error_has_its_number() {
        for (index, error) in HeadError::ALL.into_iter().enumerate() {
            let position = 5;
            assert_eq!(
                kind_and_place(Outcome::Error { error, position }),
                [index as u64 + 2, 5]
            );
        }
    }

    #[test]
    fn chunk_sizes_are_written() {
        check(&[
            (
                "chunk-size\tdefault\t0\t\"ffffffffffffffff\\r\\n\"",
                "complete 18 size=18446744073709551615",
                "3 0 0 666666666666666666666666666666660d0a 0 18 18446744073709551615 0 0 0 0 0 0",
            ),
            (
                "chunk-size\tdefault\t0\t\"1\\r\"",
                "incomplete",
                "3 0 0 310d 1 0 0 0 0 0 0 0 0",
            ),
            (
                "chunk-size\tdefault\t0\t\"1g\"",
                "error InvalidChunkSize at 1",
                "3 0 0 3167 9 1 0 0 0 0 0 0 0",
            ),
        ]);
    }
}
