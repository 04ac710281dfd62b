//! What httparse answers, as the numbers that Headreader is to write.

use crate::numbers::{Numbers, OUT, SLOT};
use crate::types::their_config;
use crate::Case;
use answers::functions::{
    number, CODE, COMPLETE, INCOMPLETE, INVALID_CHUNK_SIZE, METHOD, REASON, TARGET, VERSION,
};
use answers::{Call, HeadError};
use httparse::{Error, Header, Status};

/// What every slot holds before the call; known by its address, which no part of an input has.
static UNTOUCHED: Header<'static> = Header {
    name: "untouched",
    value: b"untouched",
};

/// As many slots as are lent without an allocation.
const FEW: usize = 2;

/// Makes the call; `numbers` must have been lent with the room of the case.
pub fn read(case: &Case, numbers: &mut Numbers) {
    if case.call == Call::ChunkSize {
        chunk_size(case.input, numbers);
    } else if case.slots <= FEW {
        head(case, &mut [UNTOUCHED; FEW][..case.slots], numbers);
    } else {
        head(case, &mut vec![UNTOUCHED; case.slots], numbers);
    }
}

fn head<'input>(case: &Case<'input>, lent: &mut [Header<'input>], numbers: &mut Numbers) {
    let input = case.input;
    let all: *const [Header<'_>] = lent;
    let (result, listed, fields) = match case.call {
        Call::Request => request(case, lent),
        Call::Response => response(case, lent),
        _ => headers(input, lent),
    };
    let given = write_slots(lent, input, numbers.slots.numbers_mut());
    assert_handed_back(&result, listed, all, given);
    numbers.status = status(&result);
    write_out(numbers, end(result), given as u64, fields);
}

/// How it ended, the list of headers handed back, and all of `out` behind the count.
type Read<'input> = (
    httparse::Result<usize>,
    *const [Header<'input>],
    [u64; OUT - 2],
);

fn request<'input>(case: &Case<'input>, lent: &mut [Header<'input>]) -> Read<'input> {
    let input = case.input;
    let mut request = httparse::Request::new(lent);
    let result = their_config(case).parse_request(&mut request, input);
    let known =
        bit(METHOD, request.method) + bit(TARGET, request.path) + bit(VERSION, request.version);
    let [method, method_length] = place(input, request.method.map(str::as_bytes));
    let [target, target_length] = place(input, request.path.map(str::as_bytes));
    let version = request.version.map_or(0, u64::from);
    let fields = [known, method, method_length, target, target_length, version];
    (result, request.headers, fields)
}

fn response<'input>(case: &Case<'input>, lent: &mut [Header<'input>]) -> Read<'input> {
    let input = case.input;
    let mut response = httparse::Response::new(lent);
    let result = their_config(case).parse_response(&mut response, input);
    let known =
        bit(VERSION, response.version) + bit(CODE, response.code) + bit(REASON, response.reason);
    let version = response.version.map_or(0, u64::from);
    let code = response.code.map_or(0, u64::from);
    // An empty reason may be a constant of httparse, so only one with bytes has a place.
    let words = response.reason.filter(|reason| !reason.is_empty());
    let [reason, reason_length] = place(input, words.map(str::as_bytes));
    let fields = [known, version, code, reason, reason_length, 0];
    (result, response.headers, fields)
}

fn headers<'input>(input: &'input [u8], lent: &mut [Header<'input>]) -> Read<'input> {
    let all: *const [Header<'input>] = lent;
    let (result, listed) = match httparse::parse_headers(input, lent) {
        Ok(Status::Complete((end, list))) => (Ok(Status::Complete(end)), std::ptr::from_ref(list)),
        Ok(Status::Partial) => (Ok(Status::Partial), all),
        Err(error) => (Err(error), all),
    };
    (result, listed, [0; OUT - 2])
}

fn chunk_size(input: &[u8], numbers: &mut Numbers) {
    let (status, end, size) = match httparse::parse_chunk_size(input) {
        Ok(Status::Complete((end, size))) => (COMPLETE, end as u64, size),
        Ok(Status::Partial) => (INCOMPLETE, 0, 0),
        Err(httparse::InvalidChunkSize) => (INVALID_CHUNK_SIZE, 0, 0),
    };
    numbers.status = status;
    write_out(numbers, end, size, [0; OUT - 2]);
}

fn write_out(numbers: &mut Numbers, end: u64, count: u64, fields: [u64; OUT - 2]) {
    let out = numbers.out.numbers_mut();
    out[0] = end;
    out[1] = count;
    out[2..].copy_from_slice(&fields);
}

/// Writes the four numbers of each slot that httparse wrote, and counts them.
fn write_slots(lent: &[Header<'_>], input: &[u8], slots: &mut [u64]) -> usize {
    let mut given = 0;
    for (header, slot) in lent.iter().zip(slots.chunks_exact_mut(SLOT)) {
        if !is_untouched(header) {
            slot[..2].copy_from_slice(&place(input, Some(header.name.as_bytes())));
            slot[2..].copy_from_slice(&place(input, Some(header.value)));
            given += 1;
        }
    }
    given
}

fn is_untouched(header: &Header<'_>) -> bool {
    std::ptr::eq(header.name, UNTOUCHED.name) && std::ptr::eq(header.value, UNTOUCHED.value)
}

/// On complete the list is cut to the headers given, otherwise it is whole.
fn assert_handed_back(
    result: &httparse::Result<usize>,
    listed: *const [Header<'_>],
    all: *const [Header<'_>],
    given: usize,
) {
    let expected = match result {
        Ok(Status::Complete(_)) => given,
        _ => all.len(),
    };
    assert!(
        listed.cast::<u8>() == all.cast::<u8>() && listed.len() == expected,
        "httparse handed back a list of {} slots where the first {expected} were expected",
        listed.len()
    );
}

fn status(result: &httparse::Result<usize>) -> u32 {
    match result {
        Ok(Status::Complete(_)) => COMPLETE,
        Ok(Status::Partial) => INCOMPLETE,
        Err(error) => number(head_error(*error)),
    }
}

fn head_error(error: Error) -> HeadError {
    match error {
        Error::HeaderName => HeadError::HeaderName,
        Error::HeaderValue => HeadError::HeaderValue,
        Error::NewLine => HeadError::NewLine,
        Error::Status => HeadError::Status,
        Error::Token => HeadError::Token,
        Error::TooManyHeaders => HeadError::TooManyHeaders,
        Error::Version => HeadError::Version,
    }
}

fn end(result: httparse::Result<usize>) -> u64 {
    match result {
        Ok(Status::Complete(end)) => end as u64,
        _ => 0,
    }
}

/// The bit of a field that is known, 0 for one that is not.
fn bit<Field>(bit: u64, field: Option<Field>) -> u64 {
    field.map_or(0, |_| bit)
}

/// Offset and length of a part of the input, zeros for none; panics if it lies elsewhere.
fn place(input: &[u8], part: Option<&[u8]>) -> [u64; 2] {
    let Some(part) = part else {
        return [0, 0];
    };
    let bounds = input.as_ptr_range();
    let found = part.as_ptr_range();
    assert!(
        bounds.start <= found.start && found.end <= bounds.end,
        "httparse answered a piece at {found:?}, outside of the input at {bounds:?}"
    );
    let offset = found.start as usize - bounds.start as usize;
    [offset as u64, part.len() as u64]
}

#[cfg(test)]
mod tests {
    use super::*;
    use crate::numbers::UNTOUCHED as FREE;
    use answers::bits::DEFAULT;

    fn answer(call: Call, slots: usize, input: &[u8]) -> Numbers {
        let case = Case {
            call,
            slots,
            remainder: 1,
            settings: DEFAULT,
            input,
        };
        let mut numbers = Numbers::default();
        numbers.lend(case.room());
        read(&case, &mut numbers);
        numbers
    }

    #[test]
    fn a_request_as_numbers() {
        let numbers = answer(
            Call::Request,
            3,
            b"GET / HTTP/1.1\r\nHost: a\r\nX:\r\n\r\nbody",
        );
        assert_eq!(numbers.status, 0);
        assert_eq!(numbers.out.numbers(), [31, 2, 7, 0, 3, 4, 1, 1]);
        assert_eq!(numbers.slots.numbers()[..8], [16, 4, 22, 1, 25, 1, 27, 0]);
        assert_eq!(numbers.slots.numbers()[8..], [FREE; 5]);
    }

    #[test]
    fn a_response_as_numbers() {
        let numbers = answer(Call::Response, 1, b"\nHTTP/1.1 200 OK\nA:b\nC");
        assert_eq!(numbers.status, 1);
        assert_eq!(numbers.out.numbers(), [0, 1, 28, 1, 200, 14, 2, 0]);
        assert_eq!(numbers.slots.numbers(), [17, 1, 19, 1, FREE]);
    }

    #[test]
    fn an_empty_reason_has_no_place() {
        for input in [&b"HTTP/1.0 204\r\n"[..], b"HTTP/1.0 204 \xe9\r\n"] {
            let numbers = answer(Call::Response, 0, input);
            assert_eq!(numbers.out.numbers(), [0, 0, 28, 0, 204, 0, 0, 0]);
        }
    }

    #[test]
    fn headers_as_numbers() {
        let numbers = answer(Call::Headers, 1, b"A:b\nC:d\n\n");
        assert_eq!(numbers.status, 7);
        assert_eq!(numbers.out.numbers(), [0, 1, 0, 0, 0, 0, 0, 0]);
        assert_eq!(numbers.slots.numbers(), [0, 1, 2, 1, FREE]);
    }

    #[test]
    fn a_chunk_size_as_numbers() {
        let numbers = answer(Call::ChunkSize, 0, b"3086d;x\r\n");
        assert_eq!(numbers.status, 0);
        assert_eq!(numbers.out.numbers(), [9, 198_765, 0, 0, 0, 0, 0, 0]);
        assert_eq!(answer(Call::ChunkSize, 0, b"a").status, 1);
        assert_eq!(answer(Call::ChunkSize, 0, b"g").status, 9);
    }

    #[test]
    fn every_error_has_its_number() {
        for (status, call, input) in [
            (2, Call::Headers, &b"A b\n"[..]),
            (3, Call::Headers, b"A:\0"),
            (4, Call::Headers, b"\rA"),
            (5, Call::Response, b"HTTP/1.1 x"),
            (6, Call::Request, b" "),
            (7, Call::Headers, b"A:b\n"),
            (8, Call::Request, b"GET / HTTP/2"),
        ] {
            assert_eq!(answer(call, 0, input).status, status);
        }
    }

    #[test]
    #[should_panic(expected = "a list of 2 slots where the first 1 were expected")]
    fn a_list_that_is_not_cut_is_noticed() {
        let lent = [UNTOUCHED; 2];
        assert_handed_back(&Ok(Status::Complete(4)), &lent[..], &lent[..], 1);
    }

    #[test]
    #[should_panic(expected = "a list of 1 slots where the first 2 were expected")]
    fn a_list_that_is_not_given_back_is_noticed() {
        let lent = [UNTOUCHED; 2];
        assert_handed_back(&Ok(Status::Partial), &lent[..1], &lent[..], 1);
    }
}
