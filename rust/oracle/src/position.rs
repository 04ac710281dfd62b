//! Where an error lies: found by asking httparse about every beginning of the input, shortest first,
//! and by nothing else.

use crate::{ask, slots};
use answers::Query;
use httparse::{Error, InvalidChunkSize, Status};

/// The position of the byte that decided the error of a head; for TooManyHeaders that of the first
/// byte of the header that had no slot.
pub fn in_head(query: &Query, error: Error) -> usize {
    let decided = deciding(&query.input, error, |beginning| {
        ask::head(query, beginning, &mut slots::lend(query.slots))
    });
    match error {
        Error::TooManyHeaders => header_without_slot(query, &query.input[..=decided]),
        _ => decided,
    }
}

/// The position of the byte that decided the error of a chunk size line.
pub fn in_chunk_size(input: &[u8]) -> usize {
    deciding(input, InvalidChunkSize, httparse::parse_chunk_size)
}

/// The position of the last byte of the least beginning that is the error.
///
/// Panics if a shorter one is anything but partial: then no one byte has decided.
fn deciding<'input, Read, Wrong: PartialEq>(
    input: &'input [u8],
    error: Wrong,
    read: impl Fn(&'input [u8]) -> Result<Status<Read>, Wrong>,
) -> usize {
    for position in 0..input.len() {
        match read(&input[..=position]) {
            Ok(Status::Partial) => {}
            Err(found) if found == error => return position,
            _ => break,
        }
    }
    panic!(
        "httparse has an error on \"{}\" that no byte decides",
        input.escape_ascii()
    );
}

/// Where the name begins of the header that comes behind as many as there are slots: with one slot
/// more it is given.
fn header_without_slot(query: &Query, beginning: &[u8]) -> usize {
    let mut lent = slots::lend(query.slots + 1);
    // However it ends: only what it leaves in the slots is asked for.
    let _ = ask::head(query, beginning, &mut lent);
    let given = slots::look_at(&lent, beginning).written;
    assert_eq!(
        given.len(),
        lent.len(),
        "httparse gives no header for one slot more"
    );
    given[query.slots].name.offset
}

#[cfg(test)]
mod tests {
    use super::*;

    #[test]
    fn the_byte_that_decides_is_the_last_of_the_least_beginning() {
        let from_b_on = |beginning: &[u8]| match beginning.contains(&b'b') {
            true => Err("b"),
            false => Ok(Status::<()>::Partial),
        };
        assert_eq!(deciding(b"aabab", "b", from_b_on), 2);
        assert_eq!(deciding(b"b", "b", from_b_on), 0);
    }

    #[test]
    #[should_panic(expected = "an error on \"ab\" that no byte decides")]
    fn another_error_before_it_is_noticed() {
        deciding(b"ab", 2, |beginning| {
            Err::<Status<()>, usize>(beginning.len())
        });
    }

    #[test]
    #[should_panic(expected = "that no byte decides")]
    fn an_end_before_it_is_noticed() {
        deciding(b"ab", "b", |beginning| match beginning {
            b"a" => Ok(Status::Complete(1)),
            _ => Err("b"),
        });
    }

    #[test]
    #[should_panic(expected = "no header for one slot more")]
    fn a_beginning_without_that_header_is_noticed() {
        let query = "headers\tdefault\t1\t\"A:b\\nC:d\\n\"".parse().unwrap();
        header_without_slot(&query, b"A:b\nC:d");
    }
}
