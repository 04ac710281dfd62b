//! Chunk size lines.

use headreader::{parse_chunk_size, InvalidChunkSize, Status};

#[test]
fn whole_lines() {
    for (line, size) in [
        (&b"0\r\n"[..], 0),
        (b"\r\n", 0),
        (b"3086d\r\n", 198_765),
        (b"3735AB1;foo bar*\r\n", 57_891_505),
        (b"3735ab1 ; baz \r\n", 57_891_505),
        (b"ffffffffffffffff\r\n", u64::MAX),
    ] {
        assert_eq!(
            parse_chunk_size(&[line, b"behind"].concat()),
            Ok(Status::Complete((line.len(), size)))
        );
    }
}

#[test]
fn lines_that_are_not_whole() {
    for line in [&b""[..], b"77a65", b"77a65\r", b"1; \n", b"1 "] {
        assert_eq!(parse_chunk_size(line), Ok(Status::Partial));
    }
}

#[test]
fn lines_that_are_none() {
    for line in [
        &b"567xf8a\r\n"[..],
        b"567f8a\rfoo",
        b"fffffffffffffffff",
        b"1\n",
    ] {
        assert_eq!(parse_chunk_size(line), Err(InvalidChunkSize));
    }
    assert_eq!(InvalidChunkSize.to_string(), "invalid chunk size");
}
