//! Headreader's C functions as include/headreader.h has them, and their numbers; whoever calls one
//! links libheadreader.a. The crate `headreader` has its own, since it depends on nothing.

use crate::HeadError;

extern "C" {
    pub fn hr_request(
        start: *const u8,
        length: usize,
        slots: *mut u64,
        room: usize,
        out: *mut u64,
        settings: u32,
    ) -> u32;
    pub fn hr_response(
        start: *const u8,
        length: usize,
        slots: *mut u64,
        room: usize,
        out: *mut u64,
        settings: u32,
    ) -> u32;
    pub fn hr_headers(
        start: *const u8,
        length: usize,
        slots: *mut u64,
        room: usize,
        out: *mut u64,
    ) -> u32;
    pub fn hr_chunk_size(start: *const u8, length: usize, out: *mut u64) -> u32;
}

/// What a function returns.
pub const COMPLETE: u32 = 0;
pub const INCOMPLETE: u32 = 1;
pub const INVALID_CHUNK_SIZE: u32 = 9;

/// The bits of the fields that are known.
pub const METHOD: u64 = 1;
pub const TARGET: u64 = 2;
pub const VERSION: u64 = 4;
pub const CODE: u64 = 8;
pub const REASON: u64 = 16;

/// What a function returns for an error.
pub fn number(error: HeadError) -> u32 {
    match error {
        HeadError::HeaderName => 2,
        HeadError::HeaderValue => 3,
        HeadError::NewLine => 4,
        HeadError::Status => 5,
        HeadError::Token => 6,
        HeadError::TooManyHeaders => 7,
        HeadError::Version => 8,
    }
}

#[cfg(test)]
mod tests {
    use super::*;
    use crate::bits;
    use std::collections::HashMap;

    const HEADER: &str = include_str!("../../../include/headreader.h");

    /// Every `#define` of the header that has a number.
    fn defined() -> HashMap<&'static str, u64> {
        let defines = HEADER
            .lines()
            .filter_map(|line| line.strip_prefix("#define "));
        let numbers = defines.filter_map(|define| define.split_once(' '));
        numbers
            .map(|(name, number)| (name, number.trim_end_matches('u').parse().unwrap()))
            .collect()
    }

    #[test]
    fn the_numbers_are_those_of_the_c_header() {
        let mut numbers = vec![
            ("HR_COMPLETE", u64::from(COMPLETE)),
            ("HR_INCOMPLETE", u64::from(INCOMPLETE)),
            ("HR_CHUNK_SIZE", u64::from(INVALID_CHUNK_SIZE)),
            ("HR_KNOWS_METHOD", METHOD),
            ("HR_KNOWS_TARGET", TARGET),
            ("HR_KNOWS_VERSION", VERSION),
            ("HR_KNOWS_CODE", CODE),
            ("HR_KNOWS_REASON", REASON),
        ];
        let settings = [
            (
                "HR_SPACES_AFTER_HEADER_NAME",
                bits::SPACES_AFTER_HEADER_NAME,
            ),
            ("HR_MULTILINE_HEADERS", bits::MULTILINE_HEADERS),
            ("HR_SPACES_IN_REQUEST_LINE", bits::SPACES_IN_REQUEST_LINE),
            ("HR_SPACES_IN_STATUS_LINE", bits::SPACES_IN_STATUS_LINE),
            (
                "HR_SPACE_BEFORE_FIRST_HEADER_NAME",
                bits::SPACE_BEFORE_FIRST_HEADER_NAME,
            ),
            (
                "HR_IGNORE_INVALID_HEADERS_IN_RESPONSES",
                bits::IGNORE_INVALID_HEADERS_IN_RESPONSES,
            ),
            (
                "HR_IGNORE_INVALID_HEADERS_IN_REQUESTS",
                bits::IGNORE_INVALID_HEADERS_IN_REQUESTS,
            ),
            ("HR_ASCII_TARGETS", bits::ASCII_TARGETS),
        ];
        numbers.extend(settings.map(|(name, bit)| (name, u64::from(bit))));
        let names = [
            "HR_HEADER_NAME",
            "HR_HEADER_VALUE",
            "HR_NEW_LINE",
            "HR_STATUS",
            "HR_TOKEN",
            "HR_TOO_MANY_HEADERS",
            "HR_VERSION",
        ];
        let errors = HeadError::ALL.map(|error| u64::from(number(error)));
        numbers.extend(names.into_iter().zip(errors));
        assert_eq!(numbers.into_iter().collect::<HashMap<_, _>>(), defined());
    }
}
