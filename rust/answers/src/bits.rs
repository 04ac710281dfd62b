//! The settings as bits, which is how Headreader's C functions take them, and the lists of them over
//! which the tests go.

use crate::Call;

/// All settings off.
pub const DEFAULT: u32 = 0;

// The bits of httparse's settings are in the order in which their names are written.
pub const SPACES_AFTER_HEADER_NAME: u32 = 1;
pub const MULTILINE_HEADERS: u32 = 2;
pub const SPACES_IN_REQUEST_LINE: u32 = 4;
pub const SPACES_IN_STATUS_LINE: u32 = 8;
pub const SPACE_BEFORE_FIRST_HEADER_NAME: u32 = 16;
pub const IGNORE_INVALID_HEADERS_IN_RESPONSES: u32 = 32;
pub const IGNORE_INVALID_HEADERS_IN_REQUESTS: u32 = 64;

/// The bit of the setting under which a target has visible ASCII only, which httparse does not have.
pub const ASCII_TARGETS: u32 = 128;

/// The settings of httparse that Headreader has: all of them.
pub const SUPPORTED: u32 = SPACES_AFTER_HEADER_NAME
    | MULTILINE_HEADERS
    | SPACES_IN_REQUEST_LINE
    | SPACES_IN_STATUS_LINE
    | SPACE_BEFORE_FIRST_HEADER_NAME
    | IGNORING;

/// The settings under which a line that is no header is passed over.
pub const IGNORING: u32 = IGNORE_INVALID_HEADERS_IN_RESPONSES | IGNORE_INVALID_HEADERS_IN_REQUESTS;

/// The settings of httparse that change how a call is read.
pub fn of(call: Call) -> u32 {
    match call {
        Call::Request => {
            SPACES_IN_REQUEST_LINE
                | SPACE_BEFORE_FIRST_HEADER_NAME
                | IGNORE_INVALID_HEADERS_IN_REQUESTS
        }
        Call::Response => {
            SPACES_AFTER_HEADER_NAME
                | MULTILINE_HEADERS
                | SPACES_IN_STATUS_LINE
                | SPACE_BEFORE_FIRST_HEADER_NAME
                | IGNORE_INVALID_HEADERS_IN_RESPONSES
        }
        Call::Headers | Call::ChunkSize => DEFAULT,
    }
}

/// Every combination of some bits, that of none first.
pub fn combinations(bits: u32) -> Vec<u32> {
    (0..=bits).filter(|some| some & !bits == 0).collect()
}

/// Each of some bits alone.
pub fn singles(bits: u32) -> Vec<u32> {
    let mut singles = combinations(bits);
    singles.retain(|some| some.is_power_of_two());
    singles
}

/// Each of some bits alone, and all of them.
pub fn alone_and_all(bits: u32) -> Vec<u32> {
    let mut settings = singles(bits);
    settings.push(bits);
    settings.dedup();
    settings
}

#[cfg(test)]
mod tests {
    use super::*;

    #[test]
    fn every_combination_is_there_once() {
        assert_eq!(combinations(0), [0]);
        assert_eq!(combinations(20), [0, 4, 16, 20]);
        assert_eq!(
            combinations(SUPPORTED).len(),
            1 << SUPPORTED.count_ones() as usize
        );
        assert_eq!(singles(20), [4, 16]);
        assert_eq!(alone_and_all(20), [4, 16, 20]);
        assert_eq!(alone_and_all(4), [4]);
    }

    #[test]
    fn every_setting_changes_how_something_is_read() {
        assert_eq!(of(Call::Request) | of(Call::Response), SUPPORTED);
        assert_eq!(of(Call::Headers) | of(Call::ChunkSize), DEFAULT);
    }
}
