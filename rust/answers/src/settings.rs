//! The seven settings of a query.

use std::fmt;
use std::str::FromStr;

/// Leniencies that can be switched on; all are off by default.
#[derive(Clone, Copy, Debug, Default, PartialEq, Eq)]
pub struct Settings {
    pub spaces_after_header_name: bool,
    pub multiline_headers: bool,
    pub multiple_spaces_in_request_line: bool,
    pub multiple_spaces_in_status_line: bool,
    pub space_before_first_header_name: bool,
    pub ignore_invalid_headers_in_responses: bool,
    pub ignore_invalid_headers_in_requests: bool,
}

/// The text form where all settings are off.
const ALL_OFF: &str = "default";

/// The names of the settings, in the order in which they are written.
const NAMES: [&str; 7] = [
    "spaces-after-header-name",
    "multiline-headers",
    "multiple-spaces-in-request-line",
    "multiple-spaces-in-status-line",
    "space-before-first-header-name",
    "ignore-invalid-headers-in-responses",
    "ignore-invalid-headers-in-requests",
];

impl Settings {
    /// The settings in the order of `NAMES`.
    fn switches(&self) -> [bool; 7] {
        [
            self.spaces_after_header_name,
            self.multiline_headers,
            self.multiple_spaces_in_request_line,
            self.multiple_spaces_in_status_line,
            self.space_before_first_header_name,
            self.ignore_invalid_headers_in_responses,
            self.ignore_invalid_headers_in_requests,
        ]
    }

    fn from_switches(switches: [bool; 7]) -> Settings {
        Settings {
            spaces_after_header_name: switches[0],
            multiline_headers: switches[1],
            multiple_spaces_in_request_line: switches[2],
            multiple_spaces_in_status_line: switches[3],
            space_before_first_header_name: switches[4],
            ignore_invalid_headers_in_responses: switches[5],
            ignore_invalid_headers_in_requests: switches[6],
        }
    }

    /// The settings that some bits stand for; a bit that is none of httparse's has no effect.
    pub fn from_bits(bits: u32) -> Settings {
        Settings::from_switches(std::array::from_fn(|index| bits >> index & 1 == 1))
    }

    /// The bits of [`crate::bits`] that stand for the settings.
    pub fn bits(&self) -> u32 {
        let bit = |(index, on)| u32::from(on) << index;
        self.switches().into_iter().enumerate().map(bit).sum()
    }
}

impl fmt::Display for Settings {
    fn fmt(&self, formatter: &mut fmt::Formatter<'_>) -> fmt::Result {
        let switches = self.switches();
        let on: Vec<&str> = (0..NAMES.len())
            .filter(|&index| switches[index])
            .map(|index| NAMES[index])
            .collect();
        formatter.write_str(&if on.is_empty() {
            ALL_OFF.to_string()
        } else {
            on.join("+")
        })
    }
}

impl FromStr for Settings {
    type Err = String;

    fn from_str(text: &str) -> Result<Settings, String> {
        if text == ALL_OFF {
            return Ok(Settings::default());
        }
        let mut switches = [false; 7];
        let mut next = 0;
        for name in text.split('+') {
            let index = index_of(name)?;
            if index < next {
                return Err(format!(
                    "`{name}` stands twice or too late; write each name once, in the order {}",
                    NAMES.join(" ")
                ));
            }
            switches[index] = true;
            next = index + 1;
        }
        Ok(Settings::from_switches(switches))
    }
}

fn index_of(name: &str) -> Result<usize, String> {
    NAMES
        .iter()
        .position(|&known| known == name)
        .ok_or_else(|| {
            format!(
                "`{name}` is no setting; write {ALL_OFF}, or some of these joined by `+`: {}",
                NAMES.join(" ")
            )
        })
}

#[cfg(test)]
mod tests {
    use super::*;
    use crate::bits;

    #[test]
    fn every_combination_is_read_as_it_is_written() {
        for bits in 0..1 << NAMES.len() {
            let settings = Settings::from_bits(bits);
            assert_eq!(settings.bits(), bits);
            assert_eq!(settings.to_string().parse(), Ok(settings));
        }
    }

    #[test]
    fn each_bit_is_its_setting() {
        for (bit, name) in [
            (bits::SPACES_AFTER_HEADER_NAME, NAMES[0]),
            (bits::MULTILINE_HEADERS, NAMES[1]),
            (bits::SPACES_IN_REQUEST_LINE, NAMES[2]),
            (bits::SPACES_IN_STATUS_LINE, NAMES[3]),
            (bits::SPACE_BEFORE_FIRST_HEADER_NAME, NAMES[4]),
            (bits::IGNORE_INVALID_HEADERS_IN_RESPONSES, NAMES[5]),
            (bits::IGNORE_INVALID_HEADERS_IN_REQUESTS, NAMES[6]),
            (bits::ASCII_TARGETS, ALL_OFF),
        ] {
            assert_eq!(Settings::from_bits(bit).to_string(), name);
        }
    }

    #[test]
    fn two_settings_are_joined_by_a_plus() {
        let settings = Settings {
            multiline_headers: true,
            ignore_invalid_headers_in_requests: true,
            ..Settings::default()
        };
        assert_eq!(
            settings.to_string(),
            "multiline-headers+ignore-invalid-headers-in-requests"
        );
    }

    #[test]
    fn unknown_repeated_and_misplaced_names_are_refused() {
        for (text, reason) in [
            ("", "`` is no setting"),
            ("default+multiline-headers", "`default` is no setting"),
            ("multiline-headers+", "`` is no setting"),
            ("multiline-headers+multiline-headers", "stands twice"),
            (
                "multiline-headers+spaces-after-header-name",
                "`spaces-after-header-name` stands twice or too late",
            ),
        ] {
            let error = text.parse::<Settings>().unwrap_err();
            assert!(error.contains(reason), "{text}: {error}");
        }
    }
}
