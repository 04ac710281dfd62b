//! One call to compare.

use crate::numbers::SLOT;
use answers::bits::ASCII_TARGETS;
use answers::{Call, Query, Settings};
use std::fmt;

/// Every call.
pub const CALLS: [Call; 4] = [
    Call::Request,
    Call::Response,
    Call::Headers,
    Call::ChunkSize,
];

/// What is read, as what, and how much is lent for its headers.
#[derive(Clone, Copy)]
pub struct Case<'input> {
    pub call: Call,
    /// How many headers there is room for.
    pub slots: usize,
    /// Numbers lent behind the last whole slot, fewer than a slot has.
    pub remainder: usize,
    /// The bits of the settings, of which each call cares for some.
    pub settings: u32,
    pub input: &'input [u8],
}

impl<'input> Case<'input> {
    /// How many numbers are lent for headers.
    pub fn room(&self) -> usize {
        self.slots * SLOT + self.remainder
    }

    /// Whether a setting is on.
    pub fn has(&self, setting: u32) -> bool {
        self.settings & setting != 0
    }

    /// The same call on all that stands in front of the first byte beyond ASCII, if there is such a
    /// byte and the target may not have it.
    pub fn ascii_part(&self) -> Option<Case<'input>> {
        if !self.has(ASCII_TARGETS) || self.call != Call::Request {
            return None;
        }
        let end = self.input.iter().position(|byte| !byte.is_ascii())?;
        let input = &self.input[..end];
        Some(Case { input, ..*self })
    }

    /// The same call as a query, which the oracle's program can be asked.
    pub fn query(&self) -> Query {
        Query {
            call: self.call,
            settings: Settings::from_bits(self.settings),
            slots: self.slots,
            input: self.input.to_vec(),
        }
    }
}

/// The query, and what no query says, since httparse does not have it.
impl fmt::Display for Case<'_> {
    fn fmt(&self, formatter: &mut fmt::Formatter<'_>) -> fmt::Result {
        write!(formatter, "{}", self.query())?;
        if self.has(ASCII_TARGETS) {
            formatter.write_str("\nwith targets in plain ASCII, and httparse behind a filter")?;
        }
        Ok(())
    }
}
