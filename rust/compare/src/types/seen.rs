//! All that a caller can see of one case, and the ways to read it.

use crate::text::STATUSES;
use crate::Case;
use answers::bits::DEFAULT;
use answers::Call;

/// A way to read a case.
#[derive(Clone, Copy, Debug, PartialEq, Eq)]
pub enum Way {
    /// By the call itself, with nothing read before.
    Alone,
    /// By the settings.
    Settings,
    /// Into memory that need not hold headers.
    Uninit,
    /// By the settings, into memory that need not hold headers.
    SettingsUninit,
    /// Behind another head that was read into the same request or response.
    After,
    /// With another head read into the same request or response behind it.
    Before,
    /// Into memory that need not hold headers, with another head read behind it.
    UninitBefore,
}

impl Way {
    /// How many of the slots belong to the request or response from the start; all others are
    /// lent to the call, or to nobody.
    pub fn own_slots(self, slots: usize) -> usize {
        match self {
            Way::Uninit | Way::SettingsUninit | Way::UninitBefore => 1,
            Way::Alone | Way::Settings | Way::After | Way::Before => slots,
        }
    }

    /// Whether there is a function that tells where an error lies: one without settings, and one
    /// with them.
    pub fn has_positions(self) -> bool {
        matches!(self, Way::Alone | Way::Settings)
    }
}

/// Every way to read a case; all but two read without settings.
pub fn ways(case: &Case) -> &'static [Way] {
    match case.call {
        Call::Request | Call::Response if case.settings != DEFAULT => {
            &[Way::Settings, Way::SettingsUninit]
        }
        Call::Request => &[
            Way::Alone,
            Way::Settings,
            Way::Uninit,
            Way::SettingsUninit,
            Way::After,
            Way::Before,
            Way::UninitBefore,
        ],
        // Without settings, a response is read only into headers.
        Call::Response => &[
            Way::Alone,
            Way::Settings,
            Way::SettingsUninit,
            Way::After,
            Way::Before,
            Way::UninitBefore,
        ],
        Call::Headers | Call::ChunkSize => &[Way::Alone],
    }
}

/// The other heads, in the same place for every caller; each has one header.
pub static OTHER_REQUEST: &[u8] = b"GET /other HTTP/1.0\r\nOther: 1\r\n\r\n";
pub static OTHER_RESPONSE: &[u8] = b"HTTP/1.0 404 Other\r\nOther: 1\r\n\r\n";

/// What every slot holds before the call, in the same place for every caller.
pub static UNTOUCHED: &str = "untouched";

/// Everything that a caller sees.
#[derive(Debug, Default, PartialEq, Eq)]
pub struct Seen {
    /// How each reading ended.
    pub ended: Vec<Ended>,
    /// Where the error lies, if it is one and its position can be asked for in this way.
    pub position: Option<u64>,
    pub line: Line,
    /// The size of a chunk.
    pub size: Option<u64>,
    /// The list of headers, counted in bytes from the first slot, with its length in headers.
    pub list: Option<Place>,
    /// Name and value in every slot, of those that nobody lent too.
    pub slots: Vec<[Place; 2]>,
    /// What is shown for debugging.
    pub shown: String,
}

impl Seen {
    /// The index among [`STATUSES`] of how the first reading ended.
    pub fn status(&self) -> u32 {
        let name = match &self.ended[0] {
            Ended::Complete(_) => "complete",
            Ended::Partial => "incomplete",
            Ended::Error { name, .. } => name,
        };
        let status = STATUSES
            .iter()
            .position(|&status| status.trim_start_matches("error ") == name);
        status.unwrap_or_else(|| panic!("{name} is no status")) as u32
    }

    /// Whether the first reading ended in an error.
    pub fn is_error(&self) -> bool {
        matches!(self.ended[0], Ended::Error { .. })
    }

    /// Whether a request ran out of bytes in its target, or right in front of it.
    pub fn ends_in_target(&self) -> bool {
        self.ended == [Ended::Partial] && self.line.method.is_some() && self.line.path.is_none()
    }
}

/// How a reading ended; an error by what it shows and says.
#[derive(Debug, PartialEq, Eq)]
pub enum Ended {
    Complete(usize),
    Partial,
    Error { name: String, text: String },
}

/// The fields of a start line.
#[derive(Debug, Default, PartialEq, Eq)]
pub struct Line {
    pub method: Option<Place>,
    pub path: Option<Place>,
    pub version: Option<u8>,
    pub code: Option<u16>,
    pub reason: Option<Place>,
}

/// Where something lies, from a place that all callers have in common, and its length.
#[derive(Clone, Copy, Debug, PartialEq, Eq)]
pub struct Place {
    pub offset: isize,
    pub length: usize,
}

/// The place of a part, counted from a start, whether it lies behind it or elsewhere.
pub fn place<Start, Item>(start: *const Start, part: &[Item]) -> Place {
    Place {
        offset: (part.as_ptr() as isize).wrapping_sub(start as isize),
        length: part.len(),
    }
}
