//! What a library answers to a query, and how that is written.

use std::fmt;

/// A part of the input: where it begins and how many bytes it has.
#[derive(Clone, Copy, Debug, PartialEq, Eq)]
pub struct Piece {
    pub offset: usize,
    pub length: usize,
}

/// One header that was written into a slot.
#[derive(Clone, Copy, Debug, PartialEq, Eq)]
pub struct Header {
    pub name: Piece,
    pub value: Piece,
}

/// The seven errors of a head.
#[derive(Clone, Copy, Debug, PartialEq, Eq)]
pub enum HeadError {
    HeaderName,
    HeaderValue,
    NewLine,
    Status,
    Token,
    TooManyHeaders,
    Version,
}

impl HeadError {
    pub const ALL: [HeadError; 7] = [
        HeadError::HeaderName,
        HeadError::HeaderValue,
        HeadError::NewLine,
        HeadError::Status,
        HeadError::Token,
        HeadError::TooManyHeaders,
        HeadError::Version,
    ];
}

/// How the reading of a head ended.
#[derive(Clone, Copy, Debug, PartialEq, Eq)]
pub enum Outcome {
    /// The head is whole, and this many bytes were read.
    Complete(usize),
    Incomplete,
    /// No head that fits the slots begins here, as the byte at this position decided; for
    /// TooManyHeaders that is the first byte of the header that had no slot.
    Error {
        error: HeadError,
        position: usize,
    },
}

/// A reason that was read. An empty one has no place, since httparse answers a constant there.
#[derive(Clone, Copy, Debug, PartialEq, Eq)]
pub enum Reason {
    Empty,
    Words(Piece),
}

/// The caller's slots after the call: the written ones are always the first ones.
#[derive(Clone, Debug, PartialEq, Eq)]
pub struct Slots {
    pub written: Vec<Header>,
    /// How many slots still hold what the caller put there.
    pub untouched: usize,
}

/// How the reading of a chunk size line ended.
#[derive(Clone, Copy, Debug, PartialEq, Eq)]
pub enum ChunkSize {
    Complete {
        end: usize,
        size: u64,
    },
    Incomplete,
    /// No chunk size line begins here, as the byte at this position decided.
    Error {
        position: usize,
    },
}

/// All that a call answers or leaves behind; `None` is a field that was not set.
#[derive(Clone, Debug, PartialEq, Eq)]
pub enum Answer {
    Request {
        outcome: Outcome,
        method: Option<Piece>,
        target: Option<Piece>,
        version: Option<u8>,
        slots: Slots,
    },
    Response {
        outcome: Outcome,
        version: Option<u8>,
        code: Option<u16>,
        reason: Option<Reason>,
        slots: Slots,
    },
    Headers {
        outcome: Outcome,
        slots: Slots,
    },
    ChunkSize(ChunkSize),
}

impl fmt::Display for Piece {
    fn fmt(&self, formatter: &mut fmt::Formatter<'_>) -> fmt::Result {
        write!(formatter, "{}+{}", self.offset, self.length)
    }
}

impl fmt::Display for Header {
    fn fmt(&self, formatter: &mut fmt::Formatter<'_>) -> fmt::Result {
        write!(formatter, "{}:{}", self.name, self.value)
    }
}

impl fmt::Display for HeadError {
    fn fmt(&self, formatter: &mut fmt::Formatter<'_>) -> fmt::Result {
        formatter.write_str(match self {
            HeadError::HeaderName => "HeaderName",
            HeadError::HeaderValue => "HeaderValue",
            HeadError::NewLine => "NewLine",
            HeadError::Status => "Status",
            HeadError::Token => "Token",
            HeadError::TooManyHeaders => "TooManyHeaders",
            HeadError::Version => "Version",
        })
    }
}

impl fmt::Display for Outcome {
    fn fmt(&self, formatter: &mut fmt::Formatter<'_>) -> fmt::Result {
        match self {
            Outcome::Complete(end) => write!(formatter, "complete {end}"),
            Outcome::Incomplete => formatter.write_str("incomplete"),
            Outcome::Error { error, position } => write!(formatter, "error {error} at {position}"),
        }
    }
}

impl fmt::Display for Reason {
    fn fmt(&self, formatter: &mut fmt::Formatter<'_>) -> fmt::Result {
        match self {
            Reason::Empty => formatter.write_str("+0"),
            Reason::Words(piece) => write!(formatter, "{piece}"),
        }
    }
}

impl fmt::Display for Slots {
    fn fmt(&self, formatter: &mut fmt::Formatter<'_>) -> fmt::Result {
        let written: Vec<String> = self.written.iter().map(Header::to_string).collect();
        write!(
            formatter,
            "headers=[{}] untouched={}",
            written.join(" "),
            self.untouched
        )
    }
}

impl fmt::Display for ChunkSize {
    fn fmt(&self, formatter: &mut fmt::Formatter<'_>) -> fmt::Result {
        match self {
            ChunkSize::Complete { end, size } => write!(formatter, "complete {end} size={size}"),
            ChunkSize::Incomplete => formatter.write_str("incomplete"),
            ChunkSize::Error { position } => {
                write!(formatter, "error InvalidChunkSize at {position}")
            }
        }
    }
}

impl fmt::Display for Answer {
    fn fmt(&self, formatter: &mut fmt::Formatter<'_>) -> fmt::Result {
        match self {
            Answer::Request {
                outcome,
                method,
                target,
                version,
                slots,
            } => write!(
                formatter,
                "{outcome} method={} target={} version={} {slots}",
                or_dash(method),
                or_dash(target),
                or_dash(version)
            ),
            Answer::Response {
                outcome,
                version,
                code,
                reason,
                slots,
            } => write!(
                formatter,
                "{outcome} version={} code={} reason={} {slots}",
                or_dash(version),
                or_dash(code),
                or_dash(reason)
            ),
            Answer::Headers { outcome, slots } => write!(formatter, "{outcome} {slots}"),
            Answer::ChunkSize(answer) => write!(formatter, "{answer}"),
        }
    }
}

/// The text of a field, with a dash for one that was not set.
fn or_dash(field: &Option<impl fmt::Display>) -> String {
    match field {
        Some(value) => value.to_string(),
        None => "-".to_string(),
    }
}
