//! Whether what was to be read is all there.

use crate::Error;

/// What reading a head answers; that more bytes are needed is no error, but [`Status::Partial`].
pub type Result<T> = core::result::Result<Status<T>, Error>;

/// How far a reading came that met nothing wrong.
#[derive(Copy, Clone, Eq, PartialEq, Debug)]
pub enum Status<T> {
    /// It reached its end; this is what was read.
    Complete(T),
    /// The bytes ran out before its end.
    Partial,
}

impl<T> Status<T> {
    /// Whether the end was reached.
    pub fn is_complete(&self) -> bool {
        matches!(self, Status::Complete(_))
    }

    /// Whether the bytes ran out.
    pub fn is_partial(&self) -> bool {
        matches!(self, Status::Partial)
    }

    /// What was read; panics if the bytes ran out.
    pub fn unwrap(self) -> T {
        match self {
            Status::Complete(read) => read,
            Status::Partial => panic!("Tried to unwrap Status::Partial"),
        }
    }
}
