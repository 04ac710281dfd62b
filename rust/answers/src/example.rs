//! A query together with the answer that some file gives for it.

use crate::{Answer, Query};

/// One query and its answer, and the number of the line where they stand.
#[derive(Clone, Debug, PartialEq, Eq)]
pub struct Example {
    pub line: usize,
    pub query: Query,
    pub answer: Answer,
}
