//! Queries to a library that reads HTTP heads, their answers, and the text forms of both; and
//! Headreader's C functions with their numbers.
//!
//! No query knows which library is asked. Every error is a sentence for people: what is wrong,
//! where, and what is expected.

mod answer;
mod answer_text;
pub mod bits;
mod call;
pub mod differences;
mod example;
pub mod functions;
mod number;
mod query;
pub mod quoted;
mod random;
pub mod recorded;
mod settings;

pub use answer::{Answer, ChunkSize, HeadError, Header, Outcome, Piece, Reason, Slots};
pub use call::Call;
pub use example::Example;
pub use query::Query;
pub use random::Random;
pub use settings::Settings;
