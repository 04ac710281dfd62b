//! Headreader and httparse side by side: the same call on the same bytes must leave the same numbers behind.

mod case;
mod comparer;
mod cores;
pub mod damage;
mod expected;
pub mod heads;
pub mod numbers;
mod ours;
pub mod plain;
mod position;
pub mod row;
mod shrink;
pub mod starts;
pub mod strings;
mod tally;
mod text;
mod theirs;
pub mod types;

pub use answers::Random;
pub use case::{Case, CALLS};
pub use comparer::Comparer;
pub use cores::on_all_cores;
pub use tally::Tally;
