//! What libFuzzer runs: bytes become a call, and the call is compared as rust/compare does.

mod entry;
mod fresh;
mod input;

pub use fresh::heads;
pub use input::{case, write, SETTINGS};
