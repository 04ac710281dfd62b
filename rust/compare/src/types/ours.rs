//! A caller of Headreader.

use super::seen::{Seen, Way};
use crate::Case;
use answers::bits::ASCII_TARGETS;
use answers::Call;
use headreader as library;

#[path = "caller.rs"]
mod caller;
#[path = "interface.rs"]
mod interface;

#[cfg(test)]
pub use interface::name;
pub use interface::texts;

/// Reads a case in one way, and asks where the error lies, which httparse does not tell.
pub fn call(case: &Case, way: Way) -> Seen {
    Seen {
        position: position(case, way).map(|position| position as u64),
        ..caller::call(case, way)
    }
}

/// The function of each way that has one.
fn position(case: &Case, way: Way) -> Option<usize> {
    let (input, slots) = (case.input, case.slots);
    match (way, case.call) {
        (Way::Alone, Call::Request) => library::request_error_position(input, slots),
        (Way::Alone, Call::Response) => library::response_error_position(input, slots),
        (Way::Alone, Call::Headers) => library::headers_error_position(input, slots),
        (Way::Alone, Call::ChunkSize) => library::chunk_size_error_position(input),
        (Way::Settings, Call::Request) => config(case).request_error_position(input, slots),
        (Way::Settings, Call::Response) => config(case).response_error_position(input, slots),
        _ => None,
    }
}

/// The settings of a case, ours too.
fn config(case: &Case) -> library::ParserConfig {
    let mut config = caller::usual(case);
    config.ascii_targets(case.has(ASCII_TARGETS));
    config
}
