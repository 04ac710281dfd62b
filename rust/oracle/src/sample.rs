//! The rule by which the sample is made: the same rows at every run.
//!
//! The sample is many of httparse's answers, with settings and without, as rows of numbers; a proved
//! program reads them from its standard input and replays them.

mod chunk_lines;
mod heads;
mod places;
mod row;
mod starts;
mod strings;

use crate::{answer, record};
use answers::Query;

/// How many slots the program that replays the rows has room for.
const ROOM_FOR_SLOTS: usize = 16;

/// How many bytes of input it has room for.
const ROOM_FOR_BYTES: usize = 1_000;

/// The whole file: rows, each with LF at its end, and nothing else.
pub fn text() -> Result<String, String> {
    let mut text = String::new();
    for query in record::without_repeats(queries()?) {
        text += &row::write(&query, &answer(&query)?);
        text.push('\n');
    }
    Ok(text)
}

fn queries() -> Result<Vec<Query>, String> {
    let mut queries = record::queries()?;
    queries.retain(can_be_replayed);
    queries.extend(starts::queries());
    queries.extend(places::queries());
    queries.extend(chunk_lines::queries());
    queries.extend(heads::queries());
    Ok(queries)
}

/// Whether there is room for a query.
fn can_be_replayed(query: &Query) -> bool {
    query.slots <= ROOM_FOR_SLOTS && query.input.len() <= ROOM_FOR_BYTES
}
