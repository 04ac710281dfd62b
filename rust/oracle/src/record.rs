//! The rule by which the recorded answers are made: the same rows at every run.

mod heads;
mod lenient;
mod pins;
mod settings;

use crate::answer;
use answers::{differences, Call, Query, Settings};
pub(crate) use heads::Head;
use heads::{LONG, SHORT};
use std::collections::HashSet;

const DIFFERENCES: &str = concat!(env!("CARGO_MANIFEST_DIR"), "/../../docs/DIFFERENCES.md");

const COMMENT: &str = "\
# What httparse 1.10.1 answers. Made by `oracle record > recorded/answers.tsv`; never edited.
# Columns: call, settings, slots, quoted input, answer; `oracle --help` tells their forms.
";

/// Slots for all headers of any of the heads.
const ENOUGH_SLOTS: usize = 4;

/// What is put in place of a byte to damage a head.
pub(crate) const REPLACEMENTS: &[u8] = b" \t:\r\n\x00\x7f\x80A0";

/// The whole file of recorded answers.
pub fn text() -> Result<String, String> {
    let mut text = COMMENT.to_string();
    for query in queries()? {
        text += &format!("{query}\t{}\n", answer(&query)?);
    }
    Ok(text)
}

/// All queries in order, each of them once.
pub(crate) fn queries() -> Result<Vec<Query>, String> {
    let pairs =
        differences::pairs(&document()?).map_err(|what| format!("{DIFFERENCES}: {what}"))?;
    let mut queries: Vec<Query> = pairs.into_iter().map(|pair| pair.query).collect();
    queries.extend(pins::queries());
    queries.extend(SHORT.iter().chain(&LONG).flat_map(prefixes));
    queries.extend(SHORT.iter().chain(&LONG).flat_map(slot_counts));
    queries.extend(SHORT.iter().flat_map(damages));
    queries.extend(settings::queries());
    queries.extend(lenient::queries());
    Ok(without_repeats(queries))
}

/// The text of docs/DIFFERENCES.md.
fn document() -> Result<String, String> {
    std::fs::read_to_string(DIFFERENCES).map_err(|error| {
        format!(
            "cannot read {DIFFERENCES}: {error}; the first rows are its inputs, so write it first"
        )
    })
}

/// The queries in order, without those that stand further up already.
pub(crate) fn without_repeats(mut queries: Vec<Query>) -> Vec<Query> {
    let mut seen = HashSet::new();
    queries.retain(|query| seen.insert(query.to_string()));
    queries
}

/// A query with all settings off; a chunk size line, which has no headers, needs no slots.
pub(crate) fn plain(call: Call, slots: usize, input: &[u8]) -> Query {
    Query {
        call,
        settings: Settings::default(),
        slots: if call == Call::ChunkSize { 0 } else { slots },
        input: input.to_vec(),
    }
}

/// Every beginning of a head, the empty and the whole one too.
fn prefixes(head: &Head) -> Vec<Query> {
    (0..=head.input.len())
        .map(|length| plain(head.call, ENOUGH_SLOTS, &head.input[..length]))
        .collect()
}

/// The whole head with no slot, one, one too few and exactly enough.
pub(crate) fn slot_counts(head: &Head) -> Vec<Query> {
    [0, 1, head.headers.saturating_sub(1), head.headers]
        .into_iter()
        .map(|slots| plain(head.call, slots, head.input))
        .collect()
}

/// The head with each byte replaced by others, and with each byte removed; a byte replaced by
/// itself repeats the whole head, and is dropped as every repeat is.
fn damages(head: &Head) -> Vec<Query> {
    let mut queries = Vec::new();
    for place in 0..head.input.len() {
        for &replacement in REPLACEMENTS {
            let mut input = head.input.to_vec();
            input[place] = replacement;
            queries.push(plain(head.call, ENOUGH_SLOTS, &input));
        }
        let mut input = head.input.to_vec();
        input.remove(place);
        queries.push(plain(head.call, ENOUGH_SLOTS, &input));
    }
    queries
}
