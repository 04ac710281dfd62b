//! What a position means, asked of httparse about every beginning of the recorded inputs, settings
//! too.

use answers::{recorded, Answer, ChunkSize, Example, HeadError, Outcome, Query, Slots};

const RECORDED: &str = concat!(env!("CARGO_MANIFEST_DIR"), "/../../recorded/answers.tsv");

fn rows() -> Vec<Example> {
    let text = std::fs::read_to_string(RECORDED)
        .unwrap_or_else(|error| panic!("cannot read {RECORDED}: {error}"));
    recorded::rows(&text).unwrap()
}

/// The answer on the first so many bytes of a query's input, with so many slots more.
fn beginning(query: &Query, length: usize, more_slots: usize) -> Answer {
    let query = Query {
        slots: query.slots + more_slots,
        input: query.input[..length].to_vec(),
        ..query.clone()
    };
    oracle::answer(&query).unwrap()
}

fn outcome(answer: &Answer) -> Option<&Outcome> {
    match answer {
        Answer::Request { outcome, .. }
        | Answer::Response { outcome, .. }
        | Answer::Headers { outcome, .. } => Some(outcome),
        Answer::ChunkSize(_) => None,
    }
}

/// Where an error lies.
fn position(answer: &Answer) -> Option<usize> {
    match (answer, outcome(answer)) {
        (Answer::ChunkSize(ChunkSize::Error { position }), _) => Some(*position),
        (_, Some(Outcome::Error { position, .. })) => Some(*position),
        _ => None,
    }
}

fn is_too_many(answer: &Answer) -> bool {
    matches!(
        outcome(answer),
        Some(Outcome::Error {
            error: HeadError::TooManyHeaders,
            ..
        })
    )
}

fn slots(answer: &Answer) -> &Slots {
    match answer {
        Answer::Request { slots, .. }
        | Answer::Response { slots, .. }
        | Answer::Headers { slots, .. } => slots,
        Answer::ChunkSize(_) => panic!("a chunk size line has no slots"),
    }
}

fn is_incomplete(answer: &Answer) -> bool {
    match answer {
        Answer::ChunkSize(answer) => *answer == ChunkSize::Incomplete,
        _ => outcome(answer) == Some(&Outcome::Incomplete),
    }
}

/// How long the least beginning is that has the row's answer. All shorter ones are incomplete, and
/// all longer ones have it too.
fn least(row: &Example) -> usize {
    let answer = |&length: &usize| beginning(&row.query, length, 0);
    let lengths = 0..=row.query.input.len();
    let is_decided = |length: &usize| !is_incomplete(&answer(length));
    let least = lengths.clone().find(is_decided).expect("an error");
    for length in lengths.skip(least) {
        assert_eq!(answer(&length), row.answer, "line {}", row.line);
    }
    least
}

/// The bytes up to the position and at it are incomplete and fill the slots, and one slot more holds
/// the header that begins there as soon as there is an error.
fn check_too_many(row: &Example, position: usize) {
    let begun = beginning(&row.query, position + 1, 0);
    assert!(is_incomplete(&begun), "line {}: {begun}", row.line);
    assert_eq!(slots(&begun).written.len(), row.query.slots);
    let least = least(row);
    let roomier = beginning(&row.query, least, 1);
    assert_eq!(
        slots(&roomier).written[row.query.slots].name.offset,
        position
    );
    let too_short = beginning(&row.query, least - 1, 1);
    assert_eq!(slots(&too_short).written.len(), row.query.slots);
}

#[test]
fn every_recorded_error_lies_where_its_beginnings_say() {
    let (mut by_a_byte, mut too_many) = (0, 0);
    for row in rows() {
        let Some(position) = position(&row.answer) else {
            continue;
        };
        if is_too_many(&row.answer) {
            check_too_many(&row, position);
            too_many += 1;
        } else {
            assert_eq!(least(&row), position + 1, "line {}", row.line);
            by_a_byte += 1;
        }
    }
    assert!(by_a_byte > 1_000 && too_many > 20);
    println!(
        "{by_a_byte} recorded errors lie where a byte decided, {too_many} where a header begins"
    );
}
