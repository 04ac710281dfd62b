//! The sample is what the oracle makes now, of the size wanted, and shows every kind of answer.

use answers::{bits, Call};
use std::collections::{BTreeMap, HashSet};
use std::ops::RangeInclusive;

const SAMPLE: &str = concat!(env!("CARGO_MANIFEST_DIR"), "/../../crates/replay/stdin");

const ROWS: RangeInclusive<usize> = 20_000..=40_000;
const MOST_BYTES: usize = 3_000_000;

/// For each call the kinds that it can answer; src/sample/row.rs tells the numbers of both.
const KINDS: [(u64, &[u64]); 4] = [
    (0, &[0, 1, 2, 3, 4, 6, 7, 8]),
    (1, &[0, 1, 2, 3, 4, 5, 7, 8]),
    (2, &[0, 1, 2, 3, 4, 7]),
    (3, &[0, 1, 9]),
];

/// How many rows of a call each of its kinds has at least.
const FEWEST: usize = 50;

fn sample() -> String {
    std::fs::read_to_string(SAMPLE).unwrap_or_else(|error| panic!("cannot read {SAMPLE}: {error}"))
}

#[test]
fn the_sample_is_up_to_date() {
    let sample = sample();
    let made = oracle::sample::text().unwrap();
    let advice = "make the file again: oracle sample > crates/replay/stdin";
    for (index, (old, new)) in sample.lines().zip(made.lines()).enumerate() {
        assert_eq!(old, new, "line {} differs; {advice}", index + 1);
    }
    assert!(sample == made, "one of the two goes on; {advice}");
}

#[test]
fn the_sample_is_of_the_size_wanted() {
    let sample = sample();
    let rows: Vec<&str> = sample.lines().collect();
    println!("{} rows, {} bytes", rows.len(), sample.len());
    assert!(ROWS.contains(&rows.len()));
    assert!(sample.len() <= MOST_BYTES);
    let distinct: HashSet<&str> = rows.iter().copied().collect();
    assert_eq!(distinct.len(), rows.len(), "a row stands there twice");
}

#[test]
fn every_row_has_the_form_told() {
    for row in sample().lines() {
        let words: Vec<&str> = row.split(' ').collect();
        let call = number(words[0]);
        let settings = number(words[1]);
        assert!(call < 2 || settings == 0, "{row}");
        assert_eq!(settings & !u64::from(bits::SUPPORTED), 0, "{row}");
        let slots = number(words[2]);
        assert!(slots <= if call == 3 { 0 } else { 16 }, "{row}");
        assert!(is_input(words[3]), "{row}");
        let outs: Vec<u64> = words[4..].iter().map(|word| number(word)).collect();
        assert!(outs[1] <= farthest(words[3], outs[0]), "{row}");
        let written = if call == 3 { 0 } else { outs[2] };
        assert!(written <= slots, "{row}");
        assert_eq!(outs.len() as u64, 9 + 4 * written, "{row}");
    }
}

#[test]
fn every_kind_occurs_often_enough() {
    let mut counts: BTreeMap<(u64, u64), usize> = BTreeMap::new();
    for row in sample().lines() {
        let words: Vec<&str> = row.split(' ').collect();
        *counts
            .entry((number(words[0]), number(words[4])))
            .or_default() += 1;
    }
    let expected: Vec<(u64, u64)> = KINDS
        .iter()
        .flat_map(|&(call, kinds)| kinds.iter().map(move |&kind| (call, kind)))
        .collect();
    assert!(counts.keys().eq(&expected), "{counts:?}");
    for ((call, kind), count) in counts {
        println!("call {call} kind {kind}: {count} rows");
        assert!(count >= FEWEST, "call {call} kind {kind}");
    }
}

/// Every setting is there alone, and all of them together, with every kind of answer.
#[test]
fn every_setting_occurs_often_enough() {
    let sample = sample();
    let rows: Vec<Vec<&str>> = sample.lines().map(|row| row.split(' ').collect()).collect();
    for (call, alone) in [(0, bits::of(Call::Request)), (1, bits::of(Call::Response))] {
        for settings in bits::singles(alone).into_iter().chain([bits::SUPPORTED]) {
            let is_asked =
                |row: &&Vec<&str>| number(row[0]) == call && number(row[1]) == u64::from(settings);
            let asked = rows.iter().filter(is_asked);
            let kinds: HashSet<u64> = asked.clone().map(|row| number(row[4])).collect();
            assert!(asked.count() >= FEWEST, "call {call} settings {settings}");
            assert!(kinds.contains(&0) && kinds.contains(&1) && kinds.len() > 2);
        }
    }
}

/// A number that is written as the numbers of a row are.
fn number(word: &str) -> u64 {
    let number: u64 = word
        .parse()
        .unwrap_or_else(|error| panic!("`{word}`: {error}"));
    assert_eq!(number.to_string(), word);
    number
}

/// The farthest place in an input that an answer of a kind can tell: an end may stand behind the last
/// byte, an error lies on one, and what is incomplete has no place.
fn farthest(input: &str, kind: u64) -> u64 {
    let bytes = input.len() as u64 / 2;
    match kind {
        0 => bytes,
        1 => 0,
        _ => bytes - 1,
    }
}

/// Whether a word is an input of at most 1,000 bytes in its one form.
fn is_input(word: &str) -> bool {
    let is_short = (1..=2_000).contains(&word.len());
    word == "-" || is_short && word.as_bytes().chunks(2).all(is_hexadecimal)
}

/// Whether a byte is written as two lower-case hexadecimal digits.
fn is_hexadecimal(byte: &[u8]) -> bool {
    byte.len() == 2 && byte.iter().all(|digit| b"0123456789abcdef".contains(digit))
}
