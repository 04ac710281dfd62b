//! The recorded answers are what the oracle records now.

const RECORDED: &str = concat!(env!("CARGO_MANIFEST_DIR"), "/../../recorded/answers.tsv");

#[test]
fn the_recorded_answers_are_up_to_date() {
    let recorded = std::fs::read_to_string(RECORDED)
        .unwrap_or_else(|error| panic!("cannot read {RECORDED}: {error}"));
    let made = oracle::record::text().unwrap();
    let advice = "make the file again: oracle record > recorded/answers.tsv";
    for (index, (old, new)) in recorded.lines().zip(made.lines()).enumerate() {
        assert_eq!(old, new, "line {} differs; {advice}", index + 1);
    }
    assert!(recorded == made, "one of the two goes on; {advice}");
}
