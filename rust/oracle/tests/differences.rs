//! Every example of docs/DIFFERENCES.md is what httparse answers.

const DIFFERENCES: &str = concat!(env!("CARGO_MANIFEST_DIR"), "/../../docs/DIFFERENCES.md");

#[test]
fn every_difference_is_confirmed() {
    let document = std::fs::read_to_string(DIFFERENCES)
        .unwrap_or_else(|error| panic!("cannot read {DIFFERENCES}: {error}"));
    let pairs = answers::differences::pairs(&document).unwrap();
    for pair in &pairs {
        let answer =
            oracle::answer(&pair.query).unwrap_or_else(|what| panic!("line {}: {what}", pair.line));
        assert_eq!(
            answer, pair.answer,
            "line {}: httparse answers {answer}",
            pair.line
        );
    }
    println!("{} examples of docs/DIFFERENCES.md confirmed", pairs.len());
}
