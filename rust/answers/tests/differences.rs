//! Every example of docs/DIFFERENCES.md is among the recorded answers.

use answers::{differences, recorded};

fn file(path: &str) -> String {
    let path = format!("{}/../../{path}", env!("CARGO_MANIFEST_DIR"));
    std::fs::read_to_string(&path).unwrap_or_else(|error| panic!("cannot read {path}: {error}"))
}

#[test]
fn every_difference_is_recorded_with_its_answer() {
    let pairs = differences::pairs(&file("docs/DIFFERENCES.md")).unwrap();
    let rows = recorded::rows(&file("recorded/answers.tsv")).unwrap();
    assert!(!pairs.is_empty(), "docs/DIFFERENCES.md holds no `- Input:`");
    for pair in pairs {
        let row = rows
            .iter()
            .find(|row| row.query == pair.query)
            .unwrap_or_else(|| panic!("line {}: the input is not recorded", pair.line));
        assert_eq!(
            pair.answer, row.answer,
            "docs/DIFFERENCES.md line {} and recorded/answers.tsv line {} differ",
            pair.line, row.line
        );
    }
}
