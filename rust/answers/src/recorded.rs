//! Reading the recorded answers: rows of a query's four columns, a TAB and the answer.

use crate::{Answer, Example, Query};

/// The rows of a file of recorded answers, without its comment lines.
pub fn rows(text: &str) -> Result<Vec<Example>, String> {
    text.lines()
        .enumerate()
        .filter(|(_, content)| !content.starts_with('#'))
        .map(|(index, content)| {
            let line = index + 1;
            row(line, content).map_err(|what| format!("line {line}: {what}"))
        })
        .collect()
}

fn row(line: usize, content: &str) -> Result<Example, String> {
    let (query, answer) = content
        .rsplit_once('\t')
        .ok_or("a row is a query's four columns, a TAB and the answer")?;
    let query: Query = query.parse()?;
    let answer =
        Answer::read(query.call, answer).map_err(|what| format!("column 5 (answer): {what}"))?;
    Ok(Example {
        line,
        query,
        answer,
    })
}

#[cfg(test)]
mod tests {
    use super::*;

    #[test]
    fn rows_are_read_and_comments_passed_over() {
        let text = "# how it is made\nchunk-size\tdefault\t0\t\"\\r\\n\"\tcomplete 2 size=0\n";
        let rows = rows(text).unwrap();
        assert_eq!(rows.len(), 1);
        assert_eq!(rows[0].line, 2);
        assert_eq!(rows[0].query.input, b"\r\n");
        assert_eq!(rows[0].answer.to_string(), "complete 2 size=0");
    }

    #[test]
    fn an_error_names_line_and_column() {
        for (text, reason) in [
            ("#\n\n", "line 2: a row is"),
            ("incomplete", "line 1: a row is"),
            ("request\tdefault\t0\t\"\"", "and here are 3"),
            (
                "request\tdefault\tx\t\"\"\tincomplete",
                "line 1: column 3 (slots)",
            ),
            (
                "chunk-size\tdefault\t0\t\"\"\tok",
                "line 1: column 5 (answer)",
            ),
        ] {
            let error = rows(text).unwrap_err();
            assert!(error.contains(reason), "{text}: {error}");
        }
    }
}
