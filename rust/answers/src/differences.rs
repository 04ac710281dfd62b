//! Reading the inputs and answers out of docs/DIFFERENCES.md.

use crate::{Answer, Example, Query};

const INPUT: &str = "- Input:";
const ANSWER: &str = "- Answer:";

/// The pairs of an input line and the answer line right below it; all other lines are ignored.
pub fn pairs(text: &str) -> Result<Vec<Example>, String> {
    let mut pairs = Vec::new();
    let mut lines = text.lines().enumerate();
    while let Some((index, content)) = lines.next() {
        let line = index + 1;
        if content.starts_with(ANSWER) {
            return Err(format!(
                "line {line}: `{ANSWER}` must stand right below `{INPUT}`"
            ));
        }
        if let Some(input) = content.strip_prefix(INPUT) {
            let below = lines.next().map_or("", |(_, below)| below);
            pairs.push(pair(line, input, below)?);
        }
    }
    Ok(pairs)
}

/// The pair of an input, which stands in the line told, and the line below it.
fn pair(line: usize, input: &str, below: &str) -> Result<Example, String> {
    let query = query(input).map_err(|what| format!("line {line}: {what}"))?;
    let answer = answer(&query, below).map_err(|what| format!("line {}: {what}", line + 1))?;
    Ok(Example {
        line,
        query,
        answer,
    })
}

fn query(input: &str) -> Result<Query, String> {
    const FORM: &str = "CALL, SETTINGS, SLOTS slots, \"quoted input\"";
    let text = backquoted(INPUT, FORM, input)?;
    let columns: Vec<&str> = text.splitn(4, ", ").collect();
    let columns: [&str; 4] = columns
        .try_into()
        .map_err(|_| format!("`{text}` is no input; write `{FORM}`"))?;
    let [call, settings, slots, quoted] = columns;
    let slots = slots.strip_suffix(" slots").ok_or_else(|| {
        format!("column 3 (slots): `{slots}` must be a number and the word slots")
    })?;
    Query::from_columns([call, settings, slots, quoted])
}

fn answer(query: &Query, below: &str) -> Result<Answer, String> {
    let answer = below
        .strip_prefix(ANSWER)
        .ok_or_else(|| format!("`{ANSWER}` is expected right below `{INPUT}`"))?;
    Answer::read(query.call, backquoted(ANSWER, "the answer's text", answer)?)
}

/// The text in backquotes, which must be all that stands behind a prefix and one space.
fn backquoted<'text>(prefix: &str, form: &str, text: &'text str) -> Result<&'text str, String> {
    text.strip_prefix(" `")
        .and_then(|rest| rest.strip_suffix('`'))
        .ok_or_else(|| {
            format!(
                "behind `{prefix}` must stand one space and, in backquotes, {form}; nothing else"
            )
        })
}

#[cfg(test)]
mod tests {
    use super::*;

    #[test]
    fn pairs_are_read_and_other_lines_ignored() {
        let text = "# Title\n\n- Input: `chunk-size, default, 0 slots, \"`, ;\\r\"`\n\
                    - Answer: `error InvalidChunkSize at 0`\n- Why: because\n";
        let pairs = pairs(text).unwrap();
        assert_eq!(pairs.len(), 1);
        assert_eq!(pairs[0].line, 3);
        assert_eq!(pairs[0].query.input, b"`, ;\r");
        assert_eq!(pairs[0].answer.to_string(), "error InvalidChunkSize at 0");
    }

    #[test]
    fn an_error_names_the_line() {
        const INPUT: &str = "- Input: `headers, default, 1 slots, \"\"`\n";
        for (text, reason) in [
            (
                "\n- Answer: `incomplete`",
                "line 2: `- Answer:` must stand right below",
            ),
            (INPUT, "line 2: `- Answer:` is expected"),
            ("- Input: `headers`", "line 1: `headers` is no input"),
            ("- Input: headers", "line 1: behind `- Input:`"),
            ("- Input:`headers`", "line 1: behind `- Input:`"),
            (
                "- Input: `headers, default, 1, \"\"`",
                "line 1: column 3 (slots)",
            ),
            (
                "- Input: `header, default, 1 slots, \"\"`",
                "line 1: column 1 (call)",
            ),
        ] {
            let error = pairs(text).unwrap_err();
            assert!(error.contains(reason), "{text}: {error}");
        }
        for (below, reason) in [
            (
                "\n- Answer: `incomplete`",
                "line 2: `- Answer:` is expected",
            ),
            ("- Answer: `incomplete`.", "line 2: behind `- Answer:`"),
            ("- Answer: `maybe`", "line 2: an answer begins with"),
        ] {
            let error = pairs(&format!("{INPUT}{below}")).unwrap_err();
            assert!(error.contains(reason), "{below}: {error}");
        }
    }
}
