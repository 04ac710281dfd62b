//! One query: which call, with which settings and slots, on which input.

use crate::{number, quoted, Call, Settings};
use std::fmt;
use std::str::FromStr;

/// One call of a library. The text form is four columns separated by TABs.
#[derive(Clone, Debug, PartialEq, Eq)]
pub struct Query {
    pub call: Call,
    pub settings: Settings,
    /// How many headers the caller has room for; without effect on a chunk size.
    pub slots: usize,
    pub input: Vec<u8>,
}

impl Query {
    /// Reads a query from the texts of its four columns.
    pub fn from_columns(columns: [&str; 4]) -> Result<Query, String> {
        let [call, settings, slots, input] = columns;
        Ok(Query {
            call: call.parse().map_err(|what| at("column 1 (call)", what))?,
            settings: settings
                .parse()
                .map_err(|what| at("column 2 (settings)", what))?,
            slots: number::read(slots).map_err(|what| at("column 3 (slots)", what))?,
            input: quoted::read(input).map_err(|what| at("column 4 (input)", what))?,
        })
    }
}

fn at(column: &str, what: String) -> String {
    format!("{column}: {what}")
}

impl fmt::Display for Query {
    fn fmt(&self, formatter: &mut fmt::Formatter<'_>) -> fmt::Result {
        write!(
            formatter,
            "{}\t{}\t{}\t{}",
            self.call,
            self.settings,
            self.slots,
            quoted::write(&self.input)
        )
    }
}

impl FromStr for Query {
    type Err = String;

    fn from_str(text: &str) -> Result<Query, String> {
        let columns: Vec<&str> = text.split('\t').collect();
        let columns: [&str; 4] = columns.try_into().map_err(|columns: Vec<&str>| {
            format!(
                "a query has 4 columns separated by TABs (call, settings, slots, quoted input), \
                 and here are {}",
                columns.len()
            )
        })?;
        Query::from_columns(columns)
    }
}

#[cfg(test)]
mod tests {
    use super::*;

    #[test]
    fn a_query_is_read_as_it_is_written() {
        let query = Query {
            call: Call::Response,
            settings: Settings {
                multiline_headers: true,
                ..Settings::default()
            },
            slots: 3,
            input: b"A:\t\"b\"\r\n".to_vec(),
        };
        let text = "response\tmultiline-headers\t3\t\"A:\\t\\\"b\\\"\\r\\n\"";
        assert_eq!(query.to_string(), text);
        assert_eq!(text.parse(), Ok(query));
    }

    #[test]
    fn an_error_names_the_column() {
        for (text, reason) in [
            ("", "4 columns separated by TABs"),
            ("request default 0 \"\"", "and here are 1"),
            ("request\tdefault\t0\t\"\"\t", "and here are 5"),
            ("get\tdefault\t0\t\"\"", "column 1 (call): `get`"),
            ("request\tnone\t0\t\"\"", "column 2 (settings): `none`"),
            ("request\tdefault\t-1\t\"\"", "column 3 (slots): `-1`"),
            (
                "request\tdefault\t0\tGET",
                "column 4 (input): the text must",
            ),
        ] {
            let error = text.parse::<Query>().unwrap_err();
            assert!(error.contains(reason), "{text}: {error}");
        }
    }
}
