//! Answers queries by asking httparse, and tells all that it leaves behind.

mod ask;
mod piece;
mod position;
pub mod record;
pub mod sample;
mod slots;

use answers::{Answer, Call, Query, Settings};

/// More slots than any test needs, so that a mistyped number cannot exhaust the memory.
pub const MOST_SLOTS: usize = 65_536;

/// What httparse answers, or why the query cannot be asked.
pub fn answer(query: &Query) -> Result<Answer, String> {
    refuse_settings_without_effect(query)?;
    refuse_too_many_slots(query)?;
    Ok(match query.call {
        Call::Request => ask::request(query),
        Call::Response => ask::response(query),
        Call::Headers => ask::headers(query),
        Call::ChunkSize => ask::chunk_size(query),
    })
}

fn refuse_settings_without_effect(query: &Query) -> Result<(), String> {
    let without_settings = matches!(query.call, Call::Headers | Call::ChunkSize);
    if without_settings && query.settings != Settings::default() {
        return Err(format!(
            "column 2 (settings): {} takes no settings; write default",
            query.call
        ));
    }
    Ok(())
}

fn refuse_too_many_slots(query: &Query) -> Result<(), String> {
    if query.slots > MOST_SLOTS {
        return Err(format!(
            "column 3 (slots): {} is too many; write at most {MOST_SLOTS}",
            query.slots
        ));
    }
    Ok(())
}

#[cfg(test)]
mod tests {
    use super::*;

    fn refusal(text: &str) -> String {
        answer(&text.parse().unwrap()).unwrap_err()
    }

    #[test]
    fn calls_without_settings_refuse_them() {
        for call in ["headers", "chunk-size"] {
            let error = refusal(&format!("{call}\tmultiline-headers\t0\t\"\""));
            assert!(
                error.contains("takes no settings; write default"),
                "{error}"
            );
        }
    }

    #[test]
    fn as_many_slots_as_allowed_are_lent_and_no_more() {
        let answer = answer(&"headers\tdefault\t65536\t\"\\n\"".parse().unwrap()).unwrap();
        assert_eq!(answer.to_string(), "complete 1 headers=[] untouched=65536");
        let error = refusal("headers\tdefault\t65537\t\"\"");
        assert!(error.contains("65537 is too many"), "{error}");
    }
}
