//! Reading answers from their text form.

mod words;

use crate::{number, Answer, Call};
use words::{piece, reason, Words};

impl Answer {
    /// Reads the answer to a call, in exactly the form in which it is written.
    pub fn read(call: Call, text: &str) -> Result<Answer, String> {
        let mut words = Words::new(text);
        let answer = match call {
            Call::Request => Answer::Request {
                outcome: words.outcome()?,
                method: words.field("method", piece)?,
                target: words.field("target", piece)?,
                version: words.field("version", number::read)?,
                slots: words.slots()?,
            },
            Call::Response => Answer::Response {
                outcome: words.outcome()?,
                version: words.field("version", number::read)?,
                code: words.field("code", number::read)?,
                reason: words.field("reason", reason)?,
                slots: words.slots()?,
            },
            Call::Headers => Answer::Headers {
                outcome: words.outcome()?,
                slots: words.slots()?,
            },
            Call::ChunkSize => Answer::ChunkSize(words.chunk_size()?),
        };
        words.finish()?;
        Ok(answer)
    }
}

#[cfg(test)]
mod tests {
    use super::*;
    use crate::{HeadError, Header, Outcome, Piece, Slots};

    const HEADER: Header = Header {
        name: Piece {
            offset: 17,
            length: 4,
        },
        value: Piece {
            offset: 23,
            length: 5,
        },
    };

    #[test]
    fn a_request_is_read_field_by_field() {
        let text = "complete 18 method=0+3 target=- version=1 headers=[17+4:23+5] untouched=2";
        let answer = Answer::Request {
            outcome: Outcome::Complete(18),
            method: Some(Piece {
                offset: 0,
                length: 3,
            }),
            target: None,
            version: Some(1),
            slots: Slots {
                written: vec![HEADER],
                untouched: 2,
            },
        };
        assert_eq!(answer.to_string(), text);
        assert_eq!(Answer::read(Call::Request, text), Ok(answer));
    }

    #[test]
    fn texts_are_written_as_they_were_read() {
        for (call, text) in [
            (
                Call::Request,
                "error Token at 0 method=- target=- version=- headers=[] untouched=0",
            ),
            (
                Call::Response,
                "incomplete version=1 code=200 reason=13+2 headers=[1+1:3+0 5+1:7+1] untouched=0",
            ),
            (
                Call::Response,
                "error Status at 10 version=0 code=- reason=- headers=[] untouched=4",
            ),
            (
                Call::Response,
                "complete 9 version=0 code=7 reason=+0 headers=[] untouched=4",
            ),
            (Call::Headers, "complete 2 headers=[] untouched=4"),
            (Call::ChunkSize, "complete 3 size=0"),
            (Call::ChunkSize, "incomplete"),
            (Call::ChunkSize, "error InvalidChunkSize at 16"),
        ] {
            assert_eq!(Answer::read(call, text).unwrap().to_string(), text);
        }
    }

    #[test]
    fn every_error_name_is_read() {
        for error in HeadError::ALL {
            let text = format!("error {error} at 7 headers=[] untouched=0");
            assert_eq!(
                Answer::read(Call::Headers, &text).unwrap().to_string(),
                text
            );
        }
    }

    #[test]
    fn an_error_says_what_is_expected() {
        for (call, text, reason) in [
            (
                Call::ChunkSize,
                "",
                "begins with complete, incomplete or error",
            ),
            (
                Call::ChunkSize,
                "complete",
                "ends where the number of bytes read",
            ),
            (
                Call::ChunkSize,
                "complete 1",
                "ends where `size=` is expected",
            ),
            (
                Call::ChunkSize,
                "complete 1 size=x",
                "in `size=`: `x` is no number",
            ),
            (Call::ChunkSize, "error Token", "write InvalidChunkSize"),
            (Call::ChunkSize, "incomplete ", "should end where `` stands"),
            (
                Call::ChunkSize,
                "incomplete size=1",
                "should end where `size=1` stands",
            ),
            (
                Call::Headers,
                "error InvalidChunkSize",
                "is no error of a head",
            ),
            (
                Call::ChunkSize,
                "error InvalidChunkSize",
                "ends where `at` is expected",
            ),
            (
                Call::Headers,
                "error Token headers=[]",
                "`at` is expected where `headers=[]` stands",
            ),
            (
                Call::Headers,
                "error Token at",
                "ends where the error's position",
            ),
            (
                Call::Headers,
                "error Token at x",
                "behind `at`: `x` is no number",
            ),
            (
                Call::Headers,
                "incomplete  headers=[]",
                "`headers=` is expected where `` stands",
            ),
            (Call::Headers, "incomplete headers=[", "is no list"),
            (
                Call::Headers,
                "incomplete headers=[1+1]",
                "`1+1` is no header",
            ),
            (Call::Headers, "incomplete headers=[1:1]", "`1` is no piece"),
            (
                Call::Headers,
                "incomplete headers=[]",
                "ends where `untouched=`",
            ),
            (
                Call::Request,
                "incomplete version=1",
                "`method=` is expected where `version=1`",
            ),
            (
                Call::Response,
                "incomplete version=1 code=2 reason=9+0",
                "write +0",
            ),
        ] {
            let error = Answer::read(call, text).unwrap_err();
            assert!(error.contains(reason), "{text}: {error}");
        }
    }
}
