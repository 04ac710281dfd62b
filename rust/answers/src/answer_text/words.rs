//! The words of an answer's text, one after another.

use crate::{number, ChunkSize, HeadError, Header, Outcome, Piece, Reason, Slots};

/// The words of an answer that are still to be read; a list in brackets is part of one word.
pub(super) struct Words<'text> {
    rest: std::vec::IntoIter<&'text str>,
}

impl<'text> Words<'text> {
    pub(super) fn new(text: &'text str) -> Words<'text> {
        let mut in_list = false;
        let words: Vec<&str> = text
            .split(|character| {
                match character {
                    '[' => in_list = true,
                    ']' => in_list = false,
                    _ => {}
                }
                character == ' ' && !in_list
            })
            .collect();
        Words {
            rest: words.into_iter(),
        }
    }

    fn next(&mut self, expected: &str) -> Result<&'text str, String> {
        self.rest
            .next()
            .ok_or_else(|| format!("the answer ends where {expected} is expected"))
    }

    pub(super) fn outcome(&mut self) -> Result<Outcome, String> {
        match self.next("complete, incomplete or error")? {
            "complete" => Ok(Outcome::Complete(self.end()?)),
            "incomplete" => Ok(Outcome::Incomplete),
            "error" => Ok(Outcome::Error {
                error: head_error(self.next("an error's name")?)?,
                position: self.position()?,
            }),
            word => Err(no_outcome(word)),
        }
    }

    /// The number of bytes read, behind the word `complete`.
    fn end(&mut self) -> Result<usize, String> {
        number::read(self.next("the number of bytes read")?)
            .map_err(|what| format!("behind `complete`: {what}"))
    }

    /// The position of an error, behind the word `at`.
    fn position(&mut self) -> Result<usize, String> {
        match self.next("`at`")? {
            "at" => number::read(self.next("the error's position")?)
                .map_err(|what| format!("behind `at`: {what}")),
            word => Err(format!("`at` is expected where `{word}` stands")),
        }
    }

    /// The text behind `NAME=`.
    fn text_of(&mut self, name: &str) -> Result<&'text str, String> {
        let word = self.next(&format!("`{name}=`"))?;
        word.strip_prefix(name)
            .and_then(|rest| rest.strip_prefix('='))
            .ok_or_else(|| format!("`{name}=` is expected where `{word}` stands"))
    }

    /// A field that may be a dash.
    pub(super) fn field<Value>(
        &mut self,
        name: &str,
        read: fn(&str) -> Result<Value, String>,
    ) -> Result<Option<Value>, String> {
        match self.text_of(name)? {
            "-" => Ok(None),
            text => read(text)
                .map(Some)
                .map_err(|what| format!("in `{name}=`: {what}")),
        }
    }

    pub(super) fn slots(&mut self) -> Result<Slots, String> {
        Ok(Slots {
            written: headers(self.text_of("headers")?)
                .map_err(|what| format!("in `headers=`: {what}"))?,
            untouched: number::read(self.text_of("untouched")?)
                .map_err(|what| format!("in `untouched=`: {what}"))?,
        })
    }

    pub(super) fn chunk_size(&mut self) -> Result<ChunkSize, String> {
        match self.next("complete, incomplete or error")? {
            "complete" => Ok(ChunkSize::Complete {
                end: self.end()?,
                size: number::read(self.text_of("size")?)
                    .map_err(|what| format!("in `size=`: {what}"))?,
            }),
            "incomplete" => Ok(ChunkSize::Incomplete),
            "error" => match self.next("an error's name")? {
                "InvalidChunkSize" => Ok(ChunkSize::Error {
                    position: self.position()?,
                }),
                name => Err(format!(
                    "`{name}` is no error of a chunk size; write InvalidChunkSize"
                )),
            },
            word => Err(no_outcome(word)),
        }
    }

    pub(super) fn finish(mut self) -> Result<(), String> {
        match self.rest.next() {
            None => Ok(()),
            Some(word) => Err(format!("the answer should end where `{word}` stands")),
        }
    }
}

fn no_outcome(word: &str) -> String {
    format!("an answer begins with complete, incomplete or error, not with `{word}`")
}

fn head_error(name: &str) -> Result<HeadError, String> {
    HeadError::ALL
        .into_iter()
        .find(|error| error.to_string() == name)
        .ok_or_else(|| {
            let names = HeadError::ALL.map(|error| error.to_string()).join(" ");
            format!("`{name}` is no error of a head; write one of {names}")
        })
}

pub(super) fn piece(text: &str) -> Result<Piece, String> {
    let (offset, length) = text
        .split_once('+')
        .ok_or_else(|| format!("`{text}` is no piece; write OFFSET+LENGTH"))?;
    Ok(Piece {
        offset: number::read(offset)?,
        length: number::read(length)?,
    })
}

pub(super) fn reason(text: &str) -> Result<Reason, String> {
    if text == "+0" {
        return Ok(Reason::Empty);
    }
    match piece(text)? {
        Piece { length: 0, .. } => Err(format!(
            "`{text}` is an empty reason, which has no place; write +0"
        )),
        words => Ok(Reason::Words(words)),
    }
}

fn headers(list: &str) -> Result<Vec<Header>, String> {
    let inside = list
        .strip_prefix('[')
        .and_then(|rest| rest.strip_suffix(']'))
        .ok_or_else(|| format!("`{list}` is no list; write headers in brackets"))?;
    if inside.is_empty() {
        return Ok(Vec::new());
    }
    inside.split(' ').map(header).collect()
}

fn header(text: &str) -> Result<Header, String> {
    let (name, value) = text.split_once(':').ok_or_else(|| {
        format!("`{text}` is no header; write NAMEOFFSET+NAMELENGTH:VALUEOFFSET+VALUELENGTH")
    })?;
    Ok(Header {
        name: piece(name)?,
        value: piece(value)?,
    })
}
