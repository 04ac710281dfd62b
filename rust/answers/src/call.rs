//! Which of the four calls a query makes.

use std::fmt;
use std::str::FromStr;

/// What the input is read as.
#[derive(Clone, Copy, Debug, PartialEq, Eq)]
pub enum Call {
    Request,
    Response,
    Headers,
    ChunkSize,
}

impl fmt::Display for Call {
    fn fmt(&self, formatter: &mut fmt::Formatter<'_>) -> fmt::Result {
        formatter.write_str(match self {
            Call::Request => "request",
            Call::Response => "response",
            Call::Headers => "headers",
            Call::ChunkSize => "chunk-size",
        })
    }
}

impl FromStr for Call {
    type Err = String;

    fn from_str(text: &str) -> Result<Call, String> {
        match text {
            "request" => Ok(Call::Request),
            "response" => Ok(Call::Response),
            "headers" => Ok(Call::Headers),
            "chunk-size" => Ok(Call::ChunkSize),
            _ => Err(format!(
                "`{text}` is no call; write request, response, headers or chunk-size"
            )),
        }
    }
}

#[cfg(test)]
mod tests {
    use super::*;

    #[test]
    fn every_call_is_read_as_it_is_written() {
        for call in [
            Call::Request,
            Call::Response,
            Call::Headers,
            Call::ChunkSize,
        ] {
            assert_eq!(call.to_string().parse(), Ok(call));
        }
    }

    #[test]
    fn another_word_is_refused() {
        let error = "Request".parse::<Call>().unwrap_err();
        assert!(error.contains("`Request` is no call"), "{error}");
    }
}
