//! Bytes as one line of printable ASCII in double quotes.

/// The text form: printable bytes stand for themselves, all others are escaped.
pub fn write(bytes: &[u8]) -> String {
    let inside: String = bytes.iter().map(|&byte| write_byte(byte)).collect();
    format!("\"{inside}\"")
}

fn write_byte(byte: u8) -> String {
    match byte {
        b'\\' => "\\\\".to_string(),
        b'"' => "\\\"".to_string(),
        b'\r' => "\\r".to_string(),
        b'\n' => "\\n".to_string(),
        b'\t' => "\\t".to_string(),
        0x20..=0x7e => char::from(byte).to_string(),
        _ => format!("\\x{byte:02x}"),
    }
}

/// Reads what `write` wrote; hex digits may be upper-case too.
pub fn read(text: &str) -> Result<Vec<u8>, String> {
    let inside = text
        .strip_prefix('"')
        .and_then(|rest| rest.strip_suffix('"'))
        .ok_or("the text must begin and end with a double quote")?;
    let mut bytes = Vec::new();
    let mut rest = inside;
    while !rest.is_empty() {
        let place = inside.len() - rest.len() + 1;
        let (byte, length) = read_byte(rest)
            .map_err(|what| format!("character {place} inside the quotes: {what}"))?;
        bytes.push(byte);
        rest = &rest[length..];
    }
    Ok(bytes)
}

/// The first byte that a text stands for, and how long its form is.
fn read_byte(text: &str) -> Result<(u8, usize), String> {
    match text.as_bytes() {
        [b'\\', rest @ ..] => read_escape(rest),
        [b'"', ..] => Err("a double quote inside must be written `\\\"`".to_string()),
        [byte @ 0x20..=0x7e, ..] => Ok((*byte, 1)),
        [byte, ..] => Err(format!(
            "the byte {byte:#04x} must be written `{}`",
            write_byte(*byte)
        )),
        [] => unreachable!("the caller stops at the end of the text"),
    }
}

/// The byte that an escape stands for, read from behind its backslash, and the whole form's length.
fn read_escape(behind: &[u8]) -> Result<(u8, usize), String> {
    match behind {
        [b'\\', ..] => Ok((b'\\', 2)),
        [b'"', ..] => Ok((b'"', 2)),
        [b'r', ..] => Ok((b'\r', 2)),
        [b'n', ..] => Ok((b'\n', 2)),
        [b't', ..] => Ok((b'\t', 2)),
        [b'x', high, low, ..] if high.is_ascii_hexdigit() && low.is_ascii_hexdigit() => {
            Ok((read_hex(*high, *low)?, 4))
        }
        _ => Err("this is no escape; write \\\\ \\\" \\r \\n \\t or \\xHH".to_string()),
    }
}

/// The byte of two hex digits, if it has no shorter form, so that each input has one form.
fn read_hex(high: u8, low: u8) -> Result<u8, String> {
    let byte = digit(high) * 16 + digit(low);
    let form = write_byte(byte);
    if form.starts_with("\\x") {
        Ok(byte)
    } else {
        Err(format!("the byte {byte:#04x} must be written `{form}`"))
    }
}

/// The value of a byte that is known to be a hex digit.
fn digit(hex: u8) -> u8 {
    match hex {
        b'0'..=b'9' => hex - b'0',
        _ => hex.to_ascii_lowercase() - b'a' + 10,
    }
}

#[cfg(test)]
mod tests {
    use super::*;

    #[test]
    fn every_byte_is_read_as_it_is_written() {
        let all: Vec<u8> = (0..=255).collect();
        assert_eq!(read(&write(&all)), Ok(all));
        assert_eq!(read("\"\""), Ok(Vec::new()));
    }

    #[test]
    fn forms_are_as_told() {
        assert_eq!(
            write(b"a \\\"\r\n\t\x00\x7f\xFF~"),
            r#""a \\\"\r\n\t\x00\x7f\xff~""#
        );
    }

    #[test]
    fn upper_case_hex_digits_are_read() {
        assert_eq!(read(r#""\xFf\x7F""#), Ok(vec![0xff, 0x7f]));
    }

    #[test]
    fn other_forms_are_refused() {
        for (text, reason) in [
            ("", "must begin and end"),
            ("\"", "must begin and end"),
            ("abc", "must begin and end"),
            ("\"abc", "must begin and end"),
            (
                "\"a\"b\"",
                "character 2 inside the quotes: a double quote inside",
            ),
            (
                "\"ab\\\"",
                "character 3 inside the quotes: this is no escape",
            ),
            ("\"\\q\"", "this is no escape"),
            ("\"\\x4\"", "this is no escape"),
            ("\"\\x+4\"", "this is no escape"),
            ("\"\\x41\"", "0x41 must be written `A`"),
            ("\"\\x0d\"", "0x0d must be written `\\r`"),
            ("\"a\tb\"", "0x09 must be written `\\t`"),
            ("\"\u{e9}\"", "0xc3 must be written `\\xc3`"),
        ] {
            let error = read(text).unwrap_err();
            assert!(error.contains(reason), "{text}: {error}");
        }
    }
}
