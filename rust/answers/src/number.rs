//! Numbers in text forms: decimal digits, written in one way only.

use std::str::FromStr;

/// Reads a number as it would be written: no sign, no leading zero.
pub fn read<Number: FromStr>(text: &str) -> Result<Number, String> {
    let only_digits = !text.is_empty() && text.bytes().all(|byte| byte.is_ascii_digit());
    let leading_zero = text.len() > 1 && text.starts_with('0');
    if !only_digits || leading_zero {
        return Err(format!(
            "`{text}` is no number; write decimal digits without a leading zero"
        ));
    }
    text.parse()
        .map_err(|_| format!("the number {text} is too large here"))
}

#[cfg(test)]
mod tests {
    use super::*;

    #[test]
    fn numbers_are_read() {
        assert_eq!(read("0"), Ok(0u8));
        assert_eq!(read("255"), Ok(255u8));
        assert_eq!(read("18446744073709551615"), Ok(u64::MAX));
    }

    #[test]
    fn other_forms_are_refused() {
        for text in ["", "+1", "-1", "01", "1 ", "0x1"] {
            let error = read::<usize>(text).unwrap_err();
            assert!(error.contains("is no number"), "{text}: {error}");
        }
        assert!(read::<u8>("256").unwrap_err().contains("too large"));
    }
}
