//! All short strings over an alphabet.

/// The strings of no byte, one byte and so on up to the longest, in the alphabet's order.
pub fn up_to(longest: usize, alphabet: &[u8]) -> Vec<Vec<u8>> {
    let mut strings = vec![Vec::new()];
    let mut first_of_length = 0;
    for _ in 0..longest {
        let first_longer = strings.len();
        for index in first_of_length..first_longer {
            for &byte in alphabet {
                strings.push([&strings[index][..], &[byte]].concat());
            }
        }
        first_of_length = first_longer;
    }
    strings
}

#[cfg(test)]
mod tests {
    use super::*;

    #[test]
    fn every_string_is_there_once() {
        let expected: [&[u8]; 7] = [b"", b"a", b"b", b"aa", b"ab", b"ba", b"bb"];
        assert_eq!(up_to(2, b"ab"), expected);
        assert_eq!(up_to(3, b"abcdefghi").len(), 1 + 9 + 81 + 729);
    }
}
