//! Where in the input a part lies that httparse answered.

use answers::Piece;

/// The place of a part of the input; panics if it lies elsewhere.
pub fn place(input: &[u8], part: &[u8]) -> Piece {
    let bounds = input.as_ptr_range();
    let found = part.as_ptr_range();
    assert!(
        bounds.start <= found.start && found.end <= bounds.end,
        "httparse answered a piece at {found:?}, outside of the input at {bounds:?}"
    );
    Piece {
        offset: found.start as usize - bounds.start as usize,
        length: part.len(),
    }
}

#[cfg(test)]
mod tests {
    use super::*;

    #[test]
    fn a_part_is_placed() {
        let input = b"abcdef";
        let expected = Piece {
            offset: 2,
            length: 3,
        };
        assert_eq!(place(input, &input[2..5]), expected);
    }

    #[test]
    fn an_empty_part_at_the_end_is_placed() {
        let input = b"abc";
        let expected = Piece {
            offset: 3,
            length: 0,
        };
        assert_eq!(place(input, &input[3..]), expected);
    }

    #[test]
    #[should_panic(expected = "outside of the input")]
    fn a_part_of_something_else_is_noticed() {
        let whole = b"abcdef";
        place(&whole[..4], &whole[3..5]);
    }
}
