//! Makes an input on which two libraries differ as short and as simple as it can be.

/// Bytes by simplicity: each is put in place of any that stands behind it here, or nowhere.
const SIMPLE: &[u8] = b"aA10/: \t\n\r";

/// The input that is left when no byte can be dropped or made simpler without `differs` failing.
pub fn shrink(input: &[u8], mut differs: impl FnMut(&[u8]) -> bool) -> Vec<u8> {
    let mut shortest = input.to_vec();
    loop {
        let shorter = drop_bytes(&mut shortest, &mut differs);
        let simpler = simplify_bytes(&mut shortest, &mut differs);
        if !shorter && !simpler {
            return shortest;
        }
    }
}

/// Drops rows of bytes, long ones first; tells whether any was dropped.
fn drop_bytes(input: &mut Vec<u8>, differs: &mut impl FnMut(&[u8]) -> bool) -> bool {
    let before = input.len();
    let mut length = input.len();
    while length > 0 {
        let mut place = 0;
        while place + length <= input.len() {
            let shorter = [&input[..place], &input[place + length..]].concat();
            if differs(&shorter) {
                *input = shorter;
            } else {
                place += length;
            }
        }
        length /= 2;
    }
    input.len() < before
}

/// Puts simpler bytes in place of others; tells whether any was replaced.
fn simplify_bytes(input: &mut [u8], differs: &mut impl FnMut(&[u8]) -> bool) -> bool {
    let mut replaced = false;
    for place in 0..input.len() {
        let byte = input[place];
        let simpler = SIMPLE.iter().take_while(|&&simple| simple != byte);
        let found = simpler.copied().find(|&simple| {
            input[place] = simple;
            differs(input)
        });
        input[place] = found.unwrap_or(byte);
        replaced |= found.is_some();
    }
    replaced
}

#[cfg(test)]
mod tests {
    use super::*;

    #[test]
    fn what_does_not_matter_is_dropped() {
        let differs = |input: &[u8]| input.contains(&0x80) && input.ends_with(b"\r\n");
        assert_eq!(shrink(b"GET /\x80 HTTP/1.1\r\n", differs), b"\x80\r\n");
    }

    #[test]
    fn what_must_stay_is_made_simple() {
        assert_eq!(shrink(b"x\x80y-z", |input| input.len() >= 2), b"aa");
        assert_eq!(shrink(b"\rz", |input| input.contains(&b'\r')), b"\r");
    }

    #[test]
    fn an_empty_input_may_be_the_shortest() {
        assert_eq!(shrink(b"GET", |_| true), b"");
        assert_eq!(shrink(b"", |_| true), b"");
    }
}
