//! The classes of bytes and their skips compared with the same in plain Rust, written from document 01, section 2.

use harness::{is, skip, Class, Random, CLASSES, SKIPPED};

fn expected(class: Class, byte: u8) -> bool {
    match class {
        Class::Token => byte.is_ascii_alphanumeric() || b"!#$%&'*+-.^_`|~".contains(&byte),
        Class::Target => matches!(byte, 0x21..=0x7E | 0x80..=0xFF),
        Class::Value => matches!(byte, 0x09 | 0x20..=0x7E | 0x80..=0xFF),
        Class::Blank => byte == b' ' || byte == b'\t',
        Class::Ascii => byte.is_ascii(),
        Class::Visible => byte.is_ascii_graphic(),
        Class::Digit => byte.is_ascii_digit(),
        Class::HexDigit => byte.is_ascii_hexdigit(),
    }
}

#[test]
fn every_class_at_every_byte() {
    for class in CLASSES {
        for byte in 0..=255 {
            assert_eq!(
                is(class, byte),
                expected(class, byte),
                "{class:?} at {byte:#04x}"
            );
        }
    }
}

fn expected_end(class: Class, bytes: &[u8], at: usize) -> usize {
    match bytes.get(at..) {
        Some(rest) => {
            at + rest
                .iter()
                .take_while(|byte| expected(class, **byte))
                .count()
        }
        None => at,
    }
}

/// Eight bytes are tested at once, so the stopping byte stands at every place of nine such rows, the row starts at every alignment,
/// and the slice ends right behind it, a byte later, or much later.
#[test]
fn every_stopping_byte_at_every_place() {
    const PLACES: usize = 65;
    const ALIGNMENTS: usize = 8;
    let mut count = 0u64;
    for class in SKIPPED {
        let inside = (0..=255)
            .find(|byte| expected(class, *byte))
            .expect("a class has a byte");
        for place in 0..PLACES {
            for stop in 0..=255 {
                let mut bytes = [inside; ALIGNMENTS + PLACES + 9];
                for start in 0..ALIGNMENTS {
                    bytes[start + place] = stop;
                    for behind in [0, 1, 9] {
                        let row = &bytes[start..start + place + 1 + behind];
                        assert_eq!(
                            skip(class, row, 0),
                            expected_end(class, row, 0),
                            "{class:?} in {row:02x?}"
                        );
                        count += 1;
                    }
                    bytes[start + place] = inside;
                }
            }
        }
    }
    println!("octets: {count} skips with a stopping byte, no difference");
}

#[test]
fn every_start_of_a_skip() {
    for class in SKIPPED {
        let bytes = [b'a'; 40];
        for at in (0..=41).chain([usize::MAX - 8, usize::MAX]) {
            assert_eq!(
                skip(class, &bytes, at),
                expected_end(class, &bytes, at),
                "{class:?} from {at}"
            );
        }
    }
}

#[test]
fn random_rows() {
    const SEED: u64 = 9110;
    let mut random = Random::new(SEED);
    let mut count = 0u64;
    for _ in 0..200_000 {
        let class = random.choose(&SKIPPED);
        let bytes: Vec<u8> = (0..random.below(70))
            .map(|_| match random.below(10) {
                0 => random.number() as u8,
                _ => random.choose(b"aA09-~\t /?"),
            })
            .collect();
        let at = random.below(bytes.len() + 2);
        assert_eq!(
            skip(class, &bytes, at),
            expected_end(class, &bytes, at),
            "{class:?} from {at} in {bytes:02x?}"
        );
        count += 1;
    }
    println!("octets: {count} random skips (seed {SEED}), no difference");
}
