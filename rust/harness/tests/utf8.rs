//! The UTF-8 check compared with the one of Rust's own library: both take the same strings.

use harness::{is_utf8, Random};

/// The ends of every range of RFC 3629's table, and the bytes next to them.
const BOUNDARY: [u8; 24] = [
    0x00, 0x41, 0x7F, 0x80, 0x8F, 0x90, 0x9F, 0xA0, 0xBF, 0xC0, 0xC1, 0xC2, 0xDF, 0xE0, 0xE1, 0xEC,
    0xED, 0xEE, 0xEF, 0xF0, 0xF3, 0xF4, 0xF5, 0xFF,
];

fn compare(bytes: &[u8]) {
    let theirs = core::str::from_utf8(bytes).is_ok();
    assert_eq!(is_utf8(bytes), theirs, "the two differ on {bytes:02x?}");
}

#[test]
fn every_string_of_up_to_three_bytes() {
    let mut count = 0u64;
    for length in 0..=3u32 {
        for number in 0..256u32.pow(length) {
            compare(&number.to_le_bytes()[..length as usize]);
            count += 1;
        }
    }
    println!("utf8: {count} strings of up to three bytes, no difference");
    assert_eq!(count, 16_843_009);
}

#[test]
fn four_bytes_over_the_boundary_bytes() {
    let mut count = 0u64;
    for first in 0xF0..=0xFF {
        for second in BOUNDARY {
            for third in BOUNDARY {
                for fourth in BOUNDARY {
                    compare(&[first, second, third, fourth]);
                    count += 1;
                }
            }
        }
    }
    println!("utf8: {count} strings of four bytes from 0xF0 on, no difference");
    assert_eq!(count, 16 * 24 * 24 * 24);
}

/// Characters of every length, with now and then a byte that may break them.
fn random_string(random: &mut Random, bytes: &mut Vec<u8>) {
    bytes.clear();
    let pieces = random.below(12);
    for _ in 0..pieces {
        match random.below(8) {
            0 => bytes.push(random.choose(&BOUNDARY)),
            1 => bytes.push(random.number() as u8),
            2 => bytes.extend((0..random.below(20)).map(|_| b'a')),
            _ => {
                let limit = random.choose(&[0x80, 0x800, 0x1_0000, 0x11_0000]);
                let character = char::from_u32(random.below(limit) as u32).unwrap_or('\u{D7FF}');
                bytes.extend_from_slice(character.encode_utf8(&mut [0; 4]).as_bytes());
            }
        }
    }
    if random.below(4) == 0 && !bytes.is_empty() {
        let end = random.below(bytes.len());
        bytes.truncate(end);
    }
}

#[test]
fn ten_million_random_strings() {
    const SEED: u64 = 3629;
    const COUNT: u64 = 10_000_000;
    let mut random = Random::new(SEED);
    let mut bytes = Vec::new();
    let mut well_formed = 0u64;
    for _ in 0..COUNT {
        random_string(&mut random, &mut bytes);
        compare(&bytes);
        well_formed += u64::from(is_utf8(&bytes));
    }
    println!("utf8: {COUNT} random strings (seed {SEED}), {well_formed} of them well formed, no difference");
    assert!(
        well_formed > COUNT / 4 && well_formed < COUNT * 3 / 4,
        "the strings are too much of one kind"
    );
}
