//! Writers handed any numbers at all: what lies in the input is written, and of all else nothing is.

use answers::{bits, Call};
use compare::numbers::{Numbers, SLOT};
use compare::plain::{form, write, Written, UNTOUCHED};
use compare::{Case, Random};

const SEED: u64 = 5;
const CASES: usize = 400_000;
const INPUT: &[u8] = b"\nPUT /a HTTP/1.1\nHost:b\nx: yz \n\n";

/// The bits of the fields that each call tells.
fn bits(call: Call) -> u64 {
    match call {
        Call::Request => 1 + 2 + 4,
        Call::Response => 4 + 8 + 16,
        _ => 0,
    }
}

/// An offset or a length: mostly small, and at times at an edge or far beyond it.
fn place(random: &mut Random) -> u64 {
    let length = INPUT.len() as u64;
    match random.below(12) {
        0 => random.choose(&[length - 1, length, length + 1, u64::MAX - 1, u64::MAX]),
        1 => random.below(INPUT.len() + 1) as u64,
        _ => random.below(8) as u64,
    }
}

fn answer(call: Call, random: &mut Random) -> Numbers {
    let slots = random.below(4);
    let mut answer = Numbers::default();
    answer.lend(slots * SLOT + random.below(SLOT));
    answer.status = random.choose(&[0, 0, 0, 0, 0, 0, 1, 2, 9, u32::MAX]);
    for number in answer.slots.numbers_mut() {
        *number = place(random);
    }
    let out = answer.out.numbers_mut();
    for number in out.iter_mut() {
        *number = place(random);
    }
    out[1] = match random.below(8) {
        0 => random.choose(&[slots as u64 + 1, u64::MAX / 4, u64::MAX / 4 + 1, u64::MAX]),
        _ => random.below(slots + 1) as u64,
    };
    out[2] = match random.below(8) {
        0 => random.below(32) as u64,
        _ => bits(call),
    };
    let version = if call == Call::Request { 7 } else { 3 };
    if random.below(2) == 0 {
        out[version] = random.choose(&[0, 1, 8, 9, 10, 208, 256, u64::MAX]);
    }
    if call == Call::Response {
        out[4] = random.choose(&[0, 7, 99, 100, 204, 999, 1000, 1 << 32]);
    }
    answer
}

fn lies(offset: u64, length: u64) -> bool {
    let end = offset.checked_add(length);
    end.is_some_and(|end| end <= INPUT.len() as u64)
}

/// Whether the answer is complete, with every number known and every place in the input, and a response's values on one line each.
fn fits(call: Call, answer: &Numbers) -> bool {
    let out = answer.out.numbers();
    let slots = answer.slots.numbers();
    let line = match call {
        Call::Request => lies(out[3], out[4]) && lies(out[5], out[6]) && out[7] <= 9,
        Call::Response => out[3] <= 9 && out[4] <= 999 && lies(out[5], out[6]),
        _ => true,
    };
    answer.status == 0
        && out[2] & bits(call) == bits(call)
        && line
        && out[1] <= (slots.len() / SLOT) as u64
        && slots[..out[1] as usize * SLOT]
            .chunks_exact(2)
            .all(|place| lies(place[0], place[1]))
        && (call != Call::Response || on_one_line(&slots[..out[1] as usize * SLOT]))
}

/// Whether no value has a line end inside.
fn on_one_line(slots: &[u64]) -> bool {
    let value = |slot: &[u64]| &INPUT[slot[2] as usize..][..slot[3] as usize];
    slots
        .chunks_exact(SLOT)
        .all(|slot| !value(slot).contains(&b'\n'))
}

/// A call on the input under every setting but folds, which leave some heads without a plain form.
fn case(call: Call) -> Case<'static> {
    Case {
        call,
        slots: 0,
        remainder: 0,
        settings: bits::SUPPORTED & !bits::MULTILINE_HEADERS,
        input: INPUT,
    }
}

/// Writes with some room and looks at every byte of it.
fn check(call: Call, answer: &Numbers, lent: usize, expected: Option<&[u8]>) {
    let mut out = Vec::new();
    let found = write(&case(call), answer, &mut out, lent);
    let (right, bytes) = match expected {
        None => (Written::Unwritable, &[][..]),
        Some(form) if lent < form.len() => (Written::Needs(form.len()), &[][..]),
        Some(form) => (Written::All(form.len()), form),
    };
    assert_eq!(found, right, "{call}, room for {lent} bytes");
    assert_eq!(out.len(), lent);
    assert_eq!(&out[..bytes.len()], bytes);
    assert!(out[bytes.len()..].iter().all(|&byte| byte == UNTOUCHED));
}

#[test]
fn any_numbers() {
    let mut random = Random::new(SEED);
    let mut written = 0;
    let calls = [Call::Request, Call::Response, Call::Headers];
    let mut seen = [[0; 2]; 3];
    for number in 0..CASES {
        let call = calls[number % 3];
        let answer = answer(call, &mut random);
        let right = fits(call, &answer);
        seen[number % 3][usize::from(right)] += 1;
        if !right {
            check(call, &answer, random.below(100), None);
            continue;
        }
        let mut plain = Vec::new();
        form(call, INPUT, &answer, &mut plain);
        let length = plain.len();
        for lent in [0, 1, length / 2, length - 1, length, length + 3] {
            check(call, &answer, lent, Some(&plain));
        }
        written += 1;
    }
    let refused = CASES - written;
    assert!(
        seen.iter().flatten().all(|&count| count > 1_000),
        "{seen:?}"
    );
    println!("writers with any numbers (seed {SEED}): {written} written in six rooms, {refused} refused, no difference");
}

/// A head with everything that a plain form leaves out.
#[test]
fn a_request_in_plain_form() {
    let mut answer = Numbers::default();
    answer.lend(2 * SLOT);
    answer.status = 0;
    let request = [33, 2, 7, 1, 3, 5, 2, 1];
    answer.out.numbers_mut().copy_from_slice(&request);
    let slots = [17, 4, 22, 1, 24, 1, 27, 2];
    answer.slots.numbers_mut().copy_from_slice(&slots);
    let plain = b"PUT /a HTTP/1.1\r\nHost: b\r\nx: yz\r\n\r\n";
    let mut out = Vec::new();
    let written = write(&case(Call::Request), &answer, &mut out, plain.len());
    assert_eq!(written, Written::All(plain.len()));
    assert_eq!(&out[..plain.len()], plain);
}
