//! Realistic heads made by a rule: good as they stand, of every call and many sizes.

use crate::Random;
use answers::{bits, Call};

/// A head that httparse accepts with the settings of its shape, and perhaps a body behind it.
pub struct Head {
    pub call: Call,
    /// How many headers it has.
    pub headers: usize,
    pub bytes: Vec<u8>,
}

/// What a head is to be like.
#[derive(Clone, Copy, Debug)]
pub struct Shape {
    pub call: Call,
    pub headers: usize,
    /// The least length of the head; where it has headers and this is much, it is exactly that.
    pub length: usize,
    /// The line ends to choose from.
    pub line_ends: &'static [&'static [u8]],
    /// The settings of which it makes use.
    pub settings: u32,
}

/// The most bytes of any head.
pub const LONGEST: usize = 65_536;

/// Numbers of headers with least lengths, from nothing to the most of both.
const SIZES: [(usize, usize); 8] = [
    (0, 0),
    (1, 0),
    (3, 0),
    (8, 500),
    (20, 1_500),
    (100, 0),
    (1, LONGEST),
    (100, LONGEST),
];

const LINE_ENDS: [&[&[u8]]; 3] = [&[b"\r\n"], &[b"\n"], &[b"\r\n", b"\n"]];

/// Every call with every size and every line end, and chunk size lines; none needs a setting.
pub fn shapes() -> Vec<Shape> {
    let mut shapes = Vec::new();
    for (headers, length) in SIZES {
        for call in [Call::Request, Call::Response, Call::Headers] {
            shapes.extend(LINE_ENDS.map(|line_ends| Shape {
                call,
                headers,
                length,
                line_ends,
                settings: bits::DEFAULT,
            }));
        }
    }
    shapes.push(Shape {
        call: Call::ChunkSize,
        headers: 0,
        length: 0,
        line_ends: LINE_ENDS[0],
        settings: bits::DEFAULT,
    });
    shapes
}

/// The same shapes of the calls that have settings, with all that these allow.
pub fn lenient_shapes() -> Vec<Shape> {
    let mut shapes = shapes();
    for shape in &mut shapes {
        shape.settings = bits::of(shape.call);
    }
    shapes.retain(|shape| shape.settings != bits::DEFAULT);
    shapes
}

/// Each shape as often as is said of it, with a seed for each.
pub fn jobs(
    shapes: Vec<Shape>,
    seed: u64,
    how_many: impl Fn(&Shape) -> usize,
) -> Vec<(Shape, u64)> {
    let mut seeds = Random::new(seed);
    let mut jobs = Vec::new();
    for shape in shapes {
        jobs.extend((0..how_many(&shape)).map(|_| (shape, seeds.number())));
    }
    jobs
}

const METHODS: &[&[u8]] = &[
    b"GET",
    b"POST",
    b"PUT",
    b"DELETE",
    b"OPTIONS",
    b"POSTS",
    b"M-SEARCH",
    b"A!#$%&'*+-.^_`|~09az",
];

const TARGETS: &[&[u8]] = &[
    b"/",
    b"*",
    b"/index.html",
    b"example.com:443",
    b"/search?q=a%20b&lang=en;page=2#top",
    b"http://user@example.com:8080/a/long/path/that/goes/on?with=a&query=that&does=too",
    "/caf\u{e9}/\u{20ac}/\u{1f600}".as_bytes(),
    "/a-target-of-thirty-bytes-and-\u{7ff}\u{ffff}\u{10ffff}".as_bytes(),
];

const VERSIONS: &[&[u8]] = &[b"HTTP/1.1", b"HTTP/1.0"];

const CODES: &[&[u8]] = &[b"200", b"100", b"304", b"404", b"503", b"000", b"999"];

/// What may stand for the space between the parts of a start line, where several may.
const SPACES: &[&[u8]] = &[b" ", b"  ", b"                     "];

/// What may stand between code and line end, the space too.
const REASONS: &[&[u8]] = &[
    b" OK",
    b"",
    b" ",
    b" Not Found",
    b" Non-Authoritative Information, and more of it",
    b"  blanks\tinside and behind \t",
    b" caf\xe9",
    " \u{20ac}".as_bytes(),
];

const NAMES: &[&[u8]] = &[
    b"Host",
    b"Accept",
    b"User-Agent",
    b"Cookie",
    b"Content-Length",
    b"Transfer-Encoding",
    b"x",
    b"X_1.2!#$%&'*+^`|~",
    b"Sec-CH-UA-Full-Version-List-Of-More-Than-32-Bytes",
];

/// What may stand in front of a value and behind it.
const BLANKS: &[&[u8]] = &[b" ", b"", b"\t", b" \t  "];

const VALUES: &[&[u8]] = &[
    b"",
    b"0",
    b"example.com",
    b"*/*",
    b"Mozilla/5.0 (X11; Linux x86_64; rv:109.0) Gecko/20100101 Firefox/115.0",
    b"text/html,application/xhtml+xml;q=0.9",
    b"a=1; b=\"two\"; c=three:3",
    b"words\twith\ttabs",
    b"obs-text \x80\xe9\xff",
    "\u{20ac} in UTF-8".as_bytes(),
];

/// Lines that are no headers, without their ends.
const INVALID_LINES: &[&[u8]] = &[
    b":",
    b": a value",
    b"no colon",
    b"two words: a",
    b"Content-Length\x7f: 5",
    b"Cookie: \x01",
    b"Accept: a\x0b b: c",
    b"caf\xe9: a",
    b"\x01\xff (a line of more than 32 bytes): \"b\"",
    b" : behind a blank",
];

/// What long values are filled with.
const FILLING: &[u8] =
    b"abcdefghijklmnopqrstuvwxyzABCDEFGHIJKLMNOPQRSTUVWXYZ0123456789-_=%:;, \t\xe9";

const SIZES_IN_HEX: &[&[u8]] = &[b"0", b"1aF", b"00000000000000fE", b"ffffffffffffffff", b"9"];

const EXTENSIONS: &[&[u8]] = &[
    b"",
    b" ",
    b";x=y",
    b" \t; name=\"a value\" ",
    b";\n\x00\xff;",
];

const BODIES: &[&[u8]] = &[b"", b"", b"body", b"\r\n\r\n", b"\x00\xff"];

/// A head of a shape, with what is left open chosen at random.
pub fn make(shape: &Shape, random: &mut Random) -> Head {
    let mut bytes = first_line(shape, random);
    // These stand before the first header, or before the end of a head that has none.
    let mut blanks = shape.blanks(bits::SPACE_BEFORE_FIRST_HEADER_NAME, random);
    let end = [
        &shape.invalid_lines(random)[..],
        random.choose(shape.line_ends),
    ]
    .concat();
    for left in (1..=shape.headers).rev() {
        bytes.extend(shape.invalid_lines(random));
        bytes.extend_from_slice(std::mem::take(&mut blanks));
        let rest = shape.length.saturating_sub(bytes.len() + end.len());
        bytes.extend(header_line(shape, rest / left, random));
    }
    bytes.extend_from_slice(blanks);
    bytes.extend(end);
    if bytes.len() < LONGEST {
        bytes.extend_from_slice(random.choose(BODIES));
    }
    Head {
        call: shape.call,
        headers: shape.headers,
        bytes,
    }
}

impl Shape {
    /// What stands where a setting allows blanks, and nothing does without it.
    fn blanks(&self, setting: u32, random: &mut Random) -> &'static [u8] {
        match self.settings & setting {
            0 => b"",
            _ => random.choose(BLANKS),
        }
    }

    /// What stands where a setting allows several spaces, and one does without it.
    fn spaces(&self, setting: u32, random: &mut Random) -> &'static [u8] {
        match self.settings & setting {
            0 => b" ",
            _ => random.choose(SPACES),
        }
    }

    /// Lines that are no headers, where a setting passes over them.
    fn invalid_lines(&self, random: &mut Random) -> Vec<u8> {
        let count = match self.settings & bits::IGNORING {
            0 => 0,
            _ => random.choose(&[0, 0, 1, 2]),
        };
        let line = |_| [random.choose(INVALID_LINES), random.choose(self.line_ends)].concat();
        (0..count).flat_map(line).collect()
    }

    /// What goes on with a value in further lines, where a setting allows that.
    fn folds(&self, random: &mut Random) -> Vec<u8> {
        let count = match self.settings & bits::MULTILINE_HEADERS {
            0 => 0,
            _ => random.choose(&[0, 1, 1, 3]),
        };
        (0..count).flat_map(|_| self.fold(random)).collect()
    }

    /// A line end within a value, and what stands in the line behind it.
    fn fold(&self, random: &mut Random) -> Vec<u8> {
        [
            random.choose(BLANKS),
            random.choose(self.line_ends),
            random.choose(&[b" ", b"\t"]),
            random.choose(BLANKS),
            random.choose(VALUES),
        ]
        .concat()
    }
}

/// The start line, behind empty lines or not; of a chunk size line all but its end.
fn first_line(shape: &Shape, random: &mut Random) -> Vec<u8> {
    let line_end = random.choose(shape.line_ends);
    let empty_lines = line_end.repeat(random.choose(&[0, 0, 1, 3]));
    match shape.call {
        Call::Request => [
            &empty_lines[..],
            random.choose(METHODS),
            shape.spaces(bits::SPACES_IN_REQUEST_LINE, random),
            random.choose(TARGETS),
            shape.spaces(bits::SPACES_IN_REQUEST_LINE, random),
            random.choose(VERSIONS),
            line_end,
        ]
        .concat(),
        Call::Response => [
            &empty_lines[..],
            random.choose(VERSIONS),
            shape.spaces(bits::SPACES_IN_STATUS_LINE, random),
            random.choose(CODES),
            random.choose(REASONS),
            line_end,
        ]
        .concat(),
        Call::Headers => Vec::new(),
        Call::ChunkSize => [random.choose(SIZES_IN_HEX), random.choose(EXTENSIONS)].concat(),
    }
}

/// A header line of at least this length.
fn header_line(shape: &Shape, length: usize, random: &mut Random) -> Vec<u8> {
    let mut line = [
        random.choose(NAMES),
        shape.blanks(bits::SPACES_AFTER_HEADER_NAME, random),
        b":",
        random.choose(BLANKS),
        random.choose(VALUES),
        &shape.folds(random),
    ]
    .concat();
    let end = [random.choose(BLANKS), random.choose(shape.line_ends)].concat();
    let missing = length.saturating_sub(line.len() + end.len());
    line.extend((0..missing).map(|_| random.choose(FILLING)));
    line.extend(end);
    line
}

#[cfg(test)]
mod tests {
    use super::*;
    use crate::numbers::Numbers;
    use crate::{theirs, Case};

    fn answer(head: &Head, settings: u32) -> Numbers {
        let case = Case {
            call: head.call,
            slots: head.headers,
            remainder: 0,
            settings,
            input: &head.bytes,
        };
        let mut numbers = Numbers::default();
        numbers.lend(case.room());
        theirs::read(&case, &mut numbers);
        numbers
    }

    #[test]
    fn every_head_is_good() {
        let mut random = Random::new(1);
        for shape in shapes().into_iter().chain(lenient_shapes()) {
            for _ in 0..50 {
                let head = make(&shape, &mut random);
                let numbers = answer(&head, shape.settings);
                assert_eq!(numbers.status, 0, "{shape:?}");
                if head.call != Call::ChunkSize {
                    assert_eq!(numbers.out.numbers()[1], head.headers as u64, "{shape:?}");
                }
            }
        }
    }

    #[test]
    fn the_largest_heads_have_their_length() {
        let mut random = Random::new(1);
        for shape in shapes().iter().filter(|shape| shape.length == LONGEST) {
            let head = make(shape, &mut random);
            assert_eq!(head.bytes.len(), LONGEST, "{shape:?}");
            let end = answer(&head, shape.settings).out.numbers()[0];
            assert_eq!(end, LONGEST as u64, "{shape:?}");
        }
    }

    /// Every setting is made use of: without it, some head is not read as it is with all of them.
    #[test]
    fn every_setting_makes_a_difference() {
        let mut random = Random::new(1);
        for shape in lenient_shapes().iter().filter(|shape| shape.headers == 3) {
            let heads: Vec<Head> = (0..20).map(|_| make(shape, &mut random)).collect();
            for setting in bits::singles(shape.settings) {
                let without = shape.settings & !setting;
                let differs = |head: &Head| answer(head, shape.settings) != answer(head, without);
                assert!(heads.iter().any(differs), "{shape:?}: {setting}");
            }
        }
    }
}
