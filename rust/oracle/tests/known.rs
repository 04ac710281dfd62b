//! Answers worked out by hand from the description of httparse, not by asking it.

use answers::{Answer, Query};

/// Checks that each query has the answer that stands beside it.
fn check(examples: &[(&str, &str)]) {
    for (query, expected) in examples {
        let query: Query = query
            .parse()
            .unwrap_or_else(|what| panic!("{query}: {what}"));
        let expected =
            Answer::read(query.call, expected).unwrap_or_else(|what| panic!("{query}: {what}"));
        let answer = oracle::answer(&query).unwrap();
        assert_eq!(answer, expected, "{query} is answered {answer}");
    }
}

#[test]
fn whole_requests() {
    check(&[
        (
            "request\tdefault\t3\t\"GET / HTTP/1.1\\r\\nHost: a\\r\\nX:\\r\\n\\r\\n\"",
            "complete 31 method=0+3 target=4+1 version=1 headers=[16+4:22+1 25+1:27+0] untouched=1",
        ),
        (
            "request\tdefault\t0\t\"\\r\\n\\nPUT /\\xc3\\xa9 HTTP/1.0\\n\\nbody\"",
            "complete 21 method=3+3 target=7+3 version=0 headers=[] untouched=0",
        ),
    ]);
}

#[test]
fn whole_responses() {
    check(&[
        (
            "response\tdefault\t1\t\"\\r\\nHTTP/1.1 200 OK\\r\\nA:\\tb \\t\\r\\n\\r\\nrest\"",
            "complete 29 version=1 code=200 reason=15+2 headers=[19+1:22+1] untouched=0",
        ),
        (
            "response\tdefault\t2\t\"HTTP/1.1 204\\r\\n\\r\\n\"",
            "complete 16 version=1 code=204 reason=+0 headers=[] untouched=2",
        ),
        (
            "response\tdefault\t0\t\"HTTP/1.0 404 \\xe9\\n\\n\"",
            "complete 16 version=0 code=404 reason=+0 headers=[] untouched=0",
        ),
    ]);
}

#[test]
fn errors_and_the_fields_left_behind() {
    check(&[
        (
            "request\tdefault\t1\t\" / HTTP/1.1\\r\\n\\r\\n\"",
            "error Token at 0 method=- target=- version=- headers=[] untouched=1",
        ),
        (
            "request\tdefault\t1\t\"GET /\\xff \"",
            "error Token at 6 method=0+3 target=- version=- headers=[] untouched=1",
        ),
        (
            "request\tdefault\t1\t\"GET / HTTP/1!\"",
            "error Version at 12 method=0+3 target=4+1 version=- headers=[] untouched=1",
        ),
        (
            "request\tdefault\t1\t\"GET / HTTP/1.1\\r\\r\"",
            "error NewLine at 15 method=0+3 target=4+1 version=1 headers=[] untouched=1",
        ),
        (
            "response\tdefault\t1\t\"HTTP/1.1 20x\"",
            "error Status at 11 version=1 code=- reason=- headers=[] untouched=1",
        ),
        (
            "response\tdefault\t1\t\"HTTP/1.1 200\\rx\"",
            "error Status at 13 version=1 code=200 reason=- headers=[] untouched=1",
        ),
        (
            "response\tdefault\t1\t\"HTTP/1.1\\r\\n\"",
            "error Version at 8 version=1 code=- reason=- headers=[] untouched=1",
        ),
    ]);
}

#[test]
fn errors_and_the_slots_left_behind() {
    check(&[
        (
            "request\tdefault\t3\t\"GET / HTTP/1.1\\nA: b\\nC : d\\n\\n\"",
            "error HeaderName at 21 method=0+3 target=4+1 version=1 headers=[15+1:18+1] untouched=2",
        ),
        (
            "headers\tdefault\t2\t\"A:b\\r\\nC:d\\x00\"",
            "error HeaderValue at 8 headers=[0+1:2+1] untouched=1",
        ),
        (
            "headers\tdefault\t2\t\"A:b\\r\\n\\rC\"",
            "error NewLine at 6 headers=[0+1:2+1] untouched=1",
        ),
        (
            "headers\tdefault\t1\t\"A:b\\nC:d\\n\\n\"",
            "error TooManyHeaders at 4 headers=[0+1:2+1] untouched=0",
        ),
        (
            "headers\tdefault\t2\t\"A:b\\nC:d\\n\\n\"",
            "complete 9 headers=[0+1:2+1 4+1:6+1] untouched=0",
        ),
    ]);
}

/// What stands behind the byte that decided does not matter, nor how long the part is that it spoils.
#[test]
fn errors_and_where_they_lie() {
    check(&[
        (
            "request\tdefault\t1\t\"GET /\\xff\\xff/ HTTP/1.1\\n\\x00\"",
            "error Token at 8 method=0+3 target=- version=- headers=[] untouched=1",
        ),
        (
            "request\tdefault\t1\t\"\\n\\n\\rGET / HTTP/2\"",
            "error NewLine at 3 method=- target=- version=- headers=[] untouched=1",
        ),
        (
            "response\tdefault\t0\t\"HTTP/1.1 200 OK\\nA: b\\n\\x00\"",
            "error TooManyHeaders at 16 version=1 code=200 reason=13+2 headers=[] untouched=0",
        ),
        (
            "headers\tdefault\t2\t\"A:b\\r\\nC:d\\r\\nE:f\\r\\nG:h\\r\\n\\r\\n\"",
            "error TooManyHeaders at 10 headers=[0+1:2+1 5+1:7+1] untouched=0",
        ),
        (
            "headers\tdefault\t0\t\"A: b\\rc\"",
            "error HeaderValue at 5 headers=[] untouched=0",
        ),
        (
            "chunk-size\tdefault\t0\t\"0123456789abcdef0\\r\\n\"",
            "error InvalidChunkSize at 16",
        ),
    ]);
}

/// A header without a slot begins with its name, and a fold is part of its value.
#[test]
fn settings_and_where_errors_lie() {
    check(&[
        (
            "request\tspace-before-first-header-name\t0\t\"GET / HTTP/1.1\\n \\tA:b\\n\\n\"",
            "error TooManyHeaders at 17 method=0+3 target=4+1 version=1 headers=[] untouched=0",
        ),
        (
            "response\tmultiline-headers\t0\t\"HTTP/1.1 200\\nA:b\\n c\\n:\"",
            "error TooManyHeaders at 13 version=1 code=200 reason=+0 headers=[] untouched=0",
        ),
    ]);
}

#[test]
fn incomplete_heads() {
    check(&[
        (
            "request\tdefault\t1\t\"GET /\\xff\"",
            "incomplete method=0+3 target=- version=- headers=[] untouched=1",
        ),
        (
            "response\tdefault\t2\t\"HTTP/1.1 200 OK\\nA:b\\nC\"",
            "incomplete version=1 code=200 reason=13+2 headers=[16+1:18+1] untouched=1",
        ),
        (
            "headers\tdefault\t1\t\"A:b\\nC:d\"",
            "incomplete headers=[0+1:2+1] untouched=0",
        ),
    ]);
}

#[test]
fn chunk_sizes() {
    check(&[
        ("chunk-size\tdefault\t0\t\"0\\r\\n\"", "complete 3 size=0"),
        (
            "chunk-size\tdefault\t0\t\"3086d\\r\\n\"",
            "complete 7 size=198765",
        ),
        (
            "chunk-size\tdefault\t0\t\"3735ab1 ; baz \\r\\n\"",
            "complete 16 size=57891505",
        ),
        (
            "chunk-size\tdefault\t0\t\"ffffffffffffffff\\r\\n\"",
            "complete 18 size=18446744073709551615",
        ),
        ("chunk-size\tdefault\t0\t\"77a65\\r\"", "incomplete"),
        (
            "chunk-size\tdefault\t0\t\"567f8a\\rfoo\"",
            "error InvalidChunkSize at 7",
        ),
    ]);
}

#[test]
fn settings_for_start_lines() {
    check(&[
        (
            "request\tmultiple-spaces-in-request-line\t0\t\"GET  /  HTTP/1.1\\n\\n\"",
            "complete 18 method=0+3 target=5+1 version=1 headers=[] untouched=0",
        ),
        (
            "response\tmultiple-spaces-in-status-line\t0\t\"HTTP/1.1  200  OK\\n\\n\"",
            "complete 19 version=1 code=200 reason=15+2 headers=[] untouched=0",
        ),
    ]);
}

#[test]
fn settings_for_headers() {
    check(&[
        (
            "response\tspaces-after-header-name\t1\t\"HTTP/1.1 200\\nA \\t:b\\n\\n\"",
            "complete 20 version=1 code=200 reason=+0 headers=[13+1:17+1] untouched=0",
        ),
        (
            "response\tmultiline-headers\t1\t\"HTTP/1.1 200 \\nA: b \\r\\n c\\t\\n\\n\"",
            "complete 26 version=1 code=200 reason=+0 headers=[14+1:17+6] untouched=0",
        ),
        (
            "response\tmultiline-headers\t1\t\"HTTP/1.1 200\\nA:b\\n\"",
            "incomplete version=1 code=200 reason=+0 headers=[] untouched=1",
        ),
        (
            "request\tspace-before-first-header-name\t1\t\"GET / HTTP/1.1\\n \\tA:b\\n\\n\"",
            "complete 22 method=0+3 target=4+1 version=1 headers=[17+1:19+1] untouched=0",
        ),
        (
            "request\tignore-invalid-headers-in-requests\t1\t\"GET / HTTP/1.1\\n:x\\nA:b\\n\\n\"",
            "complete 23 method=0+3 target=4+1 version=1 headers=[18+1:20+1] untouched=0",
        ),
        (
            "response\tignore-invalid-headers-in-responses\t1\t\"HTTP/1.1 200\\n:x\\x00\\n\\n\"",
            "error HeaderName at 15 version=1 code=200 reason=+0 headers=[] untouched=1",
        ),
    ]);
}

/// What is passed over takes no slot; a NUL in it, or a CR alone, is the error after all.
#[test]
fn lines_that_are_no_headers() {
    check(&[
        (
            "request\tignore-invalid-headers-in-requests\t2\t\"GET / HTTP/1.1\\nA:b\\n\\x7f: c\\r\\nD \\nE: f\\n\\n\"",
            "complete 34 method=0+3 target=4+1 version=1 headers=[15+1:17+1 28+1:31+1] untouched=0",
        ),
        (
            "response\tignore-invalid-headers-in-responses\t1\t\"HTTP/1.1 200\\nA: b\\x01\\n\\nC:d\"",
            "complete 20 version=1 code=200 reason=+0 headers=[] untouched=1",
        ),
        (
            "request\tignore-invalid-headers-in-requests\t1\t\"GET / HTTP/1.1\\nA: \\x01b\\x00\\n\\n\"",
            "error HeaderValue at 20 method=0+3 target=4+1 version=1 headers=[] untouched=1",
        ),
        (
            "response\tignore-invalid-headers-in-responses\t1\t\"HTTP/1.1 200\\n:\\rA: b\\n\\n\"",
            "error HeaderName at 15 version=1 code=200 reason=+0 headers=[] untouched=1",
        ),
        (
            "response\tignore-invalid-headers-in-responses\t0\t\"HTTP/1.1 200\\n:\\nA:\\n\\n\"",
            "error TooManyHeaders at 15 version=1 code=200 reason=+0 headers=[] untouched=0",
        ),
        (
            "request\tignore-invalid-headers-in-responses\t1\t\"GET / HTTP/1.1\\n:\\n\\n\"",
            "error HeaderName at 15 method=0+3 target=4+1 version=1 headers=[] untouched=1",
        ),
        (
            "response\tmultiline-headers+ignore-invalid-headers-in-responses\t1\t\"HTTP/1.1 200\\nA:b\\n \\x01\\n c\\nD:\\n\\n\"",
            "complete 27 version=1 code=200 reason=+0 headers=[23+1:25+0] untouched=0",
        ),
    ]);
}

/// With blanks allowed before a colon, another byte there is none of them, whatever follows it.
#[test]
fn a_byte_too_many() {
    check(&[
        (
            "response\tspaces-after-header-name\t1\t\"HTTP/1.0 200 \\r\\nA\\x00\"",
            "error HeaderName at 16 version=0 code=200 reason=+0 headers=[] untouched=1",
        ),
        (
            "response\tspaces-after-header-name\t1\t\"HTTP/1.0 200 \\r\\nA \\x00\"",
            "error HeaderName at 17 version=0 code=200 reason=+0 headers=[] untouched=1",
        ),
        (
            "response\tspaces-after-header-name\t1\t\"HTTP/1.0 200 \\r\\nA\\x00:\\r\\n\\r\\n\"",
            "error HeaderName at 16 version=0 code=200 reason=+0 headers=[] untouched=1",
        ),
        (
            "response\tspaces-after-header-name\t1\t\"HTTP/1.0 200 \\r\\nA \\x00:\\r\\n\\r\\n\"",
            "error HeaderName at 17 version=0 code=200 reason=+0 headers=[] untouched=1",
        ),
    ]);
}
