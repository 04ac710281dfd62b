/* Tests of the C library: each answer by number, and inputs that end right before memory that can't be read. */
#define _DEFAULT_SOURCE
#include <headreader.h>
#include <stdbool.h>
#include <stdio.h>
#include <stdlib.h>
#include <string.h>
#include <sys/mman.h>
#include <unistd.h>

#define SLOTS 3
#define NUMBERS (SLOTS * 4)
#define UNTOUCHED UINT64_C(0xA5A55A5AA5A55A5A)

/* What is known of a start line that was read whole. */
#define REQUEST_LINE (HR_KNOWS_METHOD | HR_KNOWS_TARGET | HR_KNOWS_VERSION)
#define STATUS_LINE (HR_KNOWS_VERSION | HR_KNOWS_CODE | HR_KNOWS_REASON)

enum call { REQUEST, RESPONSE, HEADERS, CHUNK_SIZE };

/* All that a call leaves behind, with a number on either side of what it may write. */
struct answer {
    uint32_t status;
    uint64_t out[1 + 8 + 1];
    uint64_t slots[1 + NUMBERS + 1];
};

/* What is expected: the eight numbers of out, and the slots that are given. */
struct expected {
    enum call call;
    const char *input;
    uint32_t status;
    uint64_t out[8];
    uint64_t slots[NUMBERS];
};

/* The settings that are for responses alone, and for requests alone. */
#define FOR_RESPONSES \
    (HR_SPACES_AFTER_HEADER_NAME | HR_MULTILINE_HEADERS | HR_SPACES_IN_STATUS_LINE | HR_IGNORE_INVALID_HEADERS_IN_RESPONSES)
#define FOR_REQUESTS (HR_SPACES_IN_REQUEST_LINE | HR_IGNORE_INVALID_HEADERS_IN_REQUESTS | HR_ASCII_TARGETS)

/* Those that pass over lines; all others of httparse's; these with ours, which are all but the first; and all. */
#define IGNORING (HR_IGNORE_INVALID_HEADERS_IN_RESPONSES | HR_IGNORE_INVALID_HEADERS_IN_REQUESTS)
#define SPACES_AND_FOLDS ((FOR_RESPONSES | HR_SPACES_IN_REQUEST_LINE | HR_SPACE_BEFORE_FIRST_HEADER_NAME) & ~IGNORING)
#define NOT_IGNORING (SPACES_AND_FOLDS | HR_ASCII_TARGETS)
#define ALL (NOT_IGNORING | IGNORING)

/* All bits without a meaning. */
#define OTHER_BITS (~ALL)

/* Every setting but those that pass over lines, with and without such bits. */
static const uint32_t SETTINGS[] = {
    0,
    OTHER_BITS,
    HR_SPACES_AFTER_HEADER_NAME,
    HR_MULTILINE_HEADERS,
    HR_SPACES_IN_REQUEST_LINE,
    HR_SPACES_IN_STATUS_LINE,
    HR_SPACE_BEFORE_FIRST_HEADER_NAME,
    HR_ASCII_TARGETS,
    HR_ASCII_TARGETS | OTHER_BITS,
    SPACES_AND_FOLDS,
    NOT_IGNORING | OTHER_BITS,
};

#define SETTING_COUNT (sizeof SETTINGS / sizeof SETTINGS[0])

/* Rows that are longer than what is tested at once. */
#define TEN "aaaaaaaaaa"
#define SEVENTY TEN TEN TEN TEN TEN TEN TEN

/* Nothing here is what a setting is about, so every setting leads to the same answers; those that pass over lines, where it is no line. */
static const struct expected CASES[] = {
    {REQUEST, "GET / HTTP/1.1\r\nHost: a\r\nX:\r\n\r\nbody", HR_COMPLETE,
     {31, 2, REQUEST_LINE, 0, 3, 4, 1, 1}, {16, 4, 22, 1, 25, 1, 27, 0}},
    {REQUEST, "GET / HTTP/1.0\nA: b\n", HR_INCOMPLETE, {0, 1, REQUEST_LINE, 0, 3, 4, 1, 0}, {15, 1, 18, 1}},
    {REQUEST, "GET /", HR_INCOMPLETE, {0, 0, HR_KNOWS_METHOD, 0, 3, 0, 0, 0}, {0}},
    {REQUEST, " ", HR_TOKEN, {0}, {0}},
    {REQUEST, "GET / HTTP/2", HR_VERSION, {11, 0, HR_KNOWS_METHOD | HR_KNOWS_TARGET, 0, 3, 4, 1, 0}, {0}},
    {REQUEST, "GET / HTTP/1.1\r\n\rA", HR_NEW_LINE, {17, 0, REQUEST_LINE, 0, 3, 4, 1, 1}, {0}},
    {REQUEST, "GET /\177", HR_TOKEN, {5, 0, HR_KNOWS_METHOD, 0, 3, 0, 0, 0}, {0}},
    {REQUEST, "GE\303\251 /", HR_TOKEN, {2}, {0}},
    {REQUEST, "GET /!~ HTTP/1.1\nA: \303\251\n\n", HR_COMPLETE, {24, 1, REQUEST_LINE, 0, 3, 4, 3, 1}, {17, 1, 20, 2}},
    {RESPONSE, "HTTP/1.1 200 OK\r\nA: b\r\n\r\n", HR_COMPLETE, {25, 1, STATUS_LINE, 1, 200, 13, 2, 0}, {17, 1, 20, 1}},
    {REQUEST, SEVENTY " /" SEVENTY " HTTP/1.1\r\n" SEVENTY ": " SEVENTY "\r\n\r\n", HR_COMPLETE,
     {299, 1, REQUEST_LINE, 0, 70, 71, 71, 1}, {153, 70, 225, 70}},
    {RESPONSE, "HTTP/1.1 200 " SEVENTY "\r\n" SEVENTY ":" SEVENTY "\r\n\r\n", HR_COMPLETE,
     {230, 1, STATUS_LINE, 1, 200, 13, 70, 0}, {85, 70, 156, 70}},
    {RESPONSE, "HTTP/1.0 204\r\n\r\n", HR_COMPLETE, {16, 0, STATUS_LINE, 0, 204, 0, 0, 0}, {0}},
    {RESPONSE, "HTTP/1.1 204", HR_INCOMPLETE, {0, 0, HR_KNOWS_VERSION | HR_KNOWS_CODE, 1, 204, 0, 0, 0}, {0}},
    {RESPONSE, "HTTP/1.1 200 caf\303\251\n\n", HR_COMPLETE, {20, 0, STATUS_LINE, 1, 200, 0, 0, 0}, {0}},
    {RESPONSE, "HTTP/1.1 x", HR_STATUS, {9, 0, HR_KNOWS_VERSION, 1, 0, 0, 0, 0}, {0}},
    {RESPONSE, "HTTP/1.1 200\nA\001: b\n\n", HR_HEADER_NAME, {14, 0, STATUS_LINE, 1, 200, 0, 0, 0}, {0}},
    {HEADERS, "A: b\r\nC: d\r\n\r\n", HR_COMPLETE, {14, 2, 0, 0, 0, 0, 0, 0}, {0, 1, 3, 1, 6, 1, 9, 1}},
    {HEADERS, "A b\n", HR_HEADER_NAME, {1}, {0}},
    {HEADERS, "A: b\nC:\001", HR_HEADER_VALUE, {7, 1, 0, 0, 0, 0, 0, 0}, {0, 1, 3, 1}},
    {HEADERS, "A:b\nC:d\nE:f\nG:h\n\n", HR_TOO_MANY_HEADERS, {12, 3, 0, 0, 0, 0, 0, 0}, {0, 1, 2, 1, 4, 1, 6, 1, 8, 1, 10, 1}},
    {HEADERS, "", HR_INCOMPLETE, {0}, {0}},
    {CHUNK_SIZE, "3086d;x\r\n", HR_COMPLETE, {9, 198765, 0, 0, 0, 0, 0, 0}, {0}},
    {CHUNK_SIZE, "ffffffffffffffff\r\n", HR_COMPLETE, {18, UINT64_MAX, 0, 0, 0, 0, 0, 0}, {0}},
    {CHUNK_SIZE, "a", HR_INCOMPLETE, {0}, {0}},
    {CHUNK_SIZE, "g", HR_CHUNK_SIZE, {0}, {0}},
};

#define CASE_COUNT (sizeof CASES / sizeof CASES[0])

/* Targets with a byte from 0x80 on, as they are read unless they must be ASCII. */
static const struct expected BEYOND_ASCII[] = {
    {REQUEST, "GET /caf\303\251 HTTP/1.1\r\nA: b\r\n\r\n", HR_COMPLETE, {29, 1, REQUEST_LINE, 0, 3, 4, 6, 1}, {21, 1, 24, 1}},
    {REQUEST, "\r\n\nPUT \360\237\230\200 HTTP/1.0\n", HR_INCOMPLETE, {0, 0, REQUEST_LINE, 3, 3, 7, 4, 0}, {0}},
    {REQUEST, "M-SEARCH /" SEVENTY "\303\251 HTTP/1.1\n\n", HR_COMPLETE, {93, 0, REQUEST_LINE, 0, 8, 9, 73, 1}, {0}},
    {REQUEST, "GET /\377 HTTP/1.1\r\n\r\n", HR_TOKEN, {6, 0, HR_KNOWS_METHOD, 0, 3, 0, 0, 0}, {0}},
    {REQUEST, "GET /\303\t", HR_TOKEN, {6, 0, HR_KNOWS_METHOD, 0, 3, 0, 0, 0}, {0}},
    {REQUEST, "POST \200", HR_INCOMPLETE, {0, 0, HR_KNOWS_METHOD, 0, 4, 0, 0, 0}, {0}},
};

#define BEYOND_ASCII_COUNT (sizeof BEYOND_ASCII / sizeof BEYOND_ASCII[0])

/* What a setting is about, as it is read with that setting, and as it is read without it, whatever else is on. */
static const struct {
    uint32_t setting;
    struct expected on, off;
} LENIENCIES[] = {
    {HR_SPACES_AFTER_HEADER_NAME,
     {RESPONSE, "HTTP/1.1 200\nA\t  : b\n\n", HR_COMPLETE, {22, 1, STATUS_LINE, 1, 200, 0, 0, 0}, {13, 1, 19, 1}},
     {RESPONSE, "HTTP/1.1 200\nA\t  : b\n\n", HR_HEADER_NAME, {14, 0, STATUS_LINE, 1, 200, 0, 0, 0}, {0}}},
    {HR_SPACES_AFTER_HEADER_NAME,
     {RESPONSE, "HTTP/1.1 200\nA \001: b\n\n", HR_HEADER_NAME, {15, 0, STATUS_LINE, 1, 200, 0, 0, 0}, {0}},
     {RESPONSE, "HTTP/1.1 200\nA \001: b\n\n", HR_HEADER_NAME, {14, 0, STATUS_LINE, 1, 200, 0, 0, 0}, {0}}},
    {HR_MULTILINE_HEADERS,
     {RESPONSE, "HTTP/1.1 200\nA: b\r\n\tc \n\n", HR_COMPLETE, {24, 1, STATUS_LINE, 1, 200, 0, 0, 0}, {13, 1, 16, 5}},
     {RESPONSE, "HTTP/1.1 200\nA: b\r\n\tc \n\n", HR_HEADER_NAME, {19, 1, STATUS_LINE, 1, 200, 0, 0, 0}, {13, 1, 16, 1}}},
    {HR_MULTILINE_HEADERS,
     {RESPONSE, "HTTP/1.1 200\nA:\n \n\n", HR_COMPLETE, {19, 1, STATUS_LINE, 1, 200, 0, 0, 0}, {13, 1, 17, 0}},
     {RESPONSE, "HTTP/1.1 200\nA:\n \n\n", HR_HEADER_NAME, {16, 1, STATUS_LINE, 1, 200, 0, 0, 0}, {13, 1, 15, 0}}},
    {HR_MULTILINE_HEADERS,
     {RESPONSE, "HTTP/1.1 200\nA: b\n\t\n\n", HR_COMPLETE, {21, 1, STATUS_LINE, 1, 200, 0, 0, 0}, {13, 1, 16, 1}},
     {RESPONSE, "HTTP/1.1 200\nA: b\n\t\n\n", HR_HEADER_NAME, {18, 1, STATUS_LINE, 1, 200, 0, 0, 0}, {13, 1, 16, 1}}},
    {HR_MULTILINE_HEADERS,
     {RESPONSE, "HTTP/1.1 200\nA: b\n", HR_INCOMPLETE, {0, 0, STATUS_LINE, 1, 200, 0, 0, 0}, {0}},
     {RESPONSE, "HTTP/1.1 200\nA: b\n", HR_INCOMPLETE, {0, 1, STATUS_LINE, 1, 200, 0, 0, 0}, {13, 1, 16, 1}}},
    {HR_SPACES_IN_REQUEST_LINE,
     {REQUEST, "GET  /   HTTP/1.1\n\n", HR_COMPLETE, {19, 0, REQUEST_LINE, 0, 3, 5, 1, 1}, {0}},
     {REQUEST, "GET  /   HTTP/1.1\n\n", HR_TOKEN, {4, 0, HR_KNOWS_METHOD, 0, 3, 0, 0, 0}, {0}}},
    {HR_SPACES_IN_REQUEST_LINE,
     {REQUEST, "GET /  HTTP/1.1\n\n", HR_COMPLETE, {17, 0, REQUEST_LINE, 0, 3, 4, 1, 1}, {0}},
     {REQUEST, "GET /  HTTP/1.1\n\n", HR_VERSION, {6, 0, HR_KNOWS_METHOD | HR_KNOWS_TARGET, 0, 3, 4, 1, 0}, {0}}},
    {HR_SPACES_IN_STATUS_LINE,
     {RESPONSE, "HTTP/1.1  200 OK\n\n", HR_COMPLETE, {18, 0, STATUS_LINE, 1, 200, 14, 2, 0}, {0}},
     {RESPONSE, "HTTP/1.1  200 OK\n\n", HR_STATUS, {9, 0, HR_KNOWS_VERSION, 1, 0, 0, 0, 0}, {0}}},
    {HR_SPACES_IN_STATUS_LINE,
     {RESPONSE, "HTTP/1.1 200  \tOK\n\n", HR_COMPLETE, {19, 0, STATUS_LINE, 1, 200, 14, 3, 0}, {0}},
     {RESPONSE, "HTTP/1.1 200  \tOK\n\n", HR_COMPLETE, {19, 0, STATUS_LINE, 1, 200, 13, 4, 0}, {0}}},
    {HR_SPACE_BEFORE_FIRST_HEADER_NAME,
     {REQUEST, "GET / HTTP/1.1\n \tA: b\n\n", HR_COMPLETE, {23, 1, REQUEST_LINE, 0, 3, 4, 1, 1}, {17, 1, 20, 1}},
     {REQUEST, "GET / HTTP/1.1\n \tA: b\n\n", HR_HEADER_NAME, {15, 0, REQUEST_LINE, 0, 3, 4, 1, 1}, {0}}},
    {HR_SPACE_BEFORE_FIRST_HEADER_NAME,
     {REQUEST, "GET / HTTP/1.1\n \n\n", HR_COMPLETE, {17, 0, REQUEST_LINE, 0, 3, 4, 1, 1}, {0}},
     {REQUEST, "GET / HTTP/1.1\n \n\n", HR_HEADER_NAME, {15, 0, REQUEST_LINE, 0, 3, 4, 1, 1}, {0}}},
    {HR_SPACE_BEFORE_FIRST_HEADER_NAME,
     {RESPONSE, "HTTP/1.1 200\n \t\r\nbody", HR_COMPLETE, {17, 0, STATUS_LINE, 1, 200, 0, 0, 0}, {0}},
     {RESPONSE, "HTTP/1.1 200\n \t\r\nbody", HR_HEADER_NAME, {13, 0, STATUS_LINE, 1, 200, 0, 0, 0}, {0}}},
    {HR_IGNORE_INVALID_HEADERS_IN_REQUESTS,
     {REQUEST, "GET / HTTP/1.1\n:\nA: b\n(\r\nC: \001d\n\nbody", HR_COMPLETE, {32, 1, REQUEST_LINE, 0, 3, 4, 1, 1}, {17, 1, 20, 1}},
     {REQUEST, "GET / HTTP/1.1\n:\nA: b\n(\r\nC: \001d\n\nbody", HR_HEADER_NAME, {15, 0, REQUEST_LINE, 0, 3, 4, 1, 1}, {0}}},
    {HR_IGNORE_INVALID_HEADERS_IN_REQUESTS,
     {REQUEST, "GET / HTTP/1.1\nA: b\001\n\n", HR_COMPLETE, {22, 0, REQUEST_LINE, 0, 3, 4, 1, 1}, {0}},
     {REQUEST, "GET / HTTP/1.1\nA: b\001\n\n", HR_HEADER_VALUE, {19, 0, REQUEST_LINE, 0, 3, 4, 1, 1}, {0}}},
    {HR_IGNORE_INVALID_HEADERS_IN_RESPONSES,
     {RESPONSE, "HTTP/1.1 200 OK\r\nA: b\r\n:\r\nC: d\r\n\r\n", HR_COMPLETE, {34, 2, STATUS_LINE, 1, 200, 13, 2, 0},
      {17, 1, 20, 1, 26, 1, 29, 1}},
     {RESPONSE, "HTTP/1.1 200 OK\r\nA: b\r\n:\r\nC: d\r\n\r\n", HR_HEADER_NAME, {23, 1, STATUS_LINE, 1, 200, 13, 2, 0}, {17, 1, 20, 1}}},
    {HR_IGNORE_INVALID_HEADERS_IN_RESPONSES,
     {RESPONSE, "HTTP/1.1 200\nA\001: b\n", HR_INCOMPLETE, {0, 0, STATUS_LINE, 1, 200, 0, 0, 0}, {0}},
     {RESPONSE, "HTTP/1.1 200\nA\001: b\n", HR_HEADER_NAME, {14, 0, STATUS_LINE, 1, 200, 0, 0, 0}, {0}}},
};

#define LENIENCY_COUNT (sizeof LENIENCIES / sizeof LENIENCIES[0])

/* An input that is an error from its last byte on, where that lies, and with how many slots. */
struct error {
    enum call call;
    const char *input;
    uint32_t status;
    size_t position, slots;
};

/* Each of the errors, at several places. No target here is beyond ASCII. */
static const struct error ERRORS[] = {
    {REQUEST, " ", HR_TOKEN, 0, 0},
    {REQUEST, "\r\n\nGE\"", HR_TOKEN, 5, 0},
    {REQUEST, "GET  ", HR_TOKEN, 4, 0},
    {REQUEST, "GET /\r", HR_TOKEN, 5, 0},
    {REQUEST, "GET /" SEVENTY "\177", HR_TOKEN, 75, 0},
    {REQUEST, "GET / HTTX", HR_VERSION, 9, 0},
    {REQUEST, "GET / HTTP/2", HR_VERSION, 11, 0},
    {REQUEST, "GET / HTTP/1.2", HR_VERSION, 13, 0},
    {RESPONSE, "A", HR_VERSION, 0, 0},
    {RESPONSE, "HTTP/1.1\r", HR_VERSION, 8, 0},
    {REQUEST, "\n\r\r", HR_NEW_LINE, 2, 0},
    {REQUEST, "GET / HTTP/1.1 ", HR_NEW_LINE, 14, 0},
    {REQUEST, "GET / HTTP/1.1\rA", HR_NEW_LINE, 15, 0},
    {REQUEST, "GET / HTTP/1.1\r\nA: b\r\n\rC", HR_NEW_LINE, 23, 1},
    {HEADERS, "\rA", HR_NEW_LINE, 1, 0},
    {RESPONSE, "HTTP/1.1  ", HR_STATUS, 9, 0},
    {RESPONSE, "HTTP/1.1 200\t", HR_STATUS, 12, 0},
    {RESPONSE, "HTTP/1.1 200\rA", HR_STATUS, 13, 0},
    {RESPONSE, "HTTP/1.1 200 " SEVENTY "\177", HR_STATUS, 83, 0},
    {RESPONSE, "HTTP/1.1 200 OK\r\r", HR_STATUS, 16, 0},
    {REQUEST, "GET / HTTP/1.1\n:", HR_HEADER_NAME, 15, 0},
    {REQUEST, "GET / HTTP/1.1\nA ", HR_HEADER_NAME, 16, 0},
    {REQUEST, "GET / HTTP/1.1\nA: b\n\t", HR_HEADER_NAME, 20, 1},
    {RESPONSE, "HTTP/1.1 200 OK\r\nA: b\r\n ", HR_HEADER_NAME, 23, 1},
    {HEADERS, "A ", HR_HEADER_NAME, 1, 0},
    {HEADERS, "A: b\nC: d\nE\n", HR_HEADER_NAME, 11, 2},
    {HEADERS, SEVENTY "\r", HR_HEADER_NAME, 70, 0},
    {REQUEST, "GET / HTTP/1.1\nA:\001", HR_HEADER_VALUE, 17, 0},
    {RESPONSE, "HTTP/1.1 200\nA: b\rC", HR_HEADER_VALUE, 18, 0},
    {HEADERS, "A:\rB", HR_HEADER_VALUE, 3, 0},
    {HEADERS, "A: b\nC:" SEVENTY "\177", HR_HEADER_VALUE, 77, 1},
    {CHUNK_SIZE, "g", HR_CHUNK_SIZE, 0, 0},
    {CHUNK_SIZE, "1\n", HR_CHUNK_SIZE, 1, 0},
    {CHUNK_SIZE, "1\rA", HR_CHUNK_SIZE, 2, 0},
    {CHUNK_SIZE, "1 2", HR_CHUNK_SIZE, 2, 0},
    {CHUNK_SIZE, "1;" SEVENTY "\r\r", HR_CHUNK_SIZE, 73, 0},
    {CHUNK_SIZE, "0123456789abcdef0", HR_CHUNK_SIZE, 16, 0},
    {REQUEST, "GET / HTTP/1.1\r\nA: b\r\n", HR_TOO_MANY_HEADERS, 16, 0},
    {REQUEST, "GET / HTTP/1.1\r\nA: b\r\nCC:  d\n", HR_TOO_MANY_HEADERS, 22, 1},
    {REQUEST, "GET / HTTP/1.1\r\nA: b\r\nCC:  d\nE:\r\n", HR_TOO_MANY_HEADERS, 29, 2},
    {RESPONSE, "HTTP/1.1 200\nA:\n", HR_TOO_MANY_HEADERS, 13, 0},
    {RESPONSE, "HTTP/1.1 200\nA:\nB:\n", HR_TOO_MANY_HEADERS, 16, 1},
    {RESPONSE, "HTTP/1.1 200\nA:\nB:\nC:\n", HR_TOO_MANY_HEADERS, 19, 2},
    {HEADERS, SEVENTY ":" SEVENTY "\n", HR_TOO_MANY_HEADERS, 0, 0},
    {HEADERS, "A: \r\nB: " SEVENTY " \t\r\n", HR_TOO_MANY_HEADERS, 5, 1},
    {HEADERS, "A:b\nC:d\nE:f\n", HR_TOO_MANY_HEADERS, 8, 2},
};

#define ERROR_COUNT (sizeof ERRORS / sizeof ERRORS[0])

/* Errors that lie elsewhere with a setting, or that there are only with it. */
static const struct {
    uint32_t setting;
    struct error error;
} LENIENT_ERRORS[] = {
    {HR_SPACES_AFTER_HEADER_NAME, {RESPONSE, "HTTP/1.1 200\nA \t\r", HR_HEADER_NAME, 16, 0}},
    {HR_SPACES_AFTER_HEADER_NAME, {RESPONSE, "HTTP/1.1 200\nA b", HR_HEADER_NAME, 15, 0}},
    {HR_SPACES_AFTER_HEADER_NAME, {RESPONSE, "HTTP/1.1 200\n:", HR_HEADER_NAME, 13, 0}},
    {HR_MULTILINE_HEADERS, {RESPONSE, "HTTP/1.1 200\nA: b\n \001", HR_HEADER_VALUE, 19, 0}},
    {HR_MULTILINE_HEADERS, {RESPONSE, "HTTP/1.1 200\nA: b\n c\rd", HR_HEADER_VALUE, 21, 0}},
    {HR_MULTILINE_HEADERS, {RESPONSE, "HTTP/1.1 200\nA: b\n c\n:", HR_HEADER_NAME, 21, 1}},
    {HR_MULTILINE_HEADERS, {RESPONSE, "HTTP/1.1 200\nA: b\nC", HR_TOO_MANY_HEADERS, 13, 0}},
    {HR_MULTILINE_HEADERS, {RESPONSE, "HTTP/1.1 200\nA: b\n\tc\r\n\r", HR_TOO_MANY_HEADERS, 13, 0}},
    {HR_MULTILINE_HEADERS, {RESPONSE, "HTTP/1.1 200\nA:\n \nCC:\n\td\n:", HR_TOO_MANY_HEADERS, 18, 1}},
    {HR_SPACES_IN_REQUEST_LINE, {REQUEST, "GET  \t", HR_TOKEN, 5, 0}},
    {HR_SPACES_IN_REQUEST_LINE, {REQUEST, "GET  /  \t", HR_VERSION, 8, 0}},
    {HR_SPACES_IN_STATUS_LINE, {RESPONSE, "HTTP/1.1  \t", HR_STATUS, 10, 0}},
    {HR_SPACES_IN_STATUS_LINE, {RESPONSE, "HTTP/1.1 200  \r\r", HR_STATUS, 15, 0}},
    {HR_SPACE_BEFORE_FIRST_HEADER_NAME, {REQUEST, "GET / HTTP/1.1\n \t:", HR_HEADER_NAME, 17, 0}},
    {HR_SPACE_BEFORE_FIRST_HEADER_NAME, {REQUEST, "GET / HTTP/1.1\n A:\n ", HR_HEADER_NAME, 19, 1}},
    {HR_SPACE_BEFORE_FIRST_HEADER_NAME, {RESPONSE, "HTTP/1.1 200\n \rA", HR_NEW_LINE, 15, 0}},
    {HR_SPACE_BEFORE_FIRST_HEADER_NAME, {RESPONSE, "HTTP/1.1 200\n \tA:\n", HR_TOO_MANY_HEADERS, 15, 0}},
    {IGNORING, {REQUEST, "GET / HTTP/1.1\n:\rA", HR_HEADER_NAME, 17, 0}},
    {IGNORING, {REQUEST, "GET / HTTP/1.1\nA:\001\rB", HR_HEADER_VALUE, 19, 0}},
    {IGNORING, {REQUEST, "GET / HTTP/1.1\nA: b\rC", HR_HEADER_VALUE, 20, 0}},
    {IGNORING, {REQUEST, "GET / HTTP/1.1\n:\nA:\n", HR_TOO_MANY_HEADERS, 17, 0}},
    {IGNORING, {RESPONSE, "HTTP/1.1 200\nA \r\r", HR_HEADER_NAME, 16, 0}},
    {IGNORING, {RESPONSE, "HTTP/1.1 200\n:\n\rA", HR_NEW_LINE, 16, 0}},
    {IGNORING, {RESPONSE, "HTTP/1.1 200\nA:\n:\nB:\n", HR_TOO_MANY_HEADERS, 18, 1}},
    {IGNORING | HR_SPACE_BEFORE_FIRST_HEADER_NAME, {RESPONSE, "HTTP/1.1 200\n:\n \tA:\n", HR_TOO_MANY_HEADERS, 17, 0}},
    {IGNORING | HR_MULTILINE_HEADERS, {RESPONSE, "HTTP/1.1 200\nA:\n \001\rB", HR_HEADER_VALUE, 19, 0}},
    {IGNORING | HR_MULTILINE_HEADERS, {RESPONSE, "HTTP/1.1 200\nA:\n \001\n b\rC", HR_HEADER_NAME, 22, 0}},
};

#define LENIENT_ERROR_COUNT (sizeof LENIENT_ERRORS / sizeof LENIENT_ERRORS[0])

/* A target that is no UTF-8 is refused at the space behind it, and at its first byte beyond ASCII where it must be ASCII. */
static const struct {
    struct error usual, ascii;
} NO_UTF8[] = {
    {{REQUEST, "GET /\377/a ", HR_TOKEN, 8, 0}, {REQUEST, "GET /\377", HR_TOKEN, 5, 0}},
    {{REQUEST, "GET /caf\303 ", HR_TOKEN, 9, 0}, {REQUEST, "GET /caf\303", HR_TOKEN, 8, 0}},
    {{REQUEST, "PUT \200 ", HR_TOKEN, 5, 0}, {REQUEST, "PUT \200", HR_TOKEN, 4, 0}},
};

#define NO_UTF8_COUNT (sizeof NO_UTF8 / sizeof NO_UTF8[0])

/* What stands behind an error has no say in it. */
static const char *const BEHIND[] = {"", "a", "\r\n\r\n", "\001", " HTTP/1.1\r\nA: b\r\n\r\n"};

#define BEHIND_COUNT (sizeof BEHIND / sizeof BEHIND[0])

static int passed, failed;

static void count_input(bool good, const char *what, const char *input) {
    if (good) {
        passed++;
        return;
    }
    failed++;
    printf("wrong: %s, on \"%s\"\n", what, input);
}

static void count(bool good, const char *what, const struct expected *expected) { count_input(good, what, expected->input); }

static struct answer ask_with(enum call call, const uint8_t *buf, size_t len, size_t room, uint32_t settings) {
    struct answer answer;
    for (size_t i = 0; i < sizeof answer.out / sizeof answer.out[0]; i++)
        answer.out[i] = UNTOUCHED;
    for (size_t i = 0; i < sizeof answer.slots / sizeof answer.slots[0]; i++)
        answer.slots[i] = UNTOUCHED;
    uint64_t *out = answer.out + 1;
    uint64_t *slots = answer.slots + 1;
    switch (call) {
    case REQUEST:
        answer.status = hr_request(buf, len, slots, room, out, settings);
        break;
    case RESPONSE:
        answer.status = hr_response(buf, len, slots, room, out, settings);
        break;
    case HEADERS:
        answer.status = hr_headers(buf, len, slots, room, out);
        break;
    default:
        answer.status = hr_chunk_size(buf, len, out);
    }
    return answer;
}

static struct answer ask(enum call call, const uint8_t *buf, size_t len, uint32_t settings) {
    return ask_with(call, buf, len, NUMBERS, settings);
}

/* Whether the numbers are those, with all that must be untouched as it was. */
static bool is(const struct answer *answer, const struct expected *expected) {
    size_t given = expected->call == CHUNK_SIZE ? 0 : (size_t)expected->out[1] * 4;
    for (size_t i = 0; i < NUMBERS; i++) {
        uint64_t right = i < given ? expected->slots[i] : UNTOUCHED;
        if (answer->slots[1 + i] != right)
            return false;
    }
    return answer->status == expected->status && memcmp(answer->out + 1, expected->out, sizeof expected->out) == 0 &&
           answer->out[0] == UNTOUCHED && answer->out[9] == UNTOUCHED && answer->slots[0] == UNTOUCHED &&
           answer->slots[1 + NUMBERS] == UNTOUCHED;
}

/* A number of out, behind the one that stands before them. */
static uint64_t told(const struct answer *answer, size_t number) { return answer->out[1 + number]; }

static bool same(const struct answer *one, const struct answer *other) {
    return one->status == other->status && memcmp(one->out, other->out, sizeof one->out) == 0 &&
           memcmp(one->slots, other->slots, sizeof one->slots) == 0;
}

/* In memory of exactly its length, which AddressSanitizer watches. */
static void test_allocated(const struct expected *expected, uint32_t settings) {
    size_t len = strlen(expected->input);
    uint8_t *buf = malloc(len ? len : 1);
    if (!buf)
        abort();
    memcpy(buf, expected->input, len);
    struct answer answer = ask(expected->call, buf, len, settings);
    count(is(&answer, expected), "an allocated input", expected);
    free(buf);
}

/* Every start of the input, right before a page that can't be read: the library itself is not instrumented. */
static void test_before_a_wall(const struct expected *expected, uint32_t settings, uint8_t *wall) {
    size_t len = strlen(expected->input);
    for (size_t part = 0; part <= len; part++) {
        uint8_t *buf = wall - part;
        memcpy(buf, expected->input, part);
        struct answer answer = ask(expected->call, buf, part, settings);
        struct answer again = ask(expected->call, (const uint8_t *)expected->input, part, settings);
        count(same(&answer, &again), "an input before a wall", expected);
    }
}

static bool in_method(unsigned byte) {
    return byte == ' ' || (byte > ' ' && byte < 0x7F && !strchr("\"(),/:;<=>?@[\\]{}", (int)byte));
}

static bool in_visible_target(unsigned byte) { return ' ' <= byte && byte <= 0x7E; }

static bool in_target(unsigned byte) { return in_visible_target(byte) || byte >= 0x80; }

static bool in_ignored(unsigned byte) { return byte != 0; }

static bool in_text(unsigned byte) { return in_target(byte) || byte == '\t' || byte == '\r' || byte == '\n'; }

/* What a row stands behind, the error of a byte that may neither stand in it nor end it, and those that may. */
static const struct {
    struct expected wrong;
    uint32_t settings;
    bool (*goes_on)(unsigned byte);
} ROWS[] = {
    {{REQUEST, "", HR_TOKEN, {0}, {0}}, 0, in_method},
    {{REQUEST, "A ", HR_TOKEN, {0}, {0}}, 0, in_target},
    {{REQUEST, "A ", HR_TOKEN, {0}, {0}}, HR_ASCII_TARGETS, in_visible_target},
    {{HEADERS, "A:", HR_HEADER_VALUE, {0}, {0}}, 0, in_text},
    {{RESPONSE, "HTTP/1.1 200 ", HR_STATUS, {0}, {0}}, 0, in_text},
    {{REQUEST, "GET / HTTP/1.1\n:", HR_HEADER_NAME, {0}, {0}}, IGNORING, in_ignored},
    {{REQUEST, "GET / HTTP/1.1\nA", HR_HEADER_NAME, {0}, {0}}, IGNORING, in_ignored},
    {{RESPONSE, "HTTP/1.1 200\nA: ", HR_HEADER_VALUE, {0}, {0}}, IGNORING, in_ignored},
};

#define ROW_COUNT (sizeof ROWS / sizeof ROWS[0])

/* Eight bytes are tested at once: each byte as the last of a row of every length, at every alignment, right before the page. */
static void test_rows_before_a_wall(size_t row, uint8_t *wall) {
    const struct expected *wrong = &ROWS[row].wrong;
    size_t start = strlen(wrong->input);
    for (size_t length = 1; length <= 65; length++) {
        uint8_t *buf = wall - (start + length + 1);
        memcpy(buf, wrong->input, start);
        memset(buf + start, 'a', length);
        bool good = true;
        for (unsigned byte = 0; byte < 256; byte++) {
            wall[-1] = (uint8_t)byte;
            struct answer answer = ask(wrong->call, buf, start + length + 1, ROWS[row].settings);
            bool goes_on = ROWS[row].goes_on(byte);
            good = good && answer.status == (goes_on ? HR_INCOMPLETE : wrong->status);
            good = good && told(&answer, 0) == (goes_on ? 0 : start + length);
        }
        count(good, "a row before a wall", wrong);
    }
}

/* Every start of the input, and more behind it: incomplete until the input is whole, then the error, always at the same position. */
static void test_position(const struct error *error, const char *behind, uint32_t settings) {
    char input[256];
    size_t len = (size_t)snprintf(input, sizeof input, "%s%s", error->input, behind);
    bool good = len < sizeof input;
    for (size_t part = 0; good && part <= len; part++) {
        bool decided = part >= strlen(error->input);
        struct answer answer = ask_with(error->call, (const uint8_t *)input, part, error->slots * 4, settings);
        good = answer.status == (decided ? error->status : HR_INCOMPLETE) && told(&answer, 0) == (decided ? error->position : 0);
    }
    count_input(good, "the position of an error", error->input);
}

/* The bytes up to a header without a slot and its first byte have filled the slots, and one slot more holds that header. */
static void test_slots_before(const struct error *error, uint32_t settings) {
    const uint8_t *buf = (const uint8_t *)error->input;
    struct answer begun = ask_with(error->call, buf, error->position + 1, error->slots * 4, settings);
    struct answer roomier = ask_with(error->call, buf, strlen(error->input), (error->slots + 1) * 4, settings);
    bool good = begun.status == HR_INCOMPLETE && told(&begun, 1) == error->slots && told(&roomier, 1) == error->slots + 1 &&
                roomier.slots[1 + error->slots * 4] == error->position;
    count_input(good, "the slots before an error", error->input);
}

static void test_error(const struct error *error, uint32_t settings) {
    for (size_t i = 0; i < BEHIND_COUNT; i++)
        test_position(error, BEHIND[i], settings);
    if (error->status == HR_TOO_MANY_HEADERS)
        test_slots_before(error, settings);
}

/* The settings that are not for a call. */
static uint32_t without_effect(enum call call) {
    return call == REQUEST ? FOR_RESPONSES : call == RESPONSE ? FOR_REQUESTS : ALL;
}

static void test_errors(uint32_t settings) {
    for (size_t i = 0; i < ERROR_COUNT; i++) {
        test_error(&ERRORS[i], settings);
        test_error(&ERRORS[i], settings | without_effect(ERRORS[i].call));
    }
    for (size_t i = 0; i < NO_UTF8_COUNT; i++)
        test_error(settings & HR_ASCII_TARGETS ? &NO_UTF8[i].ascii : &NO_UTF8[i].usual, settings);
}

/* One header has room in seven numbers, and none in three: the second is one too many, and what is left over stays as it was. */
static void test_few_slots(void) {
    static const struct expected TWO = {HEADERS, "A:b\nC:d\n\n", HR_TOO_MANY_HEADERS, {0}, {0, 1, 2, 1}};
    for (size_t room = 0; room < 8; room++) {
        uint64_t slots[8], out[8];
        for (size_t i = 0; i < 8; i++)
            slots[i] = UNTOUCHED;
        uint32_t status = hr_headers((const uint8_t *)TWO.input, strlen(TWO.input), slots, room, out);
        bool good = status == TWO.status && out[0] == (room < 4 ? 0 : 4) && out[1] == room / 4;
        for (size_t i = 0; i < 8; i++)
            good = good && slots[i] == (i < room / 4 * 4 ? TWO.slots[i] : UNTOUCHED);
        count(good, "few slots", &TWO);
    }
}

static size_t first_beyond_ascii(const char *input) {
    size_t at = 0;
    while ((uint8_t)input[at] < 0x80)
        at++;
    return at;
}

/* Up to the byte that is not ASCII nothing changes; from there on the target is refused, whatever follows. */
static void test_refused_at_once(const struct expected *beyond) {
    const uint8_t *buf = (const uint8_t *)beyond->input;
    size_t first = first_beyond_ascii(beyond->input);
    struct expected refused = {
        REQUEST, beyond->input, HR_TOKEN, {first, 0, HR_KNOWS_METHOD, beyond->out[3], beyond->out[4], 0, 0, 0}, {0}};
    for (size_t part = 0; part <= strlen(beyond->input); part++) {
        struct answer off = ask(REQUEST, buf, part, OTHER_BITS);
        struct answer on = ask(REQUEST, buf, part, HR_ASCII_TARGETS | OTHER_BITS);
        count(part <= first ? same(&on, &off) : is(&on, &refused), "a target that must be ASCII", beyond);
    }
}

/* Each byte alone as the last of a target: a space ends it, and those that may stand in it leave it open. */
static void test_each_byte_of_a_target(void) {
    static const struct expected OPEN = {REQUEST, "GET /", HR_INCOMPLETE, {0, 0, HR_KNOWS_METHOD, 0, 3, 0, 0, 0}, {0}};
    static const struct expected WRONG = {REQUEST, "GET /", HR_TOKEN, {5, 0, HR_KNOWS_METHOD, 0, 3, 0, 0, 0}, {0}};
    static const struct expected ENDED = {
        REQUEST, "GET / ", HR_INCOMPLETE, {0, 0, HR_KNOWS_METHOD | HR_KNOWS_TARGET, 0, 3, 4, 1, 0}, {0}};
    for (unsigned byte = 0; byte < 256; byte++) {
        uint8_t input[] = {'G', 'E', 'T', ' ', '/', (uint8_t)byte};
        bool visible = 0x21 <= byte && byte <= 0x7E;
        const struct expected *right = byte == ' ' ? &ENDED : visible ? &OPEN : &WRONG;
        struct answer on = ask(REQUEST, input, sizeof input, HR_ASCII_TARGETS);
        count(is(&on, right), "a byte of a target that must be ASCII", right);
        const struct expected *usual = byte >= 0x80 ? &OPEN : right;
        struct answer off = ask(REQUEST, input, sizeof input, 0);
        count(is(&off, usual), "a byte of a target", usual);
    }
}

static void test_with_settings(const struct expected *expected, uint32_t settings, uint8_t *wall) {
    test_allocated(expected, settings);
    test_before_a_wall(expected, settings, wall);
}

/* Lines are passed over only where they are an error. */
static void test_case(const struct expected *expected, uint32_t settings, uint8_t *wall) {
    test_with_settings(expected, settings, wall);
    if (expected->status != HR_HEADER_NAME && expected->status != HR_HEADER_VALUE)
        test_with_settings(expected, settings | IGNORING, wall);
}

/* A setting alone, with all but those that pass over lines, and these without it. */
static void test_leniency(size_t i, uint8_t *wall) {
    uint32_t setting = LENIENCIES[i].setting;
    test_with_settings(&LENIENCIES[i].on, setting, wall);
    test_with_settings(&LENIENCIES[i].on, NOT_IGNORING | OTHER_BITS | setting, wall);
    test_with_settings(&LENIENCIES[i].off, 0, wall);
    test_with_settings(&LENIENCIES[i].off, (NOT_IGNORING | OTHER_BITS) & ~setting, wall);
}

int main(void) {
    size_t page = (size_t)sysconf(_SC_PAGESIZE);
    uint8_t *pages = mmap(NULL, 2 * page, PROT_READ | PROT_WRITE, MAP_PRIVATE | MAP_ANONYMOUS, -1, 0);
    if (pages == MAP_FAILED || mprotect(pages + page, page, PROT_NONE) != 0)
        abort();
    for (size_t i = 0; i < CASE_COUNT * SETTING_COUNT; i++)
        test_case(&CASES[i / SETTING_COUNT], SETTINGS[i % SETTING_COUNT], pages + page);
    for (size_t i = 0; i < BEYOND_ASCII_COUNT; i++) {
        test_with_settings(&BEYOND_ASCII[i], 0, pages + page);
        test_with_settings(&BEYOND_ASCII[i], OTHER_BITS, pages + page);
        test_before_a_wall(&BEYOND_ASCII[i], HR_ASCII_TARGETS, pages + page);
        test_refused_at_once(&BEYOND_ASCII[i]);
    }
    for (size_t i = 0; i < ROW_COUNT; i++)
        test_rows_before_a_wall(i, pages + page);
    test_errors(0);
    test_errors(OTHER_BITS);
    test_errors(HR_ASCII_TARGETS);
    for (size_t i = 0; i < LENIENCY_COUNT; i++)
        test_leniency(i, pages + page);
    for (size_t i = 0; i < LENIENT_ERROR_COUNT; i++) {
        test_error(&LENIENT_ERRORS[i].error, LENIENT_ERRORS[i].setting);
        test_error(&LENIENT_ERRORS[i].error, LENIENT_ERRORS[i].setting | HR_ASCII_TARGETS | OTHER_BITS);
    }
    test_each_byte_of_a_target();
    test_few_slots();
    printf("%d passed, %d failed\n", passed, failed);
    return failed != 0;
}
