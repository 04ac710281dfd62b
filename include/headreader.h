/*
 * Headreader reads the heads of HTTP/1 messages: requests, responses, headers alone, and chunk size lines.
 * It answers as httparse 1.10.1 does with the same settings, unless HR_ASCII_TARGETS is among them, and is proved: see docs/PROVED.md.
 *
 * Each function reads buf[0] to buf[len - 1] and keeps nothing. It writes all eight numbers of out, and of slots the first
 * out[1] slots, four numbers each: where a header's name is, the name's length, where its value is, the value's length. All other
 * slots are left as they were. Every place that is told lies within buf.
 *
 * out[0] is the position behind what was read if that is complete, and 0 if it is incomplete. On an error it is the position of the
 * byte that decided it, and less than len: on the bytes before it, with as many slots and the same settings, the call answers
 * HR_INCOMPLETE, and with that byte this error, whatever follows. HR_TOO_MANY_HEADERS alone is not decided by one byte: its position is
 * that of the first byte of the header that had no slot, where its name begins. On the bytes up to that one and with it the call answers
 * HR_INCOMPLETE with a header in every slot, and a whole header begins at it. So it is the number returned that tells whether a head is
 * complete, and not out[0].
 *
 * No pointer may be null, not even where its length is 0: the toolchain promises nothing of a null pointer. slots and out are
 * aligned as uint64_t is, and nothing that is written may overlap anything else that is passed.
 */
#ifndef HEADREADER_H
#define HEADREADER_H

#include <stddef.h>
#include <stdint.h>

#ifdef __cplusplus
extern "C" {
#endif

/* What a function returns: complete, incomplete, or an error. */
#define HR_COMPLETE 0u
#define HR_INCOMPLETE 1u
#define HR_HEADER_NAME 2u
#define HR_HEADER_VALUE 3u
#define HR_NEW_LINE 4u
#define HR_STATUS 5u
#define HR_TOKEN 6u
#define HR_TOO_MANY_HEADERS 7u
#define HR_VERSION 8u
#define HR_CHUNK_SIZE 9u

/* The bits of out[2]: what is known of the start line. */
#define HR_KNOWS_METHOD 1u
#define HR_KNOWS_TARGET 2u
#define HR_KNOWS_VERSION 4u
#define HR_KNOWS_CODE 8u
#define HR_KNOWS_REASON 16u

/*
 * The bits of settings; any of them may be combined. With none of them httparse's defaults hold. A bit that is not for what is read, or
 * without a meaning, has no effect, so one number may serve for requests and responses.
 */

/* Responses: spaces and tabs may stand between a header's name and the colon; they are no part of the name. */
#define HR_SPACES_AFTER_HEADER_NAME 1u

/*
 * Responses: a line that begins with a space or a tab goes on with the value of the header before it. The value told is the bytes as they
 * stand, so it may contain CR LF or LF, each with a space or a tab behind it; spaces, tabs, CR and LF around it are no part of it. Who passes
 * it on must put a space in the place of each line end, since to another reader the value would end there. A header is given only when the
 * byte behind its line end is there and goes on with nothing, and HR_TOO_MANY_HEADERS too is decided by that byte.
 */
#define HR_MULTILINE_HEADERS 2u

/* Requests: more than one space may stand behind the method and behind the target. */
#define HR_SPACES_IN_REQUEST_LINE 4u

/* Responses: more than one space may stand behind the version and behind the code; the reason begins behind the last of them. */
#define HR_SPACES_IN_STATUS_LINE 8u

/*
 * Requests and responses: spaces and tabs may stand before the name of the first header; they are no part of the name. As long as no header
 * was given, a line with nothing else in it ends the head, as an empty line does.
 */
#define HR_SPACE_BEFORE_FIRST_HEADER_NAME 16u

/*
 * Responses: where a byte of a line is HR_HEADER_NAME or HR_HEADER_VALUE without the setting, the line is passed over from that byte up to
 * its end, and gives no header; the lines before it and behind it are read as ever. It is that error after all at a NUL on the way, and at a
 * byte behind a CR there that is no LF. Behind a value, too, a CR without LF is the error that it is without the setting. With
 * HR_MULTILINE_HEADERS a wrong byte in a later line of a value loses the whole header, and a line behind it that begins with a space or a
 * tab is a line of its own.
 */
#define HR_IGNORE_INVALID_HEADERS_IN_RESPONSES 32u

/* Requests: the same. */
#define HR_IGNORE_INVALID_HEADERS_IN_REQUESTS 64u

/*
 * Requests: a target has the bytes 0x21 to 0x7E only, and any other in it is HR_TOKEN at once, whatever follows; without the setting bytes
 * from 0x80 on may stand there too, and a target that is no UTF-8 is refused at the space behind it. httparse does not have it.
 */
#define HR_ASCII_TARGETS 128u

/*
 * A request. out: 0 the position behind the head, or of an error; 1 how many headers were given; 2 what is known; 3, 4 the method's
 * offset and length; 5, 6 the target's; 7 the minor version. What is not known is 0. slots_len counts numbers.
 * settings is 0 or some of the bits above.
 */
uint32_t hr_request(const uint8_t *buf, size_t len, uint64_t *slots, size_t slots_len, uint64_t out[8], uint32_t settings);

/*
 * A response. out: 0, 1, 2 as above; 3 the minor version; 4 the code; 5, 6 the reason's offset and length, 0 and 0 where it is
 * empty; 7 is 0. settings as for a request.
 */
uint32_t hr_response(const uint8_t *buf, size_t len, uint64_t *slots, size_t slots_len, uint64_t out[8], uint32_t settings);

/* Headers alone, up to the empty line, read as with no setting. out: 0, 1 as above; the others are 0. */
uint32_t hr_headers(const uint8_t *buf, size_t len, uint64_t *slots, size_t slots_len, uint64_t out[8]);

/* The line before a chunk. out: 0 the position behind it, or of an error; 1 the size; the others are 0. */
uint32_t hr_chunk_size(const uint8_t *buf, size_t len, uint64_t out[8]);

#ifdef __cplusplus
}
#endif

#endif
