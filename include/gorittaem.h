/*
 * gorittaem.h: the proved frame codec and the receiver of a live line, for programs in C99. Link libcapi.a (./archive
 * makes it), for x86-64 Linux.
 *
 * Octets are lent: a pointer and how many of them. What it points to must be readable (an output: writable) for the whole
 * number, and no octet of an output may also be one of an input. Where the number is 0, nothing is read or written, and the
 * pointer may be null. Nothing else is asked of a caller: any octets, any lengths, any room. An output is only written, so
 * it needs no values before. Nothing is kept after a call but in the lent octets, and nothing is allocated, so calls from
 * several threads meet only in octets that are lent to both.
 *
 * An answer is one number:
 *   below GORITTAEM_REFUSED   how many octets now stand at the start of the lent output; its rest is unchanged
 *   any other                 GORITTAEM_REFUSED + the refusal's number (below); no octet of the output has changed
 * No frame and no line comes near GORITTAEM_REFUSED (0x10000).
 *
 * The frame limit N of a link is the most octets of address, control, payload and check: 78 where none was negotiated, and at
 * most 260. The functions that have it in `limit` refuse a number outside 78 to 260 with 6 before they look at anything else;
 * the others work with 78.
 */
#ifndef GORITTAEM_H
#define GORITTAEM_H

#include <stddef.h>
#include <stdint.h>

#ifdef __cplusplus
extern "C" {
#endif

#define GORITTAEM_REFUSED 0x10000u

/* whether an answer is a refusal, and its number */
#define GORITTAEM_IS_REFUSED(answer) ((answer) >= GORITTAEM_REFUSED)
#define GORITTAEM_NUMBER(answer) ((answer) - GORITTAEM_REFUSED)

/* the refusals' numbers; where a frame limit N is given, 2 means more than N, and 9 longer than N - 4 octets */
enum gorittaem_refusal {
    GORITTAEM_TOO_SHORT = 1,        /* decoded octets fewer than 4 */
    GORITTAEM_TOO_LONG = 2,         /* decoded octets more than 78 */
    GORITTAEM_WRONG_CHECK = 3,      /* frame check wrong */
    GORITTAEM_BROKEN = 4,           /* 0x7E inside, or 0x7D as the last octet */
    GORITTAEM_NO_ROOM = 5,          /* the lent output is too short */
    GORITTAEM_NOT_ALLOWED = 6,      /* frame limit outside 78 to 260, or a receiver that holds more than 260 octets */
    GORITTAEM_PAYLOAD_TOO_LONG = 9  /* payload to be written longer than 74 octets */
};

/* the frame limit where none was negotiated, which is the least one, and the largest */
#define GORITTAEM_LIMIT 78
#define GORITTAEM_LIMIT_MOST 260

/* room that is always enough: address, control and payload of a frame; a line with its two flags */
#define GORITTAEM_FRAME_ROOM 76
#define GORITTAEM_LINE_ROOM 158

/* the same for a frame limit of 78 to 260 */
#define GORITTAEM_FRAME_ROOM_N(limit) ((limit) - 2)
#define GORITTAEM_LINE_ROOM_N(limit) (2 * (limit) + 2)

/* the octets of a receiver */
#define GORITTAEM_RECEIVER 267

/* The check of `len` octets: the 16-bit one of ISO/IEC 13239 and RFC 1662. On the line its low octet comes first. */
uint16_t gorittaem_check(const uint8_t *octets, size_t len);

/* Decodes the `len` octets that lie between two flags, without the flags. On success address, control and payload, 2 to
 * 76 octets, stand at the start of `out`. Refuses with 4, 1, 2, 3 or 5; where several hold, with the first in this order. */
size_t gorittaem_decode(const uint8_t *line, size_t len, uint8_t *out, size_t room);

/* Writes flag, frame, flag: address, control, payload and their check, 0x7E and 0x7D escaped. Needs exactly the octets
 * that it writes, at most 158. Refuses with 9, then 5. What lies between the two flags decodes to what was written. */
size_t gorittaem_write(uint8_t address, uint8_t control, const uint8_t *payload, size_t len, uint8_t *out, size_t room);

/* The same two with the frame limit N in `limit`: address, control and payload are 2 to N - 2 octets, a line has at most
 * 2N + 2. Both refuse with 6 first, then as above. What was written with one N decodes with that N and with any
 * larger one up to 260. */
size_t gorittaem_decode_n(size_t limit, const uint8_t *line, size_t len, uint8_t *out, size_t room);
size_t gorittaem_write_n(size_t limit, uint8_t address, uint8_t control, const uint8_t *payload, size_t len, uint8_t *out,
                         size_t room);

/* Takes octets of a live line as they come, in runs of any length. `receiver` points to GORITTAEM_RECEIVER octets, which the
 * call reads and writes: all zeros is a fresh receiver, and after that it is handed in as the last call left it. It is the
 * whole record, so each line has one of its own. Neither `receiver` nor `taken` may be null, and no octet of `receiver`,
 * `octets`, `out` and `*taken` may also be one of another.
 *
 * The call takes octets up to and with the first flag that hands something out, or all of them, and says in `*taken` how
 * many, at least one where there are any: call again with those that are left, until none are. A flag hands something out
 * where it closes a stretch of at least one octet: what gorittaem_decode_n says, with the N of this call, of the octets
 * between the flag before and this one, however they were cut into runs. Octets before the first flag are dropped, and two
 * flags side by side hand out nothing.
 *   0                                 nothing was handed out, and all octets were taken
 *   2 to N - 2                        a frame: so many octets of address, control and payload stand at the start of `out`
 *   GORITTAEM_REFUSED + 4, 1, 2 or 3  the stretch is no frame; where several hold, the first in this order
 *   GORITTAEM_REFUSED + 6 or 5        the call is refused: nothing is taken, and receiver, output and `*taken` are as they were
 * The call is refused with 6 for an N outside 78 to 260 and for a receiver that holds more than 260 octets, which no call
 * makes; then with 5 for less room than N - 2; and for nothing else. Whatever else stands in a receiver, a frame that is
 * handed out has the right check. Where the call is refused `*taken` is not written: look at the answer first, or set it
 * to 0 before. The record's layout: 260 octets of store, the count, low octet first, and five octets that stand for a yes or a
 * no each, no exactly if 0; a call that is not refused writes a yes as 1. */
size_t gorittaem_receive(uint8_t *receiver, size_t limit, const uint8_t *octets, size_t len, uint8_t *out, size_t room,
                         size_t *taken);

#ifdef __cplusplus
}
#endif

#endif
