/* The codec in C: a pass for the escapes and one for the check, by a table of 256 and by one of 16; the same in one pass; with
 * the frame limit as a parameter; and the loops that ours has. The receiver, an octet a turn and with the loop that ours has.
 * Assumes that baseline_tables has been called. */
#include "baseline.h"
#include <stdbool.h>
#include <string.h>

enum { FLAG = 0x7E, ESCAPE = 0x7D, LIMIT = 78, LIMIT_MOST = 260, REFUSED = 0x10000, RESIDUE = 0xF0B8 };

typedef uint16_t checker(const uint8_t *, size_t);

#define INLINED static inline __attribute__((always_inline)) /* so that each table gets a loop of its own */

static uint16_t table[8][256], halves[16];

void baseline_tables(void)
{
    for (unsigned i = 0; i < 256; i++) {
        uint16_t r = i;
        for (int bit = 0; bit < 8; bit++) {
            r = r & 1 ? r >> 1 ^ 0x8408 : r >> 1;
            if (bit == 3 && i < 16)
                halves[i] = r;
        }
        table[0][i] = r;
    }
    for (unsigned k = 1; k < 8; k++)
        for (unsigned i = 0; i < 256; i++)
            table[k][i] = table[k - 1][i] >> 8 ^ table[0][table[k - 1][i] & 0xFF];
}

static uint16_t step(uint16_t r, uint8_t octet)
{
    return r >> 8 ^ table[0][(r ^ octet) & 0xFF];
}

uint16_t baseline_check(const uint8_t *s, size_t len)
{
    uint16_t r = 0xFFFF;
    for (size_t i = 0; i < len; i++)
        r = step(r, s[i]);
    return r ^ 0xFFFF;
}

static uint16_t by_halves(uint16_t r)
{
    r = r >> 4 ^ halves[r & 0xF];
    return r >> 4 ^ halves[r & 0xF];
}

uint16_t baseline_check16(const uint8_t *s, size_t len)
{
    uint16_t r = 0xFFFF;
    for (size_t i = 0; i < len; i++)
        r = by_halves(r ^ s[i]);
    return r ^ 0xFFFF;
}

uint16_t baseline_check8(const uint8_t *s, size_t len)
{
    uint16_t r = 0xFFFF;
    for (; len >= 8; s += 8, len -= 8)
        r = table[7][(r ^ s[0]) & 0xFF] ^ table[6][(r >> 8 ^ s[1]) & 0xFF] ^ table[5][s[2]] ^ table[4][s[3]]
            ^ table[3][s[4]] ^ table[2][s[5]] ^ table[1][s[6]] ^ table[0][s[7]];
    for (; len; s++, len--)
        r = step(r, *s);
    return r ^ 0xFFFF;
}

static size_t handed(const uint8_t *b, size_t n, uint8_t *out, size_t room)
{
    if (room < n)
        return REFUSED + 5;
    memcpy(out, b, n);
    return n;
}

static inline size_t delivered(checker *check, size_t limit, const uint8_t *d, size_t n, uint8_t *out, size_t room)
{
    if (n < 4)
        return REFUSED + 1;
    if (n > limit)
        return REFUSED + 2;
    if (check(d, n - 2) != (d[n - 2] | d[n - 1] << 8))
        return REFUSED + 3;
    return handed(d, n - 2, out, room);
}

static inline void assemble(checker *check, uint8_t address, uint8_t control, const uint8_t *payload, size_t len, uint8_t *d)
{
    d[0] = address;
    d[1] = control;
    memcpy(d + 2, payload, len);
    uint16_t sum = check(d, len + 2);
    d[len + 2] = sum & 0xFF;
    d[len + 3] = sum >> 8;
}

/* d has room for as many octets as the limit says */
INLINED size_t decode(checker *check, size_t limit, uint8_t *d, const uint8_t *src, size_t len, uint8_t *out, size_t room)
{
    size_t n = 0;
    if (len && src[len - 1] == ESCAPE)
        return REFUSED + 4;
    for (size_t i = 0; i < len; i++) {
        uint8_t b = src[i];
        if (b == FLAG)
            return REFUSED + 4;
        if (b == ESCAPE) {
            b = src[++i];
            if (b == FLAG)
                return REFUSED + 4;
            b ^= 0x20;
        }
        if (n < limit)
            d[n] = b;
        n++;
    }
    return delivered(check, limit, d, n, out, room);
}

size_t baseline_decode(const uint8_t *src, size_t len, uint8_t *out, size_t room)
{
    uint8_t d[LIMIT];
    return decode(baseline_check, LIMIT, d, src, len, out, room);
}

size_t baseline_decode16(const uint8_t *src, size_t len, uint8_t *out, size_t room)
{
    uint8_t d[LIMIT];
    return decode(baseline_check16, LIMIT, d, src, len, out, room);
}

size_t baseline_decode_n(size_t limit, const uint8_t *src, size_t len, uint8_t *out, size_t room)
{
    uint8_t d[LIMIT_MOST];
    if (limit < LIMIT || limit > LIMIT_MOST)
        return REFUSED + 6;
    return decode(baseline_check, limit, d, src, len, out, room);
}

INLINED size_t write(checker *check, size_t limit, uint8_t address, uint8_t control, const uint8_t *payload, size_t len,
                     uint8_t *out, size_t room)
{
    uint8_t d[LIMIT_MOST], line[2 * LIMIT_MOST + 2];
    size_t n = 0;
    if (len > limit - 4)
        return REFUSED + 9;
    assemble(check, address, control, payload, len, d);
    line[n++] = FLAG;
    for (size_t i = 0; i < len + 4; i++) {
        if (d[i] == FLAG || d[i] == ESCAPE) {
            line[n++] = ESCAPE;
            line[n++] = d[i] ^ 0x20;
        } else {
            line[n++] = d[i];
        }
    }
    line[n++] = FLAG;
    return handed(line, n, out, room);
}

size_t baseline_write(uint8_t address, uint8_t control, const uint8_t *payload, size_t len, uint8_t *out, size_t room)
{
    return write(baseline_check, LIMIT, address, control, payload, len, out, room);
}

size_t baseline_write16(uint8_t address, uint8_t control, const uint8_t *payload, size_t len, uint8_t *out, size_t room)
{
    return write(baseline_check16, LIMIT, address, control, payload, len, out, room);
}

size_t baseline_write_n(size_t limit, uint8_t address, uint8_t control, const uint8_t *payload, size_t len, uint8_t *out,
                        size_t room)
{
    if (limit < LIMIT || limit > LIMIT_MOST)
        return REFUSED + 6;
    return write(baseline_check, limit, address, control, payload, len, out, room);
}

size_t baseline_decode1(const uint8_t *src, size_t len, uint8_t *out, size_t room)
{
    uint8_t d[LIMIT];
    uint16_t r = 0xFFFF;
    size_t n = 0;
    if (len && src[len - 1] == ESCAPE)
        return REFUSED + 4;
    for (size_t i = 0; i < len; i++) {
        uint8_t b = src[i];
        if (b == FLAG)
            return REFUSED + 4;
        if (b == ESCAPE) {
            b = src[++i];
            if (b == FLAG)
                return REFUSED + 4;
            b ^= 0x20;
        }
        if (n < LIMIT)
            d[n] = b;
        n++;
        r = step(r, b);
    }
    if (n < 4)
        return REFUSED + 1;
    if (n > LIMIT)
        return REFUSED + 2;
    if (r != RESIDUE)
        return REFUSED + 3;
    return handed(d, n - 2, out, room);
}

static size_t put(uint8_t *line, size_t n, uint8_t b)
{
    if (b == FLAG || b == ESCAPE) {
        line[n++] = ESCAPE;
        b ^= 0x20;
    }
    line[n++] = b;
    return n;
}

size_t baseline_write1(uint8_t address, uint8_t control, const uint8_t *payload, size_t len, uint8_t *out, size_t room)
{
    uint8_t line[2 * LIMIT + 2];
    size_t n = 0;
    if (len > LIMIT - 4)
        return REFUSED + 9;
    line[n++] = FLAG;
    n = put(line, n, address);
    n = put(line, n, control);
    uint16_t r = step(step(0xFFFF, address), control);
    for (size_t i = 0; i < len; i++) {
        n = put(line, n, payload[i]);
        r = step(r, payload[i]);
    }
    r ^= 0xFFFF;
    n = put(line, n, r & 0xFF);
    n = put(line, n, r >> 8);
    line[n++] = FLAG;
    return handed(line, n, out, room);
}

/* two octets at once: the second comes down with the register */
static uint16_t two_on(uint16_t r, const uint8_t *s)
{
    r ^= s[0] | s[1] << 8;
    r = r >> 8 ^ table[0][r & 0xFF];
    return r >> 8 ^ table[0][r & 0xFF];
}

uint16_t baseline_check_as(const uint8_t *s, size_t len)
{
    uint16_t r = 0xFFFF;
    size_t whole = len / 8 * 8, i;
    for (i = 0; i < whole; i += 8)
        r = two_on(two_on(two_on(two_on(r, s + i), s + i + 2), s + i + 4), s + i + 6);
    for (; i + 1 < len; i += 2)
        r = two_on(r, s + i);
    if (i < len)
        r = step(r, s[i]);
    return r ^ 0xFFFF;
}

uint16_t baseline_check16_as(const uint8_t *s, size_t len)
{
    uint16_t r = 0xFFFF;
    size_t pairs = len / 2 * 2, i;
    for (i = 0; i < pairs; i += 2)
        r = by_halves(by_halves(r ^ (s[i] | s[i + 1] << 8)));
    if (i < len)
        r = by_halves(r ^ s[i]);
    return r ^ 0xFFFF;
}

static bool is_broken(const uint8_t *s, size_t len)
{
    bool found = false;
    for (size_t i = 0; i < len; i++)
        if (s[i] == FLAG)
            found = true;
    return found || (len && s[len - 1] == ESCAPE);
}

size_t baseline_decode_as(const uint8_t *src, size_t len, uint8_t *out, size_t room)
{
    uint8_t d[2 * LIMIT + 2];
    size_t n = 0;
    if (is_broken(src, len))
        return REFUSED + 4;
    if (len > sizeof d)
        return REFUSED + 2;
    for (size_t i = 0; i < len; i++)
        d[n++] = src[i] == ESCAPE ? src[++i] ^ 0x20 : src[i];
    return delivered(baseline_check_as, LIMIT, d, n, out, room);
}

/* whether room is too little for the line of n octets: their escapes are counted only where the longest line has none */
static bool is_short(const uint8_t *d, size_t n, size_t room)
{
    size_t line = n + 2;
    if (2 * n + 2 <= room)
        return false;
    for (size_t i = 0; i < n; i++)
        if ((d[i] == FLAG || d[i] == ESCAPE) && room < ++line)
            return true;
    return room < line;
}

size_t baseline_write_as(uint8_t address, uint8_t control, const uint8_t *payload, size_t len, uint8_t *out, size_t room)
{
    uint8_t d[LIMIT];
    size_t n = 0, i;
    if (len > LIMIT - 4)
        return REFUSED + 9;
    assemble(baseline_check_as, address, control, payload, len, d);
    if (is_short(d, len + 4, room))
        return REFUSED + 5;
    out[n++] = FLAG;
    size_t whole = (len + 4) / 4 * 4;
    for (i = 0; i < whole; i += 4)
        n = put(out, put(out, put(out, put(out, n, d[i]), d[i + 1]), d[i + 2]), d[i + 3]);
    for (; i < len + 4; i++)
        n = put(out, n, d[i]);
    out[n++] = FLAG;
    return n;
}

/* a receiver's block: the store, its count, low octet first, and five octets that each stand for a yes or a no */
enum { COUNT = LIMIT_MOST, MORE = COUNT + 2, ESCAPING, LAST, ANY, SEEN };

static void put_marks(uint8_t *block, size_t n, bool more, bool escaping, bool last, bool any, bool seen)
{
    block[COUNT] = n & 0xFF;
    block[COUNT + 1] = n >> 8;
    block[MORE] = more;
    block[ESCAPING] = escaping;
    block[LAST] = last;
    block[ANY] = any;
    block[SEEN] = seen;
}

/* what a flag hands out that closes a stretch; the check is made here, since a block handed in could say anything of it */
static size_t closed(size_t limit, const uint8_t *store, size_t n, bool more, bool last, uint8_t *out, size_t room)
{
    if (last)
        return REFUSED + 4;
    if (more)
        return REFUSED + 2;
    return delivered(baseline_check, limit, store, n, out, room);
}

/* copies octets up to a flag or an escape, and tells how many */
static size_t copied(const uint8_t *s, size_t len, uint8_t *store, size_t room)
{
    size_t i, most = len < room ? len : room;
    for (i = 0; i < most && s[i] != FLAG && s[i] != ESCAPE; i++)
        store[i] = s[i];
    return i;
}

INLINED size_t receive(bool at_once, uint8_t *block, size_t limit, const uint8_t *octets, size_t len, uint8_t *out,
                       size_t room, size_t *taken)
{
    size_t n = block[COUNT] | block[COUNT + 1] << 8, i = 0, answer = 0;
    bool more = block[MORE], escaping = block[ESCAPING], last = block[LAST], any = block[ANY], seen = block[SEEN];
    if (limit < LIMIT || limit > LIMIT_MOST || n > LIMIT_MOST)
        return REFUSED + 6;
    if (room < limit - 2)
        return REFUSED + 5;
    while (i < len && !answer) {
        uint8_t b = octets[i++];
        if (b == FLAG) {
            if (seen && any)
                answer = closed(limit, block, n, more, last, out, room);
            n = 0;
            more = escaping = last = any = false;
            seen = true;
        } else if (seen) {
            any = true;
            last = b == ESCAPE;
            if (last && !escaping) {
                escaping = true;
            } else if (n == LIMIT_MOST) {
                more = true;
                escaping = false;
            } else if (escaping) {
                block[n++] = b ^ 0x20;
                escaping = false;
            } else if (at_once) {
                size_t plain = copied(octets + i - 1, len - i + 1, block + n, LIMIT_MOST - n);
                n += plain;
                i += plain - 1;
            } else {
                block[n++] = b;
            }
        }
    }
    put_marks(block, n, more, escaping, last, any, seen);
    *taken = i;
    return answer;
}

size_t baseline_receive(uint8_t *block, size_t limit, const uint8_t *octets, size_t len, uint8_t *out, size_t room,
                        size_t *taken)
{
    return receive(false, block, limit, octets, len, out, room, taken);
}

size_t baseline_receive_as(uint8_t *block, size_t limit, const uint8_t *octets, size_t len, uint8_t *out, size_t room,
                           size_t *taken)
{
    return receive(true, block, limit, octets, len, out, room, taken);
}
