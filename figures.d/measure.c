/* Calls one function COUNT times on one frame of SIZE octets, 4 to 260: measure FRAME SIZE WHAT WHICH COUNT. The counts
 * of two runs are taken from each other, so that the start and what is made before the calls fall out. FRAME SIZE alike
 * calls all of them, and holds ours and the C to each other, on this frame and on every way to damage it by one octet; past
 * 78 octets those that take the frame limit, with limits and other numbers.
 *
 * FRAME SIZE receive WHICH COUNT RUN hands a line of such frames to a receiver, COUNT times over, in runs of RUN octets, and
 * prints how many octets and frames the line has. FRAME may also be noisy (random frames, an octet in 50 changed) and noise
 * (random octets alone). FRAME SIZE live holds the receivers to each other: on that line, in runs of every length up to 300,
 * and on blocks that no receiver left. */
#include "baseline.h"
#include "gorittaem.h"
#include <stdio.h>
#include <stdlib.h>
#include <string.h>

enum { FRAME = GORITTAEM_LIMIT, LINE = GORITTAEM_LINE_ROOM };
enum { LONGEST = GORITTAEM_LIMIT_MOST, LONGEST_LINE = GORITTAEM_LINE_ROOM_N(LONGEST) };
enum { LINES = 64, BLOCK = GORITTAEM_RECEIVER, MARKS = BLOCK - LONGEST };

typedef uint16_t checker(const uint8_t *, size_t);
typedef size_t decoder(const uint8_t *, size_t, uint8_t *, size_t);
typedef size_t writer(uint8_t, uint8_t, const uint8_t *, size_t, uint8_t *, size_t);
typedef size_t decoder_n(size_t, const uint8_t *, size_t, uint8_t *, size_t);
typedef size_t writer_n(size_t, uint8_t, uint8_t, const uint8_t *, size_t, uint8_t *, size_t);
typedef size_t receiver(uint8_t *, size_t, const uint8_t *, size_t, uint8_t *, size_t, size_t *);

static uint8_t frame[LONGEST], line[LONGEST_LINE], out[LONGEST_LINE], live[LINES * LONGEST_LINE];
static size_t size, len, live_len;
static volatile size_t sink;

static uint32_t next(void)
{
    static uint32_t seed = 1;
    return seed = seed * 1664525u + 1013904223u;
}

static size_t below(size_t n)
{
    return (uint64_t)next() * n >> 32;
}

/* octets of a frame by its name: random, plain (no escape), half (every second octet escaped), escaped (every octet) */
static uint8_t octet(const char *name, unsigned i)
{
    uint32_t seed = next();
    if (!strcmp(name, "random") || !strcmp(name, "noisy") || !strcmp(name, "noise"))
        return seed >> 24;
    if (!strcmp(name, "plain"))
        return 0x20 + (seed >> 24) % 0x50;
    if (!strcmp(name, "half") && i % 2)
        return 0x20 + (seed >> 24) % 0x50;
    return seed >> 31 ? 0x7E : 0x7D;
}

static void same(size_t ours, size_t theirs, const uint8_t *a, const uint8_t *b, size_t n)
{
    if (ours != theirs || memcmp(a, b, n)) {
        fprintf(stderr, "measure: ours and the C do not answer alike: %zx and %zx\n", ours, theirs);
        exit(1);
    }
}

static void decoded_alike(const uint8_t *s, size_t n, size_t room)
{
    decoder *const all[] = {baseline_decode, baseline_decode16, baseline_decode1, baseline_decode_as};
    uint8_t a[LINE] = {0};
    size_t ours = gorittaem_decode(s, n, a, room);
    for (size_t k = 0; k < sizeof all / sizeof *all; k++) {
        uint8_t b[LINE] = {0};
        same(ours, all[k](s, n, b, room), a, b, LINE);
    }
}

static void written_alike(size_t n, size_t room)
{
    writer *const all[] = {baseline_write, baseline_write16, baseline_write1, baseline_write_as};
    uint8_t a[LINE] = {0};
    size_t ours = gorittaem_write(frame[0], frame[1], frame + 2, n, a, room);
    for (size_t k = 0; k < sizeof all / sizeof *all; k++) {
        uint8_t b[LINE] = {0};
        same(ours, all[k](frame[0], frame[1], frame + 2, n, b, room), a, b, LINE);
    }
}

static void hold_to_each_other(void)
{
    uint8_t damaged[LINE];
    for (size_t n = 0; n <= FRAME; n++)
        for (size_t room = 0; room <= LINE; room++)
            written_alike(n, room);
    for (size_t n = 0; n < len; n++)
        decoded_alike(line + 1, n, LINE);
    for (size_t room = 0; room <= LINE; room++)
        decoded_alike(line + 1, len - 2, room);
    for (size_t i = 0; i + 2 < len; i++)
        for (unsigned x = 0; x < 256; x++) {
            memcpy(damaged, line + 1, len - 2);
            damaged[i] = x;
            decoded_alike(damaged, len - 2, LINE);
        }
}

static void checked_alike(void)
{
    checker *const all[] = {baseline_check, baseline_check16, baseline_check8, baseline_check_as, baseline_check16_as};
    for (size_t n = 0; n <= sizeof frame; n++)
        for (size_t k = 0; k < sizeof all / sizeof *all; k++)
            same(gorittaem_check(frame, n), all[k](frame, n), frame, frame, 0);
}

static void decoded_alike_n(size_t limit, const uint8_t *s, size_t n, size_t room)
{
    uint8_t a[LONGEST_LINE] = {0}, b[LONGEST_LINE] = {0};
    size_t ours = gorittaem_decode_n(limit, s, n, a, room);
    same(ours, baseline_decode_n(limit, s, n, b, room), a, b, sizeof a);
}

static void written_alike_n(size_t limit, size_t n, size_t room)
{
    uint8_t a[LONGEST_LINE] = {0}, b[LONGEST_LINE] = {0};
    size_t ours = gorittaem_write_n(limit, frame[0], frame[1], frame + 2, n, a, room);
    same(ours, baseline_write_n(limit, frame[0], frame[1], frame + 2, n, b, room), a, b, sizeof a);
}

static void hold_to_each_other_n(void)
{
    const size_t limits[] = {0, FRAME - 1, FRAME, FRAME + 1, 200, LONGEST - 1, LONGEST, LONGEST + 1, SIZE_MAX};
    uint8_t damaged[LONGEST_LINE];
    for (size_t k = 0; k < sizeof limits / sizeof *limits; k++) {
        for (size_t n = 0; n + 2 <= sizeof frame; n++)
            written_alike_n(limits[k], n, LONGEST_LINE);
        for (size_t n = 0; n < len; n++)
            decoded_alike_n(limits[k], line + 1, n, LONGEST_LINE);
        for (size_t room = 0; room <= LONGEST_LINE; room++) {
            written_alike_n(limits[k], size - 4, room);
            decoded_alike_n(limits[k], line + 1, len - 2, room);
        }
    }
    for (size_t i = 0; i + 2 < len; i++)
        for (unsigned x = 0; x < 256; x++) {
            memcpy(damaged, line + 1, len - 2);
            damaged[i] = x;
            decoded_alike_n(LONGEST, damaged, len - 2, LONGEST_LINE);
        }
}

/* the line that a receiver is handed, by the frames' name */
static void make_live(const char *name)
{
    for (int k = 0; k < LINES; k++) {
        for (unsigned i = 0; i < size; i++)
            frame[i] = octet(name, i);
        live_len += baseline_write_n(LONGEST, frame[0], frame[1], frame + 2, size - 4, live + live_len, sizeof live - live_len);
    }
    for (size_t i = 0; i < live_len; i++)
        if (!strcmp(name, "noise") || (!strcmp(name, "noisy") && below(50) == 0))
            live[i] = below(256);
}

/* what a refused call leaves where the number taken would stand */
enum { UNTOUCHED = 0x5A5A };

/* one call of ours, and of the C with the same block and output: the same after it, and the check right where a frame comes */
static size_t received_alike(uint8_t *block, size_t limit, const uint8_t *s, size_t n, size_t room, size_t *taken)
{
    receiver *const all[] = {baseline_receive, baseline_receive_as};
    uint8_t before[BLOCK], a[LONGEST_LINE];
    memcpy(before, block, BLOCK);
    memset(a, 0xA5, sizeof a);
    *taken = UNTOUCHED;
    size_t ours = gorittaem_receive(block, limit, s, n, a, room, taken);
    for (size_t k = 0; k < sizeof all / sizeof *all; k++) {
        uint8_t c[BLOCK], b[LONGEST_LINE];
        size_t t = UNTOUCHED;
        memcpy(c, before, BLOCK);
        memset(b, 0xA5, sizeof b);
        same(ours, all[k](c, limit, s, n, b, room, &t), a, b, sizeof a);
        same(*taken, t, block, c, BLOCK);
    }
    if (ours != 0 && !GORITTAEM_IS_REFUSED(ours))
        same(baseline_check(a, ours), block[ours] | block[ours + 1] << 8, a, block, ours);
    return ours;
}

/* the line in runs of so many octets, or of any up to it; tells how many frames came */
static size_t live_alike(size_t limit, size_t run, int any)
{
    uint8_t block[BLOCK] = {0};
    size_t frames = 0, taken;
    for (size_t at = 0, n; at < live_len; at += n) {
        n = any ? below(run + 1) : run;
        n = n < live_len - at ? n : live_len - at;
        for (size_t k = 0; k < n; k += taken) {
            size_t answer = received_alike(block, limit, live + at + k, n - k, limit - 2, &taken);
            frames += answer != 0 && !GORITTAEM_IS_REFUSED(answer);
        }
    }
    return frames;
}

/* a block that no receiver left: any octets, or a frame with its check, of which a bit may be wrong */
static void make_block(uint8_t *block)
{
    size_t count = below(4) ? below(LONGEST + 3) : below(0x10000);
    for (size_t i = 0; i < BLOCK; i++)
        block[i] = below(256);
    if (below(2)) {
        uint16_t sum = baseline_check(frame, size - 2);
        memcpy(block, frame, size - 2);
        block[size - 2] = sum & 0xFF;
        block[size - 1] = sum >> 8;
        block[below(size)] ^= below(2) << below(8);
        count = size;
    }
    block[LONGEST] = count & 0xFF;
    block[LONGEST + 1] = count >> 8;
    for (size_t i = 2; i < MARKS; i++) /* mostly such that the frame comes out */
        block[LONGEST + i] = below(3) ? i >= 5 : below(4);
}

/* a run of the line from anywhere; every second one torn by flags and escapes, and by what those become */
static size_t make_run(uint8_t *run, size_t most)
{
    size_t at = below(live_len), n = below(most + 1);
    int torn = below(2);
    n = n < live_len - at ? n : live_len - at;
    for (size_t i = 0; i < n; i++)
        run[i] = torn && below(8) == 0 ? "\x7E\x7D\x5E\x5D"[below(4)] : live[at + i];
    return n;
}

static void blocks_alike(size_t limit)
{
    uint8_t block[BLOCK], run[300];
    for (int k = 0; k < 4000; k++) {
        size_t room = limit - 4 + below(5), taken, n = make_run(run, sizeof run);
        room = below(10) && room < LONGEST_LINE ? room : below(LONGEST_LINE);
        make_block(block);
        if (below(2)) /* what the block itself hands out */
            received_alike(block, limit, (const uint8_t *)"\x7E", 1, room, &taken);
        received_alike(block, limit, run, n, room, &taken);
        received_alike(block, limit, 0, 0, room, &taken);
    }
}

static void hold_receivers(const char *name)
{
    const size_t limits[] = {FRAME, FRAME + 1, 200, LONGEST - 1, LONGEST};
    const size_t others[] = {0, 1, 2, FRAME - 1, LONGEST + 1, SIZE_MAX};
    for (size_t k = 0; k < sizeof limits / sizeof *limits; k++) {
        size_t whole = name[0] != 'n' && size <= limits[k] ? LINES : 0; /* every frame of a line without noise comes */
        for (size_t run = 1; run <= 300; run++) {
            size_t came = live_alike(limits[k], run, run % 2), again = live_alike(limits[k], run, 0);
            same(came, again, live, live, 0);
            if (name[0] != 'n')
                same(came, whole, live, live, 0);
        }
        blocks_alike(limits[k]);
    }
    for (size_t k = 0; k < sizeof others / sizeof *others; k++)
        blocks_alike(others[k]);
}

static void check(checker *f, long count)
{
    const size_t n = size;
    while (count--)
        sink = f(frame, n);
}

static void decode(decoder *f, long count)
{
    const size_t n = len - 2;
    while (count--)
        sink = f(line + 1, n, out, sizeof out);
}

static void write(writer *f, size_t room, long count)
{
    const size_t n = size - 4;
    while (count--)
        sink = f(frame[0], frame[1], frame + 2, n, out, room);
}

/* these two with the largest limit */
static void decode_n(decoder_n *f, long count)
{
    const size_t n = len - 2;
    while (count--)
        sink = f(LONGEST, line + 1, n, out, sizeof out);
}

static void write_n(writer_n *f, long count)
{
    const size_t n = size - 4;
    while (count--)
        sink = f(LONGEST, frame[0], frame[1], frame + 2, n, out, sizeof out);
}

/* the line COUNT times over, in runs of so many octets, each handed in again for what is left of it */
static void receive(receiver *f, size_t run, long count)
{
    uint8_t block[BLOCK] = {0};
    size_t taken;
    while (count--)
        for (size_t at = 0; at < live_len; at += run) {
            const size_t n = run < live_len - at ? run : live_len - at;
            for (size_t k = 0; k < n; k += taken)
                sink = f(block, FRAME, live + at + k, n - k, out, sizeof out, &taken);
        }
}

/* what can be called, by its name */
static const struct {
    const char *name;
    checker *check;
    decoder *decode;
    writer *write;
    decoder_n *decode_n;
    writer_n *write_n;
    receiver *receive;
} calls[] = {
    {"ours", gorittaem_check, gorittaem_decode, gorittaem_write, gorittaem_decode_n, gorittaem_write_n, gorittaem_receive},
    {"c", baseline_check, baseline_decode, baseline_write, baseline_decode_n, baseline_write_n, baseline_receive},
    {"c16", baseline_check16, baseline_decode16, baseline_write16, 0, 0, 0},
    {"c1", 0, baseline_decode1, baseline_write1, 0, 0, 0},
    {"c8", baseline_check8, 0, 0, 0, 0, 0},
    {"as", baseline_check_as, baseline_decode_as, baseline_write_as, 0, 0, baseline_receive_as},
    {"as16", baseline_check16_as, 0, 0, 0, 0, 0},
};

static int call(const char *what, const char *which, long count, size_t run)
{
    for (size_t k = 0; k < sizeof calls / sizeof *calls; k++) {
        if (strcmp(which, calls[k].name))
            continue;
        if (!strcmp(what, "check") && calls[k].check)
            return check(calls[k].check, count), 0;
        if (!strcmp(what, "decode") && calls[k].decode)
            return decode(calls[k].decode, count), 0;
        if (!strcmp(what, "write") && calls[k].write)
            return write(calls[k].write, sizeof out, count), 0;
        if (!strcmp(what, "write_exact") && calls[k].write) /* with no octet to spare */
            return write(calls[k].write, len, count), 0;
        if (!strcmp(what, "decode_n") && calls[k].decode_n)
            return decode_n(calls[k].decode_n, count), 0;
        if (!strcmp(what, "write_n") && calls[k].write_n)
            return write_n(calls[k].write_n, count), 0;
        if (!strcmp(what, "receive") && calls[k].receive && run)
            return receive(calls[k].receive, run, count), 0;
    }
    return 2;
}

int main(int argc, char **argv)
{
    if (argc < 4)
        return 2;
    const char *name = argv[1];
    size = strtoul(argv[2], 0, 10);
    if (size < 4 || size > LONGEST)
        return 2;
    baseline_tables();
    for (unsigned i = 0; i < sizeof frame; i++)
        frame[i] = octet(name, i);
    len = baseline_write_n(LONGEST, frame[0], frame[1], frame + 2, size - 4, line, sizeof line);
    if (argc == 6)
        return call(argv[3], argv[4], atol(argv[5]), 0);
    if (argc == 7) {
        make_live(name);
        printf("%zu %d\n", live_len, LINES);
        return call(argv[3], argv[4], atol(argv[5]), strtoul(argv[6], 0, 10));
    }
    if (!strcmp(argv[3], "live")) {
        make_live(name);
        return hold_receivers(name), 0;
    }
    checked_alike();
    if (size <= FRAME)
        hold_to_each_other();
    else
        hold_to_each_other_n();
    return strcmp(argv[3], "alike") ? 2 : 0;
}
