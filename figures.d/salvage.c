/* Salvage in C, as the measure for ours: salvage CAPTURE GOOD [N], with the words, files, list and statuses of ours, but no
 * progress line. One pass over the octets, in runs of 65,536, in constant memory: those of the open stretch are held as they
 * stood and decoded, octets without escapes copied at once, and the check is made at the closing flag. */
#define _POSIX_C_SOURCE 200809L
#include <err.h>
#include <errno.h>
#include <fcntl.h>
#include <inttypes.h>
#include <stdbool.h>
#include <stdio.h>
#include <stdlib.h>
#include <string.h>
#include <sys/stat.h>
#include <unistd.h>

enum { FLAG = 0x7E, ESCAPE = 0x7D, LIMIT = 78, LIMIT_MOST = 260, RAW_MOST = 2 * LIMIT_MOST, RUN = 65536, RESIDUE = 0xF0B8 };
enum { OUTSIDE, TOO_SHORT, TOO_LONG, BAD_CHECK, BAD_LINE, KEPT }; /* what becomes of a stretch: its number, or kept */

/* a file that is written in runs */
struct sink {
    int fd;
    const char *name;
    size_t len;
    uint8_t octets[RUN];
};

/* the octets since the last flag, or since the start: how many, raw and decoded, and those for which there is a place */
static struct {
    uint64_t len, decoded;
    bool opened, escaping;          /* whether a flag stands before it, and whether an escape is open */
    uint8_t last;                   /* the last raw octet */
    uint8_t raw[RAW_MOST + 1];      /* with a place for the flag behind it */
    uint8_t store[LIMIT_MOST];
} stretch;

static struct { uint64_t frames, kept, flags, stretches, dropped, octets; } total;
static struct sink good, list = {.fd = STDOUT_FILENO, .name = "the list"};
static char part[4096];             /* the name of GOOD until it is whole; empty where there is no such file */
static uint16_t table[256];

static void remove_part(void)
{
    if (part[0])
        unlink(part);
}

static void flush(struct sink *to)
{
    for (size_t done = 0; done < to->len;) {
        ssize_t n = write(to->fd, to->octets + done, to->len - done);
        if (n >= 0)
            done += n;
        else if (errno != EINTR)
            err(1, "%s can't be written", to->name);
    }
    to->len = 0;
}

/* len is at most RUN */
static void put(struct sink *to, const void *octets, size_t len)
{
    if (len > RUN - to->len)
        flush(to);
    memcpy(to->octets + to->len, octets, len);
    to->len += len;
}

static void put_number(uint64_t n, char behind)
{
    char digits[21], *first = digits + 20;
    *first = behind;
    do
        *--first = '0' + n % 10;
    while (n /= 10);
    put(&list, first, digits + 21 - first);
}

static void fill_table(void)
{
    for (unsigned i = 0; i < 256; i++) {
        unsigned r = i;
        for (int bit = 0; bit < 8; bit++)
            r = r & 1 ? r >> 1 ^ 0x8408 : r >> 1;
        table[i] = r;
    }
}

static bool is_right(const uint8_t *s, size_t len)
{
    unsigned r = 0xFFFF;
    for (size_t i = 0; i < len; i++)
        r = r >> 8 ^ table[(r ^ s[i]) & 0xFF];
    return r == RESIDUE;
}

/* what a flag makes of the stretch that it closes */
static int judged(size_t limit)
{
    if (!stretch.opened)
        return OUTSIDE;
    if (stretch.last == ESCAPE)
        return BAD_LINE;
    if (stretch.decoded < 4)
        return TOO_SHORT;
    if (stretch.decoded > limit)
        return TOO_LONG;
    return is_right(stretch.store, stretch.decoded) ? KEPT : BAD_CHECK;
}

static void drop(int number)
{
    put_number(total.octets - stretch.len, ' ');
    put_number(stretch.len, ' ');
    put_number(number, '\n');
    total.stretches++;
    total.dropped += stretch.len;
}

static void keep(void)
{
    stretch.raw[stretch.len] = FLAG;
    if (total.frames++ == 0)
        put(&good, stretch.raw + stretch.len, 1);
    put(&good, stretch.raw, stretch.len + 1);
    total.kept += stretch.len;
}

static void take_flag(size_t limit)
{
    if (stretch.len) {
        int what = judged(limit);
        if (what == KEPT)
            keep();
        else
            drop(what);
    }
    stretch.len = stretch.decoded = 0;
    stretch.escaping = false;
    stretch.opened = true;
    total.flags++;
    total.octets++;
}

/* copies what goes into to, of which n places of most are taken */
static void copy(uint8_t *to, uint64_t n, size_t most, const uint8_t *octets, size_t len)
{
    if (n < most)
        memcpy(to + n, octets, len < most - n ? len : most - n);
}

/* takes octets up to a flag, and tells how many */
static size_t take(const uint8_t *octets, size_t len)
{
    size_t i = 0;
    while (i < len && octets[i] != FLAG) {
        size_t from = i;
        if (stretch.escaping) {
            uint8_t turned = octets[i++] ^ 0x20;
            copy(stretch.store, stretch.decoded++, LIMIT_MOST, &turned, 1);
            stretch.escaping = false;
        } else if (octets[i] == ESCAPE) {
            stretch.escaping = true;
            i++;
        } else {
            while (i < len && octets[i] != FLAG && octets[i] != ESCAPE)
                i++;
            copy(stretch.store, stretch.decoded, LIMIT_MOST, octets + from, i - from);
            stretch.decoded += i - from;
        }
    }
    if (i) {
        copy(stretch.raw, stretch.len, RAW_MOST, octets, i);
        stretch.len += i;
        stretch.last = octets[i - 1];
        total.octets += i;
    }
    return i;
}

static void salvage(int capture, const char *name, size_t limit)
{
    static uint8_t run[RUN];
    ssize_t len;
    while ((len = read(capture, run, RUN)) != 0) {
        if (len < 0 && errno != EINTR)
            err(1, "%s can't be read", name);
        for (ssize_t i = 0; i < len; i++) {
            i += take(run + i, len - i);
            if (i < len)
                take_flag(limit);
        }
    }
    if (stretch.len)
        drop(OUTSIDE);
}

static size_t limit_of(const char *word)
{
    char *behind;
    unsigned long n = strtoul(word, &behind, 10);
    if (word[0] < '0' || word[0] > '9' || *behind || n < LIMIT || n > LIMIT_MOST)
        errx(2, "N is %d to %d, not %s", LIMIT, LIMIT_MOST, word);
    return n;
}

/* CAPTURE, if it is there and another file than GOOD */
static int open_capture(const char *name, const char *into)
{
    struct stat from, to;
    int fd = open(name, O_RDONLY);
    if (fd < 0 && errno != ENOENT && errno != ENOTDIR)
        err(1, "%s can't be read", name);
    if (fd < 0 || fstat(fd, &from) || S_ISDIR(from.st_mode))
        errx(2, "the file %s is not there", name);
    if (!stat(into, &to) && to.st_dev == from.st_dev && to.st_ino == from.st_ino)
        errx(2, "%s is the same file as %s", into, name);
    return fd;
}

/* a file beside GOOD, which gets its name when it is whole */
static void open_good(const char *name)
{
    char beside[sizeof part];
    errno = ENAMETOOLONG;
    if (snprintf(beside, sizeof beside, "%s.%ld.part", name, (long)getpid()) >= (int)sizeof beside
        || (good.fd = open(beside, O_WRONLY | O_CREAT | O_EXCL, 0666)) < 0)
        err(1, "%s can't be written", name);
    good.name = name;
    strcpy(part, beside);
    atexit(remove_part);
}

int main(int argc, char **argv)
{
    char line[200];
    if (argc != 3 && argc != 4)
        errx(2, "the words are CAPTURE GOOD [N]");
    size_t limit = argc == 4 ? limit_of(argv[3]) : LIMIT_MOST;
    int capture = open_capture(argv[1], argv[2]);
    open_good(argv[2]);
    fill_table();
    salvage(capture, argv[1], limit);
    put(&list, line, sprintf(line, "kept %" PRIu64 " frames %" PRIu64 " octets, %" PRIu64 " flags, dropped %" PRIu64
                             " stretches %" PRIu64 " octets, of %" PRIu64 "\n",
                             total.frames, total.kept, total.flags, total.stretches, total.dropped, total.octets));
    flush(&list);
    flush(&good);
    if (close(good.fd) || rename(part, argv[2]))
        err(1, "%s can't be written", argv[2]);
    part[0] = '\0';
    return 0;
}
