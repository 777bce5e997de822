/* A live line: octets come over a file descriptor in runs of any length, and each frame, or the number of a refused one, is
 * told when its closing flag comes. `make -C examples/c` builds and runs it, on a pipe that a child fills piece by piece; it
 * ends with 0 where every answer was the one expected. */
#define _POSIX_C_SOURCE 200809L
#include "gorittaem.h"
#include <errno.h>
#include <signal.h>
#include <stdio.h>
#include <string.h>
#include <sys/wait.h>
#include <time.h>
#include <unistd.h>

enum { LIMIT = GORITTAEM_LIMIT };

/* what comes on the line, and what is to be told of it */
static uint8_t line[1024];
static size_t len;
static const uint8_t set_tilt[] = {0x01, 0x10, 0x33, 0x02, 0x00, 0x7D, 0x00}, polled[] = {0x01, 0x11};
static const struct {
    size_t answer;
    const uint8_t *frame;
} right[] = {
    {sizeof set_tilt, set_tilt},
    {sizeof polled, polled},
    {GORITTAEM_REFUSED + GORITTAEM_WRONG_CHECK, NULL},
    {GORITTAEM_REFUSED + GORITTAEM_TOO_SHORT, NULL},
    {GORITTAEM_REFUSED + GORITTAEM_BROKEN, NULL},
    {GORITTAEM_REFUSED + GORITTAEM_TOO_LONG, NULL},
    {sizeof set_tilt, set_tilt},
    {sizeof polled, polled},
};
static size_t told;
static int wrong;

static void tell(size_t answer, const uint8_t *frame)
{
    if (GORITTAEM_IS_REFUSED(answer))
        printf("refused %u", (unsigned)GORITTAEM_NUMBER(answer));
    else
        for (size_t i = 0; i < answer; i++)
            printf("%s%02x", i ? " " : "", frame[i]);
    printf("\n");
    wrong |= told >= sizeof right / sizeof *right || answer != right[told].answer
             || (right[told].frame && memcmp(frame, right[told].frame, answer));
    told++;
}

/* the next octets of a descriptor that blocks, as many as are there: 0 at the end of the line, -1 for a fault; a signal is
 * neither */
static ssize_t next_run(int fd, uint8_t *run, size_t room)
{
    ssize_t n;
    do
        n = read(fd, run, room);
    while (n < 0 && errno == EINTR);
    return n;
}

/* tells all that comes, up to the line's end; what is left open there is no frame */
static ssize_t listen_to(int fd)
{
    uint8_t receiver[GORITTAEM_RECEIVER] = {0}, run[64], frame[GORITTAEM_FRAME_ROOM_N(LIMIT)];
    ssize_t n;
    while ((n = next_run(fd, run, sizeof run)) > 0) {
        const uint8_t *left = run;
        while (n > 0) {
            size_t taken = 0, answer = gorittaem_receive(receiver, LIMIT, left, (size_t)n, frame, sizeof frame, &taken);
            if (taken == 0) /* the call is refused, and left the number as it was: made again, it would be again */
                return -1;
            if (answer != 0)
                tell(answer, frame);
            left += taken;
            n -= (ssize_t)taken;
        }
    }
    return n;
}

static void add(const void *octets, size_t n)
{
    memcpy(line + len, octets, n);
    len += n;
}

/* frames, and noise before, between and behind them; room that is always enough, so no length here is a refusal */
static void make_line(void)
{
    const uint8_t noise[] = {0x13, 0x7D, 0x00, 0xFF};
    uint8_t tilt[GORITTAEM_LINE_ROOM], poll[GORITTAEM_LINE_ROOM], hum[300];
    size_t n = gorittaem_write(set_tilt[0], set_tilt[1], set_tilt + 2, sizeof set_tilt - 2, tilt, sizeof tilt);
    size_t m = gorittaem_write(polled[0], polled[1], NULL, 0, poll, sizeof poll);
    memset(hum, 0x55, sizeof hum);

    add(noise, sizeof noise); /* before the first flag: dropped */
    add(tilt, n);             /* a frame, then one whose flags are its own: two flags side by side are nothing */
    add(poll, m);
    add(tilt + 1, 2);         /* a damaged one, behind the flag of the frame before */
    add(noise, 1);
    add(tilt + 4, n - 4);
    add(tilt + 1, 3);         /* one that lost its end, one cut behind its escape, and one without end */
    add(tilt, 7);
    add(poll, 1);
    add(hum, sizeof hum);
    add(tilt, n);             /* the flag that closes the noise opens the next frame */
    add(poll + 1, m - 1);
    add(noise, sizeof noise); /* behind the last flag: the line ends before it is closed */
}

/* a signal, to one who waits by then and still does when it comes */
static void disturb(pid_t who)
{
    const struct timespec moment = {.tv_nsec = 10000000};
    nanosleep(&moment, NULL);
    kill(who, SIGUSR1);
    nanosleep(&moment, NULL);
}

/* the other end of the line: pieces of one octet, two, three .. */
static int speak(int fd)
{
    disturb(getppid());
    for (size_t at = 0, piece = 1; at < len; at += piece++) {
        size_t n = piece < len - at ? piece : len - at;
        if (write(fd, line + at, n) != (ssize_t)n)
            return 1;
    }
    return 0;
}

static void wake(int signal)
{
    (void)signal;
}

int main(void)
{
    struct sigaction woken = {.sa_handler = wake}; /* without SA_RESTART: a read that waits ends with EINTR */
    int ends[2], status = 1;
    make_line();
    if (sigaction(SIGUSR1, &woken, NULL) || pipe(ends))
        return 1;
    pid_t child = fork();
    if (child < 0)
        return 1;
    if (child == 0) {
        close(ends[0]);
        _exit(speak(ends[1]));
    }
    close(ends[1]);
    wrong |= listen_to(ends[0]) != 0;
    waitpid(child, &status, 0);
    wrong |= status != 0 || told != sizeof right / sizeof *right;
    puts(wrong ? "NOT as expected" : "as expected");
    return wrong;
}
