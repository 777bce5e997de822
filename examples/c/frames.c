/* Frames written, damaged and read: a tour of include/gorittaem.h. `make -C examples/c` builds and runs it; it ends with
 * 0 where every answer was the one expected. */
#include "gorittaem.h"
#include <stdio.h>
#include <string.h>

static int wrong;

static void show(const char *what, size_t answer, const uint8_t *out)
{
    printf("%-44s", what);
    if (GORITTAEM_IS_REFUSED(answer))
        printf(" refused %u", (unsigned)GORITTAEM_NUMBER(answer));
    else
        for (size_t i = 0; i < answer && i < 16; i++)
            printf(" %02x", out[i]);
    if (!GORITTAEM_IS_REFUSED(answer) && answer > 16)
        printf(" .. %zu octets", answer);
    printf("\n");
}

static void expect(const char *what, size_t answer, size_t right, const uint8_t *out)
{
    show(what, answer, out);
    if (answer != right) {
        printf("    and %#zx was expected\n", right);
        wrong = 1;
    }
}

/* a link on which the largest limit was negotiated: a frame of 200 octets, 196 of them payload */
static void longer_frames(void)
{
    enum { LIMIT = GORITTAEM_LIMIT_MOST };
    uint8_t payload[196], line[GORITTAEM_LINE_ROOM_N(LIMIT)], frame[GORITTAEM_FRAME_ROOM_N(LIMIT)];
    memset(payload, 0x33, sizeof payload);

    size_t len = gorittaem_write_n(LIMIT, 0x01, 0x10, payload, sizeof payload, line, sizeof line);
    expect("200 octets with the limit 260", len, 202, line);
    if (GORITTAEM_IS_REFUSED(len))
        return;
    expect("with the limit 78", gorittaem_write_n(GORITTAEM_LIMIT, 0x01, 0x10, payload, sizeof payload, line, sizeof line),
           GORITTAEM_REFUSED + GORITTAEM_PAYLOAD_TOO_LONG, line);
    expect("with 77, which is no limit", gorittaem_write_n(77, 0x01, 0x10, payload, sizeof payload, line, sizeof line),
           GORITTAEM_REFUSED + GORITTAEM_NOT_ALLOWED, line);
    expect("read back with 260", gorittaem_decode_n(LIMIT, line + 1, len - 2, frame, sizeof frame), 198, frame);
    wrong |= frame[0] != 0x01 || frame[1] != 0x10 || memcmp(frame + 2, payload, sizeof payload) != 0;
    expect("with 78", gorittaem_decode(line + 1, len - 2, frame, sizeof frame), GORITTAEM_REFUSED + GORITTAEM_TOO_LONG, frame);
    expect("with 261", gorittaem_decode_n(261, line + 1, len - 2, frame, sizeof frame),
           GORITTAEM_REFUSED + GORITTAEM_NOT_ALLOWED, frame);
}

int main(void)
{
    /* set tilt to 12.5 degrees, an I-frame to address 1: 0x7D is escaped on the line */
    const uint8_t payload[] = {0x33, 0x02, 0x00, 0x7D, 0x00};
    uint8_t line[GORITTAEM_LINE_ROOM], frame[GORITTAEM_FRAME_ROOM], before[GORITTAEM_FRAME_ROOM];

    /* The codec reads no octet of an output; here they have values so that what a call left alone can be compared. */
    memset(line, 0xA5, sizeof line);
    memset(frame, 0xA5, sizeof frame);

    printf("%-44s %04x\n", "the check of 123456789", gorittaem_check((const uint8_t *)"123456789", 9));
    wrong |= gorittaem_check((const uint8_t *)"123456789", 9) != 0x906E;

    size_t len = gorittaem_write(0x01, 0x10, payload, sizeof payload, line, sizeof line);
    expect("written", len, 12, line);
    if (GORITTAEM_IS_REFUSED(len)) /* a refusal is no length: nothing below may count with it */
        return 1;
    expect("written into one octet too few", gorittaem_write(0x01, 0x10, payload, sizeof payload, line, len - 1),
           GORITTAEM_REFUSED + GORITTAEM_NO_ROOM, line);
    expect("75 octets of payload", gorittaem_write(0x01, 0x10, line, 75, frame, sizeof frame),
           GORITTAEM_REFUSED + GORITTAEM_PAYLOAD_TOO_LONG, frame);

    /* what lies between the two flags */
    uint8_t *inside = line + 1;
    size_t n = len - 2;
    expect("read back", gorittaem_decode(inside, n, frame, sizeof frame), 2 + sizeof payload, frame);
    wrong |= frame[0] != 0x01 || frame[1] != 0x10 || memcmp(frame + 2, payload, sizeof payload) != 0;

    /* a refusal leaves the output as it was */
    memcpy(before, frame, sizeof frame);
    inside[2] ^= 0x01;
    expect("with one bit damaged", gorittaem_decode(inside, n, frame, sizeof frame),
           GORITTAEM_REFUSED + GORITTAEM_WRONG_CHECK, frame);
    inside[2] ^= 0x01;
    expect("cut after its escape", gorittaem_decode(inside, 6, frame, sizeof frame),
           GORITTAEM_REFUSED + GORITTAEM_BROKEN, frame);
    expect("with its flag", gorittaem_decode(inside, n + 1, frame, sizeof frame),
           GORITTAEM_REFUSED + GORITTAEM_BROKEN, frame);
    expect("nothing between two flags", gorittaem_decode(inside, 0, frame, sizeof frame),
           GORITTAEM_REFUSED + GORITTAEM_TOO_SHORT, frame);
    expect("into six octets", gorittaem_decode(inside, n, frame, 6), GORITTAEM_REFUSED + GORITTAEM_NO_ROOM, frame);
    wrong |= memcmp(before, frame, sizeof frame) != 0;

    /* no octets: the pointer may be null. SNRM has no payload, and no output at all has no room. */
    expect("no payload", gorittaem_write(0x01, 0x93, NULL, 0, line, sizeof line), 6, line);
    expect("no output", gorittaem_write(0x01, 0x93, NULL, 0, NULL, 0), GORITTAEM_REFUSED + GORITTAEM_NO_ROOM, NULL);
    expect("neither octets nor output", gorittaem_decode(NULL, 0, NULL, 0), GORITTAEM_REFUSED + GORITTAEM_TOO_SHORT, NULL);
    wrong |= gorittaem_check(NULL, 0) != 0;

    longer_frames();
    puts(wrong ? "NOT as expected" : "as expected");
    return wrong;
}
