#!/usr/bin/env python3
"""Makes a capture to measure a salvage with, the same each time: captures.py KIND OCTETS > file.

KIND is random (frames of 78 random octets, their check among them, one flag between two), short (the same of 10), noisy (as
random, then one octet in 50 changed to a random one) or noise (random octets alone, flags as they come). Flags fill up what
the last frame leaves of OCTETS.
"""
import random
import sys

FLAG, ESCAPE, TURN = 0x7E, 0x7D, 0x20
SIZES = {"random": 78, "noisy": 78, "short": 10}  # octets of a frame with its check
CHANGED = 50  # one octet in so many is changed


def remainder(octet):
    for _ in range(8):
        octet = octet >> 1 ^ (0x8408 if octet & 1 else 0)
    return octet


TABLE = [remainder(octet) for octet in range(256)]


def check(octets):
    """The frame check, CRC-16/X-25, low octet first."""
    r = 0xFFFF
    for octet in octets:
        r = r >> 8 ^ TABLE[(r ^ octet) & 0xFF]
    return (r ^ 0xFFFF).to_bytes(2, "little")


def escaped(octets):
    line = bytearray()
    for octet in octets:
        line += bytes([ESCAPE, octet ^ TURN] if octet in (FLAG, ESCAPE) else [octet])
    return line


def frames(dice, size, octets):
    """As many frames as go into so many octets, a flag before each, flags behind the last."""
    line = bytearray([FLAG])
    while True:
        frame = dice.randbytes(size - 2)
        raw = escaped(frame + check(frame))
        if len(line) + len(raw) >= octets:
            return line.ljust(octets, bytes([FLAG]))
        line += raw
        line.append(FLAG)


def capture(kind, octets):
    dice = random.Random(1)
    if kind == "noise":
        return dice.randbytes(octets)
    line = frames(dice, SIZES[kind], octets)
    if kind == "noisy":
        for place in range(octets):
            if dice.randrange(CHANGED) == 0:
                line[place] = dice.randrange(256)
    return line


def main():
    words = sys.argv[1:]
    if len(words) != 2 or words[0] not in (*SIZES, "noise") or not words[1].isdecimal():
        sys.exit("usage: captures.py KIND OCTETS, KIND one of random, noisy, noise, short")
    assert check(b"123456789") == b"\x6E\x90"  # the published check of these nine octets
    sys.stdout.buffer.write(capture(words[0], int(words[1])))


if __name__ == "__main__":
    main()
