#!/usr/bin/env python3
"""Writes a capture of that many Ethernet frames to standard output, near to what ports.c keeps: packets COUNT.

Some are cut off, but none between the two bytes of its port: there a program sees a zero, and tcpdump no port.
"""

import random
import struct
import sys

MOST = 8999


def header(type_number):
    return bytes(12) + struct.pack('>H', type_number)


def ipv4(rng):
    words = rng.choice((5, 5, 5, 5, 6, 10, 15, rng.randrange(16)))
    fragment = rng.choice((0, 0, 0, 0x4000, 0x2000, rng.randrange(65536)))
    protocol = rng.choice((6, 6, 6, 17, 17, 17, 1, rng.randrange(256)))
    port = rng.choice((7999, 8000, MOST, MOST + 1, rng.randrange(8000, 9000), rng.randrange(65536)))
    head = struct.pack('>BBHHHBBH4s4s', 0x40 | words, 0, 60, 1, fragment, 64, protocol, 0, rng.randbytes(4), rng.randbytes(4))
    packet = head + rng.randbytes(max(0, 4 * words - len(head)) + rng.choice((8, 20, 200, 1000)))
    place = 4 * words + 2
    return packet[:place] + struct.pack('>H', port) + packet[place + 2:], 14 + place


def frame(rng):
    """A frame, and where the port is."""
    type_number = rng.choice((0x0800,) * 8 + (0x86dd, 0x0806, 0x8100, rng.randrange(65536)))
    packet, place = ipv4(rng)
    return header(type_number) + packet, place


def main():
    rng = random.Random(1)
    out = sys.stdout.buffer
    out.write(struct.pack('<IHHiIII', 0xa1b2c3d4, 2, 4, 0, 0, 65535, 1))
    for number in range(int(sys.argv[1])):
        whole, place = frame(rng)
        kept = whole[:rng.randrange(len(whole))] if rng.random() < 0.1 else whole
        if len(kept) == place + 1:
            kept = whole
        out.write(struct.pack('<IIII', number // 1000, number % 1000, len(kept), len(whole)) + kept)


main()
