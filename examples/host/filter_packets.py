"""Counts the packets of a file that a packet filter takes, as filter_packets.c does, by the package of bindings/python.

    filter_packets.py FILTER PACKETS
"""
import sys
from collections.abc import Iterator
from pathlib import Path

from ebpf_host import Machine, Program, Refused


def contexts(packets: bytes) -> Iterator[bytes]:
    """The first 24 bytes of each packet, which comes after its length of two bytes; zeros follow a shorter one."""
    at = 0
    while at < len(packets):
        length = int.from_bytes(packets[at : at + 2], "little")
        yield packets[at + 2 : at + 2 + length][:24].ljust(24, b"\0")
        at += 2 + length


slots, packets = (Path(it).read_bytes() for it in sys.argv[1:3])
try:
    program = Program(slots, context=24)
except Refused as refusal:
    sys.exit(f"{refusal}")
with program, Machine(pages=1) as machine:
    exits = [machine.run(program, it).exit for it in contexts(packets)]
print(f"taken {sum(map(bool, exits))} of {len(exits)}")
