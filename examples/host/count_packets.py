"""Counts the packets of a capture by class, as count_packets.c does, on threads of Python, by the package of bindings/python.

    jobs-of-pcap CAPTURE.pcap frame 24 | count_packets.py CLASSES.o [THREADS]

The lines of jobs-of-pcap have the first 24 bytes of each frame as hex.
"""
import struct
import sys
from concurrent.futures import ThreadPoolExecutor

from ebpf_host import Kind, Program, Refused, Shared

CLASSES = "IPv4 TCP", "IPv4 UDP", "IPv4 other", "IPv6 TCP", "IPv6 UDP", "IPv6 other", "ARP", "the rest"


def work(mine):
    """Runs the program on the frames of one thread: what its runs counted, but not on the shelf."""
    sums = [0] * 8
    with shared.open() as worker:
        for frame in mine:
            report = worker.run(program, frame)
            if report.exit:
                sums[report.exit - 1] += 1
            sums = [count + more for count, more in zip(sums, report.outputs or [0] * 8)]
    return sums


many = int(sys.argv[2]) if len(sys.argv) > 2 else 4
try:
    program = Program.from_elf(sys.argv[1], context=24, held=2)
except Refused as refusal:
    sys.exit(f"{refusal}")
every = [bytes.fromhex(line.split()[2]) for line in sys.stdin]
shared = Shared(pages=64, workers=many)
with ThreadPoolExecutor(many) as threads:
    sums = list(threads.map(work, (every[at::many] for at in range(many))))
with shared.open() as worker:
    on_shelf = worker.take(Kind.RECORD)
if on_shelf:
    sums.append(struct.unpack("8Q", on_shelf))
records = shared.close().kinds[Kind.RECORD]
counts = list(map(sum, zip(*sums)))
for name, count in zip(CLASSES, counts):
    if count:
        print(f"{name}: {count}")
print(f"counted {sum(counts)} of {len(every)} packets by {many} threads; records: {records.allocs} taken, {records.frees} given back")
sys.exit(sum(counts) != len(every) or records.allocs != records.frees)
