#!/usr/bin/env python3
"""A packet filter, that many times over packets in memory, as c_host.c does it: packets.py SLOTS RUNS each|exits|reports. It writes the
nanoseconds that the runs took."""

import sys
import time

from ebpf_host import Machine, Program

PACKETS, CONTEXT = 64, 24
PORTS = 0x40, 0x41, 0x42, 0x10, 0x43, 0x44, 0x45, 0x46


def packet(number):
    """A packet to a port of which one in eight isn't taken; one in eight has another protocol."""
    it = bytearray(CONTEXT)
    it[0], it[9], it[22], it[23] = 0x45, 1 if number % 8 == 5 else 6, 0x1F, PORTS[number % 8]
    return bytes(it)


def taken_by_each(machine, program, packets, turns):
    """How many packets are taken, by a call for each."""
    run = machine.run
    return sum(run(program, it).exit for _ in range(turns) for it in packets)


def taken_of_exits(machine, program, packets, turns):
    """How many are taken, by a call for all packets, of which only the exits are read."""
    contexts = b"".join(packets)
    return sum(sum(machine.run_batch(program, contexts).exits) for _ in range(turns))


def taken_of_reports(machine, program, packets, turns):
    """How many are taken, by a call for all packets, of which each report is read."""
    contexts = b"".join(packets)
    return sum(report.exit for _ in range(turns) for report in machine.run_batch(program, contexts))


WAYS = {"each": taken_by_each, "exits": taken_of_exits, "reports": taken_of_reports}


def main():
    slots, runs, way = bytes.fromhex(sys.argv[1]), int(sys.argv[2]), WAYS[sys.argv[3]]
    packets = [packet(number) for number in range(PACKETS)]
    with Program(slots, CONTEXT) as program, Machine(pages=1) as machine:
        started = time.perf_counter_ns()
        taken = way(machine, program, packets, runs // PACKETS)
        print(time.perf_counter_ns() - started)
    return taken != runs // PACKETS * PACKETS * 3 // 4


if __name__ == "__main__":
    sys.exit(main())
