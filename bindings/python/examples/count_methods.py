"""Counts the requests on standard input, a line each, by their method: method.o finds it in a table.

    count_methods.py examples/method.o <REQUESTS
"""

import sys
from collections import Counter

from ebpf_host import Machine, Program, Refused

METHODS = "other", "GET", "HEAD", "POST", "PUT", "PATCH", "DELETE", "OPTIONS"  # by the number that the program returns


def main() -> None:
    try:
        program = Program.from_elf(sys.argv[1], "method", context=8)
    except Refused as refusal:
        sys.exit(f"{refusal}")
    contexts = [line[:8].ljust(8, b"\0") for line in sys.stdin.buffer]
    with program, Machine(pages=1) as machine:
        counts = Counter(METHODS[it] for it in machine.run_batch(program, contexts).exits)
    for name in METHODS:
        if counts[name]:
            print(f"{name}: {counts[name]}")


main()
