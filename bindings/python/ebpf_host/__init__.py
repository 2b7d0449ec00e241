"""Runs verified eBPF programs (RFC 9669) in this process, by the library ebpf_host.

A `Program` is verified once, when it is made, or refused with the reason. A `Machine` runs it on contexts, one run at a time. A `Worker` does
too, on a thread of its own, over caches and shelves that all workers of a `Shared` have in common.

Threads: a `Program` may be used by any number of threads at once. Calls on one `Machine`, `Worker` or `Shared` wait for one another. Other threads
of Python go on while programs are loaded and during batches; a single run is too short for that.
"""

from ebpf_host import _library
from ebpf_host.errors import (
    Busy,
    Closed,
    EbpfError,
    NoMemory,
    NoObject,
    OutOfRange,
    Refused,
    Status,
    TooLong,
    UnknownKind,
    WrongLength,
)
from ebpf_host.machine import Machine
from ebpf_host.program import Function, Program, elf_functions
from ebpf_host.reports import Kind, KindTotals, Report, Reports, Totals
from ebpf_host.shared import Shared, Worker

__version__ = "0.1.0"


def library_version() -> str:
    """The version of the library that was loaded, as `__version__` is that of this package."""
    return _library.host_version().decode()


__all__ = [
    "Busy", "Closed", "EbpfError", "Function", "Kind", "KindTotals", "Machine", "NoMemory", "NoObject", "OutOfRange", "Program", "Refused", "Report",
    "Reports", "Shared", "Status", "TooLong", "Totals", "UnknownKind", "Worker", "WrongLength", "elf_functions", "library_version",
]
