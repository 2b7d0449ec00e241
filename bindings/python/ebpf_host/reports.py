"""What runs did, and what workers did to objects."""

from __future__ import annotations

import enum
import functools
import struct
from collections.abc import Callable, Iterable, Iterator, Sequence
from typing import Any, NamedTuple, cast, overload


class Kind(enum.IntEnum):
    """The kinds of object, each with a shelf on a machine or among workers, by the numbers that programs pass to new and to swap."""

    CELL = 0
    RECORD = 1
    BLOCK = 2

    @property
    def size(self) -> int:
        """How many bytes an object of the kind has."""
        return (16, 64, 512)[self]


class Report(NamedTuple):
    """What a run did."""

    exit: int
    """The number that it returned; 0 if it did not exit."""
    executed: int
    """How many instructions it did."""
    peak: int
    """The most objects that it held at one time."""
    emitted: int
    """How many numbers it added to its output."""
    granted: int
    """How many calls of new were granted an object."""
    refused: int
    """How many were answered null."""
    fetched: int
    """How many calls of swap found an object on the shelf."""
    missed: int
    """How many found nothing there."""
    exited: bool
    """Whether it exited within the limit."""
    outputs: tuple[int, ...]
    """The numbers of its output, all of them; a batch gives none."""


class KindTotals(NamedTuple):
    """What all workers did to the objects of one kind: frees = allocs, missing + frees = allocs + foreign, and puts = gets + left."""

    allocs: int
    """How often a worker was given an object."""
    frees: int
    """How often one came back, counting the one that was on the shelf at the end."""
    nulls: int
    """How often one was refused for want of a page or of memory."""
    busy: int
    """How often one was refused because another worker was at the slabs or the pages for too long."""
    missing: int
    """How many objects had not come back when all was closed."""
    foreign: int
    """How many came back that had not been given."""
    puts: int
    """How often an object was put on the shelf."""
    gets: int
    """How often one was got from it."""
    left: int
    """How many were on it at the end: none or one."""


class Totals(NamedTuple):
    """The totals of what workers shared, when it was closed."""

    kinds: tuple[KindTotals, ...]
    """Those of each kind, by its number."""
    clashes: int
    """How many objects went back since another run owned them."""
    strays: int
    """How many objects off a shelf went back since another run owned them."""


# as the structs of ebpf_host.h are in memory
REPORT = struct.Struct("=8Q?7x")
_TOTALS = struct.Struct("=29Q")
TOTALS_SIZE = _TOTALS.size

# A report of its ten members; it is made as Report._make makes one, without the look at how many there are.
report_of = cast("Callable[[Iterable[Any]], Report]", functools.partial(tuple.__new__, Report))


class Reports(Sequence[Report]):
    """The reports of a batch, in the order of its contexts. Each is made when it is asked for; a batch gives no numbers of output."""

    __slots__ = ("_memory",)

    def __init__(self, memory: bytes) -> None:
        self._memory = memory

    def __len__(self) -> int:
        return len(self._memory) // REPORT.size

    def __iter__(self) -> Iterator[Report]:
        for fields in REPORT.iter_unpack(self._memory):
            yield report_of((*fields, ()))

    @overload
    def __getitem__(self, at: int) -> Report: ...

    @overload
    def __getitem__(self, at: slice) -> list[Report]: ...

    def __getitem__(self, at: int | slice) -> Report | list[Report]:
        if isinstance(at, slice):
            return list(self)[at]
        return report_of((*REPORT.unpack_from(self._memory, range(len(self))[at] * REPORT.size), ()))

    def __eq__(self, other: object) -> bool:
        if not isinstance(other, (Reports, list)):
            return NotImplemented
        return list(self) == list(other)

    __hash__ = None  # type: ignore[assignment]

    def __repr__(self) -> str:
        return f"Reports({list(self)})"

    @property
    def exits(self) -> list[int]:
        """The number that each run returned."""
        return memoryview(self._memory).cast("Q")[:: REPORT.size // 8].tolist()


def totals_of(memory: bytes) -> Totals:
    """The totals that the library wrote."""
    words = _TOTALS.unpack(memory)
    kinds = tuple(KindTotals._make(words[at : at + 9]) for at in range(0, 27, 9))
    return Totals(kinds, *words[27:])
