"""How a call of the library may end, and the exception for each end that isn't good."""

from __future__ import annotations

import enum
from collections.abc import Sequence
from typing import TYPE_CHECKING

if TYPE_CHECKING:
    from ebpf_host.reports import Report


class Status(enum.IntEnum):
    """How a call ended, by the numbers of ebpf_host.h."""

    DONE = 0
    REFUSED = 1
    DECLARATION = 2
    PAGES = 3
    CONTEXT = 4
    EMPTY = 5
    NO_MEMORY = 6
    KIND = 7
    LENGTH = 8
    NO_OBJECT = 9
    WORKERS = 10
    BUSY = 11

    @property
    def text(self) -> str:
        """The status in words."""
        return _TEXTS[self]


_TEXTS = {
    Status.DONE: "done",
    Status.REFUSED: "refused",
    Status.DECLARATION: "declaration out of range",
    Status.PAGES: "number of pages out of range",
    Status.CONTEXT: "context of another length",
    Status.EMPTY: "empty handle",
    Status.NO_MEMORY: "out of memory",
    Status.KIND: "no such kind of object",
    Status.LENGTH: "more bytes than an object of the kind has",
    Status.NO_OBJECT: "no page or memory for an object",
    Status.WORKERS: "number of workers out of range",
    Status.BUSY: "workers are open",
}


class EbpfError(Exception):
    """A call that did not do what it says."""

    def __init__(self, status: int) -> None:
        super().__init__(status)
        self.status = status

    def __str__(self) -> str:
        return self.status.text if isinstance(self.status, Status) else f"unknown status {self.status}"


class Refused(EbpfError):
    """The bytes have no program that can be run.

    `code` is the code, as "V8", and `slot` the slot of eight bytes that is at fault, or 0 if none is. `why` says why, in a sentence, which
    may have more lines after it if a loop can't be unrolled. `line` is the line of C, as "FILE:LINE:COLUMN: TEXT", if the file has it.
    """

    def __init__(self, code: str, slot: int, why: str, line: str | None) -> None:
        super().__init__(Status.REFUSED)
        self.args = code, slot, why, line
        self.code = code
        self.slot = slot
        self.why = why
        self.line = line

    def __str__(self) -> str:
        return f"{self.code}: {self.why}" + (f"\n{self.line}" if self.line else "")


class OutOfRange(EbpfError, ValueError):
    """More than 4,096 bytes of context or 64 objects are declared, or there are not 1 to 256 pages, or not 1 to 64 workers."""


class WrongLength(EbpfError, ValueError):
    """The context doesn't have the length for which the program was loaded."""


class Closed(EbpfError, ValueError):
    """What the call is of was closed."""


class NoMemory(EbpfError, MemoryError):
    """An allocation failed. Of a batch, `reports` has the reports of the runs before."""

    reports: Sequence[Report] = ()


class UnknownKind(EbpfError, ValueError):
    """No kind of object has the number."""


class TooLong(EbpfError, ValueError):
    """An object of the kind has fewer bytes."""


class NoObject(EbpfError):
    """There is no page, or no memory, for one more object."""


class Busy(EbpfError):
    """As many workers are open as there may be; or workers are open over what is to be closed."""


_ERRORS: dict[int, type[EbpfError]] = {
    Status.DECLARATION: OutOfRange,
    Status.PAGES: OutOfRange,
    Status.CONTEXT: WrongLength,
    Status.EMPTY: Closed,
    Status.NO_MEMORY: NoMemory,
    Status.KIND: UnknownKind,
    Status.LENGTH: TooLong,
    Status.NO_OBJECT: NoObject,
    Status.WORKERS: OutOfRange,
    Status.BUSY: Busy,
}


def error_of(status: int) -> EbpfError:
    """The exception for a status of the library."""
    kind = _ERRORS.get(status)
    return kind(Status(status)) if kind else EbpfError(status)


def check(status: int) -> None:
    """Raises the exception for a status that isn't good."""
    if status:
        raise error_of(status)
