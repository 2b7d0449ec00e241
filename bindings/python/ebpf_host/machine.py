"""What runs programs: machines, and what they have in common with workers."""

from __future__ import annotations

import ctypes
import threading
from collections.abc import Sequence
from typing import Any, TypeVar, Union, cast

from ebpf_host import _library
from ebpf_host._library import Buffer, borrowed, number, passed, small
from ebpf_host.errors import NoMemory, OutOfRange, Status, WrongLength, check, error_of
from ebpf_host.program import Program
from ebpf_host.reports import REPORT, Kind, Report, Reports, report_of

MOST = 4096  # instructions, which is the most that any program does; so it is the most numbers that a run adds to its output, too
_NONE = ()
_LIMIT, _ROOM = ctypes.c_uint64(MOST), ctypes.c_size_t(MOST)
_unpack = REPORT.unpack_from

Self = TypeVar("Self", bound="Runner")


def _within(limit: int) -> int:
    """A limit, if it is a number of 64 bits: ctypes would cut another one."""
    if 0 <= limit < 1 << 64:
        return limit
    raise ValueError(f"a limit of {limit} instructions")


def _joined(contexts: Union[Buffer, Sequence[Buffer]], length: int) -> tuple[_library.Memory, int, int]:
    """Contexts of this length, one after another in memory: how many bytes they have, and how many there are if they have any."""
    if isinstance(contexts, (list, tuple)):
        parts = [small(it) for it in contexts]
        if any(len(it) != length for it in parts):
            raise WrongLength(Status.CONTEXT)
        return b"".join(parts), length * len(parts), len(parts)
    memory, size = borrowed(cast(Buffer, contexts))
    return memory, size, size // length if length else 0


class Runner:
    """What machines and workers do, each by functions of the library of its own. One call at a time is in the library; others wait."""

    _handles: Any
    _run: Any
    _run_batch: Any
    _put: Any
    _take: Any

    def __init__(self, handle: Any) -> None:
        self._handle = passed(handle)
        self._lock = threading.Lock()
        self._output = (ctypes.c_uint64 * MOST)()
        self._report = ctypes.create_string_buffer(REPORT.size)
        self._answers = ctypes.byref(self._output), _ROOM, ctypes.byref(self._report)

    def run(self, program: Program, context: Buffer = b"", limit: int = MOST, *, pad: bool = False) -> Report:
        """Runs a program on a context of the length for which it was loaded, `limit` instructions at most. With `pad` the context may be shorter:
        zeros come after it.

        A run that has not exited by then is given up, and takes with it what it had taken off a shelf; with 4,096, which is the default, none
        is. Raises `WrongLength`, `Closed` or `NoMemory`, and then nothing was run.
        """
        if type(context) is not bytes:
            context = small(context)
        if pad:
            context = context.ljust(program._context, b"\0")
        length = program._length if len(context) == program._context else ctypes.c_size_t(len(context))
        most = _LIMIT if limit == MOST else ctypes.c_uint64(_within(limit))
        with self._lock:
            if status := self._run(self._handle, program._handle, context, length, most, *self._answers):
                raise error_of(status)
            fields = _unpack(self._report)
            return report_of((*fields, tuple(self._output[: fields[3]]) if fields[3] else _NONE))

    def run_batch(self, program: Program, contexts: Union[Buffer, Sequence[Buffer]], count: int | None = None, limit: int = MOST) -> Reports:
        """Runs a program on many contexts, one after another in this order, by one call of the library: each run costs less.

        The contexts are one after another in a buffer, or in a list. `count` says how many there are if they have no bytes. Other threads of
        Python go on meanwhile. A report has no numbers of output. If a run finds no memory, `NoMemory` has the reports of those before.
        """
        memory, length, there = _joined(contexts, program.context)
        count = there if count is None else count
        if count < 0:
            raise ValueError(f"a count of {count}")
        reports, done = ctypes.create_string_buffer(count * REPORT.size or 1), ctypes.c_size_t()
        with self._lock:
            status = self._run_batch(self._handle, program._handle, memory, length, _within(limit), reports, count, done)
        made = Reports(reports.raw[: done.value * REPORT.size])
        if status:
            fault = error_of(status)
            if isinstance(fault, NoMemory):
                fault.reports = made
            raise fault
        return made

    def put(self, kind: int, content: Buffer = b"") -> bool:
        """Leaves an object of a kind on its shelf, as a program's swap does. It begins with these bytes, and has the rest as a new object of
        the kind has it. Whether it is there in place of another, which is given back.

        Raises `UnknownKind`, `TooLong`, `NoObject` or `Closed`, and then the shelf is as it was."""
        memory, length = borrowed(content)
        replaced = ctypes.c_bool()
        with self._lock:
            check(self._put(self._handle, number(kind, Status.KIND), memory, length, replaced))
        return replaced.value

    def take(self, kind: int) -> bytes | None:
        """Takes what is on the shelf of a kind off it, and gives the object back: its bytes, or None if nothing was there.

        Raises `UnknownKind` or `Closed`."""
        room = ctypes.create_string_buffer(max(it.size for it in Kind))
        found = ctypes.c_bool()
        with self._lock:
            check(self._take(self._handle, number(kind, Status.KIND), room, len(room), found))
        return room.raw[: Kind(kind).size] if found.value else None

    def close(self) -> None:
        """Frees it with its objects, once no other thread is in a call of it. Later calls raise `Closed`."""
        with self._lock:
            self._handle = passed(self._handles())

    def __enter__(self: Self) -> Self:
        return self

    def __exit__(self, *_: object) -> None:
        self.close()


class Machine(Runner):
    """The memory of runs, and the objects that they take, give back and leave on shelves: one run at a time, of any program.

    Its objects are on at most `pages` pages of 4,096 bytes, 1 to 256; else it raises `OutOfRange`.
    """

    _handles = _library.MachineHandle
    _run = _library.machine_run
    _run_batch = _library.machine_run_batch
    _put = _library.machine_put
    _take = _library.machine_take

    def __init__(self, pages: int = 16) -> None:
        handle = _library.MachineHandle()
        check(_library.machine_new(handle, number(pages, Status.PAGES)))
        super().__init__(handle)

    def reap(self) -> None:
        """Gives back each page on which no object is left on a shelf, so that objects of any kind may be there."""
        with self._lock:
            check(_library.machine_reap(self._handle))
