"""The library as ctypes calls it: its functions, its handles, and memory that it may read."""

from __future__ import annotations

import array
import ctypes
import mmap
import operator
import os
from ctypes import POINTER, c_bool, c_char, c_char_p, c_size_t, c_uint32, c_uint64, c_void_p
from typing import Any, Union

from ebpf_host.errors import Status, error_of

Buffer = Union[bytes, bytearray, memoryview, "array.array[Any]", "mmap.mmap", "ctypes.Array[Any]"]

SONAME = "libebpf_host.so.0"
PLACE = "EBPF_HOST_LIBRARY"  # the variable that names the library's file


def _loaded() -> ctypes.CDLL:
    """The library that the environment names, or else that of the system."""
    try:
        return ctypes.CDLL(os.environ.get(PLACE) or SONAME)
    except OSError as fault:
        raise ImportError(f"ebpf_host: {fault}: install the package ebpf-run, or let {PLACE} name the file {SONAME}") from fault


LIBRARY = _loaded()


def _function(name: str, *types: Any, result: Any = c_uint32) -> Any:
    """A function of the library, whose parameters have these types. Other threads of Python go on during its calls."""
    try:
        function = LIBRARY[name]
    except AttributeError as fault:
        raise ImportError(f"ebpf_host: {LIBRARY._name} is another library: it has no {name}") from fault
    function.argtypes, function.restype = types, result
    return function


def _run_of(name: str) -> Any:
    """A function of the library that does one run, for words that are made ready: ctypes would take longer to convert them to types than for the
    rest of the call. Other threads of Python wait for it, which takes some microseconds at most: less than to let them go on, and to wait
    for one of them afterwards."""
    function = ctypes.PyDLL(LIBRARY._name, handle=LIBRARY._handle)[name]
    function.restype = c_uint32
    return function


class _Handle(ctypes.Structure):
    """A word that the library writes. It is never copied, and its address never changes.

    Calls are passed references (`passed`), which hold the handle. So a handle that one thread closes, by letting go of its reference, is freed
    when no other thread is in a call with it.
    """

    _fields_ = [("word", c_void_p)]
    _free: Any  # the function of the library; of the class, since the names of a module are gone before its last objects

    def __del__(self) -> None:
        self._free(self)


class ProgramHandle(_Handle):
    """A handle of a program."""


class MachineHandle(_Handle):
    """A handle of a machine."""


class SharedHandle(_Handle):
    """A handle of what workers share."""


class WorkerHandle(_Handle):
    """A handle of a worker."""


def passed(handle: _Handle) -> Any:
    """A reference to a handle, as it is passed to calls."""
    return ctypes.byref(handle)


class Refusal(ctypes.Structure):
    """Why bytes are refused."""

    _fields_ = [("code", c_char * 4), ("slot", c_uint32), ("length", c_uint64)]


class Function(ctypes.Structure):
    """A function of an object file."""

    _fields_ = [("name", c_char * 256), ("section", c_char * 256), ("slots", c_uint64)]


_PROGRAM, _MACHINE, _SHARED, _WORKER = POINTER(ProgramHandle), POINTER(MachineHandle), POINTER(SharedHandle), POINTER(WorkerHandle)
_BYTES = c_void_p, c_size_t
_SAYING = c_uint32, c_uint32, *_BYTES, POINTER(Refusal)
_BATCH = _PROGRAM, *_BYTES, c_uint64, *_BYTES, POINTER(c_size_t)
_SHELF = c_uint32, *_BYTES, POINTER(c_bool)

program_load = _function("ebpf_program_load", _PROGRAM, *_BYTES, *_SAYING)
program_load_unrolled = _function("ebpf_program_load_unrolled", _PROGRAM, *_BYTES, *_SAYING)
program_load_elf = _function("ebpf_program_load_elf", _PROGRAM, *_BYTES, *_BYTES, *_SAYING)
program_load_elf_unrolled = _function("ebpf_program_load_elf_unrolled", _PROGRAM, *_BYTES, *_BYTES, *_SAYING)
elf_functions = _function("ebpf_elf_functions", *_BYTES, *_BYTES, POINTER(c_size_t), *_BYTES, POINTER(Refusal))
program_context = _function("ebpf_program_context", _PROGRAM)
program_held = _function("ebpf_program_held", _PROGRAM)
program_slots = _function("ebpf_program_slots", _PROGRAM)
host_version = _function("ebpf_host_version", result=c_char_p)
machine_new = _function("ebpf_machine_new", _MACHINE, c_uint32)
machine_reap = _function("ebpf_machine_reap", _MACHINE)
machine_run = _run_of("ebpf_machine_run")
machine_run_batch = _function("ebpf_machine_run_batch", _MACHINE, *_BATCH)
machine_put = _function("ebpf_machine_put", _MACHINE, *_SHELF)
machine_take = _function("ebpf_machine_take", _MACHINE, *_SHELF)
shared_new = _function("ebpf_shared_new", _SHARED, c_uint32, c_uint32)
shared_reap = _function("ebpf_shared_reap", _SHARED, POINTER(c_uint32))
shared_close = _function("ebpf_shared_close", _SHARED, c_void_p)
shared_free = _function("ebpf_shared_free", _SHARED, result=None)
worker_open = _function("ebpf_worker_open", _WORKER, _SHARED)
worker_run = _run_of("ebpf_worker_run")
worker_run_batch = _function("ebpf_worker_run_batch", _WORKER, *_BATCH)
worker_put = _function("ebpf_worker_put", _WORKER, *_SHELF)
worker_take = _function("ebpf_worker_take", _WORKER, *_SHELF)
ProgramHandle._free = _function("ebpf_program_free", _PROGRAM, result=None)
MachineHandle._free = _function("ebpf_machine_free", _MACHINE, result=None)
SharedHandle._free = shared_free
WorkerHandle._free = _function("ebpf_worker_close", _WORKER, result=None)

Memory = Union[bytes, "ctypes.Array[c_char]"]


def small(buffer: Buffer) -> bytes:
    """The bytes of a context. ctypes takes four times as long to borrow them, if they are of an object that can be written, as to copy them."""
    return bytes(memoryview(buffer))


def borrowed(buffer: Buffer) -> tuple[Memory, int]:
    """Memory that a call may read, and its length. It is the buffer's own, but for a view of memory that can't be written: ctypes has no
    way to its address, and takes a copy."""
    if isinstance(buffer, bytes):
        return buffer, len(buffer)
    view = memoryview(buffer)
    if view.readonly or not view.c_contiguous or not view.nbytes:
        return bytes(view), view.nbytes
    return (c_char * view.nbytes).from_buffer(view), view.nbytes


def number(value: int, status: Status) -> int:
    """A number that fits into 32 bits: ctypes would cut another one, and the library wouldn't see that it is out of range."""
    if 0 <= operator.index(value) < 1 << 32:
        return value
    raise error_of(status)
