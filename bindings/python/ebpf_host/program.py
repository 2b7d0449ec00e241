"""Programs that were verified."""

from __future__ import annotations

import ctypes
import os
import re
from pathlib import Path
from typing import Any, NamedTuple, Union

from ebpf_host import _library
from ebpf_host._library import Buffer, borrowed, number, passed
from ebpf_host.errors import Refused, Status, check

_LINE = re.compile(r"\S.*:\d+:\d+: ")  # how a line of C begins
_TEXT = 1024  # bytes, which are mostly enough for why a program is refused

Source = Union[str, "os.PathLike[str]", Buffer]


def _refused(text: str, refusal: _library.Refusal) -> Refused:
    """Why bytes are refused, by the lines that the library wrote, each of which begins with two blanks."""
    lines = [line[2:] for line in text.splitlines()]
    line = lines.pop() if len(lines) > 1 and _LINE.match(lines[-1]) else None
    return Refused(refusal.code.decode(), refusal.slot, "\n".join(lines), line)


def _load(function: Any, *words: Any) -> Any:
    """A reference to a program's handle, by a function of the library that loads one. A text that was cut is asked for again."""
    handle, refusal, size = _library.ProgramHandle(), _library.Refusal(), _TEXT
    while True:
        text = ctypes.create_string_buffer(size)
        status = function(handle, *words, text, size, refusal)
        if status != Status.REFUSED:
            check(status)
            return passed(handle)
        if refusal.length < size:
            raise _refused(text.value.decode(errors="replace"), refusal)
        size = refusal.length + 1


def _bytes_of(source: Source) -> Buffer:
    """The bytes of the file at a path, or these."""
    return Path(source).read_bytes() if isinstance(source, (str, os.PathLike)) else source


class Function(NamedTuple):
    """A function of an object file."""

    name: str
    """Its name, by which `Program.from_elf` takes it; at most 255 bytes of it."""
    section: str
    """The name of its section, likewise."""
    slots: int
    """How many slots of eight bytes it has."""


def elf_functions(source: Source) -> list[Function]:
    """The functions of the object file at a path, or with these bytes, in the order of its symbol table. Whether one can be loaded, its load says.

    `Refused` says why the file can't be read.
    """
    file = borrowed(_bytes_of(source))
    rows = (_library.Function * _listed(file, (_library.Function * 0)()))()
    _listed(file, rows)
    return [Function(it.name.decode(errors="replace"), it.section.decode(errors="replace"), it.slots) for it in rows]


def _listed(file: tuple[Any, int], rows: ctypes.Array[_library.Function]) -> int:
    """Writes the functions of a file, as far as there is room. How many there are."""
    count, refusal, text = ctypes.c_size_t(), _library.Refusal(), ctypes.create_string_buffer(_TEXT)
    status = _library.elf_functions(*file, rows, len(rows), count, text, _TEXT, refusal)
    if status == Status.REFUSED:
        raise _refused(text.value.decode(errors="replace"), refusal)
    check(status)
    return count.value


class Program:
    """A program that was accepted. Any number of threads may use it at once.

    It is made of raw slots of eight bytes each, or by `from_elf` of a function of an object file. It runs on contexts of `context` bytes, and
    holds at most `held` objects at one time. With `unroll` its jumps may lead back: its loops are unrolled first, if they can be.

    `Refused` says why bytes are no program that can be run.
    """

    __slots__ = ("_handle", "_context", "_length", "_held", "_slots", "__weakref__")

    def __init__(self, slots: Buffer, context: int = 0, held: int = 0, *, unroll: bool = False) -> None:
        function = _library.program_load_unrolled if unroll else _library.program_load
        self._hold(function, *borrowed(slots), context=context, held=held)

    @classmethod
    def from_elf(cls, source: Source, function: str | None = None, context: int = 0, held: int = 0, *, unroll: bool = False) -> Program:
        """A function of an object file that a compiler made (clang -target bpfel -c): of the file at a path, or with these bytes. Without a
        name it is the file's only function."""
        name = (function or "").encode()
        load = _library.program_load_elf_unrolled if unroll else _library.program_load_elf
        made = cls.__new__(cls)
        made._hold(load, *borrowed(_bytes_of(source)), name, len(name), context=context, held=held)
        return made

    def _hold(self, function: Any, *source: Any, context: int, held: int) -> None:
        """Holds the program that a function of the library makes of a source."""
        declared = number(context, Status.DECLARATION), number(held, Status.DECLARATION)
        self._handle = _load(function, *source, *declared)
        self._context, self._held = _library.program_context(self._handle), _library.program_held(self._handle)
        self._slots = _library.program_slots(self._handle)
        self._length = ctypes.c_size_t(context)

    @property
    def context(self) -> int:
        """How many bytes a context has."""
        return self._context

    @property
    def held(self) -> int:
        """How many objects a run may hold at one time."""
        return self._held

    @property
    def slots(self) -> int:
        """How many slots of eight bytes the program has as it is run, with its loops unrolled: 1 to 4096."""
        return self._slots

    def close(self) -> None:
        """Frees the program, once no thread runs it. Later runs of it raise `Closed`."""
        self._handle = passed(_library.ProgramHandle())

    def __enter__(self) -> Program:
        return self

    def __exit__(self, *_: object) -> None:
        self.close()
