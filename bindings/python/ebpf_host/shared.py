"""Caches and shelves that the threads of a host share, and the worker of each thread."""

from __future__ import annotations

import ctypes
import threading

from ebpf_host import _library
from ebpf_host._library import number
from ebpf_host.errors import Status, check
from ebpf_host.machine import Runner
from ebpf_host.reports import TOTALS_SIZE, Totals, totals_of


class Shared:
    """What up to `workers` workers share, 1 to 64: a cache and a shelf of each kind of object, all on at most `pages` pages, 1 to 256."""

    def __init__(self, pages: int, workers: int) -> None:
        self._handle = _library.SharedHandle()
        self._lock = threading.Lock()
        check(_library.shared_new(self._handle, number(pages, Status.PAGES), number(workers, Status.WORKERS)))

    def open(self) -> Worker:
        """A worker over what is shared. Raises `Busy` if as many are open as there may be."""
        return Worker(self)

    def reap(self) -> int:
        """Gives back each page on which no object is held, on a shelf or kept by a worker, also while workers run: how many there were."""
        pages = ctypes.c_uint32()
        with self._lock:
            check(_library.shared_reap(self._handle, pages))
        return pages.value

    def close(self) -> Totals:
        """Ends all when no worker is open, with the exact totals of what all workers did. Raises `Busy` if one is open; nothing changed then."""
        totals = ctypes.create_string_buffer(TOTALS_SIZE)
        with self._lock:
            check(_library.shared_close(self._handle, totals))
        return totals_of(totals.raw)

    def free(self) -> None:
        """Ends all without totals. Workers that are open go on, and all is freed with the last of them."""
        with self._lock:
            _library.shared_free(self._handle)

    def __enter__(self) -> Shared:
        return self

    def __exit__(self, *_: object) -> None:
        self.free()


class Worker(Runner):
    """A worker: the memory of its runs, and its way to what is shared. It runs beside the other workers, on any thread."""

    _handles = _library.WorkerHandle
    _run = _library.worker_run
    _run_batch = _library.worker_run_batch
    _put = _library.worker_put
    _take = _library.worker_take

    def __init__(self, shared: Shared) -> None:
        handle = _library.WorkerHandle()
        with shared._lock:
            check(_library.worker_open(handle, shared._handle))
        super().__init__(handle)
