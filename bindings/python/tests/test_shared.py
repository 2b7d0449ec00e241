"""What workers share: workers that come and go, threads, totals, and want of memory."""

import collections
import os
import subprocess
import sys
import threading
import unittest

from samples import CELL, EMIT, FETCH, LEAVE, SEVEN, TOP

from ebpf_host import Busy, Closed, Kind, Machine, OutOfRange, Program, Shared, Status, UnknownKind, Worker, WrongLength

THREADS = 8
TURNS = 2_000
BATCH = 16  # during which other threads run


def on_threads(work, count=THREADS):
    """Does a work on each of these threads, which it is given by its number."""
    threads = [threading.Thread(target=work, args=(at,)) for at in range(count)]
    for thread in threads:
        thread.start()
    for thread in threads:
        thread.join()


class Workers(unittest.TestCase):
    def test_what_a_worker_does(self):
        with Shared(pages=2, workers=1) as shared, shared.open() as worker:
            self.assertEqual(worker.run(Program(EMIT, 1), b"*").outputs, (42,))
            self.assertEqual(worker.run_batch(Program(EMIT, 1), b"batch").exits, [7] * 5)
            self.assertFalse(worker.put(Kind.RECORD, b"here"))
            self.assertEqual(worker.run(Program(FETCH, held=1)).fetched, 1)
            self.assertIsNone(worker.take(Kind.RECORD))
            self.assertRaises(WrongLength, worker.run, Program(EMIT, 1))
            self.assertRaises(UnknownKind, worker.put, 3)
            worker.close()
            for call in (lambda: worker.run(Program(SEVEN)), lambda: worker.run_batch(Program(SEVEN), b"", 1), lambda: worker.take(0)):
                self.assertRaises(Closed, call)
            self.assertEqual(shared.reap(), 1)
            totals = shared.close()
            record = totals.kinds[Kind.RECORD]
            self.assertEqual((record.allocs, record.frees, record.puts, record.gets, record.left), (1, 1, 1, 1, 0))
            self.assertEqual((totals.clashes, totals.strays), (0, 0))

    def test_ranges(self):
        for words, status in (((0, 1), Status.PAGES), ((257, 1), Status.PAGES), ((1, 0), Status.WORKERS), ((1, 65), Status.WORKERS),
                              ((2**32 + 1, 1), Status.PAGES), ((1, 2**32 + 1), Status.WORKERS)):
            with self.assertRaises(OutOfRange) as caught:
                Shared(*words)
            self.assertEqual(caught.exception.status, status)

    def test_busy(self):
        shared = Shared(pages=1, workers=2)
        first, second = Worker(shared), Worker(shared)
        for call in (shared.open, shared.close):
            with self.assertRaises(Busy) as caught:
                call()
            self.assertEqual(caught.exception.status, Status.BUSY)
        first.close()
        third = shared.open()
        self.assertEqual(third.run(Program(CELL, held=1)).exit, 5)
        second.close()
        third.close()
        self.assertEqual(shared.close().kinds[Kind.CELL][:2], (1, 1))
        for call in (shared.open, shared.close, shared.reap):
            self.assertRaises(Closed, call)
        shared.free()

    def test_workers_that_go_on(self):
        shared = Shared(pages=1, workers=2)
        with shared.open() as worker:
            shared.free()
            self.assertEqual(worker.run(Program(CELL, held=1)).exit, 5)
            self.assertRaises(Closed, shared.open)
        dropped = Shared(pages=1, workers=1).open()
        self.assertEqual(dropped.run(Program(CELL, held=1)).exit, 5)


class Threads(unittest.TestCase):
    def test_one_program_and_a_machine_each(self):
        loaded, exits = Program(EMIT, 1), [0] * THREADS

        def work(at):
            with Machine() as machine:
                for _ in range(TURNS):
                    report = machine.run(loaded, bytes([at]))
                    exits[at] += report.exit * (report.outputs == (at,))

        on_threads(work)
        self.assertEqual(exits, [7 * TURNS] * THREADS)

    def test_totals_are_exact(self):
        programs = [(Program(CELL, held=1), b""), (Program(LEAVE, 1, 1), b"*"), (Program(FETCH, held=1), b"")]
        shared, counts = Shared(pages=64, workers=THREADS), [collections.Counter() for _ in range(THREADS)]

        def work(at):
            with shared.open() as worker:
                for turn in range(TURNS):
                    which = (turn + at) % 3
                    loaded, context = programs[which]
                    reports = worker.run_batch(loaded, context * BATCH, BATCH) if turn % 2 else [worker.run(loaded, context)]
                    for it in ("granted", "refused", "fetched", "exited"):
                        counts[at][which, it] += sum(getattr(report, it) for report in reports)

        on_threads(work)
        count = sum(counts, collections.Counter())
        totals = shared.close()
        cell, record, block = totals.kinds
        self.assertEqual((cell.allocs, record.allocs), (count[0, "granted"], count[1, "granted"]))
        self.assertEqual(cell.nulls + cell.busy + record.nulls + record.busy, count[0, "refused"] + count[1, "refused"])
        self.assertEqual((record.puts, record.gets), (count[1, "granted"], count[1, "fetched"] + count[2, "fetched"]))
        self.assertEqual(record.puts, record.gets + record.left)
        self.assertEqual(sum(block), 0)
        for kind in totals.kinds:
            self.assertEqual((kind.frees, kind.missing, kind.foreign), (kind.allocs, 0, 0))
        self.assertEqual(count[0, "granted"] + count[0, "refused"], count[0, "exited"])
        self.assertEqual(sum(count[which, "exited"] for which in range(3)), THREADS * TURNS // 2 * (1 + BATCH))

    def test_counts_on_one_shelf(self):
        classes = Program.from_elf(TOP / "examples/host/packet_classes.o", context=24, held=2)
        kinds = (b"\x08\0", 6), (b"\x08\0", 17), (b"\x08\6", 0), (b"\x88\xcc", 0)
        frames = [bytes(12) + kind + bytes(9) + bytes([number]) for kind, number in kinds]
        sums = [[0] * 8 for _ in range(THREADS + 1)]
        shared = Shared(pages=64, workers=THREADS)

        def work(at):
            with shared.open() as worker:
                for turn in range(TURNS):
                    report = worker.run(classes, frames[turn % 4])
                    if report.exit:
                        sums[at][report.exit - 1] += 1
                    sums[at] = [count + more for count, more in zip(sums[at], report.outputs or [0] * 8)]

        on_threads(work)
        with shared.open() as worker:
            left = worker.take(Kind.RECORD)
        if left:
            sums[THREADS] = [int.from_bytes(left[at : at + 8], "little") for at in range(0, 64, 8)]
        totals = shared.close()
        self.assertEqual([it for it in map(sum, zip(*sums)) if it], [THREADS * TURNS // 4] * 4)
        self.assertEqual(totals.kinds[Kind.RECORD].allocs, totals.kinds[Kind.RECORD].frees)

    def test_workers_that_come_and_go(self):
        shared, loaded, opened = Shared(pages=8, workers=THREADS - 2), Program(LEAVE, 1, 1), [0] * THREADS

        def work(at):
            while opened[at] < TURNS // 10:
                try:
                    with shared.open() as worker:
                        opened[at] += 1
                        self.assertEqual(worker.run_batch(loaded, bytes(10)).exits, [0] * 10)
                except Busy:
                    shared.reap()

        on_threads(work)
        record = shared.close().kinds[Kind.RECORD]
        self.assertEqual((record.allocs + record.nulls + record.busy, record.frees), (sum(opened) * 10, record.allocs))

    def test_closing_while_others_run(self):
        for closes_machines in (False, True):
            loaded, machines, ends = Program(CELL, held=1), [Machine(), Machine()], []
            begun = threading.Barrier(4)

            def run(at):
                try:
                    while True:
                        self.assertEqual(machines[at % 2].run(loaded).exit, 5)
                        self.assertEqual(machines[at % 2].run_batch(loaded, b"", 1000).exits, [5] * 1000)
                except Closed:
                    ends.append(at)

            def close():
                for _ in range(100):
                    Machine().run(Program(CELL, held=1))
                for it in machines if closes_machines else [loaded]:
                    it.close()

            def work(at):
                begun.wait()
                run(at) if at else close()

            on_threads(work, 4)
            self.assertEqual(sorted(ends), [1, 2, 3])

    def test_one_worker_by_many_threads(self):
        shared, loaded, leaves, turns, many = Shared(pages=8, workers=1), Program(EMIT, 1), Program(LEAVE, 1, 1), TURNS // 8, 200
        worker, granted, rights = shared.open(), [0] * THREADS, [0] * THREADS

        def work(at):
            for _ in range(turns):
                rights[at] += worker.run(loaded, bytes([at])).outputs == (at,)
                granted[at] += sum(it.granted for it in worker.run_batch(leaves, bytes(many)))

        usual = sys.getswitchinterval()
        sys.setswitchinterval(1e-6)  # so that Python lets another thread go on between any two steps
        try:
            on_threads(work)
        finally:
            sys.setswitchinterval(usual)
        worker.close()
        self.assertEqual((rights, granted), ([turns] * THREADS, [turns * many] * THREADS))
        self.assertEqual(shared.close().kinds[Kind.RECORD].allocs, turns * many * THREADS)


class Memory(unittest.TestCase):
    def test_want_of_memory(self):
        """A process that may have no more address space is refused what workers share, which takes half a MiB, and goes on."""
        script = """
import resource
from ebpf_host import Machine, NoMemory, Program, Shared, Status
machine, loaded = Machine(), Program(bytes.fromhex("b7000000070000009500000000000000"))
assert machine.run(loaded).exit == 7
pages = int(open("/proc/self/statm").read().split()[0])
resource.setrlimit(resource.RLIMIT_AS, (pages * resource.getpagesize(), resource.RLIM_INFINITY))
held = []
try:
    while len(held) < 64:
        held.append(Shared(256, 64))
except NoMemory as error:
    assert (error.status, str(error)) == (Status.NO_MEMORY, "out of memory")
    print("refused", machine.run(loaded).exit)
"""
        ran = subprocess.run([sys.executable, "-c", script], capture_output=True, text=True, env=os.environ, check=False)
        self.assertEqual((ran.returncode, ran.stdout), (0, "refused 7\n"), ran.stderr)
