"""Machines: runs, batches, shelves, and how they are closed."""

import ctypes
import resource
import unittest
from unittest import mock

from samples import CELL, EMIT, FETCH, LEAVE, READ, SEVEN, in_turn

from ebpf_host import Closed, Kind, Machine, NoMemory, NoObject, OutOfRange, Program, Report, Status, TooLong, UnknownKind, WrongLength

FILLS = {Kind.CELL: 0, Kind.RECORD: 0xFF, Kind.BLOCK: 0x5A}


class Runs(unittest.TestCase):
    def setUp(self):
        self.machine = Machine(pages=1)

    def test_a_report(self):
        self.assertEqual(self.machine.run(Program(EMIT, 1), b"*"), Report(7, 4, 0, 1, 0, 0, 0, 0, True, (42,)))
        self.assertEqual(self.machine.run(Program(CELL, held=1)), Report(5, 9, 1, 0, 1, 0, 0, 0, True, ()))
        report = self.machine.run(Program(FETCH, held=1))
        self.assertEqual((report.fetched, report.missed, report.exited), (0, 1, True))
        with self.assertRaises(AttributeError):
            report.exit = 1

    def test_all_numbers_of_output(self):
        for count in (0, 1, 2047):
            self.assertEqual(self.machine.run(Program(in_turn(count))).outputs, tuple(range(count)))
        self.assertEqual(self.machine.run(Program(SEVEN)).outputs, ())

    def test_contexts(self):
        loaded = Program(READ, 4)
        for context in (b"\1\2\3\4", bytearray(b"\1\2\3\4"), memoryview(b"0\1\2\3\0045")[1:5], memoryview(bytearray(b"\1\2\3\4")),
                        memoryview(b"\1x\2x\3x\4x")[::2], (ctypes.c_uint8 * 4)(1, 2, 3, 4)):
            self.assertEqual(self.machine.run(loaded, context).exit, 0x04030201)
        for context in (b"", b"\1\2\3", bytes(5), bytearray(), memoryview(b""), bytearray(100)):
            with self.assertRaises(WrongLength) as caught:
                self.machine.run(loaded, context)
            self.assertEqual((caught.exception.status, str(caught.exception)), (Status.CONTEXT, "context of another length"))
        for context in (b"", bytearray(), memoryview(b"")):
            self.assertEqual(self.machine.run(Program(SEVEN), context).exit, 7)
        for context in (4, "1234", None, [1, 2, 3, 4]):
            self.assertRaises(TypeError, self.machine.run, loaded, context)
        self.assertRaises((TypeError, AttributeError), self.machine.run, SEVEN)

    def test_limits(self):
        loaded = Program(EMIT, 1)
        self.assertEqual(self.machine.run(loaded, b"*", 3), Report(0, 3, 0, 1, 0, 0, 0, 0, False, (42,)))
        self.assertEqual(self.machine.run(loaded, b"*", 0).executed, 0)
        self.assertEqual(self.machine.run(loaded, b"*", limit=2**64 - 1).exit, 7)
        for limit in (-1, 2**64):
            self.assertRaises(ValueError, self.machine.run, loaded, b"*", limit)
            self.assertRaises(ValueError, self.machine.run_batch, loaded, b"*", limit=limit)

    def test_no_page(self):
        self.assertEqual(self.machine.run(Program(CELL, held=1)).exit, 5)
        self.assertFalse(self.machine.put(Kind.CELL))
        report = self.machine.run(Program(LEAVE, 1, 1), b"*")  # the one page has cells
        self.assertEqual((report.granted, report.refused), (0, 1))
        with self.assertRaises(NoObject) as caught:
            self.machine.put(Kind.RECORD)
        self.assertEqual(caught.exception.status, Status.NO_OBJECT)
        self.machine.take(Kind.CELL)
        self.machine.reap()
        self.assertEqual(self.machine.run(Program(LEAVE, 1, 1), b"*").granted, 1)

    def test_pages(self):
        for pages in (0, 257, 2**32, 2**32 + 1, -1):
            with self.assertRaises(OutOfRange) as caught:
                Machine(pages)
            self.assertEqual(caught.exception.status, Status.PAGES)
        for pages in (1, 256):
            self.assertEqual(Machine(pages).run(Program(SEVEN)).exit, 7)


class Batches(unittest.TestCase):
    def setUp(self):
        self.machine = Machine(pages=1)

    def test_contexts(self):
        loaded = Program(EMIT, 1)
        each = [self.machine.run(loaded, bytes([it]))._replace(outputs=()) for it in b"batch"]
        for contexts in (b"batch", bytearray(b"batch"), memoryview(b"batch"), memoryview(bytearray(b"batch")),
                         [b"b", bytearray(b"a"), b"t", b"c", b"h"]):
            self.assertEqual(self.machine.run_batch(loaded, contexts), each)
        reports = self.machine.run_batch(loaded, b"batch", limit=2)
        self.assertEqual(([it.exited for it in reports], len(reports), reports[-1], reports[1:3]), ([False] * 5, 5, reports[0], [reports[0]] * 2))
        self.assertRaises(IndexError, lambda: reports[5])
        self.assertEqual(self.machine.run_batch(Program(READ, 4), b"\1\0\0\0\2\1\0\0").exits, [1, 258])
        self.assertEqual(self.machine.run_batch(Program(SEVEN), b"", 3).exits, [7, 7, 7])
        for none in (b"", bytearray(), []):
            self.assertEqual(self.machine.run_batch(loaded, none), [])

    def test_wrong_lengths(self):
        loaded = Program(READ, 4)
        for words in ((b"12345",), (b"1234", 2), ([b"123", b"45678"],), (b"", 1), (b"12341234", 1)):
            self.assertRaises(WrongLength, self.machine.run_batch, loaded, *words)
        self.assertRaises(ValueError, self.machine.run_batch, loaded, b"", -1)

    def test_no_memory_in_the_middle(self):
        loaded, real = Program(EMIT, 1), self.machine._run_batch

        def stopped(machine, program, contexts, length, limit, reports, count, done):
            self.assertEqual(real(machine, program, contexts, 2, limit, reports, 2, done), Status.DONE)
            return Status.NO_MEMORY

        with mock.patch.object(Machine, "_run_batch", staticmethod(stopped)), self.assertRaises(NoMemory) as caught:
            self.machine.run_batch(loaded, b"batch")
        self.assertEqual([it.exit for it in caught.exception.reports], [7, 7])
        self.assertIsInstance(caught.exception, MemoryError)


class Shelves(unittest.TestCase):
    def setUp(self):
        self.machine = Machine(pages=3)

    def test_each_kind(self):
        for kind, fill in FILLS.items():
            self.assertIsNone(self.machine.take(kind))
            self.assertFalse(self.machine.put(kind, b"one"))
            self.assertTrue(self.machine.put(int(kind), bytearray(b"other")))
            self.assertEqual(self.machine.take(kind), b"other" + bytes([fill]) * (kind.size - 5))
            self.assertFalse(self.machine.put(kind))
            self.assertTrue(self.machine.put(kind, memoryview(bytes(kind.size))))
            with self.assertRaises(TooLong) as caught:
                self.machine.put(kind, bytes(kind.size + 1))
            self.assertEqual(caught.exception.status, Status.LENGTH)
            self.assertEqual(self.machine.take(kind), bytes(kind.size))

    def test_other_numbers(self):
        for kind in (3, 2**32 - 1, 2**32, -1):
            for call in (self.machine.put, self.machine.take):
                with self.assertRaises(UnknownKind) as caught:
                    call(kind)
                self.assertEqual(caught.exception.status, Status.KIND)

    def test_programs(self):
        self.assertFalse(self.machine.put(Kind.RECORD, b"*"))
        self.assertEqual(self.machine.run(Program(FETCH, held=1)).fetched, 1)
        self.assertEqual(self.machine.run(Program(LEAVE, 1, 1), b"+").missed, 1)
        self.assertEqual(self.machine.take(Kind.RECORD)[:2], b"+\0")


class Closing(unittest.TestCase):
    def test_use_after_close(self):
        loaded = Program(SEVEN)
        with Machine() as machine:
            self.assertEqual(machine.run(loaded).exit, 7)
        machine.close()
        for call in (machine.reap, lambda: machine.run(loaded), lambda: machine.run_batch(loaded, b"", 2), lambda: machine.put(Kind.CELL),
                     lambda: machine.take(Kind.CELL)):
            self.assertRaises(Closed, call)

    def test_many_machines_take_no_memory(self):
        loaded, before = Program(LEAVE, 1, 1), 0
        for turn in range(11_000):
            with Machine() as machine:
                machine.run(loaded, b"*")
            if turn == 1_000:
                before = resource.getrusage(resource.RUSAGE_SELF).ru_maxrss
        self.assertLess(resource.getrusage(resource.RUSAGE_SELF).ru_maxrss - before, 1024)  # KiB
