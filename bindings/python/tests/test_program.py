"""Programs: how they are loaded, refused, shared and closed."""

import resource
import unittest
from unittest import mock

from samples import COUNT, EMIT, ENDLESS, OBJECTS, READ, SEVEN, TOP

from ebpf_host import Closed, EbpfError, Function, Machine, OutOfRange, Program, Refused, Status, WrongLength, elf_functions, program

NUMBERS = bytes.fromhex("01000000050000000300000004000000")


class Loads(unittest.TestCase):
    def setUp(self):
        self.machine = Machine(pages=1)

    def exit_of(self, loaded, context=b""):
        return self.machine.run(loaded, context).exit

    def test_slots(self):
        for slots in (SEVEN, bytearray(SEVEN), memoryview(SEVEN), memoryview(bytearray(SEVEN)), memoryview(b"x" + SEVEN)[1:]):
            self.assertEqual(self.exit_of(Program(slots)), 7)
        for other in (7, "7", None, [SEVEN]):
            self.assertRaises(TypeError, Program, other)

    def test_buffers_are_not_copied(self):
        slots = bytearray(SEVEN)
        memory, length = program.borrowed(slots)
        slots[4] = 8
        self.assertEqual((bytes(memory), length), (bytes(slots), len(slots)))
        self.assertIs(program.borrowed(SEVEN)[0], SEVEN)

    def test_functions(self):
        path = OBJECTS / "two.o"
        for source in (path, str(path), path.read_bytes(), bytearray(path.read_bytes()), memoryview(path.read_bytes())):
            self.assertEqual(self.exit_of(Program.from_elf(source, "checksum", context=16), NUMBERS), 13)
        self.assertEqual(self.exit_of(Program.from_elf(path, "largest", 16, 64), NUMBERS), 5)
        self.assertEqual(self.exit_of(Program.from_elf(OBJECTS / "table.o", context=1), b"\5"), 9)  # which reads a table
        self.assertRaises(FileNotFoundError, Program.from_elf, "none.o")

    def test_lists(self):
        path = OBJECTS / "two.o"
        for source in (path, str(path), path.read_bytes(), bytearray(path.read_bytes())):
            self.assertEqual(elf_functions(source), [Function("checksum", ".text", 8), Function("largest", ".text", 11)])
        for it in elf_functions(path):
            self.assertEqual(Program.from_elf(path, it.name, 16).slots, it.slots)
        self.assertEqual([it.section for it in elf_functions(OBJECTS / "section.o")], ["prog/a", "prog/a", "prog/b"])
        none = bytearray(path.read_bytes())
        none[980] = none[1004] = 0x10  # neither is a function any more
        self.assertEqual(elf_functions(none), [])
        for damaged in (b"", none[:63]):
            with self.assertRaises(Refused) as caught:
                elf_functions(damaged)
            self.assertEqual(caught.exception.args, ("O1", 0, "the file has fewer than the 64 bytes of an ELF header", None))

    def test_loops(self):
        self.assertEqual(self.machine.run(Program(COUNT, unroll=True)).executed, 8)
        self.assertEqual(self.exit_of(Program(EMIT, 1, unroll=True), b"*"), 7)
        for function in ("checksum", "largest"):
            self.assertTrue(Program.from_elf(OBJECTS / "two.o", function, 16, unroll=True))

    def test_short_contexts(self):
        loaded = Program(READ, context=4)
        for length, number in enumerate((0, 1, 0x201, 0x30201, 0x4030201)):
            for context in (bytes(range(1, length + 1)), bytearray(range(1, length + 1))):
                self.assertEqual(self.machine.run(loaded, context, pad=True).exit, number)
        self.assertRaises(WrongLength, self.machine.run, loaded, b"12345", pad=True)
        self.assertRaises(WrongLength, self.machine.run, loaded, b"123")

    def test_what_is_declared(self):
        loaded = Program(EMIT, context=1, held=3)
        self.assertEqual((loaded.context, loaded.held, loaded.slots), (1, 3, 4))
        self.assertGreater(Program(COUNT, unroll=True).slots, 4)
        for context, held in ((4097, 0), (4, 65), (2**32 - 1, 0), (2**32, 0), (0, 2**32), (2**64, 0), (-1, 0), (0, -1)):
            with self.assertRaises(OutOfRange) as caught:
                Program(READ, context, held)
            self.assertEqual((caught.exception.status, str(caught.exception)), (Status.DECLARATION, "declaration out of range"))
            self.assertRaises(OutOfRange, Program.from_elf, OBJECTS / "two.o", "checksum", context, held)
        self.assertRaises(TypeError, Program, READ, 4.0)


class Refusals(unittest.TestCase):
    def refused(self, load, *words, **named):
        with self.assertRaises(Refused) as caught:
            load(*words, **named)
        self.assertEqual(caught.exception.status, Status.REFUSED)
        return caught.exception

    def test_slots(self):
        fault = self.refused(Program, READ, 3)
        self.assertEqual((fault.code, fault.slot, fault.line), ("V8", 0, None))
        self.assertTrue(fault.why.startswith("slot 0 reads 4 bytes at [r1+0]"))
        self.assertTrue(fault.why.endswith("declare a context of 4 bytes"))
        self.assertEqual(str(fault), f"V8: {fault.why}")
        self.assertEqual(fault.args, ("V8", 0, fault.why, None))
        for none in (b"", bytearray(), memoryview(b"")):
            self.assertEqual(self.refused(Program, none).code, "I1")

    def test_files(self):
        two, call = OBJECTS / "two.o", OBJECTS / "call.o"
        self.assertEqual(self.refused(Program.from_elf, b"").code, "O1")
        self.assertEqual(self.refused(Program.from_elf, two, "n" * 256).code, "O1")
        self.assertEqual(self.refused(Program.from_elf, two, "none").code, "O2")
        self.assertEqual(self.refused(Program.from_elf, two).why, "the file has more than one function: name one of checksum, largest")
        fault = self.refused(Program.from_elf, call, "entry", 12)
        self.assertEqual((fault.code, fault.slot, fault.line), ("O4", 3, "./call.c:9:10: u64 a = twice(words[0], words[1]);"))
        self.assertEqual(str(fault), f"O4: {fault.why}\n{fault.line}")
        fault = self.refused(Program.from_elf, two, "largest", 15, unroll=True)
        self.assertEqual((fault.code, fault.slot, fault.line), ("V8", 7, "./two.c:14:7: if (words[i] > most)"))
        self.assertEqual(self.refused(Program.from_elf, OBJECTS / "table.o", context=4065).code, "O5")

    def test_loops(self):
        self.assertEqual(self.refused(Program, COUNT).code, "F3")
        fault = self.refused(Program, ENDLESS, unroll=True)
        self.assertEqual((fault.code, fault.slot, fault.line), ("F3", 2, None))
        self.assertEqual(fault.why.splitlines()[1], "nothing leads out of it")

    def test_long_texts(self):
        whole = self.refused(Program, READ, 3).why
        for size in (0, 1, 7, len(whole) + 2, len(whole) + 3, len(whole) + 4):
            with mock.patch.object(program, "_TEXT", size):
                self.assertEqual(self.refused(Program, READ, 3).why, whole)

    def test_a_new_status(self):
        with mock.patch.object(program._library, "program_load", return_value=99), self.assertRaises(EbpfError) as caught:
            Program(SEVEN)
        self.assertEqual((caught.exception.status, str(caught.exception)), (99, "unknown status 99"))


class Closing(unittest.TestCase):
    def test_use_after_close(self):
        machine = Machine()
        with Program(SEVEN) as loaded:
            self.assertEqual(machine.run(loaded).exit, 7)
        for _ in range(2):
            with self.assertRaises(Closed) as caught:
                machine.run(loaded)
            self.assertEqual(caught.exception.status, Status.EMPTY)
            self.assertRaises(Closed, machine.run_batch, loaded, b"", 3)
            loaded.close()

    def test_many_loads_take_no_memory(self):
        slots = bytes.fromhex((TOP / "examples/filter.hex").read_text())
        machine, packet, before = Machine(), bytes(24), 0
        for turn in range(101_000):
            with Program(slots, 24) as loaded:
                if turn % 100 == 0:
                    machine.run(loaded, packet)
            if turn == 1_000:
                before = resource.getrusage(resource.RUSAGE_SELF).ru_maxrss
        self.assertLess(resource.getrusage(resource.RUSAGE_SELF).ru_maxrss - before, 1024)  # KiB

    def test_refusals_take_no_memory(self):
        before = 0
        for turn in range(11_000):
            self.assertRaises(Refused, Program, READ, 3)
            if turn == 1_000:
                before = resource.getrusage(resource.RUSAGE_SELF).ru_maxrss
        self.assertLess(resource.getrusage(resource.RUSAGE_SELF).ru_maxrss - before, 1024)
