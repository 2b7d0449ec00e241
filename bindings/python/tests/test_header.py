"""The package has what ebpf_host.h has: numbers, words, sizes and functions."""

import ctypes
import re
import unittest

from samples import TOP

import ebpf_host
from ebpf_host import _library, reports

HEADER = (TOP / "include/ebpf_host.h").read_text()


def constants(begin: str) -> dict[str, int]:
    """The constants of the enumeration that has this one first."""
    body = re.search(rf"enum \{{\n\s*EBPF_{begin}.*?\}}", HEADER, re.S)[0]
    return {name: int(value) for name, value in re.findall(r"EBPF_(\w+) = (\d+)", body)}


class Header(unittest.TestCase):
    def test_statuses(self):
        self.assertEqual(constants("DONE"), {it.name: it.value for it in ebpf_host.Status})
        texts = dict(re.findall(r'case EBPF_(\w+): return "(.*?)";', HEADER))
        self.assertEqual(texts, {it.name: it.text for it in ebpf_host.Status})

    def test_kinds(self):
        self.assertEqual(constants("CELL"), {it.name: it.value for it in ebpf_host.Kind})
        sizes = re.findall(r"EBPF_(?:CELL|RECORD|BLOCK) = \d,? +/\* (\d+) bytes", HEADER)
        self.assertEqual([int(it) for it in sizes], [it.size for it in ebpf_host.Kind])

    def test_members(self):
        def members(name: str) -> list[str]:
            return re.findall(r"^    \w+ (\w+)(?:\[\d+\])?;", re.search(rf"typedef struct ebpf_{name} \{{(.*?)\n\}}", HEADER, re.S)[1], re.M)

        self.assertEqual(members("refusal"), [name for name, _ in _library.Refusal._fields_])
        self.assertEqual(members("function"), [name for name, _ in _library.Function._fields_])
        self.assertEqual(members("report"), [{"emitted": "outputs"}.get(it, it) for it in ebpf_host.Report._fields[:-1]])
        self.assertEqual(members("kind_totals"), list(ebpf_host.KindTotals._fields))
        self.assertEqual(members("totals"), list(ebpf_host.Totals._fields))
        sizes = ctypes.sizeof(_library.Refusal), ctypes.sizeof(_library.Function), reports.REPORT.size, reports.TOTALS_SIZE
        self.assertEqual(sizes, (16, 520, 72, 232))

    def test_functions(self):
        declared = set(re.findall(r"^(?!static)[a-z].*[ *](ebpf_\w+)\(", HEADER, re.M))
        called = set(re.findall(r'_(?:function|run_of)\("(\w+)"', (TOP / "bindings/python/ebpf_host/_library.py").read_text()))
        self.assertEqual(declared - called, {"ebpf_program_share"})  # a program of this package needs no second handle

    def test_version(self):
        version = re.search(r'EBPF_HOST_VERSION "(.*)"', HEADER)[1]
        self.assertEqual({ebpf_host.__version__, ebpf_host.library_version()}, {version})
        self.assertEqual(_library.SONAME, f"libebpf_host.so.{version.partition('.')[0]}")
