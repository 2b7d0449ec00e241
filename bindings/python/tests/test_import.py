"""How the library is found, and that the package is whole when it is built."""

import importlib.util
import os
import shutil
import subprocess
import sys
import tempfile
import unittest
import zipfile
from pathlib import Path

from samples import TOP

PACKAGE = TOP / "bindings/python"
BUILDS = "import sys; from setuptools import build_meta; build_meta.build_wheel(sys.argv[1])"


def ran(script, *words, **named):
    """How Python ends with a script, and what it says."""
    done = subprocess.run([sys.executable, "-c", script, *words], capture_output=True, text=True, check=False, **named)
    return done.returncode, done.stdout + done.stderr


class Import(unittest.TestCase):
    def importing(self, **environment):
        others = {name: value for name, value in os.environ.items() if name != "EBPF_HOST_LIBRARY"}
        return ran("import ebpf_host", env=others | environment)

    def test_by_its_soname(self):
        self.assertEqual(self.importing(LD_LIBRARY_PATH=str(Path(os.environ["EBPF_HOST_LIBRARY"]).parent)), (0, ""))

    def test_without_a_library(self):
        for name in ("", "/none/libebpf_host.so"):
            status, said = self.importing(EBPF_HOST_LIBRARY=name)
            if status:  # the system may have one
                self.assertIn("ImportError: ebpf_host: ", said)
                self.assertIn("let EBPF_HOST_LIBRARY name the file libebpf_host.so.0", said)
        self.assertEqual(status, 1)

    def test_another_library(self):
        self.assertIn("is another library: it has no ebpf_", self.importing(EBPF_HOST_LIBRARY="libc.so.6")[1])


class Built(unittest.TestCase):
    @unittest.skipUnless(importlib.util.find_spec("setuptools") and importlib.util.find_spec("wheel"), "there is no setuptools")
    def test_wheel(self):
        with tempfile.TemporaryDirectory() as name:
            shutil.copytree(PACKAGE, Path(name) / "package")
            status, said = ran(BUILDS, name, cwd=Path(name) / "package")
            self.assertEqual(status, 0, said)
            (wheel,) = Path(name).glob("ebpf_host-*-py3-none-any.whl")
            names = {it for it in zipfile.ZipFile(wheel).namelist() if it.startswith("ebpf_host/")}
        self.assertEqual(names, {f"ebpf_host/{it.name}" for it in (PACKAGE / "ebpf_host").iterdir() if it.is_file()})
