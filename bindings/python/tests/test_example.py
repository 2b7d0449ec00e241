"""The example counts what it is given, and says why a file is refused."""

import subprocess
import sys
import unittest

from samples import OBJECTS, TOP

EXAMPLE = TOP / "bindings/python/examples/count_methods.py"


def ran(path):
    requests = b"GET / HTTP/1.1\nPOST /a HTTP/1.1\nGET /b HTTP/1.1\nGET\n\n"
    done = subprocess.run([sys.executable, EXAMPLE, path], input=requests, capture_output=True, check=False)
    return done.returncode, done.stdout.decode(), done.stderr.decode()


class Example(unittest.TestCase):
    def test_requests(self):
        self.assertEqual(ran(TOP / "examples/method.o"), (0, "other: 2\nGET: 2\nPOST: 1\n", ""))

    def test_a_refusal(self):
        status, out, err = ran(OBJECTS / "two.o")
        self.assertEqual((status, out, err.partition(":")[0]), (1, "", "O2"))
