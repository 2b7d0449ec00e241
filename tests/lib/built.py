"""The built program that the tests try, how a call of it ends, and how a test begins and ends itself.

The program is the one that ./ebpf_run builds; PROGRAM in the environment may name another.
"""

import os
import re
import subprocess
import sys
import traceback
from pathlib import Path
from typing import NamedTuple

TESTS = Path(__file__).resolve().parents[1]
TOP = TESTS.parent
PROGRAM = os.path.abspath(os.environ.get('PROGRAM', TOP / 'crates/ebpf_run/out/ebpf_run'))
SECONDS = 60  # a call that takes longer has failed


class Answer(NamedTuple):
    """How a call ended: its status, None if it took too long, and what it wrote to both streams, a character a byte."""
    status: int
    text: str
    error: str


def called(words, given=b'', seconds=SECONDS, program=PROGRAM, **others):
    """How a call of the built program, or of another, ends."""
    try:
        done = subprocess.run([program, *words], input=given, capture_output=True, timeout=seconds, check=False, **others)
    except subprocess.TimeoutExpired:
        return Answer(None, '', f'it takes longer than {seconds} seconds')
    return Answer(done.returncode, done.stdout.decode('latin-1'), done.stderr.decode('latin-1'))


def is_advice(error, workers):
    """Whether standard error has nothing, or says that several workers found a shelf empty which had been filled."""
    advice = rf'ebpf_run: \d+ calls of swap got nothing from a shelf that had been filled: another job of the {workers} workers may have held the object\n'
    return not error or workers > 1 and bool(re.fullmatch(advice, error))


def run(test, *words):
    """Ends with the status of a test, which gets the numbers of the command line; its words name them, and each may be left out.

    What the test can't read of what the program wrote is reported as a failure, with the line of the test.
    """
    name, given = Path(sys.argv[0]).name, sys.argv[1:]
    if len(given) > len(words) or not all(word.isdigit() for word in given):
        print(f'usage: {" ".join([name, *[f"[{word}]" for word in words]])}', file=sys.stderr)
        sys.exit(2)
    if not os.access(PROGRAM, os.X_OK):
        print(f'{name}: there is no program {PROGRAM}: ./ebpf_run builds one', file=sys.stderr)
        sys.exit(2)
    try:
        sys.exit(test(*map(int, given)))
    except (AttributeError, LookupError, OSError, TypeError, ValueError) as fault:
        *_, place = [it for it in traceback.extract_tb(fault.__traceback__) if it.filename.startswith(str(TESTS))]
        print(f'{name}: this can\'t be read: {type(fault).__name__}: {fault}\n  {place.filename}:{place.lineno}: {place.line}')
        sys.exit(1)
