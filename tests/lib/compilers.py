"""The compilers that the tests find here: those for eBPF, and the one that makes of the same C a program for the machine itself."""

import os
import re
import shutil
import subprocess
from typing import NamedTuple

from built import TESTS, called

NATIVE = TESTS / 'compilers/native.c'

# the compilers for eBPF, each with what it may be called and with its options
OPTIONS = {('clang',): ['-target', 'bpfel'], ('bpf-gcc', 'bpf-unknown-none-gcc'): ['-ffreestanding']}

# the C files of examples that have loops, and those that read data of their file: tests/loops and tests/tables have them, and tests/compiled the others
LOOPING = ['adler', 'crc', 'decimal', 'rows']
READING = ['digest', 'method']


class Outcome(NamedTuple):
    """How a run ended: with its output, its number and its peak."""
    output: str
    number: str
    peak: str


def found(names):
    """The path of a compiler that compiles for eBPF, if it is there under one of these names."""
    path = next(filter(None, map(shutil.which, names)), None)
    trial = [path, *OPTIONS[names], '-c', '-x', 'c', '-o', os.devnull, os.devnull]
    return path if path and subprocess.run(trial, capture_output=True).returncode == 0 else None


def made_native(path, folder, flags):
    """The program that a C file is on the machine itself, made in a folder with these flags."""
    subprocess.run(['cc', *flags, '-rdynamic', path, NATIVE, '-ldl', '-o', path.stem], cwd=folder, check=True)
    return folder / path.stem


def native_outcomes(program, function, runs, *words):
    """How each of these runs of a function ends on the machine itself: a run is a context as hex, with ` null` after it if calls of `new`
    are answered null. With a word more, a run finds what those before left on the shelves."""
    text = called([function, *words], ''.join(f'{run}\n' for run in runs).encode(), program=program).text
    outcomes = [Outcome(*it) for it in re.findall(r'((?:emit \d+\n)*)exit (\d+) peak (\d+)\n', text)]
    if len(outcomes) != len(runs):
        raise ValueError(f'{function}: {len(outcomes)} of {len(runs)} runs ended on the machine itself')
    return outcomes
