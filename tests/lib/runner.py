"""Runs the tests, one after another, and stops at the first that fails.

    ./test              everything, from the proofs on: one to two hours on four processors
    ./test program      the tests of the built program: some three minutes
    ./test NAME..       these tests
    ./test --list       what each test does
    ./test --help       this text

What the tests need is looked for first. What is missing is installed if that can be done, as root on Debian and its kin; if it can't, the
command that installs it is written, and nothing runs unless all tests can do without it. A test that has run for a minute is named, with what it
does. The status is 0 if every test passed, 1 if one failed, and 2 if something is missing or the command line can't be read.
"""

import os
import re
import shutil
import subprocess
import sys
import threading
import time
from pathlib import Path
from typing import NamedTuple

TOP = Path(__file__).resolve().parents[2]
NEEDED = {'gcc', 'g++', 'valgrind'}
USEFUL = {'jq', 'parallel', 'perl', 'pkg-config', 'man', 'bwrap', 'dh', 'lintian', 'dot', 'tidy', 'lcov'}  # what needs it is left out if it isn't there
LONG = 60  # seconds after which a test is named that is still running
PACKAGES = {'man': 'man-db', 'bwrap': 'bubblewrap', 'dh': 'debhelper', 'dot': 'graphviz'}  # of Debian; each other has the tool's name


class Test(NamedTuple):
    name: str
    words: list
    is_of_program: bool = False  # whether it needs only the built program
    about: str = ''  # what it does, if no file says it


def script(name, is_of_program=False):
    """The test that is the script of this name."""
    return Test(name, [f'tests/{name}'], is_of_program)


TESTS = [
    Test('edits-read', ['tests/edits', '--read'], False, 'Reads the edits that must fail, and applies them.'),
    Test('proofs', ['rt', 'ci'], False, 'Proves every crate from nothing.'),
    script('edits-tested'), script('edits'), script('must-not-compile'),
    Test('library', ['tests/library/run']),
    Test('build', ['sh', '-c', './ebpf_run --help >/dev/null'], False, 'Builds the program over what is proved.'),
    *[script(name, True) for name in ('command-line', 'docs', 'commands', 'literals', 'json', 'examples', 'steps', 'trace', 'graph', 'lay-out', 'compiled', 'loops', 'tables', 'object-files', 'script-of', 'jobs-of', 'orders', 'tallies', 'covered', 'report', 'streams', 'stream')],
    script('want-of-memory'),
    *[script(name, True) for name in ('large-inputs', 'worst', 'fuzz', 'stats', 'run-many')],
    script('host'), script('install'), script('bindings'), script('unproved'), script('first-call'), script('benches'), script('reading-list'), script('recipes'),
]


def about(test):
    """What a test does: the first sentence of its file, up to a colon."""
    if test.about:
        return test.about
    head = re.search(r'^(?:r?"""|# )(.*?)(?:\n#?\n|""")', (TOP / test.words[0]).read_text(encoding='utf-8'), re.M | re.S)[1]
    return re.match(r'(.*?)(?:[.:](?: |$)|$)', head.replace('\n# ', ' ').replace('\n', ' '))[1] + '.'


def is_there(tool):
    """Whether a tool is there. Another program has the name of GNU parallel."""
    path = shutil.which(tool)
    if path and tool == 'parallel':
        return b'GNU parallel' in subprocess.run([path, '--version'], capture_output=True, stdin=subprocess.DEVNULL, check=False).stdout
    return bool(path)


def missing(tools):
    """The tools that are not there, of these."""
    return sorted(tool for tool in tools if not is_there(tool))


def install(packages):
    """Installs these packages, if that can be done."""
    if os.geteuid() or not shutil.which('apt-get'):
        return
    command = f'apt-get update && apt-get install -y --no-install-recommends {" ".join(packages)}'
    print(f'test: there is no {", ".join(packages)}, so this is done: {command}', flush=True)
    words = ['timeout', '--kill-after=5', '300', 'sh', '-c', command]
    subprocess.run(words, env=os.environ | {'DEBIAN_FRONTEND': 'noninteractive'}, stdin=subprocess.DEVNULL, capture_output=True, check=False)


def packages_of(tools):
    """The packages that have these tools."""
    return [PACKAGES.get(tool, tool) for tool in tools]


def has_tools():
    """Whether the tools that the tests need are there, or could be installed."""
    for tools in (NEEDED, USEFUL):  # one after another: what is useful may take too long to install
        if missing(tools):
            install(packages_of(missing(tools)))
    lacking = missing(NEEDED | USEFUL)
    if lacking:
        print(f'test: there is no {", ".join(lacking)}: sudo apt-get install -y {" ".join(packages_of(lacking))}', file=sys.stderr)
    return not NEEDED & set(lacking)


def has_toolchain():
    """Whether the toolchain is there, and one whose words the tests know."""
    if not shutil.which('rt'):
        print('test: there is no rt: README.md says how to get the toolchain', file=sys.stderr)
        return False
    sys.path.insert(0, str(TOP / 'tools'))
    import kit  # pylint: disable=import-outside-toplevel
    if kit.stranger():
        print(f'test: {kit.stranger()}', file=sys.stderr)
    return not kit.stranger()


def passes(test):
    """Whether a test passes. One that doesn't is named, with the way to run it by itself."""
    began = time.monotonic()
    reminder = threading.Timer(LONG, print, [f'test: {test.name} is still running: {about(test)}'], {'flush': True})
    reminder.daemon = True
    reminder.start()
    status = subprocess.run(test.words, cwd=TOP, stdin=subprocess.DEVNULL, check=False).returncode
    reminder.cancel()
    if status:
        print(f'test: {test.name} failed with status {status}; to run it by itself: ./test {test.name}', file=sys.stderr)
    elif time.monotonic() - began > LONG:
        print(f'test: {test.name} took {(time.monotonic() - began) / 60:.0f} minutes', flush=True)
    return status == 0


def chosen(names):
    """The tests of these names, in the order of the table; LookupError if there is none of a name."""
    known = {test.name for test in TESTS} | {'program'}
    for name in names:
        if name not in known:
            raise LookupError(f'there is no test {name}: ./test --list says which there are')
    return [test for test in TESTS if not names or test.name in names or 'program' in names and test.is_of_program]


def main(names):
    sys.dont_write_bytecode = True
    if names == ['--help']:
        print(__doc__.strip())
        return 0
    if names == ['--list']:
        for test in TESTS:
            print(f'{test.name:<17}{about(test)}')
        return 0
    try:
        tests = chosen(names)
    except LookupError as fault:
        print(f'test: {fault.args[0]}', file=sys.stderr)
        return 2
    if not has_tools() or not all(test.is_of_program for test in tests) and not has_toolchain():
        return 2
    return 0 if all(map(passes, tests)) else 1


if __name__ == '__main__':
    sys.exit(main(sys.argv[1:]))
