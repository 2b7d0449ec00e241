"""Whether the manual pages have what docs/SCRIPTS.md, the header and --help say."""

import re
import subprocess
from pathlib import Path
from tempfile import TemporaryDirectory

from built import TOP, called

SIGNS = {r'\[rs]': '\\', r'\-': '-', r'\[aq]': "'", r'\[ga]': '`', r'\[ha]': '^', r'\[ti]': '~', r'\f[B]': '', r'\f[R]': '', r'\&': ''}
TITLES = re.compile(r'^\|.*\|\n(?=\|---)|^\|---.*\n|^## .*\n|^# .*\n', re.M)


def one_line(text):
    return ' '.join(text.split())


def words_of(source):
    """The words of a page's source, without its requests, on one line."""
    text = re.sub(r'^\.(?:S[HS] |.*$)', '', source, flags=re.M)
    return one_line(re.sub('|'.join(map(re.escape, SIGNS)), lambda found: SIGNS[found[0]], text))


def pieces_of(markdown):
    """What a page of a document has to have: each line without its marks, and each cell of a table."""
    text = re.sub(r'\[((?:[^][]|`[^`]*`)+)\]\([^)\s]+\)', r'\1', TITLES.sub('', markdown)).replace('./ebpf_run', 'ebpf_run')
    for line in text.splitlines():
        if line.startswith('    '):
            yield one_line(line)
            continue
        plain = re.sub(r'^(?:#+|-|\d+\.) ', '', line).replace('`', '').replace('**', '')
        yield from map(one_line, plain.strip('|').split('|') if line.startswith('|') else [plain])


def lines_of(header):
    """What the page of the library has to have: each line of the header, but those for the preprocessor and for C++, those that check sizes, and
    inline code."""
    for line in re.sub(r'^static inline .*?^\}$', '', header, flags=re.M | re.S).replace('`', '').splitlines():
        if re.match(r'#(?!define EBPF_HOST_VERSION)|extern "C"|EBPF_HOST_SIZE\(|}$', line):
            continue
        yield one_line(re.sub(r'^(?:/\*| \*) ?|(?<!;) ?\*/$', '', line) if re.match(r'/\*| \*', line) else line)


def written(program):
    """The source of each page, by its name."""
    with TemporaryDirectory() as folder:
        subprocess.run([TOP / 'tools/man-pages', folder, program], check=True, stdin=subprocess.DEVNULL)
        return {path.name: path.read_text(encoding='utf-8') for path in Path(folder).rglob('*.[135]')}


def complaints(program):
    """What the pages lack, and marks of Markdown that are left in them."""
    sources = written(program)
    every = ' '.join(map(words_of, sources.values()))
    for piece in pieces_of((TOP / 'docs/SCRIPTS.md').read_text(encoding='utf-8')):
        if piece not in every:
            yield f'no page has: {piece}'
    host = words_of(sources['ebpf_host.3'])
    for piece in lines_of((TOP / 'include/ebpf_host.h').read_text(encoding='utf-8')):
        if piece not in host:
            yield f'ebpf_host.3 lacks: {piece}'
    commands = re.findall(r'^  ([a-z-]+) {2,}', called(['--help'], program=program).text, re.M)
    for command in set(commands) - {'help'}:
        page = words_of(sources.get(f'ebpf_run-{command}.1', ''))
        options = re.findall(r'--[a-z-]+', called([command, '--help'], program=program).text.partition('Options:')[2])
        yield from (f'ebpf_run-{command}.1 lacks {option}' for option in options if option not in page)
    for name, source in sources.items():
        yield from (f'{name} has a mark: {mark}' for mark in re.findall(r'.*(?:`|(?<!\\f\[[BR])\]\().*', source))
