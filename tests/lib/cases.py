r"""The cases of the table commands.txt.

A line of the table is a case:

    NAME | COMMAND AND OPTIONS | INPUT | STATUS | TEXT

The program is called with these words and gets INPUT on standard input. It must end with STATUS, write TEXT and nothing
else on standard output, and nothing on standard error. Blanks round a field are no part of it. A line that begins with #
is a comment, and blank lines are skipped. Each name is there once.

COMMAND AND OPTIONS are words as in a shell, so that '' is an empty one. A word in brackets, as [--nulls], is an option
that may be left out: the case is tried without it and with it.

In INPUT a program may be written as instructions, as `list` writes them, between backquotes and with a semicolon between two:
`mov64 r0, 7; exit` is its hex. Hex stays if the bytes are what is tried.

In INPUT, TEXT and the words \n \t \r \\ and \xHH are escapes. \xHH is a byte: \x20 is a blank at an end of a field, \x7c
a bar, and a character beyond ASCII has its UTF-8 bytes. {PART*N} is PART, N times; # in PART is the number of the turn,
from 0. \x23 \x2a \x7b \x7d are # * { } themselves.
"""

import itertools
import re
import shlex
from typing import NamedTuple

from assembly import encoded
from built import TESTS

TABLE = TESTS / 'commands.txt'
ADVICE = 'ebpf_run: the script has more than 1048576 bytes: run-many cuts such a script, and runs the parts\n'


class Case(NamedTuple):
    name: str
    calls: list
    given: bytes
    status: int
    text: bytes

    @property
    def error(self):
        """What the program says on standard error: of a script that is too long to be run, what cuts it."""
        return ADVICE if self.calls[0][0] == b'run' and self.text == b'fault S1 line 0\n' else ''


def is_as_given(words):
    """Whether a call takes the program as it is given: with --unroll it takes another one, which is made of that."""
    return b'--unroll' not in words


def is_traced(words):
    """Whether a call writes steps before what a run did."""
    return any(word.startswith(b'--trace') for word in words)


def plain(part):
    """The bytes of a part without braces."""
    if not re.fullmatch(r'(?:[^\\{}]|\\[ntr\\]|\\x[0-9a-fA-F]{2})*', part):
        raise ValueError(f'a backslash or a brace that means nothing: {part}')
    return part.encode().decode('unicode_escape').encode('latin-1')


def repeated(part, times):
    """The bytes of a part in braces."""
    if '#' not in part:
        return plain(part) * times
    return b''.join(plain(part.replace('#', str(turn))) for turn in range(times))


def bytes_of(field):
    """The bytes that a field means."""
    first, *pieces = re.split(r'\{([^{}*]*)\*([0-9]+)\}', field)
    text = plain(first)
    for part, times, rest in zip(pieces[::3], pieces[1::3], pieces[2::3]):
        text += repeated(part, int(times)) + plain(rest)
    return text


def with_programs(field):
    """The field with the hex of each program that is written as instructions."""
    return re.sub('`([^`]*)`', lambda found: b''.join(map(encoded, found[1].split('; '))).hex(), field)


def words_of(command):
    """The words as they are: shlex would take the backslashes for its own."""
    lexer = shlex.shlex(command, posix=True)
    lexer.whitespace_split, lexer.escape, lexer.commenters = True, '', ''
    return list(lexer)


def choices_of(word):
    """The choices for a word: itself, and none too if it is in brackets."""
    if word.startswith('[') != word.endswith(']'):
        raise ValueError(f'one bracket alone: {word}')
    return [[], [word[1:-1]]] if word.startswith('[') else [[word]]


def calls_of(command):
    """The words of each call."""
    choices = itertools.product(*map(choices_of, words_of(command)))
    return [[bytes_of(word) for word in sum(choice, [])] for choice in choices]


def case_of(line):
    """The case of a line of the table."""
    if not re.fullmatch('[ -~]*', line):
        raise ValueError('a character that is not printable ASCII: write its bytes as \\xHH')
    fields = [field.strip() for field in line.split('|')]
    if len(fields) != 5:
        raise ValueError(f'{len(fields)} fields, not 5')
    name, command, given, status, text = fields
    if not name or not command or not status.isdigit():
        raise ValueError('no name, no command, or a status that is no number')
    return Case(name, calls_of(command), bytes_of(with_programs(given)), int(status), bytes_of(text))


def cases_of(lines):
    """The cases of the table by their names."""
    cases = {}
    for number, line in enumerate(lines, 1):
        if not line.strip() or line.startswith('#'):
            continue
        try:
            case = case_of(line)
            if case.name in cases:
                raise ValueError('a name that an earlier case has')
        except ValueError as fault:
            raise ValueError(f'{TABLE.name}: line {number}: {fault}')
        cases[case.name] = case
    if not cases:
        raise ValueError(f'{TABLE.name}: no cases')
    return cases


def cases():
    """The cases of the table, in its order; ValueError if it can't be read."""
    return list(cases_of(TABLE.read_text(encoding='ascii', errors='replace').split('\n')).values())
