"""How `one` ends, and the options of a call."""

import re
from typing import NamedTuple


class End(NamedTuple):
    """The verdict of a text of `one`, its output, the number of its exit, after how many instructions and with which peak."""
    verdict: str
    output: str
    number: str
    executed: str
    peak: str


def option(words, name, default):
    """The word after an option, if it is there."""
    return words[words.index(name) + 1] if name in words else default


def end_of(text):
    """How a text of `one` ends; the text is the output if it is not accepted."""
    found = re.fullmatch(r'(accepted) \d+\n((?:emit \d+\n)*)exit (\d+) executed (\d+) peak (\d+)\n', text)
    return End(*found.groups()) if found else End(text.split(' ')[0], text, '', '', '')
