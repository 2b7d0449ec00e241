"""What --help writes, read into its parts: completions and manual pages are made of it."""

import os
import re
import subprocess
from typing import NamedTuple

OPTION = re.compile(r'(?:(-\w), )?(--[a-z-]+)(?:\[=<[A-Z]+>\])?(?: <?([A-Z]+)>?)?')


class Option(NamedTuple):
    short: str  # as -h, or nothing
    long: str
    value: str  # what its value is called, or nothing; also nothing of one that may be left out, after an equals sign
    about: str


class Help(NamedTuple):
    about: str  # of several paragraphs if the program has them
    usage: str
    commands: dict  # what each does, by its name
    arguments: dict
    options: list
    examples: list  # lines


def sections_of(text):
    """The lines under each title at the left edge that ends in a colon; the first has no title."""
    sections = {'': []}
    title = ''
    for line in text.splitlines():
        if line.endswith(':') and line[0].isalpha():
            title = line
            sections[title] = []
        else:
            sections[title].append(line)
    return sections


def rows_of(lines):
    """The rows of a section: what is explained, and how."""
    return [re.split(r'\s{2,}', line.strip(), maxsplit=1) for line in lines if re.match(r' +\S+.*\S {2,}\S', line)]


def option_of(words, about):
    short, long, value = OPTION.fullmatch(words).groups(default='')
    return Option(short, long, value, about)


def read(text):
    """The parts of a help, as clap and argparse write it if a line may be long."""
    sections = sections_of(text)
    usage = re.search(r'^[Uu]sage: (.*)$', text, re.M)[1]
    plain = [line for line in sections[''] if not re.match('[Uu]sage: ', line)]
    example = [line.removeprefix('Example: ') for lines in sections.values() for line in lines if line.startswith('Example: ')]
    examples = [line for title, lines in sections.items() if title.startswith('Examples') for line in lines]
    named = {title.rstrip(':').split()[-1].lower(): rows_of(lines) for title, lines in sections.items() if title}
    return Help('\n'.join(plain).strip(), usage, dict(named.get('commands', [])), dict(named.get('arguments', [])),
                [option_of(*row) for row in named.get('options', [])], example or [line.strip() for line in examples])


def help_of(*words):
    """The help of a program, or of its command."""
    done = subprocess.run([*words, '--help'], stdin=subprocess.DEVNULL, stdout=subprocess.PIPE, text=True, check=True,
                          env=os.environ | {'COLUMNS': '1000'})
    return read(done.stdout)


def helps_of(program):
    """The help of the program, and that of each command by its name."""
    whole = help_of(program)
    return whole, {name: help_of(program, name) for name in whole.commands if name != 'help'}
