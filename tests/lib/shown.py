"""The examples that a document shows: a command after `    $ `, with the lines that its quotes or its here-document go on for, and after it
the text that it writes, indented like it. It ends with status 2 if the text has a refusal, a fault or an event that isn't legal.
"""

import re
import shlex
import subprocess
from typing import NamedTuple

INDENT = '    '
PROMPT = INDENT + '$ '
PROGRAM = './ebpf_run'  # what the documents call
SECONDS = 60  # an example that takes longer has failed
REFUSED = re.compile(r'(?:\S+ )?refused [IFV]\d+ \d+|fault [SAO]\d line \d+|stopped E\d+ \d+|\{(?:"program":"[\w-]+",)?"(?:refused|fault|stopped)":.*')


def calling(program, command):
    """A command that calls this program in place of the one that the documents call, which may be the one without proof."""
    return command.replace(f'{PROGRAM} --unproved', PROGRAM).replace(PROGRAM, program)


class Example(NamedTuple):
    place: str  # the file, and the line of the command
    command: str
    text: str


def is_open(lines):
    """Whether the command of these lines goes on: in quotes, or in a here-document."""
    mark = re.search(r"<<\s*'?(\w+)'?", lines[0])
    if mark:
        return len(lines) == 1 or lines[-1] != mark[1]
    try:
        shlex.split('\n'.join(lines))
        return False
    except ValueError:
        return True


def examples_of(document, path):
    """The examples of a document, in order."""
    lines = path.read_text(encoding='utf-8').splitlines()
    at = 0
    while at < len(lines):
        if not lines[at].startswith(PROMPT):
            at += 1
            continue
        place = f'{document}:{at + 1}'
        command = [lines[at].removeprefix(PROMPT)]
        at += 1
        while at < len(lines) and lines[at].startswith(INDENT) and is_open(command):
            command.append(lines[at].removeprefix(INDENT))
            at += 1
        text = []
        while at < len(lines) and lines[at].startswith(INDENT) and not lines[at].startswith(PROMPT):
            text.append(lines[at].removeprefix(INDENT))
            at += 1
        yield Example(place, '\n'.join(command), ''.join(line + '\n' for line in text))


def passes(example, words, folder):
    """Whether an example writes what is shown, and ends as it should. These words have its command as a shell's run in the folder."""
    wanted = 2 if any(REFUSED.fullmatch(line) for line in example.text.splitlines()) else 0
    try:
        done = subprocess.run(words, cwd=folder, stdin=subprocess.DEVNULL, capture_output=True, timeout=SECONDS, check=False)
    except subprocess.TimeoutExpired:
        print(f'{example.place}: it takes longer than {SECONDS} seconds')
        return False
    if (done.returncode, done.stdout, done.stderr) == (wanted, example.text.encode(), b''):
        return True
    print(f'{example.place}: {example.command}')
    if done.returncode != wanted:
        print(f'it ends with status {done.returncode}, not {wanted}')
    if done.stdout != example.text.encode():
        print(f'it writes:\n{done.stdout.decode(errors="replace")}and not:\n{example.text}', end='')
    if done.stderr:
        print(f'it says: {done.stderr.decode(errors="replace")}', end='')
    return False
