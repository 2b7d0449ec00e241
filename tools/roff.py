"""Writes the Markdown of the documents as the source of a manual page.

It knows what they use: headings, paragraphs, examples by four blanks or between fences, lists, tables, and in a line code, bold and links.
A table becomes a list, each row by its first cell; a link becomes its text. So pages are made without pandoc, which few machines have and
whose tables are too wide for a terminal.
"""

import re

LONG = 60  # characters of a first cell that is a paragraph, and no tag
TYPED = {'\\': r'\[rs]', '-': r'\-', "'": r'\[aq]', '`': r'\[ga]', '^': r'\[ha]', '~': r'\[ti]'}
LINK = re.compile(r'\[((?:[^][]|`[^`]*`)+)\]\([^)\s]+\)')
PIECE = re.compile(r'(`[^`]+`|\*\*.+?\*\*)')


def escaped(text, table=None):
    """A text as roff prints it; by the table each sign is itself, to be typed."""
    return ''.join((table or {'\\': r'\[rs]'}).get(sign, sign) for sign in text)


def guarded(line):
    """A line that is no request."""
    return r'\&' + line if line[:1] in ('.', "'") else line


def inline(text):
    """A text with its code and what is bold."""
    pieces = []
    for piece in PIECE.split(LINK.sub(r'\1', text)):
        if piece.startswith('`'):
            pieces.append(rf'\f[B]{escaped(piece[1:-1], TYPED)}\f[R]')
        elif piece.startswith('**'):
            pieces.append(rf'\f[B]{escaped(piece[2:-2])}\f[R]')
        else:
            pieces.append(escaped(piece))
    return guarded(''.join(pieces))


def example(lines):
    """Lines as they are."""
    return ['.PP', '.RS 4', '.EX', *[guarded(escaped(line, TYPED)) for line in lines], '.EE', '.RE']


def cells_of(row):
    return [cell.strip().replace(r'\|', '|') for cell in re.split(r'(?<!\\)\|', row.strip().strip('|'))]


def entry(titles, cells):
    """A row of a table: the first cell, and after it what it means, and then the others by their titles."""
    first, *others = cells
    rest = [(name, cell) for name, cell in zip(titles[1:], others) if cell]
    rest.sort(key=lambda it: it[0] != 'Means')
    text = inline('. '.join(f'{name}: {cell}' if at and name else cell for at, (name, cell) in enumerate(rest))) or r'\&'
    if len(first) > LONG:
        return ['.PP', inline(first), '.RS 4', '.PP', text, '.RE']
    return ['.TP', inline(first) or r'\&', text]


def table(rows):
    titles, _, *body = [cells_of(row) for row in rows]
    return [line for cells in body for line in entry(titles, cells)]


def heading(line):
    """A heading; one of a document is a section, and those below it are parts."""
    marks, text = re.match('(#+) (.*)', line).groups()
    return [f'.S{"H" if len(marks) < 3 else "S"} {inline(text.upper() if len(marks) < 3 else text)}']


def item(line):
    mark, text = re.match(r'(-|\d+\.) (.*)', line).groups()
    return [rf'.IP {chr(92)}[bu] 2' if mark == '-' else f'.IP {mark} 4', inline(text)]


KINDS = [('heading', '#+ '), ('table', r'\|'), ('example', '    '), ('item', r'- |\d+\. '), ('blank', r'$')]


def kind_of(line):
    return next((kind for kind, start in KINDS if re.match(start, line)), 'text')


def goes_on(kind, before, line):
    """Whether a line belongs to the block of this kind, after these lines."""
    now = kind_of(line)
    if kind == 'item':
        return now in ('text', 'example') and before[-1] != ''
    if kind == 'example':
        return now in ('example', 'blank')
    return kind in ('text', 'table') and now == kind


def blocks_of(text):
    """The blocks of a text: the kind of each, and its lines."""
    blocks = []
    for line in text.splitlines():
        if blocks and goes_on(*blocks[-1], line):
            blocks[-1][1].append(line)
        else:
            blocks.append((kind_of(line), [line]))
    return blocks


def block(kind, lines):
    """A block as roff."""
    if kind == 'example':
        return example([line[4:] for line in '\n'.join(lines).rstrip().splitlines()])
    if kind == 'table':
        return table(lines)
    joined = ' '.join(line.strip() for line in lines)
    return {'heading': heading, 'item': item, 'blank': lambda _: [], 'text': lambda it: ['.PP', inline(it)]}[kind](joined)


def page(markdown):
    """The lines of a text in Markdown."""
    indented = re.sub(r'^```\w*\n(.*?)^```$', lambda found: re.sub('^', '    ', found[1], flags=re.M), markdown, flags=re.M | re.S)
    return [line for kind, lines in blocks_of(indented) for line in block(kind, lines)]
