"""What the tests of the built program know of object files: those that are kept, their functions, the numbers in them, and how one is made."""

import struct
from typing import NamedTuple

from built import TESTS, TOP
from compilers import READING

FILES = [*sorted(TESTS.glob('objects/*.o')), *sorted(TOP.glob('examples/*.o'))]

# those of other compilers; of each one, a file that is damaged too
KEPT = sorted(TESTS.glob('objects/kept/*.o'))
DAMAGED = [*(path for path in FILES if path.stem not in READING), *(path for path in KEPT if path.name.startswith('section-O2-g.'))]

# the commands that take a function with the data that it reads, of those of tests/object-files; the others refuse it with O4
LINKING = {'one', 'list', 'explain', 'lay-out', 'unroll'}

# the fields of each header: the offset and the size of a number
HEADER = [(4, 1), (5, 1), (6, 1), (16, 2), (18, 2), (20, 4), (32, 8), (40, 8), (52, 2), (58, 2), (60, 2), (62, 2)]
SECTION = [(0, 4), (4, 4), (8, 8), (24, 8), (32, 8), (40, 4), (44, 4), (56, 8)]
SYMBOL = [(0, 4), (4, 1), (6, 2), (8, 8), (16, 8)]
RELOCATION = [(0, 8), (8, 4), (12, 4)]

# of .BTF and .BTF.ext; and of the table of lines the size of a line, the first section's name and count, and its first line
TABLE = [(0, 2), (2, 1), (4, 4), (16, 4), (20, 4)]
LINES = [(at, 4) for at in range(0, 28, 4)]


class Function(NamedTuple):
    name: str
    section: int
    section_name: str
    start: int
    size: int
    reaches_out: bool


def number(data, at, size):
    return int.from_bytes(data[at:at + size], 'little')


def sections_of(data):
    """The offset of each section header."""
    return [number(data, 40, 8) + 64 * index for index in range(number(data, 60, 2))]


def contents(data, header):
    """Where a section begins in the file, and how many bytes it has."""
    return number(data, header + 24, 8), number(data, header + 32, 8)


def text_at(data, at):
    return data[at:data.index(0, at)].decode('ascii')


def parts(data, kinds, size):
    """The offset of each entry of the sections of these kinds."""
    tables = [contents(data, header) for header in sections_of(data) if number(data, header + 4, 4) in kinds]
    return [at for start, length in tables for at in range(start, start + length, size)]


def reaches_out(data, section, start, size):
    """Whether a relocation is for one of these bytes of a section, or one of the slots is a call of a function by its place."""
    headers = sections_of(data)
    for header in headers:
        if number(data, header + 4, 4) == 9 and number(data, header + 44, 4) == section:
            at, length = contents(data, header)
            if any(start <= number(data, entry, 8) < start + size for entry in range(at, at + length, 16)):
                return True
    code = contents(data, headers[section])[0] + start
    return any(data[slot] == 0x85 and data[slot + 1] >> 4 == 1 for slot in range(code, code + size, 8))


def functions_of(data):
    """The functions of a file, in the order of the symbol table."""
    headers = sections_of(data)
    names = contents(data, headers[number(data, 62, 2)])[0]
    table = next(header for header in headers if number(data, header + 4, 4) == 2)
    strings = contents(data, headers[number(data, table + 40, 4)])[0]
    found = []
    for at in parts(data, {2}, 24):
        section, start, size = number(data, at + 6, 2), number(data, at + 8, 8), number(data, at + 16, 8)
        if data[at + 4] & 15 == 2 and 0 < section < len(headers):
            name, of = text_at(data, strings + number(data, at, 4)), text_at(data, names + number(data, headers[section], 4))
            found.append(Function(name, section, of, start, size, reaches_out(data, section, start, size)))
    return found


def numbers_of(data):
    """The offset and the size of each number of the headers, the symbols and the relocations."""
    places = [(0, HEADER), *((at, SECTION) for at in sections_of(data)), *((at, SYMBOL) for at in parts(data, {2}, 24)),
              *((at, RELOCATION) for at in parts(data, {9}, 16))]
    return [(start + at, size) for start, fields in places for at, size in fields]


def places_of_data(data, function):
    """The offset of each byte that says which data a function reads: of the section headers, the symbols and its section's relocations."""
    headers = sections_of(data)
    tables = [(at, 64) for at in headers] + [(at, 24) for at in parts(data, {2}, 24)]
    for header in headers:
        if number(data, header + 4, 4) == 9 and number(data, header + 44, 4) == function.section:
            tables.append(contents(data, header))
    return [at for start, length in tables for at in range(start, start + length)]


def numbers_of_lines(data):
    """The same of what says which line of C a slot has."""
    headers, found = sections_of(data), []
    names = contents(data, headers[number(data, 62, 2)])[0]
    for header in headers:
        name, start = text_at(data, names + number(data, header, 4)), contents(data, header)[0]
        if name in ('.BTF', '.BTF.ext'):
            found += [(start + at, size) for at, size in TABLE]
        if name == '.BTF.ext':
            found += [(start + number(data, start + 4, 4) + number(data, start + 16, 4) + at, size) for at, size in LINES]
    return found


def values_of(data, size):
    """What a number of that many bytes is changed to: 0, 1, 7, half the greatest and the greatest of so many bytes and of half of them, the length
    of the file, and one less and more."""
    most = 256 ** size
    values = [0, 1, 7, most // 2, most - 1, 16 ** size // 2, 16 ** size - 1, len(data) - 1, len(data), len(data) + 1]
    return sorted({value % most for value in values})


def with_number(data, at, size, value):
    """The file with a number of that many bytes in another's place."""
    return data[:at] + (value % 256 ** size).to_bytes(size, 'little') + data[at + size:]


class Section(NamedTuple):
    """A section to be written: its name, its type, what it has, and the fields link and info of its header."""
    name: bytes
    kind: int
    data: bytes
    link: int = 0
    info: int = 0


def object_of(sections):
    """An object file of these sections, after the null section, with their names as the last one."""
    names = [it.name for it in sections] + [b'.shstrtab']
    sections = [*sections, Section(names[-1], 3, b'\0' + b'\0'.join(names) + b'\0')]
    headers, data, start = [bytes(64)], b'', 64 * (len(sections) + 2)
    for at, it in enumerate(sections):
        name = 1 + sum(len(before) + 1 for before in names[:at])
        flags = 6 if it.name == b'.text' else 0
        headers.append(struct.pack('<IIQQQQIIQQ', name, it.kind, flags, 0, start + len(data), len(it.data), it.link, it.info, 1, 0))
        data += it.data
    head = b'\x7fELF\2\1\1' + bytes(9) + struct.pack('<HHIQQQIHHHHHH', 1, 247, 1, 0, 0, 64, 0, 64, 0, 0, 64, len(headers), len(headers) - 1)
    return head + b''.join(headers) + data


def symbol_of(name, start, size, section=1):
    """A symbol of a function, whose name begins at a byte of the names."""
    return struct.pack('<IBBHQQ', name, 0x12, 0, section, start, size)


def object_with(name, data):
    """An object file with one function, which has these bytes."""
    names = b'\0' + name.encode() + b'\0'
    return object_of([Section(b'.text', 1, data), Section(b'.strtab', 3, names), Section(b'.symtab', 2, symbol_of(1, 0, len(data)), 2)])


def table_of(data):
    """The bytes of `.BTF` with these strings, or of `.BTF.ext` with these lines: both headers have their place and length at 16 and 20."""
    return struct.pack('<HBBIIIII', 60319, 1, 0, 24, 0, 0, 0, len(data)) + data
