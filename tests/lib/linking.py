"""What a function of an object file that reads data computes: by a reader of the file and a machine in Python, which know no linker and no verifier."""

from typing import NamedTuple

from looping import CONTEXT_AT, run_of
from object_files import Function, contents, number, parts, sections_of

MOST = 4097  # instructions of a run


class Use(NamedTuple):
    """A slot of a function whose immediate is to be an address: of which section, and how far from its first byte."""
    slot: int
    section: int
    offset: int


def is_text(data, at, text):
    """Whether a text with its end is there."""
    return data[at:at + len(text) + 1] == text.encode() + b'\0'


def named(data, name):
    """The first function of a name: its section, its place there and its size."""
    headers = sections_of(data)
    table = next(header for header in headers if number(data, header + 4, 4) == 2)
    strings = contents(data, headers[number(data, table + 40, 4)])[0]
    for at in parts(data, {2}, 24):
        section = number(data, at + 6, 2)
        if data[at + 4] & 15 == 2 and 0 < section < len(headers) and is_text(data, strings + number(data, at, 4), name):
            return Function(name, section, '', number(data, at + 8, 8), number(data, at + 16, 8), True)
    raise ValueError(f'there is no {name}')


def has_comment(data):
    """Whether the file is gcc's, which puts the sum of a symbol's value and an addend into the immediate."""
    headers = sections_of(data)
    names = contents(data, headers[number(data, 62, 2)])[0]
    return any(is_text(data, names + number(data, header, 4), '.comment') for header in headers)


def use_of(data, function, entry):
    """What a relocation has a slot load: the address of the byte that its symbol and the immediate mean."""
    headers = sections_of(data)
    symbol = parts(data, {2}, 24)[number(data, entry + 12, 4)]
    at = number(data, entry, 8) - function.start
    code = contents(data, headers[function.section])[0] + function.start + at
    immediate = number(data, code + 4, 4) + (number(data, code + 12, 4) << 32)
    value = number(data, symbol + 8, 8)
    if data[symbol + 4] & 15 != 3 and value:
        assert immediate == 0 and not has_comment(data), 'the offset is not certain'
        immediate = value
    assert at % 8 == 0 and number(data, entry + 8, 4) == 1 and data[code] == 0x18, 'no 64-bit immediate is meant'
    return Use(at // 8, number(data, symbol + 6, 2), immediate - (1 << 64) * (immediate >> 63))


def uses_of(data, function):
    """The uses of a function, in the order of its slots."""
    entries = [entry for header in sections_of(data)
               if number(data, header + 4, 4) == 9 and number(data, header + 44, 4) == function.section
               for start, length in [contents(data, header)] for entry in range(start, start + length // 16 * 16, 16)
               if -16 < number(data, entry, 8) - function.start < function.size]
    return sorted(use_of(data, function, entry) for entry in entries)


def number_of(data, name, context):
    """The number that a function of a file returns on a context, with whole sections of data after it, in the order in which the slots use them."""
    function, headers, places, after = named(data, name), sections_of(data), {}, b''
    start = contents(data, headers[function.section])[0] + function.start
    code = bytearray(data[start:start + function.size])
    for use in uses_of(data, function):
        if use.section not in places:
            places[use.section] = len(after)
            at, length = contents(data, headers[use.section])
            after += data[at:at + length]
        address = CONTEXT_AT + len(context) + places[use.section] + use.offset
        code[8 * use.slot + 4:8 * use.slot + 8] = address.to_bytes(8, 'little')[:4]
        code[8 * use.slot + 12:8 * use.slot + 16] = address.to_bytes(8, 'little')[4:]
    return run_of(bytes(code), context + after, MOST).number


def name_at(data, at):
    """The name that begins there, as the program shows it."""
    name = data[at:data.index(0, at)][:255]
    return ''.join(chr(byte) if 33 <= byte <= 126 else '?' for byte in name) or '(no name)'


def data_name(data, section):
    """The name of a section's data: that of the last symbol which has all of its bytes, or else the section's."""
    headers = sections_of(data)
    table = next(header for header in headers if number(data, header + 4, 4) == 2)
    strings = contents(data, headers[number(data, table + 40, 4)])[0]
    size = contents(data, headers[section])[1]
    whole = [number(data, at, 4) for at in parts(data, {2}, 24)
             if data[at + 4] & 15 == 1 and (number(data, at + 6, 2), number(data, at + 8, 8), number(data, at + 16, 8)) == (section, 0, size)]
    names = contents(data, headers[number(data, 62, 2)])[0]
    return name_at(data, strings + whole[-1] if whole else names + number(data, headers[section], 4))


def rows_of(data, name, begin):
    """The lines that say which bytes of a context of that length are which data of a function."""
    sizes = {use.section: contents(data, sections_of(data)[use.section])[1] for use in uses_of(data, named(data, name))}
    rows = []
    for section, size in sizes.items():
        end = f'..+{begin + size - 1}' if size > 1 else ''
        rows += [f'context+{begin}{end} {data_name(data, section)}\n'] if size else []
        begin += size
    return rows
