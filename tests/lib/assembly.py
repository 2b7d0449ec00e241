"""The bytes of a listing: each line that `list` writes, encoded again by the table of opcodes."""

import re
import struct

SIZES = {'w': 0x00, 'h': 0x08, 'b': 0x10, 'dw': 0x18}
OPERATIONS = ['add', 'sub', 'mul', 'div', 'or', 'and', 'lsh', 'rsh', None, 'mod', 'xor', 'mov', 'arsh']
CONDITIONS = [None, 'jeq', 'jgt', 'jge', 'jset', 'jne', 'jsgt', 'jsge', None, None, 'jlt', 'jle', 'jslt', 'jsle']
SWAPS = {'le': 0xd4, 'be': 0xdc, 'swap': 0xd7}
PLACE = r'\[r(\d+)([+-]\d+)\]'
SOURCE = r'(r?)(-?\d+)'


def slot(opcode, dst=0, src=0, offset=0, immediate=0):
    """The eight bytes of a slot."""
    return struct.pack('<BBhi', opcode, src << 4 | dst, offset, immediate)


def with_source(opcode, dst, register, number, offset=0):
    """A slot whose second operand is a register or an immediate."""
    if register:
        return slot(opcode | 0x08, dst, int(number), offset)
    return slot(opcode, dst, 0, offset, int(number))


def operation(word, width, dst, register, number):
    """An arithmetic operation; the signed division and its remainder have an offset."""
    signed = word in ('sdiv', 'smod')
    code = OPERATIONS.index(word[1:] if signed else word)
    return with_source(code << 4 | (7 if width == '64' else 4), int(dst), register, number, int(signed))


def branch(word, width, dst, register, number, offset):
    """A branch."""
    opcode = CONDITIONS.index(word) << 4 | (5 if width == '64' else 6)
    return with_source(opcode, int(dst), register, number, int(offset))


def wide(dst, number):
    """A wide load: its number in two halves."""
    low, high = struct.unpack('<ii', struct.pack('<Q', int(number)))
    return slot(0x18, int(dst), 0, 0, low) + slot(0, 0, 0, 0, high)


def sign_extending(bits, width, dst, src):
    """A sign-extending move: its offset says how many bits are moved."""
    return slot(0xbf if width == '64' else 0xbc, int(dst), int(src), int(bits))


def load(signed, size, dst, base, offset):
    """A load."""
    return slot((0x81 if signed else 0x61) | SIZES[size], int(dst), int(base), int(offset))


def store(size, base, offset, number):
    """A store of an immediate."""
    return slot(0x62 | SIZES[size], int(base), 0, int(offset), int(number))


def store_register(size, base, offset, src):
    """A store of a register."""
    return slot(0x63 | SIZES[size], int(base), int(src), int(offset))


# what is after the slot in a line, and what makes its bytes
FORMS = [
    (r'exit', lambda: slot(0x95)),
    (r'call (-?\d+)', lambda number: slot(0x85, immediate=int(number))),
    (r'ja ([+-]\d+)', lambda offset: slot(0x05, offset=int(offset))),
    (r'ja32 ([+-]\d+)', lambda offset: slot(0x06, immediate=int(offset))),
    (r'lddw r(\d+), (\d+)', wide),
    (r'movs(8|16|32)_(32|64) r(\d+), r(\d+)', sign_extending),
    (r'neg(32|64) r(\d+)', lambda width, dst: slot(0x87 if width == '64' else 0x84, int(dst))),
    (r'(le|be|swap)(16|32|64) r(\d+)', lambda order, bits, dst: slot(SWAPS[order], int(dst), immediate=int(bits))),
    (rf'ldx(s?)(b|h|w|dw) r(\d+), {PLACE}', load),
    (rf'st(b|h|w|dw) {PLACE}, (-?\d+)', store),
    (rf'stx(b|h|w|dw) {PLACE}, r(\d+)', store_register),
    (rf'(j[a-z]+)(32|64) r(\d+), {SOURCE}, ([+-]\d+)', branch),
    (rf'([a-z]+)(32|64) r(\d+), {SOURCE}', operation),
]


def encoded(text):
    """The bytes of an instruction as it is listed; ValueError if it is none."""
    for pattern, encode in FORMS:
        found = re.fullmatch(pattern, text)
        if found:
            return encode(*found.groups())
    raise ValueError(f'no instruction: {text}')


def assembled(listing):
    """The bytes of a listing; ValueError if a line is none of one, or has another slot than its own."""
    whole = b''
    for line in listing.splitlines():
        number, _, text = line.partition(': ')
        if number != str(len(whole) // 8):
            raise ValueError(f'a line at slot {len(whole) // 8}: {line}')
        whole += encoded(text)
    return whole
