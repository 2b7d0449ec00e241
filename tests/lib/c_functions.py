"""The functions of the C files that tests compile, with what each declares before it, and contexts for them and for others."""

import re
from random import Random
from typing import NamedTuple


class Function(NamedTuple):
    """A function of a C file, with what is declared."""
    name: str
    context: int
    held: int


def functions_in(path):
    """The functions of a C file; ValueError if one has no sentence before it, or declares nothing."""
    text = path.read_text(encoding='ascii')
    rows = re.findall(r'^// [A-Z].*\.\n// context (\d+), held (\d+)\nnumber (\w+)\(', text, re.M)
    if len(rows) != len(re.findall(r'^number ', text, re.M)):
        raise ValueError(f'{path.name}: a function has no sentence before it, or does not say what it declares')
    return [Function(name, int(context), int(held)) for context, held, name in rows]


def contexts_of(function, count):
    """That many contexts of a function: any bytes, small ones or those of a text, and first zeros, ones and the greatest."""
    pick, size = Random(function.name), function.context
    ways = [lambda: pick.randrange(256), lambda: pick.choice(b'\0\1\2\3\7\x10*aabc'), lambda: pick.randrange(1, 40)]
    whole = [bytes([byte]) * size for byte in (0, 1, 255)]
    while len(whole) < count:
        way = pick.choice(ways)
        whole.append(bytes(way() for _ in range(size)))
    return [context.hex() for context in whole[:count]]


def with_others(name, contexts, count):
    """That many contexts as hex, or as many as there are: these, and then with a byte or two of one changed. Each name has its own seed."""
    pick, whole = Random(name), list(contexts)
    while len(whole) < count:
        other = bytearray.fromhex(pick.choice(contexts))
        for _ in range(pick.randint(1, 2)):
            other[pick.randrange(len(other))] = pick.randrange(256)
        whole.append(other.hex())
    return whole
