"""The inputs that were found to take the commands longest, or the most memory, for their size, and what the commands must write of them:
each at most as long as an input may be, 1 MiB, and its programs at most 4096 slots."""

import struct
from typing import Callable, NamedTuple

from assembly import encoded, slot
from object_files import Section, object_of, symbol_of, table_of

MOST = 1_048_576
SLOTS = 4096
EXIT = slot(0x95)
ZERO = slot(0xb7)  # mov64 r0, 0
EMIT = slot(0xb7, 1, immediate=5) + slot(0x85, immediate=3)


class Worst(NamedTuple):
    """An input of a head and any number of parts, for the command of these words, with the status and the text that it must end with."""
    name: str
    words: list
    head: bytes
    part: Callable[[int], bytes]
    status: int
    text: Callable[[int], str]  # by the number of parts

    def given(self, parts):
        """The input with that many parts."""
        return self.head + b''.join(map(self.part, range(parts)))

    def most(self):
        """How many parts an input may have: none if a part has no bytes."""
        size, parts = len(self.head), 0
        while (part := self.part(parts)) and size + len(part) <= MOST:
            size += len(part)
            parts += 1
        return parts


def padded(slots):
    """A program of as many slots as it may have, which begins with these and returns 0."""
    rest = SLOTS - len(slots) // 8 - 2
    return slots + slot(0xb7, 2) * rest + ZERO + EXIT


def of_branches():
    """A program with 64 objects on its stack, not compared with null, and then branches, each half-way to its end: each slot has two
    states to join, of which every word is known."""
    asks = b''.join(slot(0xb7, 1) + slot(0x85, immediate=1) + slot(0x7b, 10, 0, -8 * at) for at in range(1, 65))
    head = slot(0xbf, 6, 1) + asks + ZERO + slot(0x71, 3, 6)
    rest = SLOTS - len(head) // 8 - 1
    return head + b''.join(slot(0x15, 3, 0, (rest - 1 - at) // 2, 7) for at in range(rest)) + EXIT


def of_nested_loops():
    """A program of as many slots as it may have, of loops in loops: nine, each of two turns, and after them the next nine."""
    nest = [f'mov64 r{register}, 2' for register in range(1, 10)]
    for register in range(9, 0, -1):
        nest += [f'sub64 r{register}, 1', f'jne64 r{register}, 0, {register - len(nest) - 2}']
    whole = b''.join(map(encoded, nest)) * (SLOTS // 27)
    return whole + ZERO * (SLOTS - len(whole) // 8 - 1) + EXIT


def of_a_long_body():
    """A program whose loop has two turns, each of nearly as many slots as it may have."""
    return slot(0xb7, immediate=2) + slot(0xb7, 2) * 4000 + encoded('sub64 r0, 1') + encoded('jne64 r0, 0, -4002') + EXIT


def of_a_loop_over_objects():
    """A program with 64 objects on its stack, and then a loop of two slots."""
    asks = b''.join(slot(0xb7, 1) + slot(0x85, immediate=1) + slot(0x7b, 10, 0, -8 * at) for at in range(1, 65))
    return asks + slot(0xb7, 7) + encoded('add64 r7, 1') + encoded('jne64 r7, 2147483647, -2') + EXIT


def too_long(start, end, turns, branch, registers):
    """What `unroll` writes of a loop that is too long, from its last slot to its first one, whose last one leads out of it."""
    return (f'loop {end} {start}\n  slot {end} goes back to slot {start}: after {turns} turns the program would have more than {SLOTS} slots\n'
            f'  slot {end}, {branch}, leads out of it: {registers}\n')


def of_swaps():
    """A program that takes blocks off a shelf, for which it needs room for the bytes of each."""
    takes = slot(0xb7, 1, immediate=2) + slot(0xb7, 2) + slot(0x85, immediate=4)
    frees = slot(0x15, 0, 0, 2) + slot(0xbf, 1, 0) + slot(0x85, immediate=2)
    return (takes + frees) * ((SLOTS - 2) // 6) + ZERO + EXIT


def line_of(name, context, held, program):
    """The line of a program."""
    return f'program {name} {context} {held} {program.hex() or "-"}\n'.encode()


def steps_of_branches():
    """Each instruction of the program of branches, with the registers that are known before it, how many answers are on the stack and
    how many objects may be held."""
    yield ['r1 context+0'], 0, 0, 'mov64 r6, r1'
    for at in range(64):
        before = [f'r0 answer of {3 * at - 1}'] if at else []
        yield [*before, 'r6 context+0'] if at else ['r1 context+0', 'r6 context+0'], at, at, 'mov64 r1, 0'
        yield [*before, 'r1 0', 'r6 context+0'], at, at, 'call 1'
        yield [f'r0 answer of {3 * at + 2}', 'r6 context+0'], at, at + 1, f'stxdw [r10-{8 * at + 8}], r0'
    yield ['r0 answer of 191', 'r6 context+0'], 64, 64, 'mov64 r0, 0'
    yield ['r0 0', 'r6 context+0'], 64, 64, 'ldxb r3, [r6+0]'
    for left in range(SLOTS - 197, -1, -1):
        yield ['r0 0', 'r3 0..255', 'r6 context+0'], 64, 64, f'jeq64 r3, 7, +{left // 2}'
    yield ['r0 0', 'r3 0..255', 'r6 context+0'], 64, 64, 'exit'


def explained_branches():
    """What is known before each instruction of the program of branches, and that it exits with 64 objects."""
    lines = []
    for number, (registers, stored, held, instruction) in enumerate(steps_of_branches()):
        stack = [f'[r10-{8 * at}] answer of {3 * at - 1}' for at in range(stored, 0, -1)]
        objects = [f'may hold {3 * at - 1} (cell)' for at in range(1, held + 1)]
        lines.append('  '.join(['', *registers, 'r10 stack+0', *stack, *objects]) + f'\n{number}: {instruction}\n')
    lines.append(f'refused V17 {SLOTS - 1}\n')
    lines.append('  '.join([f'  slot {SLOTS - 1} exits while holding objects,', *objects]))
    return ''.join(lines) + ': free each, or put it on a shelf, on every path here\n'


def straight_states():
    """What is known before each instruction of a padded program, and the instruction."""
    rest = ['r1 context+0  r2 0  r10 stack+0\n%d: mov64 r2, 0\n'] * (SLOTS - 3)
    lines = ['r1 context+0  r10 stack+0\n%d: mov64 r2, 0\n', *rest]
    lines += ['r1 context+0  r2 0  r10 stack+0\n%d: mov64 r0, 0\n', 'r0 0  r1 context+0  r2 0  r10 stack+0\n%d: exit\n']
    return ['  ' + line % number for number, line in enumerate(lines)]


def each(line, first='', last=''):
    """The text of that many lines, each with its number, with what comes before and after."""
    return lambda parts: first + ''.join(line.format(at) for at in range(parts)) + last


def of_symbols(count):
    """An object file with that many symbols of functions, of which the last is `b`, with names of 255 bytes that differ in the last."""
    other = b'a' * 254 + b'c'
    symbols = symbol_of(3, 0, 16) * (count - 1) + symbol_of(1, 0, 16)
    return object_of([Section(b'.text', 1, ZERO + EXIT), Section(b'.strtab', 3, b'\0b\0' + other + b'\0'), Section(b'.symtab', 2, symbols, 2)])


def of_relocations(count):
    """An object file with two functions, `a` and after it `b`, and that many relocations of `b`."""
    symbols = symbol_of(1, 0, 16) + symbol_of(3, 16, 16)
    return object_of([Section(b'.text', 1, (ZERO + EXIT) * 2), Section(b'.strtab', 3, b'\0a\0b\0'), Section(b'.symtab', 2, symbols, 2),
                      Section(b'.rel.text', 9, struct.pack('<QII', 16, 1, 1) * count, 3, 1)])


def of_lines(count):
    """An object file with a function of as many slots as a program may have, and that many lines of C, each at a slot of its own in turn. The
    name of their file is longer than what is shown of it."""
    rows = b''.join(struct.pack('<IIII', 8 * (at % SLOTS), 7, 7, (at + 1) << 10) for at in range(count))
    part = struct.pack('<III', 16, 1, count) + rows
    return object_of([Section(b'.text', 1, padded(b'')), Section(b'.strtab', 3, b'\0a\0'), Section(b'.symtab', 2, symbol_of(1, 0, 8 * SLOTS), 2),
                      Section(b'.BTF', 1, table_of(b'\0.text\0' + b'f' * 5000 + b'\0')), Section(b'.BTF.ext', 1, table_of(part))])


def straight_listing():
    """The lines of the listing of a padded program."""
    return [f'{at}: {it}\n' for at, it in enumerate(['mov64 r2, 0'] * (SLOTS - 2) + ['mov64 r0, 0', 'exit'])]


def sourced(count, texts):
    """The text of each slot of that file, with the last of its lines before it."""
    last = [count - (count - 1 - at) % SLOTS for at in range(SLOTS)]
    return ''.join(f'; {"f" * 4096}:{last[at]}: {"f" * 255}\n{text}' for at, text in enumerate(texts))


def ledgers(records=0):
    """The last lines of `replay`, if that many records have joined."""
    return ''.join(f'kind {kind} slots {slots} held 0\n' for kind, slots in enumerate((0, records, 0)))


def covered_text(jobs):
    """What `run --covered` writes of the programs of `PROGRAMS` and of that many jobs, of each program in turn."""
    counts = [(at, jobs // PROGRAMS + (at < jobs % PROGRAMS)) for at in range(PROGRAMS)]
    lines = [f'p{at} accepted 2\n' for at in range(PROGRAMS)] + [f'job {at} exit 0 executed 2 peak 0\n' for at in range(jobs)] + [CACHES]
    lines += [f'covered p{at} slot 0 executed {count}: mov64 r0, 0\ncovered p{at} slot 1 executed {count}: exit\n' for at, count in counts]
    return ''.join(lines)


# the last lines of `run`, if no object was granted
CACHES = ''.join(f'cache {name} allocs 0 frees 0 nulls 0 missing 0\n' for name in ('cell', 'record', 'block'))

# Names of 32 letters that the hash of a map that isn't meant for names of strangers takes for one: with its state after the first
# sixteen letters as the next eight, it multiplies by zero.
ALIKE = 'ACmk5m0-k71p6U3odA2TtdvX'

EMITS = EMIT * 2046 + ZERO + EXIT  # 4,094 slots
BRANCHES, SWAPS = of_branches(), of_swaps()
PROGRAMS = 9_500
COVERED = Worst('run --covered: jobs of many programs', ['run', '--covered'], b''.join(line_of(f'p{at}', 0, 0, ZERO + EXIT) for at in range(PROGRAMS)),
                lambda at: b'run p%d -\n' % (at % PROGRAMS), 0, covered_text)
NO_PART = lambda _: b''

WORST = [
    Worst('one: branches over a full stack', ['one', '--context', '00', '--held', '64'], BRANCHES.hex().encode(), NO_PART,
          2, lambda _: f'refused V17 {SLOTS - 1}\n'),
    Worst('explain: branches over a full stack', ['explain', '--context', '00', '--held', '64'], BRANCHES.hex().encode(), NO_PART,
          2, lambda _: explained_branches()),
    Worst('list: jumps with long numbers', ['list'],
          b'', lambda at: slot(0x65, 9, 0, -30000, -2**31).hex().encode() if at < SLOTS else b'#' * MOST,
          0, each('{}: jsgt64 r9, -2147483648, -30000\n')),
    Worst('assemble: jumps to no label, among many', ['assemble'], each('a{:04}: exit\n')(256).encode(), lambda _: b'ja a0256\n',
          2, lambda _: 'fault A2 line 257\n  operand 1 is the name of no label\n'),
    Worst('check: branches over a full stack', ['check'], b'', lambda at: line_of(at, 1, 64, BRANCHES),
          2, each(f'{{}} refused V17 {SLOTS - 1}\n')),
    Worst('check: names that look alike', ['check'], b'', lambda at: line_of(f'{ALIKE}{at:08x}', 0, 0, b''),
          2, each(f'{ALIKE}{{:08x}} refused I1 0\n')),
    Worst('check: comments', ['check'], b'', lambda _: b'#\n',
          0, lambda _: ''),
    Worst('unroll: loops in loops', ['unroll'], of_nested_loops().hex().encode(), NO_PART,
          2, lambda _: too_long(9, 10, 512, 'jne64 r9, 0, -2', 'r9 was 1, and is 0')),
    Worst('unroll: a long body', ['unroll'], of_a_long_body().hex().encode(), NO_PART,
          2, lambda _: too_long(1, 4002, 2, 'jne64 r0, 0, -4002', 'r0 was 1, and is 1')),
    Worst('unroll: a loop over a full stack', ['unroll', '--held', '64'], of_a_loop_over_objects().hex().encode(), NO_PART,
          2, lambda _: too_long(193, 194, 1952, 'jne64 r7, 2147483647, -2', 'r7 was 1, and is 1951')),
    Worst('replay: slots join, the highest first', ['replay'],
          b'', lambda at: b'grow 1 %d\n' % (65535 - at) if at < 65536 else b'#' * MOST,
          0, ledgers),
    Worst('replay: runs with room for output', ['replay'], line_of('a', 0, 0, EMITS), lambda _: b'start a -\n',
          0, each('run {} going 0 executed 0\n', 'a accepted 4094\n', ledgers())),
    Worst('replay: runs with room for blocks', ['replay'], line_of('a', 0, 1, SWAPS), lambda _: b'start a -\n',
          0, each('run {} going 0 executed 0\n', 'a accepted 4094\n', ledgers())),
    Worst('run: jobs of many instructions', ['run', '--workers', '2'], line_of('a', 0, 0, padded(b'')), lambda _: b'run a -\n',
          0, each('job {} exit 0 executed 4096 peak 0\n', 'a accepted 4096\n', CACHES)),
    Worst('run: jobs with room for blocks', ['run'], line_of('a', 0, 1, SWAPS), lambda _: b'run a -\n',
          0, each('job {} exit 0 executed 2730 peak 0\n', 'a accepted 4094\n', CACHES)),
    COVERED,
    Worst('one: an object file with many symbols', ['one', '--elf', '--function', 'b'], of_symbols(43_000), NO_PART,
          0, lambda _: 'accepted 2\nexit 0 executed 2 peak 0\n'),
    Worst('one: an object file with many relocations', ['one', '--elf', '--function', 'a'], of_relocations(65_000), NO_PART,
          0, lambda _: 'accepted 2\nexit 0 executed 2 peak 0\n'),
    Worst('list: an object file with many lines', ['list', '--elf', '--source'], of_lines(62_000), NO_PART,
          0, lambda _: sourced(62_000, straight_listing())),
    Worst('explain: an object file with many lines', ['explain', '--elf', '--source'], of_lines(62_000), NO_PART,
          0, lambda _: sourced(62_000, straight_states()) + f'accepted {SLOTS}\n'),
    Worst('run: jobs with much output', ['run', '--workers', '2'], line_of('a', 0, 0, EMITS), lambda _: b'run a -\n',
          1, lambda _: ''),
]

# programs of as many slots as one may have, to be explained
EXPLAINED = [
    *(worst for worst in WORST if worst.words[0] == 'explain'),
    Worst('explain: a straight program', ['explain'], padded(b'').hex().encode(), NO_PART,
          0, lambda _: ''.join(straight_states()) + f'accepted {SLOTS}\n'),
]
