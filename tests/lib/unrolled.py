"""What makes a program another one unrolled: it has copies of that one's instructions, each of whose edges leads to a copy of what the edge
of the instruction led to, or to a stub."""

from assembly import slot
from flow import EXIT, FAR_JUMP, JUMP, instructions, target_of

STUB = slot(0x85, immediate=99)  # a call of no helper, which no run comes to
END = slot(EXIT)


def without_displacement(code):
    """An instruction without the number that says how far it jumps."""
    if code[0] == FAR_JUMP:
        return code[:4]
    return code if target_of(0, code) is None else code[:2] + code[4:]


def edges(at, code):
    """Where an instruction falls to and jumps to, each None if it doesn't."""
    return None if code[0] in (EXIT, JUMP, FAR_JUMP) else at + len(code) // 8, target_of(at, code)


def way_complaint(code, of, to, wanted):
    """What is wrong with where an edge leads, which has to be a copy of this slot or a stub, or a jump to one of them."""
    if to in code and of[to] is None and code[to][0] == JUMP:
        to = target_of(to, code[to])
    if to not in code:
        return 'it leads to no instruction'
    return '' if of[to] == wanted or code[to] == STUB else f'it leads to a copy of {of[to]}, not of {wanted}'


def copy_complaint(at, code, old, of):
    """What is wrong with the copy of an instruction."""
    was = old.get(of[at])
    if was is None or without_displacement(code[at]) != without_displacement(was):
        return f'it is no copy of {of[at]}'
    for to, wanted in zip(edges(at, code[at]), edges(of[at], was)):
        if (to is None) != (wanted is None) or to is not None and to <= at:
            return 'it leads elsewhere'
        wrong = way_complaint(code, of, to, wanted) if to is not None else ''
        if wrong:
            return wrong
    return ''


def added_complaint(at, code):
    """What is wrong with an instruction that copies none: it may be a jump, a stub or the exit after one."""
    if code[at][0] == JUMP:
        return '' if target_of(at, code[at]) > at else 'an added jump leads back'
    is_stub = code[at] == STUB and code.get(at + 1) == END
    return '' if is_stub or code[at] == END and code.get(at - 1) == STUB else 'what is added is no jump and no stub'


def complaint(was, data, of):
    """What is wrong with the bytes of a program as those of another one unrolled, by the slots that its slots copy; nothing if it is that."""
    old, code = dict(instructions(was)), dict(instructions(data))
    if 8 * len(of) != len(data) or of[0] != 0 or any(of[at] is not None for at in range(len(of)) if at not in code):
        return 'the slots that are copied are not those of the program'
    for at in code:
        wrong = added_complaint(at, code) if of[at] is None else copy_complaint(at, code, old, of)
        if wrong:
            return f'slot {at}: {wrong}'
    return ''
