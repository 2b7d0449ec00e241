"""The basic blocks of a program, by its bytes."""

WIDE, EXIT, CALL, JUMP, FAR_JUMP, BRANCH = 0x18, 0x95, 0x85, 0x05, 0x06, 0x15


def instructions(data):
    """The bytes of each instruction by its slot."""
    at = 0
    while at < len(data):
        size = 16 if data[at] == WIDE else 8
        yield at // 8, data[at:at + size]
        at += size


def target_of(slot, code):
    """Where an instruction jumps to, if it jumps."""
    if code[0] == FAR_JUMP:
        return slot + 1 + int.from_bytes(code[4:8], 'little', signed=True)
    if code[0] & 7 in (5, 6) and code[0] not in (EXIT, CALL):
        return slot + 1 + int.from_bytes(code[2:4], 'little', signed=True)
    return None


def blocks_of(data):
    """The blocks of a program by their first slots: their instructions, and where the last one falls to, if it does."""
    code = dict(instructions(data))
    after = {slot: slot + len(one) // 8 for slot, one in code.items()}
    targets = {slot: target_of(slot, one) for slot, one in code.items()}
    ends = {slot for slot, one in code.items() if targets[slot] is not None or one[0] == EXIT}
    starts = sorted({0, *(to for to in targets.values() if to is not None), *(after[slot] for slot in ends)} & code.keys())
    blocks = {}
    for first, end in zip(starts, [*starts[1:], len(data) // 8]):
        slots = [slot for slot in code if first <= slot < end]
        last = code[slots[-1]][0]
        blocks[first] = [(code[slot], targets[slot]) for slot in slots], None if last in (EXIT, JUMP, FAR_JUMP) else end
    return blocks
