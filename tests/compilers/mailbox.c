// Leaves two letters in a mailbox, which is the shelf of cells, one after the other: how many it could leave.
//
// The context is the letters, a byte each; 0 is none. A letter that finds another there takes its place, and that one is
// emitted and freed, which is rare.
//
// context 2, held 1
// mailbox.gcc.hex: gcc 12.2.0, bpf-gcc -Os -ffreestanding
#include "helpers.h"

inlined int is_left(byte letter)
{
    if (!letter)
        return 0;
    number *cell = new(CELL);
    if (unlikely(!cell))
        return 0;
    *cell = letter;
    number *old = swap(CELL, cell);
    if (unlikely(old)) {
        emit(*old);
        free(old);
    }
    return 1;
}

number mailbox(const byte *letters)
{
    number count = is_left(letters[0]);
    if (is_left(letters[1]))
        count++;
    return count;
}
