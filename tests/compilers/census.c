// How many of three levels are in each quarter of 0 to 255: the counts of the highest and of the lowest are emitted.
//
// The context is the levels, a byte each. The counts are in a cell, which is freed at one place. A level that can't be leads there
// too, after it was emitted. The result is 0, 1 if there is no cell, or 2 if a level can't be.
//
// context 3, held 1
// census.clang.hex: clang 14.0.6, clang -O2 -target bpfel -mcpu=v1
// census.gcc.hex: gcc 12.2.0, bpf-gcc -Os -ffreestanding
#include "helpers.h"

enum { QUARTER = 64, MOST = 240 };

inlined int is_counted(word *counts, byte level)
{
    if (unlikely(level > MOST)) {
        emit(level);
        return 0;
    }
    counts[level / QUARTER]++;
    return 1;
}

number census(const byte *levels)
{
    number result = 2;
    word *counts = new(CELL);
    if (unlikely(!counts))
        return 1;
    if (!is_counted(counts, levels[0]) || !is_counted(counts, levels[1]) || !is_counted(counts, levels[2]))
        goto freed;
    emit(counts[3]);
    emit(counts[0]);
    result = 0;
freed:
    free(counts);
    return result;
}
